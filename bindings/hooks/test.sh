# shellcheck shell=sh disable=SC2154
# What bindings/harfrust/test and bindings/rustybuzz/test do; they source this file, with $here, their folder, and $crate.
# With `--every N` each Nth text alone is shaped; with `--quick` each 100th, by programs that are built sooner, and no client
# is built; with `--shadow` all, by the copy that runs both versions of each hook on each call, and the fields that differ are
# told; with `--clients` the clients alone are tested; with `--show` nothing is tested, and `show` is built, with `--sound` the
# one of the copy's feature `sound-breaks`. The last line is 'N passed, M failed', or 'skipped: WHY' with status 77.

# shellcheck source=bindings/hooks/programs.sh
. "$(dirname "$here")/hooks/programs.sh"

# shellcheck source=bindings/hooks/clients.sh
. "$hooks/clients.sh"

every=1
target=target
options=
mode=${1---all}
case $mode in
--all | --clients | --show) ;;
--every) every=${2-} ;;
--quick)
    every=100
    target=target/quick
    export CARGO_PROFILE_RELEASE_OPT_LEVEL=1 CARGO_PROFILE_RELEASE_CODEGEN_UNITS=64
    ;;
--shadow)
    target=target/shadow
    options='--features shadow'
    ;;
--sound)
    target=target/sound
    options='--features sound'
    ;;
*) stop 'test [--every N | --quick | --shadow | --clients | --show | --sound]' ;;
esac

# faults: the tests of the faults, by cargo.
faults() {
    # shellcheck disable=SC2086
    cd "$made/programs" && cargo test --offline --release --target-dir "$made/both/$target" --test faults $options
}

# tally COMMAND..: shows what a command prints, and adds its last line to the counts.
tally() {
    "$@" >"$made/tally.log" 2>&1
    status=$?
    cat "$made/tally.log"
    counts=$(sed -n '$s/^\([0-9]*\) passed, \([0-9]*\) failed$/\1 \2/p' "$made/tally.log")
    if [ -z "$counts" ] || { [ "$status" -ne 0 ] && [ "${counts#* }" -eq 0 ]; }; then
        echo "FAILED: it ended with status $status"
        counts="0 1"
    fi
    passed=$((passed + ${counts% *}))
    failed=$((failed + ${counts#* }))
}

# in_force PROJECT: whether cargo builds the project with the hooks.
in_force() {
    cd "$1" && cargo tree --offline --invert sengadlit
}

not_in_force() {
    ! in_force "$1"
}

# patch PROJECT: puts the copy in force there.
patch() {
    grep -q '^\[patch.crates-io\]' "$1/Cargo.toml" || printf '\n[patch.crates-io]\n' >>"$1/Cargo.toml"
    printf '%s = { path = "%s" }\n' "$crate" "$made/sengadlit" >>"$1/Cargo.toml"
}

# draws PROJECT TEXT: whether the project's program prints what has this text in it.
draws() {
    cd "$1" && told=$(cargo run --offline --release --target-dir "$made/both/$target" -- \
        "$SENGADLIT_FONTS/truetype/noto/NotoSansThai-Regular.ttf") && echo "$told" && [ -z "${told##*"$2"*}" ]
}

# A project that takes one version alone and has a lock from before: two lines put the hooks in force.
test_project() {
    project=$made/project
    rm -rf "$project" && mkdir -p "$project/src" && cp "$here/thai.rs" "$project/src/main.rs" && cat >"$project/Cargo.toml" <<END
[package]
name = "project"
version = "0.0.0"
edition = "2021"

[dependencies]
$crate = "=$version"
END
    (cd "$project" && cargo generate-lockfile --offline >"$made/step.log" 2>&1) || skip "a project with $crate =$version: $(tail -n 1 "$made/step.log")"
    need 'a project with a lock is built with the crate as it is' not_in_force "$project"
    [ "$mode" = --quick ] || need 'there MAI EK is lost' draws "$project" 'uni0E34=0@-29,413+0'
    need 'it is patched' patch "$project"
    need 'then it is built with the hooks' in_force "$project"
    [ "$mode" = --quick ] || need 'there MAI EK is drawn' draws "$project" 'uni0E48.small=0@-29,177+0'
}

# Whether the README's pictures are those that bindings/fault draws.
draws_pictures() {
    "$hooks/../fault" --draw "$made" bengali || return
    for which in stock sengadlit; do
        cmp "$made/bengali-$which.svg" "$hooks/../../docs/pictures/bengali-$which.svg" || return
    done
}

# Whether bindings/fault shows of these both what the crate as it is gives and what is mended.
shows_mended() {
    for fault in syriac myanmar; do
        "$hooks/../fault" "$fault" >"$made/fault.log" || return
        cat "$made/fault.log"
        stock=$(sed -n 's/^stock *//p' "$made/fault.log" | head -n 2)
        [ -n "$stock" ] && [ "$stock" != "$(sed -n 's/^sengadlit *//p' "$made/fault.log" | head -n 2)" ] || return
    done
}

test_hooks() {
    test_project
    # shellcheck disable=SC2086
    need 'the programs are built' build "$target" $options
    need 'show is kept' keep_show "$target"
    [ "$crate" != harfrust ] || step "the README's pictures" draws_pictures
    [ "$crate" != harfrust ] || step 'what flags and choices mend is shown' shows_mended
    if step 'the faults, both sides of each' faults; then
        tests=$(sed -n 's/^test result: ok\. \([0-9]*\) passed; 0 failed.*/\1/p' "$made/step.log" | tail -n 1)
        passed=$((passed + ${tests:-1} - 1))
        sed -n 's/^test \(.*\) \.\.\. ok$/    \1/p' "$made/step.log"
    fi
    echo
    tally "$made/both/$target/release/compare" "$texts" "$root" --every "$every"
}

case $mode in
--show) ;;
--quick) echo "$crate is tested in $made: three minutes of processor time, 1 GB" ;;
--clients) echo "clients of $crate are built and tested in $made: some ten minutes of processor time, 1 GB" ;;
*) echo "$crate is tested in $made: some twenty minutes of processor time, 2 GB" ;;
esac
version=$(sed -n 's/^version = "\(.*\)+stock"/\1/p' "$made/stock/Cargo.toml")
[ "$mode" = --show ] || [ "$mode" = --sound ] || fetch_texts >"$made/step.log" 2>&1 </dev/null || skip "words and fonts: $(tail -n 1 "$made/step.log")"
need 'the copy with the reasons is edited' copy_reasons
need 'the programs are written' write_programs
case $mode in
--show)
    need 'show is built' build "$target" --bin show
    need 'show is kept' keep_show "$target"
    ;;
--sound)
    # shellcheck disable=SC2086
    need 'show is built, with sound breaks' build "$target" $options --bin show
    need 'it is kept' keep_show "$target" show-sound
    ;;
--clients) test_clients ;;
--all)
    test_hooks
    test_clients
    ;;
*) test_hooks ;;
esac
echo "$passed passed, $failed failed"
[ "$failed" -eq 0 ] && [ "$passed" -gt 0 ]

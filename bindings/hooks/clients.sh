# shellcheck shell=sh disable=SC2034,SC2154
# How test.sh, which sources this file, tests programs that depend on the crate: with the crate as it is, and with the two
# lines that put the hooks in force. The file `clients` of a crate's folder sets
#
#   clients            crates of Debian's, NAME-VERSION, of which the last draws SVG files
#   client_suite       the suite that they are from
#   client_packages    the packages of what they build with: librust-NAME-dev
#   client_source      Debian's source of the last two, NAME=VERSION, which has their tests
#
# $made/clients is a workspace of theirs, with `pixels`, and `paragraph` where a crate's folder has one. Each SVG file of the
# source of $drawings is drawn. What can't be fetched is told as 'skipped: ..' and counted as nothing.

workspace=$made/clients
drawings=resvg=0.45.1-1

# fetch_source SUITE NAME=VERSION: downloads Debian's source, without its signature where the mirror lacks that, and unpacks
# its tests in $out/source/NAME-VERSION.
fetch_source() (
    folder=$out/source/${2%=*}-${2#*=}
    [ ! -d "$folder" ] || exit 0
    apt=$out/apt-$1 sources="deb-src debian $1"
    set_up_apt && mkdir -p "$out/source" && cd "$out/source" || exit
    apt-get source --download-only "$2"
    version=${2#*=}
    archive=$(find . -name "${2%=*}_${version%-*}.orig.tar.*")
    [ -n "$archive" ] || exit 1
    mkdir -p "$folder.new" && tar -xf "$archive" -C "$folder.new" --strip-components=1 --wildcards '*/tests' && mv "$folder.new" "$folder" &&
        rm "$archive"
)

# A client of Debian's, with the tests of its source where there are any, and without what its tests don't need.
copy_client() {
    folder=$workspace/$1
    rm -rf "$folder" && cp -rp "$registry/$1" "$folder" && rm -f "$folder/.cargo-checksum.json" &&
        sed -i '/^\[.*dev-dependencies\.oxipng\]/,/^$/d' "$folder/Cargo.toml" || return
    tests=$out/source/${client_source%=*}-${client_source#*=}/crates/${1%-*}/tests
    [ -d "$tests" ] || return 0
    ln -sfn "$tests" "$folder/tests" || return
    for test in "$tests"/*.rs "$tests"/*/main.rs; do
        [ ! -f "$test" ] || printf '\n[[test]]\nname = "%s"\npath = "tests/%s"\n' "$(basename "${test%/main.rs}" .rs)" "${test#"$tests/"}"
    done >>"$folder/Cargo.toml"
}

# member NAME FOLDER DEPENDENCY: a program of a folder here, as a member of the workspace.
member() {
    mkdir -p "$workspace/$1/src" && cp "$2/$1.rs" "$workspace/$1/src/main.rs" &&
        printf '[package]\nname = "%s"\nversion = "0.0.0"\nedition = "2021"\n\n[dependencies]\n%s\n' "$1" "$3" >"$workspace/$1/Cargo.toml"
}

write_clients() {
    mkdir -p "$workspace" || return
    for client in $clients; do
        copy_client "$client" || return
        drawer=$client
    done
    member pixels "$hooks/programs" "resvg = { version = \"=${drawer#*-}\", default-features = false, features = [\"text\", \"raster-images\"] }" || return
    [ ! -f "$here/paragraph.rs" ] || member paragraph "$here" 'parley = { version = "0.11", default-features = false, features = ["std"] }' || return
    {
        printf '[workspace]\nresolver = "2"\nmembers = ["*"]\n\n[profile.release]\ncodegen-units = 16\n'
        for client in usvg resvg pixels; do # they take minutes to compile, and seconds to run
            printf '\n[profile.release.package.%s]\nopt-level = 1\n' "$client"
        done
        printf '\n[patch.crates-io]\n'
        for client in $clients; do
            printf '%s = { path = "%s" }\n' "${client%-*}" "$client"
        done
    } >"$workspace/Cargo.toml"
    rm -f "$workspace/Cargo.lock" && cd "$workspace" && cargo generate-lockfile --offline
}

# results LOG: each test that a log of cargo's names, with how it ended.
results() {
    sed -n 's/^\(test .* \.\.\. [a-zA-Z]*\).*/\1/p' "$1" | sort
}

# run_tests CLIENT LOG: a client's own tests, into a log.
run_tests() {
    features=
    [ "${1%-*}" != parley ] || features='--no-default-features --features std'
    # shellcheck disable=SC2086
    (cd "$workspace/$1" && cargo test --offline --release --no-fail-fast --target-dir "$made/both/target" $features) >"$2" 2>&1 </dev/null
    [ -n "$(results "$2")" ]
}

# run_program NAME WHICH ARGUMENT..: a program of the workspace, into a log.
run_program() {
    log=$made/$1.$2.log
    cd "$workspace/$1" || return
    shift 2
    cargo run --offline --release --target-dir "$made/both/target" -- "$@" >"$log" </dev/null
}

run_clients() {
    for client in $tested; do
        need "$client, $1: its own tests are run" run_tests "$client" "$made/$client.$1.log"
    done
    if [ -f "$here/paragraph.rs" ]; then
        need "$1: a paragraph of Bengali is laid out" run_program paragraph "$1" "$SENGADLIT_FONTS/truetype/noto/NotoSansBengali-Regular.ttf" "$texts/Bengali.real"
        sed 's/^/    /' "$made/paragraph.$1.log"
    fi
    [ ! -d "$svg" ] || need "$1: SVG files are drawn" run_program pixels "$1" "$svg"
}

# is_right LOG: whether all lines of a paragraph are right.
is_right() {
    awk '{ exit !($1 > 1 && $1 == $3) }' "$1"
}

# alike CLIENT: whether its tests ended alike; how they did.
alike() {
    results "$made/$1.stock.log" >"$made/stock.results" && results "$made/$1.hooks.log" >"$made/hooks.results" &&
        diff "$made/stock.results" "$made/hooks.results"
}

compare_clients() {
    [ ! -f "$here/paragraph.rs" ] || step 'with the hooks each line begins right' is_right "$made/paragraph.hooks.log"
    for client in $tested; do
        step "$client: its own tests end alike" alike "$client" || continue
        ok=$(grep -c ' ok$' "$made/hooks.results")
        echo "    $ok pass, $(grep -c ' FAILED$' "$made/hooks.results") fail"
        passed=$((passed + ok - 1))
    done
    if [ -d "$svg" ] && step 'SVG files are alike in each pixel' diff "$made/pixels.stock.log" "$made/pixels.hooks.log"; then
        passed=$((passed + $(wc -l <"$made/pixels.hooks.log") - 1))
        echo "    $(wc -l <"$made/pixels.hooks.log") files, $(grep -c ' text ' "$made/pixels.hooks.log") of them with text"
    fi
}

test_clients() {
    # shellcheck source=bindings/harfrust/clients
    . "$here/clients"
    names=
    for name in $client_packages; do
        names="$names librust-$name-dev/$client_suite"
    done
    # shellcheck disable=SC2086
    unpack_alone $names >"$made/step.log" 2>&1 </dev/null || {
        echo "skipped: $clients: $(tail -n 1 "$made/step.log")"
        return
    }
    fetch_source "$client_suite" "$client_source" >"$made/step.log" 2>&1 || echo "skipped: the tests in $client_source, which can't be fetched"
    fetch_source trixie "$drawings" >"$made/step.log" 2>&1 || echo "skipped: the SVG files of $drawings, which can't be fetched"
    svg=$out/source/${drawings%=*}-${drawings#*=}/crates/resvg/tests
    need 'a workspace of clients is made' write_clients
    tested= # what has its tests with it, or in the source
    for client in $clients; do
        [ "${client%-*}" != parley ] && [ ! -d "$workspace/$client/tests" ] || tested="$tested $client"
    done
    need 'it is built with the crate as it is' not_in_force "$workspace"
    run_clients stock
    need 'the workspace is patched' patch "$workspace"
    need 'then it is built with the hooks' in_force "$workspace"
    run_clients hooks
    compare_clients
}

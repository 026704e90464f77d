# shellcheck shell=sh disable=SC2154
# What test.sh and speed.sh, which source this file, have in common: texts, and the programs of bindings/hooks/programs for a
# crate that `build` has copied. They set $here, the folder of the crate, and $crate. Beside what `build` makes there is
# then in $built/$crate:
#
#   reasons     the crate as it is, with the known differences edited away, each by its name
#   programs    compare, show, shape_stock, shape_sengadlit and the tests of the faults
#   show        the program, as it was built last; show-sound, with the copy's feature `sound-breaks`

hooks=$(dirname "$here")/hooks
passed=0
failed=0

# shellcheck source=bindings/hooks/debian.sh
. "$hooks/debian.sh"
made=$built/$crate
texts=$built/texts
export SENGADLIT_FONTS="$root/usr/share/fonts"

# shellcheck source=bindings/hooks/texts.sh
. "$hooks/texts.sh"

stop() {
    echo "bindings/$crate: $*" >&2
    exit 2
}

# What can't be fetched isn't tested, and the status tells so.
skip() {
    echo "skipped: $*"
    exit 77
}

# step NAME COMMAND..: runs a command, counts it, and shows the end of what it printed if it failed.
step() {
    name=$1
    shift
    if "$@" >"$made/step.log" 2>&1 </dev/null; then
        echo "ok: $name"
        passed=$((passed + 1))
    else
        tail -n 30 "$made/step.log" | sed 's/^/    /'
        echo "FAILED: $name"
        failed=$((failed + 1))
        return 1
    fi
}

# Ends with what was counted so far, if a step that others need failed.
need() {
    step "$@" && return
    echo "$passed passed, $failed failed"
    exit 1
}

# copy FILE..  FOLDER: copies files that differ, so that cargo builds again what has changed alone.
copy() {
    for last in "$@"; do :; done
    for file in "$@"; do
        [ "$file" = "$last" ] || cmp -s "$file" "$last/${file##*/}" || cp "$file" "$last" || return
    done
}

copy_reasons() {
    rm -rf "$made/new" && cp -r "$made/stock" "$made/new" && cp "$hooks/reasons.rs" "$made/new/src" &&
        sed 's/^\(version = ".*\)+stock"/\1+reasons"/' "$made/stock/Cargo.toml" >"$made/new/Cargo.toml" &&
        python3 "$hooks/edit.py" "$here/reasons" "$made/new" || return
    if diff -qr "$made/new" "$made/reasons" >/dev/null 2>&1; then
        rm -rf "$made/new"
    else
        rm -rf "$made/reasons" && mv "$made/new" "$made/reasons"
    fi
}

# program NAME: its part of the manifest.
program() {
    printf '\n[[bin]]\nname = "%s"\npath = "src/%s.rs"\n' "$1" "$1"
}

write_programs() {
    mkdir -p "$made/programs/src" "$made/programs/tests" || return
    copy "$hooks"/programs/*.rs "$here/calls.rs" "$made/programs/src" && copy "$here/faults.rs" "$made/programs/tests" || return
    {
        printf '[package]\nname = "programs"\nversion = "0.0.0"\nedition = "2021"\nautobins = false\n\n'
        printf '[lib]\npath = "src/lib.rs"\n\n[features]\nshadow = ["sengadlit/shadow"]\nsound = ["sengadlit/sound-breaks"]\n\n[dependencies]\n'
        for which in stock sengadlit reasons; do
            printf '%s = { package = "%s", path = "../%s" }\n' "$which" "$crate" "$which"
        done
        for binary in compare show shape_stock shape_sengadlit; do
            program "$binary"
        done
    } >"$made/programs/Cargo.toml"
}

# build FOLDER OPTION..: builds the programs in a folder beside the crates that `build` made.
build() {
    folder=$1
    shift
    (cd "$made/programs" && cargo build --offline --release --target-dir "$made/both/$folder" "$@")
}

# keep_show FOLDER [NAME]: puts `show` where it is found after every build, by this name.
keep_show() {
    cp "$made/both/$1/release/show" "$made/show.new" && mv "$made/show.new" "$made/${2-show}"
}

[ -f "$made/stock/Cargo.toml" ] && [ -f "$made/sengadlit/Cargo.toml" ] || stop "there is no $made: run bindings/$crate/build first"

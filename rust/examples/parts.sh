# shellcheck shell=sh disable=SC2034,SC2154
# What the scripts of this folder, which source this file, have in common: they set $here, this folder. What they fetch is in
# the folder $SENGADLIT_HOOKS of the bindings, by default ~/.cache/sengadlit/hooks (bindings/hooks/debian.sh).

examples=$here
top=$(dirname "$(dirname "$examples")")
passed=0
failed=0
here=$top/bindings/hooks
# shellcheck source=bindings/hooks/debian.sh
. "$here/debian.sh"
made=$built/examples
programs=${CARGO_TARGET_DIR:-$top/target}/release

# What can't be fetched isn't tested, and the status tells so.
skip() {
    echo "skipped: $*"
    exit 77
}

# step NAME COMMAND..: runs a command, counts it, and shows the end of what it printed if it failed.
step() {
    name=$1
    shift
    if "$@" >"$made/step.log" 2>&1 </dev/null; then
        echo "ok: $name"
        passed=$((passed + 1))
    else
        tail -n 30 "$made/step.log" | sed 's/^/    /'
        echo "FAILED: $name"
        failed=$((failed + 1))
        return 1
    fi
}

# Ends with what was counted.
finish() {
    echo "$passed passed, $failed failed"
    [ "$failed" -eq 0 ] && [ "$passed" -gt 0 ]
    exit
}

build_programs() {
    (cd "$top" && cargo build --quiet --release -p sengadlit-examples -p sengadlit-shape)
}

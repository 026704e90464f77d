# shellcheck shell=sh disable=SC2034,SC2154
# What checks/rust and checks/programs, which source this file, have in common. They set $top, the
# repository's top.

scripts=${SENGADLIT_SCRIPTS:-100000}
threads=$(getconf _NPROCESSORS_ONLN 2>/dev/null || echo 2)
compare=$top/target/release/compare_programs
passed=0
failed=0
scratch=$(mktemp -d) || exit 2
trap 'rm -rf "$scratch"' EXIT
export CARGO_TARGET_DIR="$top/target"
export CARGO_NET_OFFLINE=true CARGO_TERM_COLOR=never

# The processor time of what this shell ran, in seconds, from what `times` wrote.
seconds_of() {
    sed -n '2s/[ms]/ /gp' "$1" | awk '{ printf "%d", $1 * 60 + $2 + $3 * 60 + $4 }'
}

# part NAME COMMAND..: runs a command, tells how long it took and how much processor time, and counts
# it. Of one that fails the end of what it printed is shown.
part() {
    name=$1
    shift
    began=$(date +%s)
    times >"$scratch/before"
    if ("$@") >"$scratch/output" 2>&1; then
        passed=$((passed + 1))
        told=ok
    else
        failed=$((failed + 1))
        told=FAILED
        tail -n 60 "$scratch/output"
    fi
    times >"$scratch/after"
    spent=$(($(seconds_of "$scratch/after") - $(seconds_of "$scratch/before")))
    printf '%-50s %6d s %6d s  %s\n' "$name" "$(($(date +%s) - began))" "$spent" "$told"
}

# lack WHAT: a part can't be done for want of this.
lack() {
    echo "FAILED: there is no $1"
    failed=$((failed + 1))
}

# need TOOL..: each of these must be there.
need() {
    for tool in "$@"; do
        has "$tool" || lack "$tool"
    done
}

# Whether a tool is here; gcc-m32 is a gcc that links programs of i686.
has() {
    case $1 in
    gcc-m32) echo 'int main(void) { return 0; }' | gcc -m32 -x c -o "$scratch/program" - 2>/dev/null ;;
    *) command -v "$1" >/dev/null 2>&1 ;;
    esac
}

# part_with TOOLS NAME COMMAND..: a part that needs these tools. Where one isn't here, this part alone is
# left out, by its name; it then counts as failed, but for ./check --own.
part_with() {
    for tool in $1; do
        has "$tool" && continue
        if [ "${OWN_CHECKS-}" = yes ]; then
            echo "skipped: $2, for want of $tool"
        else
            lack "$tool, which this part needs: $2"
        fi
        return
    done
    shift
    part "$@"
}

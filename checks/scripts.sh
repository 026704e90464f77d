# shellcheck shell=sh disable=SC2034,SC2154
# What checks/harfrust and checks/page, which source this file, have in common: they run scripts that end with a line
# 'N passed, M failed', or with status 77 where a part can't be had.

passed=0
failed=0
skipped=0
scratch=$(mktemp -d) || exit 2
trap 'rm -rf "$scratch"' EXIT

# count NAME STATUS: adds the last line of what a script printed to the sums.
count() {
    line=$(tail -n 1 "$scratch/output")
    counts=$(printf '%s\n' "$line" | sed -n 's/^\([0-9][0-9]*\) passed, \([0-9][0-9]*\) failed$/\1 \2/p')
    if [ -z "$counts" ] || { [ "$2" -ne 0 ] && [ "${counts#* }" -eq 0 ]; }; then
        echo "FAILED: $1 ended with status $2 and the line: $line"
        counts="${counts%% *} 1"
        [ "$counts" != ' 1' ] || counts='0 1'
    fi
    passed=$((passed + ${counts% *}))
    failed=$((failed + ${counts#* }))
}

# run NAME COMMAND..: runs a script, shows what it printed, and counts it; status 77 is told, and counted as nothing.
run() {
    name=$1
    shift
    "$@" >"$scratch/output" 2>&1 </dev/null
    status=$?
    cat "$scratch/output"
    if [ "$status" -eq 77 ]; then
        echo "skipped: $name"
        skipped=$((skipped + 1))
        return 77
    fi
    count "$name" "$status"
    return "$status"
}

# Prints how many parts were skipped and the last line; its status is the check's.
finish() {
    [ "$skipped" -eq 0 ] || echo "$skipped parts skipped"
    echo "$passed passed, $failed failed"
    [ "$failed" -eq 0 ]
}

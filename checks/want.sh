# shellcheck shell=sh disable=SC2154
# What checks/c, which sources this file, says of a missing tool. It counts in $failed.

# want PART TOOL..: whether the tools of a part are there. Where one isn't, that is a failure, but for ./check --own.
want() {
    wanting=$1
    shift
    for tool in "$@"; do
        command -v "$tool" >/dev/null 2>&1 && continue
        if [ -n "${OWN_CHECKS-}" ]; then
            echo "skipped: $wanting, for want of $tool"
        else
            echo "FAILED: $wanting, for want of $tool"
            failed=$((failed + 1))
        fi
        return 1
    done
}

# shellcheck shell=sh disable=SC2034,SC2154
# Where the sources are that bindings/upstream/make and test patch; both source this file, with $here, their folder. What is
# made goes to $made, a folder of this clone's (bindings/hooks/debian.sh).

bindings=$(dirname "$here")
projects='harfrust rustybuzz harfbuzz'
harfrust=0.12.0
rustybuzz=0.18.0
harfbuzz=12.3.2
# shellcheck source=bindings/hooks/debian.sh
. "$bindings/hooks/debian.sh"
made=$built/upstream
mkdir -p "$made"

# source_of_harfbuzz: fetches HarfBuzz as Debian's unstable has it, once, and tells its folder.
source_of_harfbuzz() (
    here=$bindings/harfbuzz
    set -- --unstable
    # shellcheck source=bindings/harfbuzz/debian.sh
    . "$here/debian.sh"
    mkdir -p "$out" && source_folder
    [ -f "$source/src/harfbuzz.cc" ] || { locked fetch_source && : >"$out/source.is-fetched" && source_folder; } >"$made/fetch.log" 2>&1
    echo "$source"
)

# source_of PROJECT: tells the folder of its source in the version that the edits are made for, or what there is in its place,
# with status 77.
source_of() {
    eval "version=\$$1"
    if [ "$1" = harfbuzz ]; then
        source=$(source_of_harfbuzz)
    else
        "$bindings/$1/build" --copy >"$made/fetch.log" 2>&1
        source=$registry/$1-$version
    fi
    if [ -d "$source/src" ] && [ "${source##*/}" = "$1-$version" ]; then
        echo "$source"
    else
        [ -d "$source" ] || source=nothing
        skipped=$(sed -n 's/^skipped: //p' "$made/fetch.log" 2>/dev/null | tail -n 1)
        echo "$1 $version, which the edits are made for: ${skipped:-there is ${source##*/}}"
        return 77
    fi
}

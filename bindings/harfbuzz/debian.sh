# shellcheck shell=sh disable=SC2034,SC2154
# Where the scripts of this folder, which source this file, fetch and build everything: the folder $out. With the argument
# --unstable HarfBuzz is that of Debian's unstable, and what is built goes to a folder in that one. With --sound there is one
# more build, `sound`, whose plans choose the sound flags of breaks.

known='6.0.0 12.3.2' # the versions that the binding is made for
out=${SENGADLIT_HARFBUZZ:-${XDG_CACHE_HOME:-$HOME/.cache}/sengadlit/harfbuzz}
package=harfbuzz=6.0.0+dfsg-3
sources='deb debian bookworm
deb debian-security bookworm-security
deb-src debian bookworm'
# shellcheck source=bindings/debian.sh
. "$here/../debian.sh"
option=
sound=
for argument; do
    case $argument in
    --unstable)
        option=' --unstable'
        package=harfbuzz
        sources="$sources
deb-src debian sid"
        out=$out/unstable
        ;;
    --sound) sound=yes ;;
    *) echo "$0 [--unstable] [--sound]" >&2; exit 2 ;;
    esac
done

# The folder of HarfBuzz's source: what $HARFBUZZ_SOURCE names, or what was fetched.
source_folder() {
    source=${HARFBUZZ_SOURCE:-$(find "$out" -maxdepth 1 -type d -name 'harfbuzz-[0-9]*' 2>/dev/null | sort -V | tail -n 1)}
}

# Its version.
source_version() {
    sed -n 's/^#define HB_VERSION_STRING "\(.*\)"/\1/p' "$source/src/hb-version.h"
}

# Fetches it as Debian's source package.
fetch_source() {
    set_up_apt && (cd "$out" && rm -rf harfbuzz-[0-9]* && apt-get source "$package")
}

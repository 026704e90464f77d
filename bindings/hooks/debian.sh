# shellcheck shell=sh disable=SC2034,SC2154
# Where the scripts of harfrust and rustybuzz, which source this file, fetch and build everything: the folder $out, by
# default ~/.cache/sengadlit/hooks, which must be outside this repository. What is fetched is shared by all clones: crates
# come from Debian's unstable, words and fonts from Debian 13. What is made of this clone is in $built, a folder of $out whose
# file `clone` has the clone's path.

out=${SENGADLIT_HOOKS:-${XDG_CACHE_HOME:-$HOME/.cache}/sengadlit/hooks}
sources='deb debian trixie
deb debian sid'
registry=$out/root/usr/share/cargo/registry
# shellcheck source=bindings/debian.sh
. "$here/../debian.sh"
clone=$(CDPATH='' cd "$here/../.." && pwd -P) || exit 2
built=$out/clones/$(printf '%s' "$clone" | cksum | cut -d ' ' -f 1)
mkdir -p "$built" && printf '%s\n' "$clone" >"$built/clone" || { echo "there is no room for $built" >&2; exit 2; }

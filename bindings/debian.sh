# shellcheck shell=sh disable=SC2034,SC2154
# How the scripts of the bindings fetch from Debian. A script that sources this file sets $out before, the folder for lists
# of packages, downloads and unpacked packages, and $sources, lines of a kind, an archive and a suite ('deb debian sid').
# Nothing is installed, and apt's own settings aren't read or written.

apt=$out/apt
root=$out/root

# Makes apt work in $out, and reads the lists of packages, once for these $sources.
set_up_apt() {
    export APT_CONFIG="$apt/apt.conf"
    [ "$(cat "$apt/is-set-up" 2>/dev/null)" != "$sources" ] || return 0
    mkdir -p "$apt/lists/partial" "$apt/archives/partial" "$root" || return
    keys=/usr/share/keyrings/debian-archive-keyring.gpg
    [ -f "$keys" ] || { echo "there is no $keys: it is in the package debian-archive-keyring"; return 1; }
    printf '%s\n' "$sources" | while read -r kind archive suite; do
        echo "$kind [signed-by=$keys] http://deb.debian.org/$archive $suite main"
    done >"$apt/sources.list" || return
    cat >"$apt/apt.conf" <<END || return
Dir::Etc::sourcelist "$apt/sources.list";
Dir::Etc::sourceparts "/dev/null";
Dir::State::lists "$apt/lists";
Dir::Cache "$apt";
APT::Sandbox::User "root";
Debug::NoLocking "true";
END
    apt-get update && printf '%s\n' "$sources" >"$apt/is-set-up"
}

# unpack_archives: unpacks what was downloaded into $root, and removes the archives.
unpack_archives() {
    for archive in "$apt"/archives/*.deb; do
        dpkg-deb -x "$archive" "$root" || return
    done
    rm -f "$apt"/archives/*.deb
}

# wanted PACKAGE..: those that aren't unpacked yet.
wanted() {
    for package in "$@"; do
        [ -f "$apt/$(printf '%s' "$package" | tr / @).is-unpacked" ] || printf '%s ' "$package"
    done
}

# mark PACKAGE..: these are unpacked.
mark() {
    for package in "$@"; do
        : >"$apt/$(printf '%s' "$package" | tr / @).is-unpacked" || return
    done
}

# locked COMMAND..: runs a command while no other run, of this clone or another, fetches into $out.
locked() {
    mkdir -p "$apt" && (flock 9 && "$@") 9>"$apt/lock"
}

# unpack PACKAGE..: downloads packages and what of theirs isn't installed, and unpacks all into $root.
unpack() {
    [ -z "$(wanted "$@")" ] || locked fetch_all "$@"
}

# (another run may have fetched them in the meantime)
fetch_all() {
    missing=$(wanted "$@")
    [ -n "$missing" ] || return 0
    set_up_apt || return
    rm -f "$apt"/archives/*.deb
    # shellcheck disable=SC2086
    apt-get install -y --no-install-recommends --download-only --reinstall $missing || return
    # shellcheck disable=SC2086
    unpack_archives && mark $missing
}

# unpack_alone PACKAGE[=VERSION|/SUITE]..: downloads these packages without what they depend on, and unpacks them into
# $root. Lists of packages that are out of date are read again.
unpack_alone() {
    [ -z "$(wanted "$@")" ] || locked fetch_alone "$@"
}

fetch_alone() {
    missing=$(wanted "$@")
    [ -n "$missing" ] || return 0
    set_up_apt || return
    rm -f "$apt"/archives/*.deb
    # shellcheck disable=SC2086
    (cd "$apt/archives" && apt-get download $missing) || {
        rm -f "$apt/is-set-up" "$apt"/archives/*.deb
        set_up_apt && (cd "$apt/archives" && apt-get download $missing) || return
    }
    # shellcheck disable=SC2086
    unpack_archives && mark $missing
}

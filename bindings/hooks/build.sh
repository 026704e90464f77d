# shellcheck shell=sh disable=SC2154
# What bindings/harfrust/build and bindings/rustybuzz/build do; they source this file. They set $here, their folder; $crate
# and $version, which the edits are made for; $package, Debian's package of it; $needs, the packages of what it builds with.
# Everything goes to $built/$crate:
#
#   sengadlit   the crate with the hooks, of the same version; with the feature `shadow` its own hooks are compiled too, and
#               compared with
#   stock       the crate as it is, but for its version, VERSION+stock, so that one program can have both
#   hooks       rust/sengadlit of this repository (a link)
#   both        an empty crate that depends on both
#   show        a program that shapes a text by both
#
# With --copy nothing is built. With --from FOLDER the crate is the one unpacked there, of whatever version. The last line
# is 'N passed, M failed', or 'skipped: WHY' with status 77 where Debian can't be reached, or has a version that the edits
# don't fit.

top=$(dirname "$(dirname "$here")")
hooks=$top/bindings/hooks
passed=0
failed=0

# shellcheck source=bindings/hooks/debian.sh
. "$hooks/debian.sh"
made=$built/$crate

stop() {
    echo "bindings/$crate/build: $*" >&2
    exit 2
}

skip() {
    echo "skipped: $*"
    exit 77
}

# step NAME COMMAND..: runs a command, counts it, and shows the end of what it printed if it failed.
step() {
    name=$1
    shift
    if "$@" >"$made/step.log" 2>&1 </dev/null; then
        echo "ok: $name"
        passed=$((passed + 1))
    else
        tail -n 30 "$made/step.log" | sed 's/^/    /'
        echo "FAILED: $name"
        failed=$((failed + 1))
        return 1
    fi
}

# Ends with what was counted so far, if a step that others need failed.
need() {
    step "$@" && return
    echo "$passed passed, $failed failed"
    exit 1
}

# Chooses unstable's package where Debian no longer has the one that the edits are made for.
look_for_package() {
    # (read by one run at a time; the second call tells apt where they are)
    { locked set_up_apt && set_up_apt; } >"$made/step.log" 2>&1 || skip "Debian's lists of packages can't be read: $(tail -n 1 "$made/step.log")"
    name=${package%=*}
    versions=$(apt-cache madison "$name" | awk -F ' *[|] *' '{ print $2 }' | sort -u | tr '\n' ' ')
    case " $versions" in
    *" ${package#*=} "*) ;;
    ' ') skip "Debian has no $name any more" ;;
    *)
        echo "Debian has $name ${versions% }: the edits, made for ${package#*=}, are tried on unstable's"
        package=$name/sid
        ;;
    esac
}

# The folder of the newest version that is unpacked.
newest() {
    find "$registry" -maxdepth 1 -name "$crate-[0-9]*" 2>/dev/null | sort -V | tail -n 1
}

# fetch PACKAGE..: unpacks packages of Debian's.
fetch() {
    unpack_alone "$@" && [ -f "$(newest)/Cargo.toml" ]
}

# The version of a crate's folder.
version_of() {
    sed -n '/^\[package\]/,/^\[/ s/^version = "\(.*\)"/\1/p' "$1/Cargo.toml"
}

# Puts a folder in place of another, unless both have the same files, so that cargo builds again what has changed alone.
put() {
    if diff -qr "$1" "$2" >/dev/null 2>&1; then
        rm -rf "$1"
    else
        rm -rf "$2" && mv "$1" "$2"
    fi
}

# Makes a copy of the crate, with its parts that are of a registry alone left out.
copy_crate() {
    rm -rf "$made/new" && cp -r "$from" "$made/new" && rm -f "$made/new/.cargo-checksum.json" "$made/new/.cargo-ok"
}

copy_stock() {
    copy_crate && sed "/^\[package\]/,/^\[/ s/^version = \"\(.*\)\"/version = \"\1+stock\"/" "$from/Cargo.toml" >"$made/new/Cargo.toml" &&
        put "$made/new" "$made/stock"
}

copy_sengadlit() {
    glue=$made/new/src/hb/ot_shaper_sengadlit
    copy_crate && python3 "$hooks/edit.py" "$here/edits" "$made/new" &&
        mkdir "$glue" && cp "$hooks/shaper.rs" "$glue.rs" && cp -r "$here"/parts* "$hooks/shadow.rs" "$glue" &&
        put "$made/new" "$made/sengadlit"
}

# What cargo builds offline: the registry of Debian's packages, and a crate that depends on both.
write_manifests() {
    mkdir -p "$made/.cargo" "$made/both/src" && : >"$made/both/src/lib.rs" &&
        cat >"$made/.cargo/config.toml" <<END && cat >"$made/both/Cargo.toml" <<END
[source.crates-io]
replace-with = "debian"

[source.debian]
directory = "$registry"

[net]
offline = true
END
[package]
name = "both"
version = "0.0.0"
edition = "2021"

[dependencies]
stock = { package = "$crate", path = "../stock" }
sengadlit = { package = "$crate", path = "../sengadlit" }

[features]
shadow = ["sengadlit/shadow"]
END
}

# What `both` builds with: each package of its lock that is in the registry.
locked_packages() {
    sed -n '/^name = /{N;s/name = "\(.*\)"\nversion = "\(.*\)"/\1-\2/p}' "$made/both/Cargo.lock"
}

# The greatest rustc that a package of these needs.
wanted_rustc() {
    {
        locked_packages | while read -r name; do
            [ ! -f "$registry/$name/Cargo.toml" ] || sed -n 's/^rust-version = "\(.*\)"/\1/p' "$registry/$name/Cargo.toml"
        done
        sed -n 's/^rust-version = "\(.*\)"/\1/p' "$made/sengadlit/Cargo.toml" "$top/rust/sengadlit/Cargo.toml"
    } | sort -V | tail -n 1
}

# Stops where rustc is too old.
look_at_rustc() {
    [ -f "$made/both/Cargo.lock" ] || (cd "$made/both" && cargo generate-lockfile >"$made/step.log" 2>&1) ||
        skip "Debian has no more what $crate $version builds with: $(sed -n 's/^error: *//p' "$made/step.log" | head -n 1)"
    wanted=$(wanted_rustc)
    rustc=$(rustc --version | awk '{ print $2 }')
    [ "$(printf '%s\n' "$wanted" "$rustc" | sort -V | head -n 1)" = "$wanted" ] || stop "it needs rustc $wanted, and this is $rustc"
    echo "with rustc $rustc; it needs $wanted"
}

build() {
    cd "$made/both" && cargo build --release "$@"
}

# Whether all but the crate as it is compiles without a warning. (Cargo repeats those of what it has built.)
without_warnings() {
    build --message-format short >"$made/warnings.log" 2>&1 || return
    ! grep ': warning: ' "$made/warnings.log" | grep -v "^$made/stock/"
}

# Says what was made, and ends.
finish() {
    cat <<END

$made/sengadlit
is $crate $version with the hooks. A project takes it with these two lines in its Cargo.toml:

    [patch.crates-io]
    $crate = { path = "$made/sengadlit" }

It is in force where \`cargo tree -i sengadlit\` lists the project. Next: $1
END
    echo "$passed passed, $failed failed"
    [ "$failed" -eq 0 ] && [ "$passed" -gt 0 ]
    exit
}

# ---- All of it ----

copies=
from=
lto=
while [ $# -gt 0 ]; do
    case $1 in
    --copy) copies=1 ;;
    --lto) lto=1 ;;
    --from)
        grep -qx "name = \"$crate\"" "${2-}/Cargo.toml" 2>/dev/null || stop "--from: ${2-FOLDER} isn't a folder of $crate's source"
        from=$(CDPATH='' cd "$2" && pwd)
        shift
        ;;
    *) stop 'build [--copy | --lto] [--from FOLDER]' ;;
    esac
    shift
done
mkdir -p "$made" || stop "there is no room for $made"
for tool in cargo rustc python3; do
    command -v "$tool" >/dev/null 2>&1 || stop "there is no $tool"
done
if [ -n "$copies" ]; then
    echo "$crate is copied, with the hooks, to $made: some seconds, 10 MB"
else
    echo "$crate is copied and built, as it is and with the hooks, in $made: four minutes of processor time, 300 MB"
fi
known=$version
given=$from
if [ -z "$given" ]; then
    [ -d "$registry/$crate-$version" ] || look_for_package
    # shellcheck disable=SC2086
    need "Debian's $crate is fetched" fetch "$package" $needs
    from=$registry/$crate-$version
    [ -d "$from" ] || from=$(newest)
elif [ -z "$copies" ]; then
    # shellcheck disable=SC2086
    need "what $crate builds with is fetched" unpack_alone $needs
fi
version=$(version_of "$from")
[ "$version" = "$known" ] || echo "$from is $crate ${version:-of no version}: the edits, made for $known, are tried"
if ! step 'the copy with the hooks is edited' copy_sengadlit; then
    [ -n "$given" ] || [ "$version" = "$known" ] || skip "Debian has $crate $version, and the edits are made for $known"
    echo "$passed passed, $failed failed"
    exit 1
fi
need 'the crate as it is is copied' copy_stock
ln -sfn "$top/rust/sengadlit" "$made/hooks" || stop "there is no room for $made/hooks"
need 'manifests are written' write_manifests
[ -n "$copies" ] && [ -n "$given" ] || look_at_rustc
[ -z "$copies" ] || finish "bindings/$crate/test"

need 'both are built, with the release profile' build
step 'without a warning of the copy with the hooks' without_warnings
need 'both are built, with both hooks on each call' build --features shadow --target-dir "$made/both/target/shadow"
if [ -n "$lto" ]; then
    export CARGO_PROFILE_RELEASE_LTO=fat CARGO_PROFILE_RELEASE_CODEGEN_UNITS=1
    need 'both are built, with fat lto and one unit' build --target-dir "$made/both/target/lto"
    unset CARGO_PROFILE_RELEASE_LTO CARGO_PROFILE_RELEASE_CODEGEN_UNITS
fi
need 'show is built' "$here/test" --show
finish "$made/show FONT TEXT, or bindings/$crate/test"

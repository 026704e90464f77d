# shellcheck shell=sh disable=SC2154
# HarfBuzz's hb-shape of Debian's unstable for the scripts that compare with it; they source bindings/hooks/debian.sh before
# this file. It runs with its own libraries; nothing is installed.

hb_shape_packages='libharfbuzz-bin/sid libharfbuzz0b/sid libglib2.0-0t64/sid libfreetype6/sid libgraphite2-3/sid libc6/sid
    libpng16-16t64/sid zlib1g/sid libbrotli1/sid libbz2-1.0/sid libpcre2-8-0/sid libatomic1/sid'

# Fetches it, and prints its version.
fetch_hb_shape() {
    # shellcheck disable=SC2086
    unpack_alone $hb_shape_packages >&2 </dev/null && hb_shape --version | head -n 1
}

# hb_shape ARGUMENT..
hb_shape() {
    $(hb_shape_command) "$@"
}

# The words of its command: the loader is that of its own C library.
hb_shape_command() {
    libraries=$(dirname "$(find "$root/usr/lib" -name libharfbuzz.so.0 | head -n 1)")
    loader=$(find "$libraries" "$root/usr/lib64" -maxdepth 1 -name 'ld-linux*' 2>/dev/null | head -n 1)
    echo "$loader --library-path $libraries $root/usr/bin/hb-shape"
}

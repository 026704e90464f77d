# shellcheck shell=sh disable=SC2030,SC2031,SC2154
# How the scripts of this folder, which source this file behind sources.sh, compile HarfBuzz's hb-shape; $source is the folder
# of HarfBuzz's source.

# Fetches the header files of glib, where HarfBuzz's own packages are.
fetch_glib() (
    here=$bindings/harfbuzz
    set -- --unstable
    # shellcheck source=bindings/harfbuzz/debian.sh
    . "$here/debian.sh"
    unpack libglib2.0-dev
)

# compile OBJECT UNIT FLAG..: compiles one unit.
compile() {
    object=$1
    unit=$2
    shift 2
    "${CXX:-c++}" -std=c++11 -O1 -fno-exceptions -fno-rtti -fno-threadsafe-statics -DHAVE_PTHREAD=1 "$@" -c "$unit" -o "$object"
}

# build_hb_shape TREE FOLDER FLAG..: builds FOLDER/hb-shape with the library of TREE/src, which these flags are for.
build_hb_shape() {
    tree=$1
    folder=$2
    shift 2
    glib=$(dirname "$source")/../root
    triplet=$("${CXX:-c++}" -print-multiarch)
    mkdir -p "$folder" && : >"$folder/hb-features.h" && compile "$folder/library.o" "$tree/src/harfbuzz.cc" -I"$tree/src" "$@" &&
        compile "$folder/program.o" "$source/util/hb-shape.cc" -I"$tree/src" -I"$folder" -DPACKAGE_NAME='"HarfBuzz"' \
            -DPACKAGE_VERSION="\"$harfbuzz\"" -DHAVE_UNISTD_H=1 -DHAVE_ISATTY=1 -isystem "$glib/usr/include/glib-2.0" \
            -isystem "$glib/usr/lib/$triplet/glib-2.0/include" &&
        "${CXX:-c++}" -o "$folder/hb-shape" "$folder/program.o" "$folder/library.o" -L"$glib/usr/lib/$triplet" \
            -Wl,-rpath,"$glib/usr/lib/$triplet" -l:libglib-2.0.so.0 -lm -lpthread
}

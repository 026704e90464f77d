# shellcheck shell=sh disable=SC2154
# What bindings/harfrust/speed and bindings/rustybuzz/speed do; they source this file, with $here, their folder, and $crate.
# Scripts may be named. `--functions words|lines kept|anew SCRIPT..` tells which functions take the instructions.

# shellcheck source=bindings/hooks/programs.sh
. "$(dirname "$here")/hooks/programs.sh"

command -v valgrind >/dev/null 2>&1 || stop 'there is no valgrind'
{
    fetch_texts >"$made/step.log" 2>&1 </dev/null || skip "words and fonts: $(tail -n 1 "$made/step.log")"
    need 'the copy with the reasons is edited' copy_reasons
    need 'the programs are written' write_programs
    need 'the programs are built, with the release profile' build target --bin shape_stock --bin shape_sengadlit
} >&2
release=$made/both/target/release
if [ "${1-}" = --functions ]; then
    [ "$#" -gt 3 ] || stop 'speed --functions words|lines kept|anew SCRIPT..'
    of=$2 how=$3
    shift 3
    exec python3 "$hooks/speed.py" --functions "$of" "$how" "$texts" "$root" "$release" "$@"
fi
export CARGO_PROFILE_RELEASE_LTO=fat CARGO_PROFILE_RELEASE_CODEGEN_UNITS=1
need 'the programs are built, with fat lto and one unit' build target/lto --bin shape_stock --bin shape_sengadlit >&2
exec python3 "$hooks/speed.py" "$texts" "$root" "$release" "$made/both/target/lto/release" "$@"

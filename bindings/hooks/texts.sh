# shellcheck shell=sh disable=SC2154
# Which words and fonts are shaped. A script that sources this file sets $hooks, this folder, and $texts, and sources
# debian.sh.

words='hunspell-ar hunspell-bn hunspell-bo hunspell-dz hunspell-gu hunspell-he hunspell-hi hunspell-ko hunspell-lo hunspell-ml
    hunspell-ne hunspell-si hunspell-te hunspell-th myspell-fa iso-codes unicode-cldr-core'
fonts='fonts-culmus fonts-dejavu-core fonts-freefont-ttf fonts-hosny-amiri fonts-khmeros fonts-lohit-deva fonts-nanum
    fonts-noto-core fonts-sil-padauk fonts-tlwg-garuda-ttf'

# Words and fonts of Debian's stable release, and the texts made of them.
fetch_texts() {
    packages=
    for package in $words $fonts; do
        packages="$packages $package/trixie"
    done
    # shellcheck disable=SC2086
    unpack_alone $packages || return
    [ -n "$(find "$texts/scripts" -newer "$hooks/texts" -newer "$hooks/../words.py" 2>/dev/null)" ] || python3 "$hooks/texts" "$root" "$texts"
}

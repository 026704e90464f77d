// Generated from crates/shapers_choice/src/lib.rt by rust/erase; edit the source.

//! Which shaper a text takes: by its script and direction, and by the script that was found in the
//! font (HarfBuzz's choice).

use crate::generated::rustybuzz_shapers::shaper::Shaper;
use crate::generated::shapers_buffer::buffer::{Direction, Script, Tag};

// The scripts that have a specification of their own among OpenType's of India.
const INDIC_SCRIPTS: [Script; 9] = [
    Script(*b"Beng"),
    Script(*b"Deva"),
    Script(*b"Gujr"),
    Script(*b"Guru"),
    Script(*b"Knda"),
    Script(*b"Mlym"),
    Script(*b"Orya"),
    Script(*b"Taml"),
    Script(*b"Telu"),
];

// The scripts of the universal shaping engine.
const UNIVERSAL_SCRIPTS: [Script; 88] = [
    Script(*b"Adlm"),
    Script(*b"Ahom"),
    Script(*b"Bali"),
    Script(*b"Batk"),
    Script(*b"Berf"),
    Script(*b"Bhks"),
    Script(*b"Brah"),
    Script(*b"Bugi"),
    Script(*b"Buhd"),
    Script(*b"Cakm"),
    Script(*b"Cham"),
    Script(*b"Chrs"),
    Script(*b"Cpmn"),
    Script(*b"Diak"),
    Script(*b"Dogr"),
    Script(*b"Dupl"),
    Script(*b"Egyp"),
    Script(*b"Elym"),
    Script(*b"Gara"),
    Script(*b"Gong"),
    Script(*b"Gonm"),
    Script(*b"Gran"),
    Script(*b"Gukh"),
    Script(*b"Hano"),
    Script(*b"Hmng"),
    Script(*b"Hmnp"),
    Script(*b"Java"),
    Script(*b"Kali"),
    Script(*b"Kawi"),
    Script(*b"Khar"),
    Script(*b"Khoj"),
    Script(*b"Kits"),
    Script(*b"Krai"),
    Script(*b"Kthi"),
    Script(*b"Lana"),
    Script(*b"Lepc"),
    Script(*b"Limb"),
    Script(*b"Mahj"),
    Script(*b"Maka"),
    Script(*b"Mand"),
    Script(*b"Mani"),
    Script(*b"Marc"),
    Script(*b"Medf"),
    Script(*b"Modi"),
    Script(*b"Mong"),
    Script(*b"Mtei"),
    Script(*b"Mult"),
    Script(*b"Nagm"),
    Script(*b"Nand"),
    Script(*b"Newa"),
    Script(*b"Nkoo"),
    Script(*b"Onao"),
    Script(*b"Ougr"),
    Script(*b"Phag"),
    Script(*b"Phlp"),
    Script(*b"Plrd"),
    Script(*b"Rjng"),
    Script(*b"Rohg"),
    Script(*b"Saur"),
    Script(*b"Shrd"),
    Script(*b"Sidd"),
    Script(*b"Sidt"),
    Script(*b"Sind"),
    Script(*b"Sinh"),
    Script(*b"Sogd"),
    Script(*b"Sogo"),
    Script(*b"Soyo"),
    Script(*b"Sund"),
    Script(*b"Sunu"),
    Script(*b"Sylo"),
    Script(*b"Tagb"),
    Script(*b"Takr"),
    Script(*b"Tale"),
    Script(*b"Tavt"),
    Script(*b"Tayo"),
    Script(*b"Tfng"),
    Script(*b"Tglg"),
    Script(*b"Tibt"),
    Script(*b"Tirh"),
    Script(*b"Tnsa"),
    Script(*b"Todr"),
    Script(*b"Tols"),
    Script(*b"Toto"),
    Script(*b"Tutg"),
    Script(*b"Vith"),
    Script(*b"Wcho"),
    Script(*b"Yezi"),
    Script(*b"Zanb"),
];

/// The shaper for a text: by its script, its direction, and the script by which its features were found
/// in the font's GSUB, if any was. None stands for a text that no shaper has hooks for: other scripts,
/// Arabic and Syriac in vertical text, and fonts that offer no script of its own (the tags DFLT and
/// latn; for Myanmar also mymr, of the time before its specification; for Syriac DFLT alone). Arabic,
/// Thai, Lao, Hangul, Hebrew and Khmer have theirs whatever the font offers. Indic scripts found by a
/// tag that ends in 3 take the universal shaper.
///
/// <details><summary>Contract</summary>
///
/// # Contract
///
/// ```text
/// ensures { result ≡ shaper_for script direction chosen }
/// ```
///
/// - `shaper_for`: `crates/shapers_choice/specs/Choice.antt`
///
/// </details>
pub fn shaper_for_script(
    script: Script,
    direction: Direction,
    chosen: Option<Tag>,
) -> Option<Shaper> {
    if script == Script(*b"Arab") {
        return arabic_for(direction);
    }
    if script == Script(*b"Syrc") {
        return syriac_for(direction, chosen);
    }
    if script == Script(*b"Mymr") {
        return myanmar_for(chosen);
    }
    if is_indic(script) {
        return indic_for(chosen);
    }
    own_or_universal(script, chosen)
}

fn is_indic(script: Script) -> bool {
    INDIC_SCRIPTS.contains(&script)
}

fn is_universal(script: Script) -> bool {
    UNIVERSAL_SCRIPTS.contains(&script)
}

// Whether the font's script was found by this tag.
fn is_found_by(tag: Tag, chosen: Option<Tag>) -> bool {
    chosen == Some(tag)
}

// Whether the font offers nothing for the script: what was found is its default script, or Latin's.
fn is_default(chosen: Option<Tag>) -> bool {
    is_found_by(Tag(*b"DFLT"), chosen) || is_found_by(Tag(*b"latn"), chosen)
}

// Whether it is the third version of an Indic script's tag.
fn is_newest(chosen: Option<Tag>) -> bool {
    match chosen {
        Some(tag) => tag.0[3] == b'3',
        None => false,
    }
}

// Arabic joins in horizontal text alone.
fn arabic_for(direction: Direction) -> Option<Shaper> {
    match direction {
        Direction::LeftToRight | Direction::RightToLeft => Some(Shaper::Arabic),
        _ => None,
    }
}

fn syriac_for(direction: Direction, chosen: Option<Tag>) -> Option<Shaper> {
    if is_found_by(Tag(*b"DFLT"), chosen) {
        return None;
    }
    arabic_for(direction)
}

fn myanmar_for(chosen: Option<Tag>) -> Option<Shaper> {
    if is_default(chosen) || is_found_by(Tag(*b"mymr"), chosen) {
        return None;
    }
    Some(Shaper::Myanmar)
}

fn indic_for(chosen: Option<Tag>) -> Option<Shaper> {
    if is_default(chosen) {
        return None;
    }
    if is_newest(chosen) {
        return Some(Shaper::Universal);
    }
    Some(Shaper::Indic)
}

// The scripts of the universal shaper, and those with a shaper of their own, which are asked for first
// since they are few.
fn own_or_universal(script: Script, chosen: Option<Tag>) -> Option<Shaper> {
    if let Some(shaper) = own_for(script) {
        return Some(shaper);
    }
    if is_universal(script) {
        return universal_for(chosen);
    }
    None
}

fn universal_for(chosen: Option<Tag>) -> Option<Shaper> {
    if is_default(chosen) {
        return None;
    }
    Some(Shaper::Universal)
}

// The scripts that take their shaper whatever the font offers.
fn own_for(script: Script) -> Option<Shaper> {
    if script == Script(*b"Thai") || script == Script(*b"Laoo") {
        return Some(Shaper::Thai);
    }
    if script == Script(*b"Hang") {
        return Some(Shaper::Hangul);
    }
    if script == Script(*b"Hebr") {
        return Some(Shaper::Hebrew);
    }
    if script == Script(*b"Khmr") {
        return Some(Shaper::Khmer);
    }
    if script == Script(*b"Qaag") {
        return Some(Shaper::MyanmarZawgyi);
    }
    None
}

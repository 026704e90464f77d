//! Shapers, pauses, and plans drawn by lot.

use super::numbers::Numbers;
use sengadlit::alloc::Global;
use sengadlit::buffer::{Script, Tag};
use sengadlit::map::{FeatureMap, Map};
use sengadlit::plan::{BaseSearch, BreakFlags, Pause, Plan, StretchStart};
use sengadlit::shaper::Shaper;
use std::ops::Range;

/// Every pause.
pub const PAUSES: [Pause; 15] = [
    Pause::SetupSyllablesIndic,
    Pause::SetupSyllablesKhmer,
    Pause::SetupSyllablesMyanmar,
    Pause::SetupSyllablesUse,
    Pause::InitialReordering,
    Pause::ReorderKhmer,
    Pause::ReorderMyanmar,
    Pause::ReorderUse,
    Pause::FinalReordering,
    Pause::RecordStch,
    Pause::RecordRphf,
    Pause::RecordPref,
    Pause::SyllabicClearVar,
    Pause::ClearSubstitutionFlags,
    Pause::ArabicFallbackShape,
];

/// Scripts whose shapers treat them each in their own way.
pub const SCRIPTS: [&[u8; 4]; 16] = [
    b"Arab", b"Syrc", b"Mong", b"Hang", b"Hebr", b"Thai", b"Laoo", b"Khmr", b"Mymr", b"Deva",
    b"Beng", b"Mlym", b"Sinh", b"Telu", b"Bali", b"Nkoo",
];

/// The features whose masks and lookups shapers read.
pub const FEATURES: [&[u8; 4]; 32] = [
    b"isol", b"fina", b"fin2", b"fin3", b"medi", b"med2", b"init", b"stch", b"ljmo", b"vjmo",
    b"tjmo", b"rphf", b"pref", b"blwf", b"abvf", b"half", b"pstf", b"vatu", b"cjct", b"cfar",
    b"nukt", b"akhn", b"rkrf", b"pres", b"abvs", b"blws", b"psts", b"haln", b"locl", b"ccmp",
    b"liga", b"calt",
];

/// A plan of a script without features, with the data that the shaper keeps.
pub fn plan_of(shaper: Shaper, script: &[u8; 4]) -> Plan {
    plan_with(shaper, script, &[])
}

/// A plan of a script with these features and their masks, and with the data that the shaper keeps.
pub fn plan_with(shaper: Shaper, script: &[u8; 4], features: &[(&[u8; 4], u32)]) -> Plan {
    shaper.with_data(bare_plan(script, features))
}

/// The same without data.
pub fn bare_plan(script: &[u8; 4], features: &[(&[u8; 4], u32)]) -> Plan {
    let features: Vec<_> = features
        .iter()
        .enumerate()
        .map(|(stage, &(tag, mask))| FeatureMap {
            tag: Tag(*tag),
            mask,
            stage,
        })
        .collect();
    let map = Map::from_slices(Global, &features, &[], &[], 0, None, false);
    Plan::new(Some(Script(*script)), map.unwrap().unwrap())
}

/// A plan drawn by lot, with the data that the shaper keeps.
pub fn random_plan(numbers: &mut Numbers, shaper: Shaper) -> Plan {
    let lookups: Vec<u16> = (0..20).collect();
    let (features, stages) = random_features(numbers);
    let chosen = [
        None,
        Some(Tag(*b"dev2")),
        Some(Tag(*b"mlm2")),
        Some(Tag(*b"deva")),
    ];
    let map = Map::from_slices(
        Global,
        &features,
        &stages,
        &lookups,
        numbers.number(),
        numbers.one_of(&chosen),
        numbers.once_in(2),
    );
    let script = Script(*numbers.one_of(&SCRIPTS));
    let mut plan = Plan::new(Some(script), map.unwrap().unwrap());
    plan.has_gpos_mark = numbers.once_in(2);
    plan.stretch_start = numbers.one_of(&[StretchStart::AsCode, StretchStart::Centred]);
    plan.break_flags = numbers.one_of(&[BreakFlags::AsCode, BreakFlags::Sound]);
    plan.base_search = numbers.one_of(&[BaseSearch::WithoutMedials, BaseSearch::AllConsonants]);
    shaper.with_data(plan)
}

/// Masks and lookups drawn by lot for some of the features.
fn random_features(numbers: &mut Numbers) -> (Vec<FeatureMap>, Vec<Range<usize>>) {
    let mut features = Vec::new();
    let mut stages = Vec::new();
    for tag in FEATURES {
        if numbers.once_in(3) {
            continue;
        }
        features.push(FeatureMap {
            tag: Tag(*tag),
            mask: numbers.number() & !7,
            stage: stages.len(),
        });
        let start = numbers.below(20);
        stages.push(start..20.min(start + numbers.below(4)));
    }
    (features, stages)
}

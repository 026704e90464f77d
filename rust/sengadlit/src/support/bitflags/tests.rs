use std::format;

#[derive(Clone, Copy, Debug, PartialEq, Eq)]
struct Mode(u8);

bitflag_items! {
    impl Mode: u8 {
        const READ = 1;
        const WRITE = 2;
        const BOTH = 3;
        const RUN = 8;
    }
}

fn every_pair(check: impl Fn(Mode, Mode)) {
    for a in 0..=u8::MAX {
        for b in 0..=u8::MAX {
            check(Mode(a), Mode(b));
        }
    }
}

#[test]
fn the_flags_are_those_of_the_list() {
    let listed = [
        ("READ", Mode(1)),
        ("WRITE", Mode(2)),
        ("BOTH", Mode(3)),
        ("RUN", Mode(8)),
    ];
    assert_eq!(Mode::FLAGS, listed);
    assert_eq!((Mode::empty().bits(), Mode::all().bits()), (0, 11));
}

#[test]
fn sets_are_made_from_bits() {
    for bits in 0..=u8::MAX {
        let known = bits & 11;
        assert_eq!(Mode::from_bits_retain(bits).bits(), bits);
        assert_eq!(Mode::from_bits_truncate(bits).bits(), known);
        let is_known = bits == known;
        assert_eq!(Mode::from_bits(bits), is_known.then_some(Mode(bits)));
        assert_eq!(Mode(bits).is_empty(), bits == 0);
        assert_eq!(Mode(bits).is_all(), known == 11);
        assert_eq!((!Mode(bits)).bits(), !bits & 11);
    }
}

#[test]
fn operators_and_methods_agree() {
    every_pair(|a, b| {
        assert_eq!((a | b).0, a.0 | b.0);
        assert_eq!((a & b).0, a.0 & b.0);
        assert_eq!((a ^ b).0, a.0 ^ b.0);
        assert_eq!((a - b).0, a.0 & !b.0);
        assert_eq!(a.union(b), a | b);
        assert_eq!(a.intersection(b), a & b);
        assert_eq!(a.symmetric_difference(b), a ^ b);
        assert_eq!(a.difference(b), a - b);
        assert_eq!(a.contains(b), a.0 & b.0 == b.0);
        assert_eq!(a.intersects(b), a.0 & b.0 != 0);
    });
}

#[test]
fn assignments_and_methods_agree() {
    let changed = |mut set: Mode, change: fn(&mut Mode, Mode), by: Mode| {
        change(&mut set, by);
        set
    };
    every_pair(|a, b| {
        assert_eq!(changed(a, Mode::insert, b), a | b);
        assert_eq!(changed(a, Mode::remove, b), a - b);
        assert_eq!(changed(a, |a, b| a.set(b, true), b), a | b);
        assert_eq!(changed(a, |a, b| a.set(b, false), b), a - b);
        assert_eq!(changed(a, |a, b| *a |= b, b), a | b);
        assert_eq!(changed(a, |a, b| *a &= b, b), a & b);
        assert_eq!(changed(a, |a, b| *a ^= b, b), a ^ b);
        assert_eq!(changed(a, |a, b| *a -= b, b), a - b);
    });
}

#[test]
fn formats_are_those_of_the_number() {
    let mode = Mode(0xAB);
    assert_eq!(
        format!("{mode:b} {mode:o} {mode:x} {mode:X}"),
        "10101011 253 ab AB"
    );
    assert_eq!(format!("{mode:#06x} {mode:?}"), "0x00ab Mode(171)");
}

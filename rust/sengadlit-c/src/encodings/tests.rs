use super::{CONTEXT_LENGTH, characters, first, last};

const BAD: char = '\u{FFFD}';

fn decoded<U: super::Unit>(text: &[U]) -> Vec<(usize, char)> {
    characters(text).collect()
}

// A text of so many bad units.
fn bad(units: usize) -> Vec<(usize, char)> {
    (0..units).map(|place| (place, BAD)).collect()
}

#[test]
fn every_character_in_each_encoding() {
    for character in '\0'..=char::MAX {
        let alone = || [(0, character)].into_iter();
        let (mut bytes, mut units) = ([0; 4], [0; 2]);
        assert!(characters(character.encode_utf8(&mut bytes).as_bytes()).eq(alone()));
        assert!(characters(character.encode_utf16(&mut units)).eq(alone()));
        assert!(characters(&[u32::from(character)]).eq(alone()));
    }
}

// The decoder of Rust's core finds the same sequences. Of each that is cut short it makes one U+FFFD.
#[test]
fn bytes_are_bad_where_core_finds_none() {
    let of_core = |text: &[u8]| -> Vec<char> {
        let bad = |bytes: &[u8]| bytes.iter().map(|_| BAD).collect::<String>();
        let chunks = text.utf8_chunks();
        let text: String = chunks
            .map(|chunk| [chunk.valid(), &bad(chunk.invalid())].concat())
            .collect();
        text.chars().collect()
    };
    let firsts = [
        0x41, 0x80, 0xC1, 0xC2, 0xDF, 0xE0, 0xE1, 0xEC, 0xED, 0xEE, 0xEF, 0xF0, 0xF1, 0xF3, 0xF4,
        0xF5,
    ];
    let seconds = [0x7F, 0x80, 0x8F, 0x90, 0x9F, 0xA0, 0xBF, 0xC0, 0xE1];
    let others = [0x7F, 0x80, 0xBF, 0xC0, 0xF1];
    for text in 0..firsts.len() * seconds.len() * others.len() * others.len() {
        let (text, fourth) = (text / others.len(), others[text % others.len()]);
        let (text, third) = (text / others.len(), others[text % others.len()]);
        let text = [
            firsts[text / seconds.len()],
            seconds[text % seconds.len()],
            third,
            fourth,
        ];
        let found: Vec<char> = characters(&text).map(|(_, character)| character).collect();
        assert_eq!(found, of_core(&text), "{text:02X?}");
    }
}

#[test]
fn bad_bytes_are_replaced_one_by_one() {
    // overlong, a surrogate, beyond Unicode, bytes that are none of UTF-8
    for text in [
        &[0xC0_u8, 0x80][..],
        &[0xE0, 0x80, 0x80],
        &[0xED, 0xA0, 0x80],
        &[0xF4, 0x90, 0x80, 0x80],
        &[0xFE, 0xFF],
    ] {
        assert_eq!(decoded(text), bad(text.len()));
    }
    assert_eq!(decoded(b"\xE1\x9E\x41"), [(0, BAD), (1, BAD), (2, 'A')]);
    assert_eq!(
        decoded(b"\xF0\x9F\xE1\x9E\x80"),
        [(0, BAD), (1, BAD), (2, '\u{1780}')]
    );
}

#[test]
fn surrogates_are_pairs_or_bad() {
    assert_eq!(
        decoded(&[0xD83D_u16, 0xDE00, 0x41]),
        [(0, '\u{1F600}'), (2, 'A')]
    );
    assert_eq!(
        decoded(&[0xD800_u16, 0xDBFF, 0xDFFF, 0xDC00]),
        [(0, BAD), (1, '\u{10FFFF}'), (3, BAD)]
    );
    assert_eq!(decoded(&[0xDC00_u16, 0xD800]), bad(2));
    assert_eq!(decoded(&[0xD800_u32, 0xDFFF, 0x11_0000, u32::MAX]), bad(4));
}

#[test]
fn contexts_are_the_nearest_five() {
    let mut room = ['\0'; CONTEXT_LENGTH];
    let text = "ab\u{1780}\u{10FFFF}\u{10FFFE}\u{10FFFD}\u{10FFFC}";
    let bytes = text.as_bytes();
    assert_eq!(
        first(bytes, &mut room),
        ['a', 'b', '\u{1780}', '\u{10FFFF}', '\u{10FFFE}']
    );
    assert_eq!(
        last(bytes, &mut room),
        [
            '\u{10FFFC}',
            '\u{10FFFD}',
            '\u{10FFFE}',
            '\u{10FFFF}',
            '\u{1780}'
        ]
    );
    // what is cut is bad, and so is what a cut begins with
    assert_eq!(last(&bytes[..4], &mut room), [BAD, BAD, 'b', 'a']);
    assert_eq!(first(&bytes[4..6], &mut room), [BAD, BAD]);
    assert_eq!(last::<u8>(&[], &mut room), []);
    assert_eq!(first::<u32>(&[], &mut room), []);
    let units: Vec<u16> = text.encode_utf16().collect();
    assert_eq!(last(&units, &mut room)[4], '\u{1780}');
}

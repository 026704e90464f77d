//! A text shaped in one call, of which each request for memory is refused in turn.

use crate::allocator::refusing;
use crate::common::lookup_font::font;
use sengadlit::buffer::ShaperError;
use sengadlit::shaper::checked::CallError;
use sengadlit::{
    Direction, Face, GlyphBuffer, PlanCache, Script, ShapeError, ShapePlan, UnicodeBuffer, script,
    try_shape, try_shape_with_cache, try_shape_with_plan,
};

/// Hebrew, whose script and direction are guessed where none is set.
const TEXT: &str = "\u{05D0}\u{05B7}\u{05D1}";

fn unicode_buffer() -> UnicodeBuffer {
    let mut text = UnicodeBuffer::new();
    text.push_str(TEXT);
    text
}

/// What a caller sees of a text.
fn seen(text: &UnicodeBuffer) -> (Direction, Option<Script>, Vec<(char, u32)>) {
    (text.direction(), text.script(), text.characters().collect())
}

/// Shapes the text with each request refused in turn, until none is: it is given back as it was.
fn is_given_back(mut call: impl FnMut(UnicodeBuffer) -> Result<GlyphBuffer, ShapeError>) {
    let before = seen(&unicode_buffer());
    for request in 1.. {
        let text = unicode_buffer();
        let (shaped, requests) = refusing(request, || call(text));
        match shaped {
            Ok(glyphs) => {
                assert!(glyphs.is_complete() && requests < request);
                break;
            }
            Err(refused) => {
                assert_eq!(refused.error, CallError::Refused(ShaperError::Memory));
                assert_eq!(seen(&refused.text), before, "request {request}");
            }
        }
    }
}

pub fn a_new_buffer_may_be_refused() {
    let (refused, _) = refusing(1, UnicodeBuffer::try_new);
    assert_eq!(refused.err(), Some(ShaperError::Memory));
    let (made, requests) = refusing(0, UnicodeBuffer::try_new);
    assert!(made.is_ok() && requests == 1);
}

pub fn texts_are_given_back() {
    let data = font();
    let face = Face::parse(&data, 0).unwrap();
    is_given_back(|text| try_shape(&face, &[], text));
    is_given_back(|text| try_shape_with_cache(&face, &mut PlanCache::new(), &[], text));
    let plan = ShapePlan::new(
        &face,
        Direction::LeftToRight,
        Some(script::LATIN),
        None,
        &[],
    );
    is_given_back(|text| try_shape_with_plan(&face, &plan, text));
}

/// With a cache that has shaped a text, a new one takes memory for itself, its characters and its positions.
pub fn a_cache_lends_its_room() {
    let data = font();
    let face = Face::parse(&data, 0).unwrap();
    let mut cache = PlanCache::new();
    let mut requests_of_text = || {
        let (shaped, requests) = refusing(0, || {
            try_shape_with_cache(&face, &mut cache, &[], unicode_buffer())
        });
        assert_eq!(shaped.unwrap().len(), 3);
        requests
    };
    requests_of_text();
    for _ in 0..3 {
        assert_eq!(requests_of_text(), 3);
    }
}

pub fn graphemes_that_are_refused_stay_as_they_are() {
    let mut text = unicode_buffer();
    let before = seen(&text);
    let (refused, _) = refusing(1, || text.try_merge_graphemes());
    assert_eq!(refused, Err(ShaperError::Memory));
    assert_eq!(seen(&text), before);
    text.merge_graphemes();
    let clusters = text.characters().map(|(_, cluster)| cluster);
    assert!(clusters.eq([0, 0, 4]));
}

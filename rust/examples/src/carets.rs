//! The places within ligatures where a caret stands: OpenType's GDEF, LigatureCaretList.

/// The places of a glyph, from the left, in units of the font; those that are points of an outline are
/// left out. There are none where the file's first font has no such table.
pub fn ligature_carets(data: &[u8], glyph: u32) -> Vec<i32> {
    read(data, glyph).unwrap_or_default()
}

fn read(data: &[u8], glyph: u32) -> Option<Vec<i32>> {
    let gdef = table(data, b"GDEF")?;
    let list = part(gdef, 8)?;
    let index = coverage_index(part(list, 0)?, glyph)?;
    if index >= number(list, 2)? {
        return None;
    }
    let glyph = part(list, 4 + 2 * index)?;
    let values = (0..number(glyph, 0)?).map(|value| part(glyph, 2 + 2 * value));
    Some(values.flatten().filter_map(place).collect())
}

/// A place by its coordinate, perhaps with adjustments for devices, which are passed over.
fn place(value: &[u8]) -> Option<i32> {
    let is_coordinate = matches!(number(value, 0)?, 1 | 3);
    let coordinate = value.get(2..4)?.try_into().ok()?;
    is_coordinate.then(|| i16::from_be_bytes(coordinate).into())
}

/// A table of the file's first font.
fn table<'a>(data: &'a [u8], tag: &[u8; 4]) -> Option<&'a [u8]> {
    let start = if data.starts_with(b"ttcf") {
        long(data, 12)?
    } else {
        0
    };
    let font = data.get(start..)?;
    let mut records = font.get(12..)?.chunks_exact(16).take(number(font, 4)?);
    let record = records.find(|record| record.starts_with(tag))?;
    data.get(long(record, 8)?..)?.get(..long(record, 12)?)
}

/// The index of a glyph in a coverage.
fn coverage_index(coverage: &[u8], glyph: u32) -> Option<usize> {
    let count = number(coverage, 2)?;
    let glyph = usize::try_from(glyph).ok()?;
    if number(coverage, 0)? == 1 {
        return (0..count).find(|index| number(coverage, 4 + 2 * index) == Some(glyph));
    }
    coverage
        .get(4..)?
        .chunks_exact(6)
        .take(count)
        .find_map(|range| {
            let (first, last) = (number(range, 0)?, number(range, 2)?);
            let is_inside = (first..=last).contains(&glyph);
            is_inside.then(|| Some(number(range, 4)? + glyph - first))?
        })
}

/// What the offset at a place leads to; none for the offset 0.
fn part(table: &[u8], at: usize) -> Option<&[u8]> {
    let offset = number(table, at)?;
    (offset != 0).then(|| table.get(offset..))?
}

fn number(bytes: &[u8], at: usize) -> Option<usize> {
    let bytes = bytes.get(at..)?.first_chunk()?;
    Some(u16::from_be_bytes(*bytes).into())
}

fn long(bytes: &[u8], at: usize) -> Option<usize> {
    let bytes = bytes.get(at..)?.first_chunk()?;
    usize::try_from(u32::from_be_bytes(*bytes)).ok()
}

#[cfg(test)]
mod tests {
    use super::*;

    // (fonts/layout.py has a caret in the middle of each ligature)
    #[test]
    fn carets_of_the_sample_font() {
        let data = include_bytes!("../../../fonts/sample.ttf");
        let face = sengadlit::Face::parse(data, 0).unwrap();
        let glyph = |name| (0..400).find(|glyph| face.glyph_name(*glyph) == Some(name));
        for (name, carets) in [
            ("fi", vec![260]),
            ("lam_alef-ar.fina", vec![280]),
            ("a", vec![]),
        ] {
            assert_eq!(
                ligature_carets(data, glyph(name).unwrap()),
                carets,
                "{name}"
            );
        }
        assert_eq!(ligature_carets(&data[..1000], 5), []);
        assert_eq!(ligature_carets(b"", 5), []);
    }
}

use harfrust::{BufferClusterLevel, BufferFlags, FontRef, SerializeFlags, ShapeOptions, ShaperData, UnicodeBuffer};

fn shaped(font: &[u8], buffer: UnicodeBuffer, flags: SerializeFlags) -> String {
    let font = FontRef::new(font).expect("a font");
    let data = ShaperData::new(&font);
    let shaper = data.shaper(&font).build();
    shaper.shape(buffer, ShapeOptions::new()).serialize(&shaper, flags)
}

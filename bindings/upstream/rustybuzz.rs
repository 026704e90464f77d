use rustybuzz::{BufferClusterLevel, BufferFlags, Face, SerializeFlags, UnicodeBuffer};

fn shaped(font: &[u8], buffer: UnicodeBuffer, flags: SerializeFlags) -> String {
    let face = Face::from_slice(font, 0).expect("a font");
    rustybuzz::shape(&face, &[], buffer).serialize(&face, flags)
}

//! pixels FOLDER: draws each SVG file below a folder, with the fonts of FOLDER/fonts, and prints its
//! path, whether it has text, and a hash of its pixels.

use resvg::{tiny_skia, usvg};
use std::collections::hash_map::DefaultHasher;
use std::hash::{Hash, Hasher};
use std::path::{Path, PathBuf};
use std::sync::Arc;

/// The files below a folder that have one of these extensions, in order.
fn files(folder: &Path, extensions: &[&str]) -> Vec<PathBuf> {
    let entries = std::fs::read_dir(folder).expect("a folder").map(|entry| entry.expect("an entry").path());
    let (folders, mut files): (Vec<_>, Vec<_>) = entries.partition(|path| path.is_dir());
    files.retain(|path| path.extension().is_some_and(|extension| extensions.iter().any(|wanted| extension == *wanted)));
    files.extend(folders.iter().flat_map(|folder| self::files(folder, extensions)));
    files.sort();
    files
}

/// The fonts of a folder, with the families that resvg's tests name.
fn fonts(folder: &Path) -> usvg::fontdb::Database {
    let mut fonts = usvg::fontdb::Database::new();
    for file in files(folder, &["ttf", "otf"]) {
        fonts.load_font_data(std::fs::read(file).expect("a font"));
    }
    fonts.set_serif_family("Noto Serif");
    fonts.set_sans_serif_family("Noto Sans");
    fonts.set_cursive_family("Yellowtail");
    fonts.set_fantasy_family("Sedgwick Ave Display");
    fonts.set_monospace_family("Noto Mono");
    fonts
}

/// A hash of the pixels, in the file's own size, at most 1000 wide.
fn drawn(file: &Path, text: &[u8], fonts: &Arc<usvg::fontdb::Database>) -> Option<u64> {
    let folder = file.parent().map(Path::to_path_buf);
    let options = usvg::Options { resources_dir: folder, fontdb: Arc::clone(fonts), ..usvg::Options::default() };
    let tree = usvg::Tree::from_data(text, &options).ok()?;
    let scale = (1000.0 / tree.size().width()).min(1.0);
    let size = tree.size().to_int_size().scale_by(scale)?;
    let mut pixels = tiny_skia::Pixmap::new(size.width(), size.height())?;
    resvg::render(&tree, tiny_skia::Transform::from_scale(scale, scale), &mut pixels.as_mut());
    let mut hasher = DefaultHasher::new();
    (size.width(), size.height(), pixels.data()).hash(&mut hasher);
    Some(hasher.finish())
}

fn main() {
    let folder = PathBuf::from(std::env::args().nth(1).expect("pixels FOLDER"));
    let fonts = Arc::new(fonts(&folder.join("fonts")));
    for file in files(&folder, &["svg"]) {
        let svg = std::fs::read(&file).expect("a file");
        let kind = if svg.windows(5).any(|tag| tag == b"<text") { "text" } else { "shapes" };
        let told = drawn(&file, &svg, &fonts).map_or("not drawn".into(), |hash| format!("{hash:016x}"));
        println!("{} {kind} {told}", file.strip_prefix(&folder).unwrap_or(&file).display());
    }
}

//! Gives the program the tables of HarfRust 0.12.0 and rustybuzz 0.18.0, as they stand in the folder $REGISTRY: each crate as
//! a module of this one, with what its tables read. And the decoder of the C library, below the folder $TOP.

use std::path::{Path, PathBuf};
use std::{env, fs};

const CRATES: [(&str, &str); 2] = [("harfrust", "0.12.0"), ("rustybuzz", "0.18.0")];

// Files of a crate, some of which one of the two alone has.
const FILES: [&str; 8] = [
    "algs",
    "unicode",
    "ucd_table",
    "unicode_emoji_table",
    "unicode_norm",
    "ot_shaper_arabic_table",
    "ot_shaper_indic_table",
    "ot_shaper_use_table",
];

// Items of a file that have more around them than the tables read.
const PARTS: [(&str, &[&str]); 5] = [
    ("common", &["pub mod script {"]),
    ("ot_shaper_arabic", &["pub enum hb_arabic_joining_type_t {"]),
    ("ot_shaper_indic", &["pub mod ot_category_t {", "pub mod ot_position_t {"]),
    ("ot_shaper_use", &["pub mod category {"]),
    ("ot_shaper", &["pub fn hb_ot_shape_complex_categorize("]),
];

// What stands before the items of a file.
const SCRIPT: &str = "
#[derive(Clone, Copy, PartialEq, Eq)]
pub struct Script(pub [u8; 4]);
impl Script {
    pub const fn from_bytes(bytes: &[u8; 4]) -> Self { Script(*bytes) }
}
";
const SHAPER: &str = "
use super::common::{Script, script};
#[derive(Clone, Copy, PartialEq)]
pub struct hb_tag_t(pub [u8; 4]);
impl hb_tag_t {
    pub fn default_script() -> Self { hb_tag_t(*b\"DFLT\") }
    pub fn new(bytes: &[u8; 4]) -> Self { hb_tag_t(*bytes) }
    pub fn from_bytes(bytes: &[u8; 4]) -> Self { hb_tag_t(*bytes) }
    pub fn to_bytes(self) -> [u8; 4] { self.0 }
    pub fn to_be_bytes(self) -> [u8; 4] { self.0 }
}
#[derive(Clone, Copy)]
pub struct Direction(pub bool);
impl Direction {
    pub fn is_horizontal(self) -> bool { self.0 }
}
";

// The shapers by the numbers that stand for them here.
const SHAPERS: [(&str, &str); 10] = [
    ("&DEFAULT_SHAPER", "0"),
    ("&crate::hb::ot_shaper_arabic::ARABIC_SHAPER", "1"),
    ("&crate::hb::ot_shaper_hangul::HANGUL_SHAPER", "2"),
    ("&crate::hb::ot_shaper_hebrew::HEBREW_SHAPER", "3"),
    ("&crate::hb::ot_shaper_indic::INDIC_SHAPER", "4"),
    ("&crate::hb::ot_shaper_khmer::KHMER_SHAPER", "5"),
    ("&crate::hb::ot_shaper_myanmar::MYANMAR_SHAPER", "6"),
    ("&crate::hb::ot_shaper_myanmar::MYANMAR_ZAWGYI_SHAPER", "7"),
    ("&crate::hb::ot_shaper_thai::THAI_SHAPER", "8"),
    ("&crate::hb::ot_shaper_use::UNIVERSAL_SHAPER", "9"),
];

fn read(path: &Path) -> String {
    fs::read_to_string(path).unwrap_or_else(|fault| panic!("{}: {fault}", path.display()))
}

// The item that begins with a line.
fn item<'a>(text: &'a str, first: &str) -> &'a str {
    let start = text.find(&format!("\n{first}\n")).unwrap_or_else(|| panic!("there is no {first}"));
    let end = text[start..].find("\n}\n").expect("the item ends");
    &text[start..start + end + 3]
}

// Writes the modules of a crate, whose paths begin anew.
fn write_crate(from: &Path, to: &Path, name: &str) {
    fs::create_dir_all(to).expect("OUT_DIR can be written");
    let write = |file: &str, text: &str| {
        let text = text.replace("crate::hb::", &format!("crate::{name}::"));
        let text = text.replace("crate::Script", &format!("crate::{name}::common::Script"));
        let text = text.replace("crate::script", &format!("crate::{name}::common::script"));
        fs::write(to.join(file).with_extension("rs"), text).expect("OUT_DIR can be written");
    };
    let mut modules = String::new();
    for file in FILES {
        let path = from.join(file).with_extension("rs");
        if path.exists() {
            write(file, &read(&path));
            modules += &format!("pub mod {file};\n");
        }
    }
    for (file, firsts) in PARTS {
        let text = read(&from.join(file).with_extension("rs"));
        let items: String = firsts.iter().map(|first| item(&text, first)).collect();
        let items = items.replace("\npub enum", "\n#[derive(Clone, Copy, PartialEq)]\npub enum");
        let items = items.replace("&'static hb_ot_shaper_t", "u8");
        let items = SHAPERS.iter().fold(items, |items, (shaper, number)| items.replace(shaper, number));
        let before = match file {
            "common" => SCRIPT,
            "ot_shaper" => SHAPER,
            _ => "",
        };
        write(file, &format!("{before}{items}"));
        modules += &format!("pub mod {file};\n");
    }
    write("mod", &modules);
}

fn main() {
    println!("cargo:rerun-if-env-changed=REGISTRY");
    println!("cargo:rerun-if-env-changed=TOP");
    let registry = PathBuf::from(env::var("REGISTRY").expect("REGISTRY is the folder with both crates' sources"));
    let top = PathBuf::from(env::var("TOP").expect("TOP is the folder of the repository"));
    let out = PathBuf::from(env::var("OUT_DIR").expect("cargo sets OUT_DIR"));
    let decoder = top.join("rust/sengadlit-c/src/encodings.rs");
    let mut modules = format!("#[path = {decoder:?}]\npub mod encodings;\n");
    for (name, version) in CRATES {
        let to = out.join(name);
        write_crate(&registry.join(format!("{name}-{version}/src/hb")), &to, name);
        modules += &format!("#[allow(warnings, clippy::all)]\n#[path = {:?}]\npub mod {name};\n", to.join("mod.rs"));
    }
    fs::write(out.join("crates.rs"), modules).expect("OUT_DIR can be written");
}

//! Stands for the crates' own tests/shaping/main.rs, which their packages lack: what it has for the tests of the patches. Behind
//! it come `shaped` of one crate (harfrust.rs, rustybuzz.rs) and the names of the tests' files.

/// What a test asks for.
struct Options {
    flags: SerializeFlags,
    buffer: BufferFlags,
    level: BufferClusterLevel,
    before: String,
}

impl Options {
    /// Reads the options of hb-shape that the tests have.
    fn read(words: &str) -> Self {
        let mut options = Options {
            flags: SerializeFlags::default(),
            buffer: BufferFlags::default(),
            level: BufferClusterLevel::default(),
            before: String::new(),
        };
        for word in words.split_whitespace() {
            match word.split_once('=').unwrap_or((word, "")) {
                ("--no-glyph-names", "") => options.flags |= SerializeFlags::NO_GLYPH_NAMES,
                ("--no-positions", "") => options.flags |= SerializeFlags::NO_POSITIONS,
                ("--no-clusters", "") => options.flags |= SerializeFlags::NO_CLUSTERS,
                ("--show-flags", "") => options.flags |= SerializeFlags::GLYPH_FLAGS,
                ("--unsafe-to-concat", "") => options.buffer |= BufferFlags::PRODUCE_UNSAFE_TO_CONCAT,
                ("--cluster-level", "1") => options.level = BufferClusterLevel::MonotoneCharacters,
                ("--cluster-level", "2") => options.level = BufferClusterLevel::Characters,
                ("--unicodes-before", list) => options.before = list.split(',').map(character).collect(),
                _ => panic!("the option {word} isn't known"),
            }
        }
        options
    }
}

/// The character of a code point, U+0628.
fn character(code_point: &str) -> char {
    let number = u32::from_str_radix(code_point.trim_start_matches("U+"), 16).expect("a number");
    char::from_u32(number).expect("a character")
}

/// The text with the options: clusters count characters.
fn filled(text: &str, options: &Options) -> UnicodeBuffer {
    let mut buffer = UnicodeBuffer::new();
    buffer.set_pre_context(&options.before);
    for (place, c) in (0..).zip(text.chars()) {
        buffer.add(c, place);
    }
    buffer.set_flags(options.buffer);
    buffer.set_cluster_level(options.level);
    buffer.guess_segment_properties();
    buffer
}

/// The shaped text as hb-shape prints it, without brackets.
pub fn shape(font: &str, text: &str, options: &str) -> String {
    let options = Options::read(options);
    let printed = shaped(&std::fs::read(font).expect("a font"), filled(text, &options), options.flags);
    printed.trim_matches(['[', ']']).to_owned()
}

/// What a long text takes, whose font and character are in the environment.
#[test]
#[ignore = "by itself"]
fn long_text() {
    let [font, c] = ["FONT", "CHARACTER"].map(|name| std::env::var(name).expect("it is set"));
    shape(&font, &character(&c).to_string().repeat(20_000), "");
}

//! The options of the program.

use super::{Effect, Entry, Group, Setter};
use crate::settings::{Iterations, Settings, TextSettings};
use crate::values;
use sengadlit::ot_shape_normalize::Rounds;
use sengadlit::plan::BreakFlags;
use sengadlit::{BufferFlags, SerializeFlags};

/// The options in the order of hb-shape's help, then the program's own.
pub const GROUPS: &[Group] = &[
    Group {
        title: "Font-face options:",
        name: "face",
        options: FACE,
    },
    Group {
        title: "Font-instance options:",
        name: "font",
        options: FONT,
    },
    Group {
        title: "Text options:\n\nIf no text is provided, standard input is used for input.\n",
        name: "text",
        options: TEXT,
    },
    Group {
        title: "Textual context options:",
        name: "text-context",
        options: TEXT_CONTEXT,
    },
    Group {
        title: "Shape options:",
        name: "shape",
        options: SHAPE,
    },
    Group {
        title: "Features options:",
        name: "features",
        options: FEATURES,
    },
    Group {
        title: "Output destination & format options:",
        name: "output",
        options: OUTPUT,
    },
    Group {
        title: "Output syntax options:",
        name: "output-syntax",
        options: OUTPUT_SYNTAX,
    },
    Group {
        title: "Options that hb-shape lacks:",
        name: "own",
        options: OWN,
    },
    Group {
        title: "Application options:",
        name: "application",
        options: APPLICATION,
    },
];

/// The help of an option that isn't told.
pub const HIDDEN: &str = "";

/// The options of hb-shape that are refused by name.
pub const REFUSED: &[&str] = &[
    "face-loader",
    "list-face-loaders",
    "font-ppem",
    "font-bold",
    "font-grade",
    "font-slant",
    "ft-load-flags",
    "sub-font",
    "named-instance",
    "variations",
    "normalize-glyphs",
    "glyphs",
];

const FACE: &[Entry] = &[
    value(
        "font-file",
        "filename",
        "Set font file-name",
        |settings, file| {
            settings.font_file = Some(values::path(file)?);
            Ok(())
        },
    ),
    letter(
        'y',
        value(
            "face-index",
            "index",
            "Set face index (default: 0)",
            |settings, index| {
                settings.face_index = values::number(index)?;
                Ok(())
            },
        ),
    ),
];

const FONT: &[Entry] = &[
    value(
        "font-size",
        "1/2 numbers or 'upem'",
        "Font size (default: upem)",
        |settings, size| {
            settings.font_size = values::font_size(size)?;
            Ok(())
        },
    ),
    value(
        "font-ptem",
        "point-size",
        "Accepted; no OpenType table that is read depends on it",
        |_, size| values::real(values::text(size)?).map(|_| ()),
    ),
    value(
        "font-funcs",
        "impl",
        "Accepted: ot or ft; there is one implementation",
        |_, name| match name {
            b"ot" | b"ft" => Ok(()),
            _ => Err("it is ot or ft".into()),
        },
    ),
    print(
        "list-font-funcs",
        "List available font functions and quit",
        || "ot\n".into(),
    ),
];

const TEXT: &[Entry] = &[
    value("text", "string", "Set input text", |settings, text| {
        set_text(&mut settings.text, text)
    }),
    value(
        "text-file",
        "filename",
        "Set input text file-name (- is standard input)",
        |settings, file| {
            settings.text.file = Some(values::path(file)?);
            Ok(())
        },
    ),
    letter(
        'u',
        value(
            "unicodes",
            "list of hex numbers",
            "Set input Unicode codepoints",
            |settings, list| set_unicodes(&mut settings.text, list),
        ),
    ),
    flag("single-par", "Treat text as single paragraph", |settings| {
        settings.text.is_single_paragraph = true;
    }),
];

const TEXT_CONTEXT: &[Entry] = &[
    value(
        "text-before",
        "string",
        "Set text context before each line",
        |settings, text| set_context(&mut settings.text.before, text.to_vec()),
    ),
    value(
        "text-after",
        "string",
        "Set text context after each line",
        |settings, text| set_context(&mut settings.text.after, text.to_vec()),
    ),
    value(
        "unicodes-before",
        "list of hex numbers",
        "Set Unicode codepoints context before each line",
        |settings, list| set_context(&mut settings.text.before, values::unicodes(list)?),
    ),
    value(
        "unicodes-after",
        "list of hex numbers",
        "Set Unicode codepoints context after each line",
        |settings, list| set_context(&mut settings.text.after, values::unicodes(list)?),
    ),
];

const SHAPE: &[Entry] = &[
    value(
        "shapers",
        "comma-separated list",
        "Accepted with ot among them, the shaper that there is",
        accept_shapers,
    ),
    value("shaper", "comma-separated list", HIDDEN, accept_shapers),
    print("list-shapers", "List available shapers and quit", || {
        "ot\n".into()
    }),
    value(
        "direction",
        "ltr/rtl/ttb/btt",
        "Set text direction (default: auto)",
        |settings, direction| {
            settings.direction = Some(values::direction(direction)?);
            Ok(())
        },
    ),
    value(
        "language",
        "BCP 47 tag",
        "Set text language (default: none)",
        |settings, language| {
            settings.language = values::language(language)?;
            Ok(())
        },
    ),
    value(
        "script",
        "ISO-15924 tag",
        "Set text script (default: auto)",
        |settings, script| {
            settings.script = Some(values::script(script)?);
            Ok(())
        },
    ),
    flag("bot", "Treat text as beginning-of-paragraph", |settings| {
        settings.flags |= BufferFlags::BEGINNING_OF_TEXT;
    }),
    flag("eot", "Treat text as end-of-paragraph", |settings| {
        settings.flags |= BufferFlags::END_OF_TEXT;
    }),
    flag(
        "preserve-default-ignorables",
        "Preserve Default-Ignorable characters",
        |settings| {
            settings.flags |= BufferFlags::PRESERVE_DEFAULT_IGNORABLES;
        },
    ),
    flag(
        "remove-default-ignorables",
        "Remove Default-Ignorable characters",
        |settings| {
            settings.flags |= BufferFlags::REMOVE_DEFAULT_IGNORABLES;
        },
    ),
    value(
        "invisible-glyph",
        "glyph",
        "Glyph value to replace Default-Ignorables with",
        |settings, glyph| {
            settings.replacements.invisible = values::glyph(glyph)?;
            Ok(())
        },
    ),
    value(
        "not-found-glyph",
        "glyph",
        "Glyph value to replace not-found characters with",
        |settings, glyph| {
            settings.replacements.not_found = values::glyph(glyph)?;
            Ok(())
        },
    ),
    value(
        "not-found-variation-selector-glyph",
        "glyph",
        "Glyph value to replace not-found variation-selector characters with",
        |settings, glyph| {
            settings.replacements.not_found_selector = Some(values::number(glyph)?);
            Ok(())
        },
    ),
    flag(
        "utf8-clusters",
        "Use UTF8 byte indices, not char indices",
        |settings| {
            settings.has_utf8_clusters = true;
        },
    ),
    value(
        "cluster-level",
        "0/1/2/3",
        "Cluster merging level (default: 0)",
        |settings, level| {
            let number = values::number(level)?;
            let level = u8::try_from(number).ok().filter(|level| *level <= 3);
            settings.cluster_level = level.ok_or("it is 0, 1, 2 or 3")?;
            Ok(())
        },
    ),
    flag(
        "unsafe-to-concat",
        "Produce unsafe-to-concat glyph flag",
        |settings| {
            settings.flags |= BufferFlags::PRODUCE_UNSAFE_TO_CONCAT;
        },
    ),
    flag(
        "safe-to-insert-tatweel",
        "Produce safe-to-insert-tatweel glyph flag",
        |settings| {
            settings.flags |= BufferFlags::PRODUCE_SAFE_TO_INSERT_TATWEEL;
        },
    ),
    flag(
        "verify",
        "Perform sanity checks on shaping results",
        |settings| settings.verifies = true,
    ),
    letter(
        'n',
        value(
            "num-iterations",
            "N",
            "Run shaper N times (default: 1)",
            |settings, number| {
                settings.iterations = Iterations(values::number(number)?.max(1));
                Ok(())
            },
        ),
    ),
];

const FEATURES: &[Entry] = &[value(
    "features",
    "list",
    "Comma-separated list of font features:\n\
     kern, +kern, -kern, kern=0, aalt=2; for clusters: kern[5:], kern[3:5], aalt[3]=2",
    |settings, list| {
        settings.features = values::features(list)?;
        Ok(())
    },
)];

const OUTPUT: &[Entry] = &[
    letter(
        'o',
        value(
            "output-file",
            "filename",
            "Set output file-name (default: stdout)",
            |settings, file| {
                settings.output.file = Some(values::path(file)?);
                Ok(())
            },
        ),
    ),
    letter(
        'O',
        value(
            "output-format",
            "text/json",
            "Set output format",
            |settings, format| {
                settings.output.format = Some(values::text(format)?.into());
                Ok(())
            },
        ),
    ),
];

const OUTPUT_SYNTAX: &[Entry] = &[
    flag(
        "show-text",
        "Prefix each line of output with its corresponding input text",
        |settings| {
            settings.output.shows_text = true;
        },
    ),
    flag(
        "show-unicode",
        "Prefix each line of output with its corresponding input codepoint(s)",
        |settings| {
            settings.output.shows_unicode = true;
        },
    ),
    flag(
        "show-line-num",
        "Prefix each line of output with its corresponding input line number",
        |settings| {
            settings.output.shows_line_numbers = true;
        },
    ),
    letter(
        'v',
        flag(
            "verbose",
            "Prefix each line of output with all of the above",
            |settings| {
                settings.output.shows_text = true;
                settings.output.shows_unicode = true;
                settings.output.shows_line_numbers = true;
            },
        ),
    ),
    flag(
        "no-glyph-names",
        "Output glyph indices instead of names",
        |settings| {
            settings.output.flags |= SerializeFlags::NO_GLYPH_NAMES;
        },
    ),
    flag(
        "no-positions",
        "Do not output glyph positions",
        |settings| {
            settings.output.flags |= SerializeFlags::NO_POSITIONS;
        },
    ),
    flag("no-advances", "Do not output glyph advances", |settings| {
        settings.output.flags |= SerializeFlags::NO_ADVANCES;
    }),
    flag("no-clusters", "Do not output cluster indices", |settings| {
        settings.output.flags |= SerializeFlags::NO_CLUSTERS;
    }),
    flag("show-extents", "Output glyph extents", |settings| {
        settings.output.flags |= SerializeFlags::GLYPH_EXTENTS;
    }),
    flag("show-flags", "Output glyph flags", |settings| {
        settings.output.flags |= SerializeFlags::GLYPH_FLAGS;
    }),
    letter(
        'v',
        flag(
            "ned",
            "No Extra Data; Do not output clusters or advances",
            |settings| {
                settings.output.flags |= SerializeFlags::NO_CLUSTERS | SerializeFlags::NO_ADVANCES;
            },
        ),
    ),
    letter(
        'V',
        flag("trace", "Output interim shaping results", |settings| {
            settings.output.traces = true
        }),
    ),
];

const OWN: &[Entry] = &[
    flag(
        "sound",
        "Flag each place at which a break would change the text (docs/PROOF.md)",
        |settings| {
            settings.break_flags = BreakFlags::Sound;
        },
    ),
    flag(
        "always",
        "Normalize texts without marks as all others are",
        |settings| {
            settings.rounds = Rounds::Always;
        },
    ),
    value(
        "svg",
        "filename",
        "Draw the lines, also as a picture, with outlines of the table glyf",
        |settings, file| {
            settings.svg = Some(values::path(file)?);
            Ok(())
        },
    ),
];

const APPLICATION: &[Entry] = &[print("version", "Show version numbers", || {
    format!(
        "sengadlit-shape (Sengadlit) {}\n",
        env!("CARGO_PKG_VERSION")
    )
})];

const fn flag(name: &'static str, help: &'static str, set: fn(&mut Settings)) -> Entry {
    entry(name, help, Effect::Flag(set))
}

const fn value(name: &'static str, what: &'static str, help: &'static str, set: Setter) -> Entry {
    entry(name, help, Effect::Value(what, set))
}

const fn print(name: &'static str, help: &'static str, text: fn() -> String) -> Entry {
    entry(name, help, Effect::Print(text))
}

const fn entry(name: &'static str, help: &'static str, effect: Effect) -> Entry {
    Entry {
        name,
        letter: None,
        effect,
        help,
    }
}

/// The option with a letter that stands for it.
const fn letter(letter: char, option: Entry) -> Entry {
    Entry {
        letter: Some(letter),
        ..option
    }
}

fn accept_shapers(_: &mut Settings, list: &[u8]) -> Result<(), String> {
    let mut names = list.split(|byte| *byte == b',');
    if names.any(|name| name == b"ot") {
        Ok(())
    } else {
        Err("the shaper is ot".into())
    }
}

/// Sets the text. An empty one is passed over behind another way to give it, which serves scripts.
fn set_text(settings: &mut TextSettings, text: &[u8]) -> Result<(), String> {
    let is_set = settings.text.is_some();
    if is_set && text.is_empty() {
        return Ok(());
    }
    let is_empty_list = settings.is_by_numbers && settings.text.as_deref() == Some(&[]);
    if is_set && !is_empty_list {
        return Err("Either --text or --unicodes can be provided but not both".into());
    }
    settings.text = Some(text.to_vec());
    settings.is_by_numbers = false;
    Ok(())
}

fn set_unicodes(settings: &mut TextSettings, list: &[u8]) -> Result<(), String> {
    if settings.text.is_some() {
        return Err("Either --text or --unicodes can be provided but not both".into());
    }
    settings.text = Some(values::unicodes(list)?);
    settings.is_by_numbers = true;
    Ok(())
}

/// Sets what stands before or behind the text, once.
fn set_context(context: &mut Option<Vec<u8>>, text: Vec<u8>) -> Result<(), String> {
    if context.is_some() {
        return Err("Either a text or numbers can be provided but not both".into());
    }
    *context = Some(text);
    Ok(())
}

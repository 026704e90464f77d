//! Shapes one text by the crate as it is, with the hooks, and with reasons edited away.

use programs::fonts::without;
use programs::{put_in_force, reasons, sengadlit, stock, text_of, Setting, Shaped, LEVELS, REASONS};

const USAGE: &str = "show FONT [OPTION..] TEXT

FONT is a font's path. TEXT is code points in hexadecimal (0E14 0E34 0E48 0E33), each with how often
it comes where that isn't once (0915 0951*256), or the text itself if it isn't of ASCII. Three lines
tell the glyphs, as `hb-shape --show-flags` writes them: of the crate as it is, with the hooks,
and of the crate as it is with the known reasons of differences edited away, by default all.

  --level N  --flags HEX  --scale N  --reasons NAME,..
  --without TAG  the font without this table
  --broken N     the first N characters and the rest, each shaped alone
  --numbers      glyphs by their numbers";

/// What is shown, and how.
#[derive(Default)]
struct Task {
    font: String,
    without: Option<[u8; 4]>,
    broken: Option<usize>,
    has_numbers: bool,
    setting: Setting,
    text: String,
}

/// The text of the arguments behind the options: code points, or the characters themselves.
fn text(arguments: &[String]) -> Option<String> {
    let text = arguments.join(" ");
    if !text.is_ascii() {
        return Some(text);
    }
    let is_item = |item: &str| {
        let (number, times) = item.split_once('*').unwrap_or((item, "1"));
        let is_character = u32::from_str_radix(number, 16).is_ok_and(|number| char::from_u32(number).is_some());
        is_character && times.parse::<usize>().is_ok()
    };
    (!text.is_empty() && text.split_whitespace().all(is_item)).then(|| text_of(&text))
}

/// The task of the arguments; puts reasons in force.
fn task() -> Option<Task> {
    let mut arguments = std::env::args().skip(1);
    let mut task = Task { font: arguments.next()?, ..Task::default() };
    let mut rest = Vec::new();
    put_in_force(REASONS);
    while let Some(argument) = arguments.next() {
        match argument.as_str() {
            "--level" => task.setting.level = arguments.next()?.parse().ok().filter(|level| *level < LEVELS.len())?,
            "--flags" => task.setting.flags = u32::from_str_radix(&arguments.next()?, 16).ok()?,
            "--scale" => task.setting.scale = Some(arguments.next()?.parse().ok()?),
            "--reasons" => {
                let wanted = arguments.next()?;
                let is_wanted = |name: &&&str| wanted.split(',').any(|one| one == **name);
                put_in_force(&REASONS.iter().filter(is_wanted).copied().collect::<Vec<_>>());
            }
            "--without" => task.without = Some(arguments.next()?.as_bytes().try_into().ok()?),
            "--broken" => task.broken = Some(arguments.next()?.parse().ok()?),
            "--numbers" => task.has_numbers = true,
            _ => rest.push(argument),
        }
    }
    task.text = text(&rest)?;
    Some(task)
}

impl Task {
    /// The texts that are shaped: the whole, or the two that it is broken into.
    fn texts(&self) -> Vec<&str> {
        match self.broken {
            Some(count) => {
                let place = self.text.char_indices().nth(count).map_or(self.text.len(), |(place, _)| place);
                let (first, rest) = self.text.split_at(place);
                vec![first, rest]
            }
            None => vec![&self.text],
        }
    }

    /// What a crate makes of the texts, by its functions `told` and `shape_texts`.
    fn shown(
        &self,
        font: &[u8],
        told: fn(&[u8], &str, &Setting) -> String,
        shape_texts: fn(&[u8], &[&str], &Setting) -> Vec<Shaped>,
    ) -> String {
        let shown: Vec<String> = if self.has_numbers {
            shape_texts(font, &self.texts(), &self.setting).iter().map(Shaped::to_string).collect()
        } else {
            self.texts().iter().map(|text| told(font, text, &self.setting)).collect()
        };
        shown.join(" ")
    }
}

fn main() {
    let Some(task) = task() else {
        eprintln!("{USAGE}");
        std::process::exit(2);
    };
    let mut font = std::fs::read(&task.font).unwrap_or_else(|error| {
        eprintln!("show: {}: {error}", task.font);
        std::process::exit(1);
    });
    if let Some(tag) = task.without {
        font = without(&font, &tag);
    }
    std::panic::set_hook(Box::new(|_| {}));
    println!("stock     {}", task.shown(&font, stock::told, stock::shape_texts));
    println!("sengadlit {}", task.shown(&font, sengadlit::told, sengadlit::shape_texts));
    println!("edited    {}", task.shown(&font, reasons::told, reasons::shape_texts));
}

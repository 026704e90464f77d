//! The shaper of each script, by direction and by the script that was found in the font.

use crate::{harfrust, rustybuzz};
use sengadlit::{Direction, Script, Shaper, Tag};

/// Codes of four letters, the first of them a capital.
pub const SCRIPTS: usize = 26 * 26 * 26 * 26;

const DIRECTIONS: [Direction; 4] =
    [Direction::LeftToRight, Direction::RightToLeft, Direction::TopToBottom, Direction::BottomToTop];

// What is found; nothing is 0.
const FOUND: [[u8; 4]; 7] = [[0; 4], *b"DFLT", *b"latn", *b"mymr", *b"mym2", *b"dev2", *b"dev3"];

/// How many shapers a library names for a script.
pub const CASES: usize = DIRECTIONS.len() * FOUND.len();

/// The code of a script by its place.
pub fn code(place: usize) -> [u8; 4] {
    let letter = |power: usize| (place / 26_usize.pow(power as u32) % 26) as u8;
    [b'A' + letter(3), b'a' + letter(2), b'a' + letter(1), b'a' + letter(0)]
}

// The shapers of all scripts, each in all cases; 0 is none, and the others are in the order of `Shaper::ALL`.
fn all(choose: impl Fn([u8; 4], Direction, Option<[u8; 4]>) -> u8) -> Vec<u8> {
    let mut shapers = Vec::with_capacity(SCRIPTS * CASES);
    for place in 0..SCRIPTS {
        for direction in DIRECTIONS {
            for found in FOUND {
                shapers.push(choose(code(place), direction, (found != [0; 4]).then_some(found)));
            }
        }
    }
    shapers
}

fn is_horizontal(direction: Direction) -> bool {
    matches!(direction, Direction::LeftToRight | Direction::RightToLeft)
}

pub fn ours() -> Vec<u8> {
    all(|script, direction, found| {
        let shaper = Shaper::for_script(Script(script), direction, found.map(Tag));
        shaper.map_or(0, |shaper| shaper as u8 + 1)
    })
}

macro_rules! of_crate {
    ($name:ident) => {
        pub fn $name() -> Vec<u8> {
            use $name::common::Script;
            use $name::ot_shaper::{Direction, hb_ot_shape_complex_categorize, hb_tag_t};
            all(|script, direction, found| {
                let direction = Direction(is_horizontal(direction));
                hb_ot_shape_complex_categorize(Script(script), direction, found.map(hb_tag_t))
            })
        }
    };
}

of_crate!(harfrust);
of_crate!(rustybuzz);

//! fonts-native FONT: answers one request of standard input, as the module does; for the page's test.

#[path = "lib.rs"]
mod module;

use std::io::Read;

fn main() {
    let path = std::env::args_os().nth(1).expect("a font");
    let font = std::fs::read(path).expect("the font");
    let mut request = String::new();
    std::io::stdin().read_to_string(&mut request).expect("a request");
    println!("{}", module::answer_to(&font, &request).unwrap_or_else(|| "null".into()));
}

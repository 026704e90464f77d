//! What rustfmt does to the text that the eraser writes: the committed files have its tokens, but for
//! commas, the order of imports and the braces around one expression as a match's arm or a closure's body.

use erase::erase;
use erase::table::all;
use erase::token::tokens;
use std::fs;
use std::path::Path;

fn read(path: &str) -> Option<String> {
    fs::read_to_string(Path::new(env!("CARGO_MANIFEST_DIR")).join("../..").join(path)).ok()
}

// A text's comments and the tokens of its code, without those of imports and without commas; and
// the words of its imports, sorted.
fn code_and_imports(text: &str) -> (Vec<String>, Vec<String>) {
    let (mut code, mut imports, mut is_import) = (Vec::new(), Vec::new(), false);
    for token in tokens(text).unwrap() {
        is_import |= token.text == "use";
        code.extend(token.lead.split_whitespace().map(str::to_string));
        let list = if is_import { &mut imports } else { &mut code };
        is_import &= token.text != ";";
        if !matches!(token.text.as_str(), "," | "") {
            list.push(token.text);
        }
    }
    imports.retain(|text| !matches!(text.as_str(), "{" | "}" | "::"));
    imports.sort();
    (code, imports)
}

// The tokens without the braces around an arm, or a closure's body, that is one expression.
fn without_braces(mut code: Vec<String>) -> Vec<String> {
    for i in (0..code.len().saturating_sub(1)).rev() {
        if matches!(code[i].as_str(), "=>" | "|") && code[i + 1] == "{" {
            let mut depth = 0;
            let is_end = |token: &String| {
                depth += i32::from(token == "{") - i32::from(token == "}");
                depth == 0
            };
            let end = i + 1 + code[i + 1..].iter().position(is_end).unwrap();
            if !code[i + 1..end].contains(&";".to_string()) {
                code.remove(end);
                code.remove(i + 1);
            }
        }
    }
    code
}

#[test]
fn rustfmt_changes_layout_and_the_order_of_imports_alone() {
    let crates: Vec<&str> = all("crate").map(|(krate, _)| krate).collect();
    let outputs = erase(&crates, &read).unwrap();
    assert!(outputs.len() > 100, "{} files", outputs.len());
    for (path, text) in outputs {
        let (code, imports) = code_and_imports(&text);
        let (formatted, sorted) = code_and_imports(&read(&path).unwrap());
        assert_eq!(imports, sorted, "{path}");
        assert_eq!(without_braces(code), without_braces(formatted), "{path}");
    }
}

#[test]
fn what_changes_more_than_the_layout_is_found() {
    let of = |text: &str| {
        let (code, imports) = code_and_imports(text);
        (without_braces(code), imports)
    };
    let text = "use a::{b, c};\nfn f() { match d { E => { g(h, 1) } _ => { i(); j } } l(|m| { n(m) }) } // k\n";
    let same = "use a::{c, b,};\nfn f() {\n match d { E => g(h, 1,), _ => { i(); j } } l(|m| n(m)) }\n// k\n";
    assert_eq!(of(text), of(same));
    for (word, other) in
        [("b", "c"), ("g(h, 1)", "g(1, h)"), ("i(); ", ""), ("n(m)", "m"), ("k", "o")]
    {
        assert_ne!(of(text), of(&text.replacen(word, other, 1)), "{word}");
    }
}

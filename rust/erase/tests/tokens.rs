//! Holds the eraser to what it may do, by a reading of its own. What this test knows is taken out of
//! each source: ghost items, clauses, proofs, attributes and derives of the proof, tests, models, law
//! functions, the trait of flag types and the bound `Drop`. All that is left stands in the generated
//! file, comments apart, in its order, names replaced by the table, but for names in imports, empty
//! modules, and the runs of tokens that are listed in runs.txt; and besides it there is at most the
//! one `use` line of the prelude, and of items the derives, attributes and visibility that the table
//! gives them.

use erase::erase;
use erase::table::{all, get};
use erase::token::tokens;
use std::collections::{BTreeMap, BTreeSet};
use std::fs;
use std::path::Path;
use std::sync::LazyLock;

const PRELUDE: &str = "use crate::support::prelude::*;";

// A generated file: its path, that of its source, the crate, its tokens, and the source's.
struct Case {
    path: String,
    source_path: String,
    krate: String,
    tokens: Vec<String>,
    source: Vec<String>,
}

static OUTPUTS: LazyLock<BTreeMap<String, String>> = LazyLock::new(|| {
    let crates: Vec<&str> = all("crate").map(|(krate, _)| krate).collect();
    erase(&crates, &read).unwrap()
});

static CASES: LazyLock<Vec<Case>> = LazyLock::new(|| {
    let mut cases: Vec<Case> = OUTPUTS.iter().map(|(path, text)| case(path, text)).collect();
    let laws = laws();
    for case in &mut cases {
        case.source = with_added(&without_items(&case.source, &laws));
    }
    cases
});

fn read(path: &str) -> Option<String> {
    fs::read_to_string(Path::new(env!("CARGO_MANIFEST_DIR")).join("../..").join(path)).ok()
}

fn case(path: &str, text: &str) -> Case {
    let head = text.strip_prefix("// Generated from ").unwrap();
    let source_path = head.split_once(" by rust/erase; edit the source.\n").unwrap().0.to_string();
    Case {
        path: path.to_string(),
        krate: source_path.split('/').nth(1).unwrap().to_string(),
        tokens: code(text),
        source: without_ghosts(&code(&read(&source_path).unwrap())),
        source_path,
    }
}

// The tokens of a text without its comments.
fn code(text: &str) -> Vec<String> {
    let tokens = tokens(text).unwrap();
    tokens.into_iter().map(|token| token.text).filter(|text| !text.is_empty()).collect()
}

fn is(tokens: &[String], i: usize, text: &str) -> bool {
    tokens.get(i).is_some_and(|token| token == text)
}

// How many tokens end with the first one of these texts outside of brackets, closing ones included.
fn len_to(tokens: &[String], ends: &[&str]) -> usize {
    let mut depth = 0;
    let is_end = |token: &String| {
        depth += i32::from(["(", "[", "{"].contains(&token.as_str()));
        depth -= i32::from([")", "]", "}"].contains(&token.as_str()));
        depth == 0 && ends.contains(&token.as_str())
    };
    1 + tokens.iter().position(is_end).unwrap()
}

// The length of the ghost item, clause, proof, test or attribute of the proof at the start.
fn ghost_len(tokens: &[String]) -> usize {
    let is_block = is(tokens, 1, "{") || is(tokens, 2, "{");
    let attribute = tokens.get(2).and_then(|name| get("attribute", name));
    match tokens[0].as_str() {
        "ghost" | "prove" => len_to(tokens, &[";", ","]),
        "requires" | "ensures" if is_block => len_to(tokens, &["}"]),
        "#" if is(tokens, 1, "!") => len_to(tokens, &["]"]),
        "#" if attribute == Some("goes") => len_to(tokens, &["]"]),
        "#" if is(tokens, 2, "cfg") => {
            len_to(tokens, &["]"]) + {
                let item = &tokens[len_to(tokens, &["]"])..];
                len_to(item, &["}", ";"])
            }
        }
        _ => 0,
    }
}

// The tokens of a source without what is of the proof alone.
fn without_ghosts(tokens: &[String]) -> Vec<String> {
    let (mut kept, mut i) = (Vec::new(), 0);
    while i < tokens.len() {
        let ghost = ghost_len(&tokens[i..]);
        if ghost == 0 && is(tokens, i, "#") && is(tokens, i + 2, "derive") {
            let len = len_to(&tokens[i..], &["]"]);
            kept.extend(derive_without_ghosts(&tokens[i..i + len]));
            i += len;
        } else if ghost == 0 {
            kept.push(tokens[i].clone());
            i += 1;
        }
        i += ghost;
    }
    kept
}

fn derive_without_ghosts(tokens: &[String]) -> Vec<String> {
    let names = tokens[4..tokens.len() - 2].iter().filter(|token| *token != ",");
    let names: Vec<&str> =
        names.map(String::as_str).filter(|name| get("derive", name).is_none()).collect();
    if names.is_empty() { Vec::new() } else { code(&format!("#[derive({})]", names.join(","))) }
}

// The functions without parameters and result that do nothing but call such functions, in any file.
fn laws() -> Vec<String> {
    let sources = all("crate").map(|(krate, _)| format!("crates/{krate}/src"));
    let mut folders: Vec<_> = sources
        .map(|path| Path::new(env!("CARGO_MANIFEST_DIR")).join("../..").join(path))
        .collect();
    let mut bodies = BTreeMap::new();
    while let Some(folder) = folders.pop() {
        for entry in fs::read_dir(folder).unwrap() {
            let path = entry.unwrap().path();
            if path.is_dir() {
                folders.push(path);
            } else {
                let tokens = without_ghosts(&code(&fs::read_to_string(path).unwrap()));
                bodies.extend((0..tokens.len()).filter_map(|i| bare_function(&tokens[i..])));
            }
        }
    }
    let is_law = |name: &str, laws: &BTreeMap<String, String>| laws.contains_key(name);
    let mut count = 0;
    while count != bodies.len() {
        count = bodies.len();
        let known = bodies.clone();
        bodies.retain(|_, body: &mut String| {
            let mut calls = body.split_terminator(';');
            calls.all(|call| {
                is_law(call.trim_end_matches("()").rsplit("::").next().unwrap(), &known)
            })
        });
    }
    bodies.into_keys().collect()
}

// The name and the body of `fn name() {..}` at the start.
fn bare_function(tokens: &[String]) -> Option<(String, String)> {
    let is_bare = is(tokens, 0, "fn") && is(tokens, 3, ")") && is(tokens, 4, "{");
    is_bare.then(|| (tokens[1].clone(), tokens[5..3 + len_to(&tokens[4..], &["}"])].concat()))
}

// The tokens without law functions, models, the trait of flag types, and the bound `Drop`.
fn without_items(tokens: &[String], laws: &[String]) -> Vec<String> {
    let (mut kept, mut i): (Vec<String>, usize) = (Vec::new(), 0);
    while i < tokens.len() {
        let is_law = bare_function(&tokens[i..]).is_some_and(|(name, _)| laws.contains(&name));
        let is_model = is(tokens, i, "impl") && {
            let header = &tokens[i..i + tokens[i..].iter().position(|token| token == "{").unwrap()];
            header
                .windows(2)
                .any(|pair| ["Model", "Flags"].contains(&&*pair[0]) && pair[1] == "for")
        };
        if is_law || is_model {
            kept.truncate(kept.len() - usize::from(is(&kept, kept.len().wrapping_sub(1), "pub")));
            i += len_to(&tokens[i..], &["}"]);
        } else if (is(tokens, i, "+") || is(tokens, i, ":")) && is(tokens, i + 1, "Drop") {
            i += 2;
        } else {
            kept.push(tokens[i].clone());
            i += 1;
        }
    }
    kept
}

// The name of the struct or enum whose attributes, or the item itself, stand at the start.
fn type_at(mut tokens: &[String]) -> Option<&str> {
    loop {
        match tokens.first()?.as_str() {
            "#" => tokens = &tokens[len_to(tokens, &["]"])..],
            "pub" if is(tokens, 1, "(") => tokens = &tokens[1 + len_to(&tokens[1..], &[")"])..],
            "pub" => tokens = &tokens[1..],
            "struct" | "enum" => return Some(&tokens[1]),
            _ => return None,
        }
    }
}

// The tokens with the derives, attributes and visibility that the table gives.
fn with_added(tokens: &[String]) -> Vec<String> {
    let (mut out, mut i): (Vec<String>, usize) = (Vec::new(), 0);
    while i < tokens.len() {
        let rest = &tokens[i..];
        let begins = !is(&out, out.len().wrapping_sub(1), "pub")
            && !is(&out, out.len().wrapping_sub(1), "]");
        let name = type_at(rest).filter(|_| begins || is(rest, 0, "#"));
        let mark = name.filter(|_| begins).and_then(|name| get("marked", name));
        out.extend(mark.iter().flat_map(|mark| code(&format!("#[{mark}]"))));
        let len = match (name, rest[0].as_str()) {
            (Some(name), "#") if is(rest, 2, "derive") => {
                let len = len_to(rest, &["]"]);
                let hash = rest[..len].iter().any(|token| token == "Eq").then_some("Hash");
                let names = hash.into_iter().chain(get("derives", name));
                let list: String = names.map(|names| format!(",{names}")).collect();
                out.extend_from_slice(&rest[..len - 2]);
                out.extend(code(&list));
                out.extend_from_slice(&rest[len - 2..len]);
                len
            }
            (_, "struct") if get("open", &rest[1]).is_some() => {
                let len = len_to(rest, &["}"]);
                for (j, token) in rest[..len].iter().enumerate() {
                    let is_field =
                        is(rest, j + 1, ":") && ["{", ","].contains(&rest[j - 1].as_str());
                    out.extend(if is_field { code("pub(crate)") } else { Vec::new() });
                    out.push(token.clone());
                }
                len
            }
            (_, "pub") if is(rest, 1, "fn") && is_inner(tokens, i) => {
                out.extend(code("pub(crate)"));
                1
            }
            (_, token) => {
                out.push(token.to_string());
                1
            }
        };
        i += len;
    }
    out
}

// Whether the table has the function at `i` as a method that only the crate sees.
fn is_inner(tokens: &[String], i: usize) -> bool {
    let is_item = |j: usize| j == 0 || ["}", ";", "]"].contains(&tokens[j - 1].as_str());
    let is_known = all("inner").any(|(path, _)| path.ends_with(&format!("::{}", tokens[i + 2])));
    let owner = (0..i).rev().find(|j| is_known && tokens[*j] == "impl" && is_item(*j));
    owner.is_some_and(|j| get("inner", &format!("{}::{}", tokens[j + 1], tokens[i + 2])).is_some())
}

// What a word of a source may stand as, the longest first.
fn forms(word: &str, krate: &str) -> Vec<Vec<String>> {
    let mut forms: Vec<&str> = vec![word];
    forms.extend(get("name", word).or(get("foreign", word)));
    forms.extend((word == "collect").then_some("collect_in"));
    let begins = |path: &str| path.split("::").next() == Some(word);
    forms.extend(all("root").filter(|(path, _)| begins(path)).map(|(_, root)| root));
    let own = if word == "crate" { krate } else { word };
    let generated = format!("crate::generated::{own}");
    if get("crate", own).is_some() && get("crate", own) == get("crate", krate) {
        forms.push(&generated);
    }
    let mut forms: Vec<Vec<String>> = forms.iter().map(|form| code(form)).collect();
    forms.sort_by_key(|form| std::cmp::Reverse(form.len()));
    forms
}

// The words that may stand as others.
static RENAMED: LazyLock<BTreeSet<&str>> = LazyLock::new(|| {
    let kinds = ["name", "foreign", "crate", "root"].into_iter();
    let words = kinds.flat_map(all).filter_map(|(word, _)| word.split("::").next());
    words.chain(["crate", "collect"]).collect()
});

// How many of these tokens a source's word stands for.
fn form_len(word: &str, krate: &str, tokens: &[String]) -> Option<usize> {
    if !RENAMED.contains(word) {
        return is(tokens, 0, word).then_some(1);
    }
    forms(word, krate).iter().find(|form| tokens.starts_with(form)).map(Vec::len)
}

// How many tokens the first ones of a source stand for, at most `count` of them; none if one isn't
// there, unless it may be left out.
fn matched(source: &[String], krate: &str, tokens: &[String], may_lack: bool) -> Option<usize> {
    let mut len = 0;
    for word in source {
        match form_len(word, krate, &tokens[len..]) {
            Some(form) => len += form,
            None if may_lack => {}
            None => return None,
        }
    }
    Some(len)
}

// The import or the module without a body at the start, and `pub` before it.
fn line_len(tokens: &[String]) -> Option<usize> {
    let visibility = match tokens {
        [first, open, ..] if first == "pub" && open == "(" => 1 + len_to(&tokens[1..], &[")"]),
        [first, ..] => usize::from(first == "pub"),
        [] => 0,
    };
    let is_line = is(tokens, visibility, "use")
        || is(tokens, visibility, "mod") && is(tokens, visibility + 2, ";");
    is_line.then(|| len_to(tokens, &[";"]))
}

// Reads a source along with tokens: returns the runs that the tokens lack, or where they have
// something that the source doesn't explain.
fn runs(case: &Case, tokens: &[String]) -> Result<Vec<String>, String> {
    let (source, krate) = (&case.source, case.krate.as_str());
    let mut rest = tokens.strip_prefix(code(PRELUDE).as_slice()).unwrap_or(tokens);
    let (mut runs, mut i) = (Vec::new(), 0);
    while i < source.len() {
        if let Some(len) = line_len(&source[i..]) {
            let line = line_len(rest).map_or(0, |len| len);
            if matched(&source[i..i + len], krate, &rest[..line], true) == Some(line) {
                rest = &rest[line..];
            }
            i += len;
        } else if let Some(len) = form_len(&source[i], krate, rest) {
            rest = &rest[len..];
            i += 1;
        } else {
            let end = run_end(case, i, rest).ok_or(format!("{}: {:?}", case.path, rest.first()))?;
            runs.push(format!("{}: {}", case.source_path, source[i..end].join(" ")));
            i = end;
        }
    }
    rest.first().map_or(Ok(runs), |token| Err(format!("{}: {token}", case.path)))
}

// The end of a run that tokens lack: balanced, and what follows it stands there.
fn run_end(case: &Case, start: usize, rest: &[String]) -> Option<usize> {
    let source = &case.source;
    let mut depths = [0; 3];
    (start + 1..=source.len()).find(|end| {
        let token = source[end - 1].as_str();
        for (depth, [open, close]) in depths.iter_mut().zip([["(", ")"], ["{", "}"], ["[", "]"]]) {
            *depth += i32::from(token == open) - i32::from(token == close);
        }
        let next = &source[*end..(end + 4).min(source.len())];
        depths == [0; 3]
            && matched(next, &case.krate, rest, false).is_some_and(|len| len > 0 || rest.is_empty())
    })
}

// The runs that files may lack, as runs.txt lists them.
fn listed(case: &Case) -> Vec<String> {
    let lines = include_str!("runs.txt").lines().filter(|line| !line.starts_with('#'));
    lines
        .filter(|line| line.starts_with(&format!("{}: ", case.source_path)))
        .map(str::to_string)
        .collect()
}

#[test]
fn every_file_is_its_source_without_what_is_of_the_proof() {
    assert!(CASES.len() > 100, "{} files", CASES.len());
    let mut differences = Vec::new();
    for case in CASES.iter() {
        let found = runs(case, &case.tokens);
        if found.as_ref() != Ok(&listed(case)) {
            differences.extend(found.unwrap_or_else(|error| vec![error]));
        }
    }
    assert!(differences.is_empty(), "not as runs.txt has it:\n{}", differences.join("\n"));
}

#[test]
fn a_module_is_left_out_only_where_no_code_is_left_of_it() {
    for case in CASES.iter() {
        for (i, _) in case.source.iter().enumerate().filter(|(_, token)| *token == "mod") {
            let (name, folder) =
                (&case.source[i + 1], case.path.trim_end_matches(".rs").trim_end_matches("/mod"));
            let is_made = OUTPUTS.contains_key(&format!("{folder}/{name}.rs"));
            let declared =
                case.tokens.windows(3).any(|line| line[..2] == ["mod", name] && line[2] == ";");
            assert!(is_made == declared || is(&case.source, i + 2, "{"), "{}: {name}", case.path);
        }
    }
}

#[test]
fn no_old_name_is_left() {
    for case in CASES.iter() {
        let is_old = |token: &&String| get("name", token).is_some();
        assert_eq!(case.tokens.iter().find(is_old), None, "{}", case.path);
    }
}

#[test]
fn the_specifications_that_the_documentation_names_are_files() {
    let mut count = 0;
    for line in OUTPUTS.values().flat_map(|text| text.lines()) {
        let path = line.rsplit(": ").next().map(|path| path.trim_matches('`'));
        let path = path.filter(|path| path.ends_with(".antt"));
        if let Some(path) = path.filter(|_| line.starts_with("/// - ")) {
            assert!(read(path).is_some(), "{path}");
            count += 1;
        }
    }
    assert!(count > 100, "{count} lines");
}

#[test]
fn what_docs_txt_says_stands_before_its_function() {
    // (names may have become links)
    let plain = |text: &str| text.replace("[`", "`").replace("`]", "`");
    let lines = |text: &str| -> String {
        let line = |line: &str| format!("/// {line}").trim_end().to_string() + "\n";
        text.lines().map(line).collect()
    };
    assert!(erase::docs::all().count() > 30);
    for (name, text) in erase::docs::all() {
        let folder = format!("generated/{}/", name.split("::").next().unwrap());
        let function = format!("fn {}", name.rsplit("::").next().unwrap());
        let has = |text_of: &String| {
            plain(text_of).contains(&plain(&lines(text))) && text_of.contains(&function)
        };
        let mut outputs = OUTPUTS.iter().filter(|(path, _)| path.contains(&folder));
        assert!(outputs.any(|(_, output)| has(output)), "{name} of docs.txt is no function");
    }
}

// Fails where a planted change of a file is explained.
fn expect_found(case: &Case, planted: &[String]) {
    assert_ne!(runs(case, planted), Ok(listed(case)), "{}", case.path);
}

// Three places of a file's code, imports apart.
fn places(case: &Case) -> Vec<usize> {
    let (mut places, mut i) = (Vec::new(), 0);
    while i < case.tokens.len() {
        let line = line_len(&case.tokens[i..]);
        places.extend(line.map_or(Some(i), |_| None));
        i += line.unwrap_or(1);
    }
    let step = places.len().div_ceil(3).max(1);
    places.into_iter().rev().step_by(step).collect()
}

#[test]
fn a_changed_token_is_found() {
    for case in CASES.iter() {
        for i in places(case) {
            let mut tokens = case.tokens.clone();
            tokens[i] = "planted".to_string();
            expect_found(case, &tokens);
        }
    }
}

#[test]
fn an_added_token_is_found() {
    for case in CASES.iter() {
        for i in places(case) {
            let mut tokens = case.tokens.clone();
            tokens.insert(i, "unsafe".to_string());
            expect_found(case, &tokens);
        }
    }
}

#[test]
fn a_deleted_token_is_found() {
    for case in CASES.iter() {
        for i in places(case) {
            let mut tokens = case.tokens.clone();
            tokens.remove(i);
            expect_found(case, &tokens);
        }
    }
}

#[test]
fn a_deleted_arm_is_found() {
    let has_arm = |case: &&Case| case.tokens.windows(2).any(|pair| pair == ["Absent", "=>"]);
    let case = CASES.iter().find(has_arm).unwrap();
    let i = case.tokens.windows(2).position(|pair| pair == ["Absent", "=>"]).unwrap();
    let mut tokens = case.tokens.clone();
    tokens.drain(i - 2..i + 4);
    expect_found(case, &tokens);
}

#[test]
fn swapped_tokens_are_found() {
    for case in CASES.iter() {
        for i in places(case).into_iter().filter(|i| *i > 0) {
            let mut tokens = case.tokens.clone();
            tokens.swap(i - 1, i);
            if tokens[i] != tokens[i - 1] {
                expect_found(case, &tokens);
            }
        }
    }
}

#[test]
fn a_second_prelude_is_found() {
    for case in CASES.iter() {
        expect_found(case, &[code(PRELUDE), code(PRELUDE), case.tokens.clone()].concat());
    }
}

#[test]
fn tokens_of_another_file_are_found() {
    for pair in CASES.windows(2) {
        expect_found(&pair[0], &pair[1].tokens);
    }
}

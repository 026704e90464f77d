//! A source file as tokens that can be cut, and the extent of its items.

use crate::token::{Token, is_part, tokens};
use std::collections::{BTreeMap, BTreeSet};
use std::ops::RangeInclusive;

/// A source file: what is left of its tokens, of which the last one is empty, the words that are
/// gone, and the names that contracts import from the specifications, each with its file.
pub struct File {
    pub path: String,
    pub tokens: Vec<Token>,
    pub erased: BTreeSet<String>,
    pub definitions: BTreeMap<String, String>,
}

impl File {
    /// Reads a file. Returns an error where a comment, a string or a bracket has no end.
    pub fn new(path: &str, text: &str) -> Result<Self, String> {
        let open = |line| format!("{path}:{line}: a comment or a string without an end");
        let (path, tokens) = (path.to_string(), tokens(text).map_err(open)?);
        let file = File { path, tokens, erased: BTreeSet::new(), definitions: BTreeMap::new() };
        let kind = |i: usize| "([{)]}".find(file.text(i));
        let is_open =
            |i: &usize| kind(*i).is_some_and(|k| kind(file.partner(*i)) != Some((k + 3) % 6));
        match (0..file.tokens.len() - 1).find(is_open) {
            Some(i) => Err(file.fault(i, &format!("unbalanced `{}`", file.text(i)))),
            None => Ok(file),
        }
    }

    /// An error at a token.
    pub fn fault(&self, i: usize, message: &str) -> String {
        format!("{}:{}: {message}", self.path, self.tokens[i].line)
    }

    /// The characters of a token; none outside of the file.
    pub fn text(&self, i: usize) -> &str {
        self.tokens.get(i).map_or("", |token| &token.text)
    }

    /// The characters of the token before.
    pub fn before(&self, i: usize) -> &str {
        self.text(i.wrapping_sub(1))
    }

    /// The characters of some tokens.
    pub fn joined(&self, range: RangeInclusive<usize>) -> String {
        range.map(|i| self.text(i)).collect()
    }

    /// The places of a word, the last one first, so that what is cut there moves none to come.
    pub fn places(&self, word: &str) -> Vec<usize> {
        (0..self.tokens.len()).rev().filter(|i| self.text(*i) == word).collect()
    }

    /// The nearest place before with one of these texts.
    pub fn nearest(&self, i: usize, texts: &[&str]) -> Option<usize> {
        (0..i).rev().find(|j| texts.contains(&self.text(*j)))
    }

    /// The partner of a bracket; another token's own place.
    pub fn partner(&self, i: usize) -> usize {
        let is_in = |j: usize, brackets: &str| i32::from(brackets.contains(self.text(j)));
        let step = |j: usize| is_in(j, "([{") - is_in(j, ")]}");
        let mut depth = 0;
        let is_partner = |j: &usize| {
            depth += step(*j);
            depth == 0
        };
        let (mut behind, mut before) = (i..self.tokens.len(), (0..=i).rev());
        let found = if step(i) > 0 { behind.find(is_partner) } else { before.find(is_partner) };
        found.unwrap_or(i)
    }

    /// The first token of the item with its keyword at `i`: an attribute, `pub`, or the keyword.
    pub fn start(&self, i: usize) -> usize {
        let open = self.partner(i.saturating_sub(1));
        match (self.before(i), self.before(open)) {
            ("pub" | "const" | "unsafe", _) => self.start(i - 1),
            (")", "pub") | ("]", "#") => self.start(open - 1),
            _ => i,
        }
    }

    /// The last token of the item or statement with its keyword at `i`: a semicolon, or the closing
    /// brace of its body.
    pub fn end(&self, i: usize) -> Result<usize, String> {
        let has_body = !matches!(self.text(i), "ghost" | "use" | "const" | "static" | "type");
        let mut j = i;
        while self.text(j) != ";" && !(has_body && self.text(j) == "{") {
            j = self.partner(j) + 1;
            if matches!(self.text(j), ")" | "]" | "}" | "") {
                return Err(self.fault(i, "an item without an end"));
            }
        }
        Ok(self.partner(j))
    }

    /// Whether a token is part of an import. What no import has, as the numbers and the brackets of a
    /// table, ends the search: tables are long.
    pub fn is_import(&self, i: usize) -> bool {
        let is_name = |text: &str| text.starts_with(|c: char| is_part(c) && !c.is_ascii_digit());
        let can_stand = |text| matches!(text, "::" | "{" | "}" | "," | "*") || is_name(text);
        let mut back = (0..=i).rev().map(|j| self.text(j));
        back.find(|text| *text == "use" || !can_stand(text)) == Some("use")
    }

    /// Cuts tokens out; the comments before them stay.
    pub fn cut(&mut self, range: RangeInclusive<usize>) {
        let lead = self.tokens[*range.start()].lead.clone();
        let behind = &mut self.tokens[*range.end() + 1].lead;
        *behind = if behind.trim().is_empty() { lead } else { lead + behind };
        let words = self.tokens.drain(range).map(|token| token.text);
        self.erased.extend(words.filter(|word| word.starts_with(is_part)));
    }

    /// Cuts an item or a statement out, with the comments that stand directly on it.
    pub fn cut_item(&mut self, range: RangeInclusive<usize>) {
        let lead = &self.tokens[*range.start()].lead;
        let inner = lead.rfind("//!").map(|i| i + lead[i..].find('\n').unwrap_or(0));
        let trailing = lead.find('\n').filter(|_| *range.start() > 0);
        let kept = lead.rfind("\n\n").max(inner).max(trailing).map_or(0, |i| i + 1);
        let kept = lead[..kept].trim_start_matches(['\n', ' ']).to_string();
        let (start, lead) = (*range.start(), kept + &self.tokens[range.end() + 1].lead);
        self.cut(range);
        self.tokens[start].lead = lead;
    }

    /// Cuts out the parameter, argument, field, bound, import or statement that a token stands in.
    pub fn cut_element(&mut self, i: usize) {
        let (mut first, mut last) = (i, self.partner(i).max(i));
        let opens = |text| matches!(text, "," | ";" | "(" | "[" | "{" | "}" | "<" | "where");
        while first > 0 && !opens(self.before(first)) {
            first = self.partner(first - 1);
        }
        while !matches!(self.text(last + 1), "" | "," | ";" | ")" | "]" | "{" | "}" | ">") {
            last = self.partner(last + 1);
        }
        match (self.before(first), self.text(last + 1)) {
            (_, "," | ";") => self.cut_item(first..=last + 1),
            (",", _) => self.cut_item(first - 1..=last),
            ("<", ">") => self.cut(first - 1..=last + 1),
            _ => self.cut_item(first..=last),
        }
    }

    /// The path of the file of a module that this file declares.
    pub fn path_of_module(&self, name: &str) -> String {
        let folder = self.path.trim_end_matches(".rt").trim_end_matches("/lib");
        format!("{folder}/{name}.rt")
    }
}

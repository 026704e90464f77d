//! The tokens of Rust and of the contracts beside it.

/// A token of code.
#[derive(Clone, Debug)]
pub struct Token {
    /// The white space and the comments before it.
    pub lead: String,
    /// Its characters.
    pub text: String,
    /// Its line, from 1.
    pub line: usize,
}

/// The tokens of a text; the last one is empty and has what stands behind the others. Returns the
/// line of a comment or a string without an end.
pub fn tokens(text: &str) -> Result<Vec<Token>, usize> {
    let (mut tokens, mut rest, mut line) = (Vec::new(), text, 1);
    while tokens.last().is_none_or(|token: &Token| !token.text.is_empty()) {
        let (lead, code) = rest.split_at(lead_len(rest));
        line += lead.matches('\n').count();
        let (text, behind) = code.split_at(code_len(code).ok_or(line)?);
        tokens.push(Token { lead: lead.to_string(), text: text.to_string(), line });
        line += text.matches('\n').count();
        rest = behind;
    }
    Ok(tokens)
}

/// Whether a character can be part of an identifier or a number.
pub fn is_part(c: char) -> bool {
    c == '_' || c.is_alphanumeric()
}

// The length of the white space and the comments that a text begins with.
fn lead_len(text: &str) -> usize {
    let rest = text.trim_start();
    let comment = match rest.get(..2) {
        Some("//") => rest.find('\n').or(Some(rest.len())),
        Some("/*") => rest.find("*/").map(|end| end + 2),
        _ => None,
    };
    let len = text.len() - rest.len();
    comment.map_or(len, |comment| len + comment + lead_len(&rest[comment..]))
}

// The length of the token of code that a text begins with; None where it has no end.
fn code_len(text: &str) -> Option<usize> {
    let quoted = text.trim_start_matches(['b', 'r']).trim_start_matches('#');
    let prefix = text.len() - quoted.len();
    let hashes = text[..prefix].matches('#').count();
    let mut chars = quoted.chars();
    match (chars.next(), chars.next(), chars.next()) {
        (Some('"'), ..) if text[..prefix].contains('r') => {
            let end = format!("\"{}", "#".repeat(hashes));
            return quoted[1..].find(&end).map(|i| prefix + 1 + i + end.len());
        }
        (Some('"'), ..) if hashes == 0 => return quoted_len(quoted, '"').map(|len| prefix + len),
        (Some('\''), Some('\\'), _) | (Some('\''), _, Some('\'')) if hashes == 0 => {
            return quoted_len(quoted, '\'').map(|len| prefix + len);
        }
        _ if text.starts_with("/*") => return None,
        _ => {}
    }
    let word_len = |text: &str| text.find(|c| !is_part(c)).unwrap_or(text.len());
    let lifetime = text.strip_prefix('\'').map_or(0, |name| 1 + word_len(name));
    let sign = text.chars().next().map_or(0, char::len_utf8);
    let is_double = ["::", "->", "=>"].iter().any(|sign| text.starts_with(sign));
    Some(if is_double { 2 } else { sign.max(lifetime).max(word_len(text)) })
}

// The length of a literal between quotes that a text begins with.
fn quoted_len(text: &str, quote: char) -> Option<usize> {
    let mut is_escaped = false;
    let is_end = |(i, c): &(usize, char)| {
        let is_end = *i > 0 && *c == quote && !is_escaped;
        is_escaped = *c == '\\' && !is_escaped;
        is_end
    };
    text.char_indices().find(is_end).map(|(i, _)| i + 1)
}

//! Writing JSON (RFC 8259).

/// An object of fields, whose values are JSON.
pub fn object(fields: &[(&str, String)]) -> String {
    let fields = fields.iter().map(|(name, value)| format!("{}:{value}", string(name)));
    format!("{{{}}}", fields.collect::<Vec<_>>().join(","))
}

/// A list of values, which are JSON.
pub fn array(values: impl Iterator<Item = String>) -> String {
    format!("[{}]", values.collect::<Vec<_>>().join(","))
}

/// A list of texts.
pub fn strings<T: AsRef<str>>(texts: &[T]) -> String {
    array(texts.iter().map(|text| string(text.as_ref())))
}

/// A text, in quotation marks.
pub fn string(text: &str) -> String {
    let mut quoted = String::with_capacity(text.len() + 2);
    quoted.push('"');
    for character in text.chars() {
        match character {
            '"' | '\\' => quoted.extend(['\\', character]),
            '\0'..='\u{1F}' => quoted.push_str(&format!("\\u{:04x}", u32::from(character))),
            _ => quoted.push(character),
        }
    }
    quoted.push('"');
    quoted
}

#[cfg(test)]
mod tests {
    use super::{object, string, strings};

    #[test]
    fn quotation_marks_and_controls_are_escaped() {
        assert_eq!(string("a\"\\\n\u{7F}\u{1780}"), "\"a\\\"\\\\\\u000a\u{7F}\u{1780}\"");
        assert_eq!(object(&[("a", strings(&["b", "c"]))]), "{\"a\":[\"b\",\"c\"]}");
    }
}

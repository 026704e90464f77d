//! Names in documentation as links.

use crate::table::{all, get};

/// The documentation before an item, in which each name of the table's links is one, as far as the
/// first block of code or contract. Where they lead to stands at its end.
pub fn with_links(lead: &str) -> String {
    let docs = lead.find("///").unwrap_or(lead.len());
    let text = lead[docs..].split("/// ```").next().unwrap_or("");
    let text = text.split("/// <details>").next().unwrap_or("");
    let found = all("link").filter(|(name, _)| text.contains(&format!(" `{name}`")));
    let (mut linked, mut targets) = (text.to_string(), String::new());
    for (name, path) in found {
        linked = linked.replace(&format!(" `{name}`"), &format!(" [`{name}`]"));
        targets += &format!("/// [`{name}`]: {path}\n");
    }
    if targets.is_empty() {
        return lead.to_string();
    }
    let rest = &lead[docs + text.len()..];
    let end = rest.rfind("///").and_then(|i| rest[i..].find('\n').map(|j| i + j + 1)).unwrap_or(0);
    format!("{}{linked}{}///\n{targets}{}", &lead[..docs], &rest[..end], &rest[end..])
}

/// Whether a crate's documentation has links: those whose tree has the modules that they lead to.
pub fn has_links(krate: &str) -> bool {
    get("crate", krate).is_some_and(|tree| tree.starts_with("rust/sengadlit/"))
}

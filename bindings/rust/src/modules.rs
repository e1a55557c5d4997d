//! The modules of standards, whose texts the crate has, and which of them others need.

use std::collections::{BTreeMap, BTreeSet};
use std::sync::OnceLock;

include!(concat!(env!("OUT_DIR"), "/modules.rs"));

/// Returns whether the crate was built without the texts.
pub(crate) fn are_missing() -> bool {
    TEXTS.is_empty()
}

/// Returns how long what a text begins with is, and whether it is a word or a sign, and neither a
/// comment nor a string.
fn front(text: &str) -> (usize, bool) {
    let until = |start: usize, end: &str| {
        text[start..]
            .find(end)
            .map_or(text.len(), |at| start + at + end.len())
    };
    if text.starts_with("--") {
        return (comment_length(text), false);
    }
    if text.starts_with("/*") {
        return (until(2, "*/"), false);
    }
    match text.as_bytes() {
        [b'"', ..] => (until(1, "\""), false),
        [b':', b':', b'=', ..] => (3, true),
        [b'{' | b'}', ..] => (1, true),
        [b'A'..=b'Z' | b'a'..=b'z', ..] => (word_length(text), true),
        _ => (text.chars().next().map_or(0, char::len_utf8), false),
    }
}

/// Returns the length of the comment that a text begins with, which two hyphens or a line's end end.
fn comment_length(text: &str) -> usize {
    let octets = text.as_bytes();
    let is_end = |at: &usize| octets[*at] == b'\n' || octets[*at..].starts_with(b"--");
    let end = (2..octets.len()).find(is_end).unwrap_or(octets.len());
    end + if octets[end..].starts_with(b"--") {
        2
    } else {
        0
    }
}

/// Returns the length of the word that a text begins with. Two hyphens end it.
fn word_length(text: &str) -> usize {
    let is_within = |it: u8| it.is_ascii_alphanumeric() || it == b'_';
    let octets = text.as_bytes();
    let ends = |at: &usize| {
        let next = octets.get(at + 1).copied().unwrap_or(b' ');
        !(is_within(octets[*at]) || octets[*at] == b'-' && is_within(next))
    };
    (0..octets.len()).find(ends).unwrap_or(octets.len())
}

/// Returns the words and signs of a text, by which its names are found.
fn tokens(text: &str) -> Vec<&str> {
    let (mut found, mut rest) = (Vec::new(), text);
    while !rest.is_empty() {
        let (length, is_token) = front(rest);
        let (token, after) = rest.split_at(length);
        found.extend(is_token.then_some(token));
        rest = after;
    }
    found
}

/// What a text says of names.
#[derive(Default)]
struct Names<'t> {
    modules: Vec<&'t str>,
    /// The modules that are imported from, each with the number of the module that does.
    imports: Vec<(usize, &'t str)>,
    /// The names before `::=`, and those before a parameter or a value in braces.
    assigned: Vec<&'t str>,
}

fn names(text: &str) -> Names<'_> {
    let (tokens, mut names) = (tokens(text), Names::default());
    let mut before_brace = "";
    for pair in tokens.windows(2) {
        match *pair {
            // The name of a module may have an identifier in braces after it.
            ["}", "DEFINITIONS"] => names.modules.push(before_brace),
            [name, "DEFINITIONS"] => names.modules.push(name),
            ["FROM", module] => names.imports.push((names.modules.len(), module)),
            [name, "::=" | "{"] => {
                names.assigned.push(name);
                before_brace = name;
            }
            _ => {}
        }
    }
    names
}

/// A built-in text, after the name of its file.
type Named = (&'static str, &'static str);

/// Returns the built-in texts that have this type. Each assignment begins a line.
fn with_type(of: &str) -> impl Iterator<Item = Named> {
    let line = format!("\n{of} ::= ");
    TEXTS
        .iter()
        .copied()
        .filter(move |(_, text)| text.contains(&line))
}

/// Returns the built-in text that has this module. The name of each begins a line with DEFINITIONS.
fn with_module(of: &str) -> Option<Named> {
    static FOUND: OnceLock<BTreeMap<&str, Named>> = OnceLock::new();
    let found = FOUND.get_or_init(|| {
        let heads = TEXTS.iter().flat_map(|named| {
            named
                .1
                .match_indices(" DEFINITIONS")
                .map(move |(at, _)| (named, at))
        });
        heads
            .map(|(named, at)| (named.1[..at].rsplit('\n').next().unwrap_or(""), *named))
            .collect()
    });
    found.get(of).copied()
}

/// Returns the built-in texts, with the names of their files, of the modules that these texts
/// import from, directly or not, and of those that have the type if these texts don't. A module of
/// these texts takes the place of the built-in one with its name.
pub(crate) fn needed(own: &[(&str, &str)], of: &str) -> BTreeSet<Named> {
    let given: Vec<Names<'_>> = own.iter().map(|(_, text)| names(text)).collect();
    let mut waiting: Vec<&str> = given
        .iter()
        .flat_map(|it| &it.imports)
        .map(|(_, module)| *module)
        .collect();
    if let Some((module, _)) = of.rsplit_once('.') {
        waiting.push(module);
    } else if !given.iter().any(|it| it.assigned.contains(&of)) {
        waiting.extend(with_type(of).flat_map(|(_, text)| names(text).modules));
    }
    reached(
        waiting,
        given.iter().flat_map(|it| &it.modules).copied().collect(),
    )
}

/// Returns the texts of the built-in modules that are waiting, except those that are seen, and of
/// those that they import from.
fn reached<'t>(mut waiting: Vec<&'t str>, mut seen: BTreeSet<&'t str>) -> BTreeSet<Named> {
    let mut found = BTreeSet::new();
    while let Some(module) = waiting.pop() {
        if seen.insert(module) {
            if let Some(named) = with_module(module) {
                found.insert(named);
                waiting.extend(imports(named.1, module));
            }
        }
    }
    found
}

/// Returns the modules that a module of this text imports from.
fn imports<'t>(text: &'t str, module: &str) -> Vec<&'t str> {
    let names = names(text);
    let number = names
        .modules
        .iter()
        .position(|it| *it == module)
        .map_or(0, |at| at + 1);
    names
        .imports
        .iter()
        .filter(|(of, _)| *of == number)
        .map(|(_, from)| *from)
        .collect()
}

#[cfg(test)]
mod tests {
    use super::names;

    #[test]
    fn reads_names_in_linear_time() {
        let start = std::time::Instant::now();
        for piece in [
            "--a--",
            "/*",
            "\"",
            "\"a\"",
            "A{",
            "A{} DEFINITIONS ",
            "a-",
            "A--",
            "--\n",
            "é",
        ] {
            assert!(names(&piece.repeat(200_000)).modules.len() <= 200_000);
        }
        // Where each piece is looked for the end of another it is minutes.
        assert!(start.elapsed().as_secs() < 20, "{:?}", start.elapsed());
    }
}

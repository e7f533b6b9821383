//! The simulator's own source, read as text.

use crate::script::here;
use std::fs;

/// A file of a crate's `src/`, by its path behind `crates/`.
pub struct Source {
    pub path: String,
    pub text: String,
}

pub fn sources() -> Vec<Source> {
    let mut sources = Vec::new();
    for folder in fs::read_dir(here("crates")).expect("the crates are there") {
        let name = folder.expect("a crate is read").file_name().into_string().expect("a crate has a name");
        for file in fs::read_dir(here(&format!("crates/{name}/src"))).expect("a crate has a source") {
            let file = file.expect("a file is read");
            let text = fs::read_to_string(file.path()).expect("a source is one folder of texts");
            sources.push(Source { path: format!("{name}/src/{}", file.file_name().to_string_lossy()), text });
        }
    }
    sources
}

impl Source {
    /// The crate that it is of.
    pub fn crate_name(&self) -> &str {
        self.path.split('/').next().unwrap_or_default()
    }

    /// Its code, each line in its place: no comments, ghost imports, ghost members and contracts, and nothing in the quotes of a byte, a
    /// character or a string, so that every bracket is the code's own. A contract ends where the body starts, on a line of its own, or,
    /// in a trait, with the semicolon.
    pub fn code(&self) -> String {
        let mut code = String::new();
        let mut contract = false;
        for line in self.text.lines() {
            let line = line.split("//").next().unwrap_or_default();
            let start = line.trim();
            contract |= start.starts_with("requires ") || start.starts_with("ensures ");
            contract &= !["{", "{}"].contains(&start);
            if !contract && !start.starts_with("ghost ") {
                code.push_str(&without_literals(line));
            }
            contract &= !start.ends_with(';');
            code.push('\n');
        }
        code
    }
}

fn without_literals(line: &str) -> String {
    let mut code = String::new();
    let mut rest = line;
    while let Some(at) = rest.find(['"', '\'']) {
        let (before, quote, behind) = (&rest[..at], &rest[at..at + 1], &rest[at + 1..]);
        code += before;
        code += quote;
        // a lifetime has one quote
        let is_literal =
            quote == "\"" || before.ends_with('b') || behind.starts_with('\\') || behind.chars().nth(1) == Some('\'');
        let size = if is_literal { size_of_literal(behind, quote) } else { 0 };
        code += &behind[..size][size.saturating_sub(1)..];
        rest = &behind[size..];
    }
    code + rest
}

/// How many bytes a literal has behind its first quote, the last quote included.
fn size_of_literal(behind: &str, quote: &str) -> usize {
    let mut escaped = false;
    for (at, c) in behind.char_indices() {
        if !escaped && quote.contains(c) {
            return at + 1;
        }
        escaped = !escaped && c == '\\';
    }
    0
}

/// The text up to the bracket that closes the one before it.
pub fn inside(text: &str) -> &str {
    let mut open = 1;
    for (at, c) in text.char_indices() {
        match c {
            '(' | '[' | '{' => open += 1,
            ')' | ']' | '}' => open -= 1,
            _ => {}
        }
        if open == 0 {
            return &text[..at];
        }
    }
    text
}

/// The parts between the commas that stand in no bracket.
pub fn parts(text: &str) -> Vec<&str> {
    let (mut parts, mut open, mut start) = (Vec::new(), 0, 0);
    for (at, c) in text.char_indices() {
        match c {
            '(' | '[' | '{' => open += 1,
            ')' | ']' | '}' => open -= 1,
            ',' if open == 0 => {
                parts.push(text[start..at].trim());
                start = at + 1;
            }
            _ => {}
        }
    }
    parts.push(text[start..].trim());
    parts.retain(|part| !part.is_empty());
    parts
}

/// The words of a code, each with the code before and behind it.
pub fn words(code: &str) -> impl Iterator<Item = (&str, &str, &str)> {
    let is_letter = |c: char| c.is_alphanumeric() || c == '_';
    let starts = code.char_indices().filter(move |(at, c)| is_letter(*c) && !code[..*at].ends_with(is_letter));
    starts.map(move |(at, _)| {
        let end = code[at..].find(|c| !is_letter(c)).map_or(code.len(), |size| at + size);
        (&code[..at], &code[at..end], &code[end..])
    })
}

/// The code before and behind each place of a mark.
pub fn places<'a>(code: &'a str, mark: &'a str) -> impl Iterator<Item = (&'a str, &'a str)> {
    code.match_indices(mark).map(|(at, _)| (&code[..at], &code[at + mark.len()..]))
}

/// A letter of a name, or of a path of names.
pub fn is_named(c: char) -> bool {
    c.is_alphanumeric() || c == '_' || c == '.'
}

//! What is there: files, definitions, functions, must-fail edits, crates.

use std::collections::BTreeSet;
use std::fs;
use std::path::{Path, PathBuf};
use testkit::c::root;

/// The words that pages write for any name.
const PLACEHOLDERS: [&str; 3] = ["CRATE", "NAME", "FUNCTION"];

pub fn crates() -> BTreeSet<String> {
    let text = fs::read_to_string(root().join("crates.txt")).unwrap();
    let lines = text.lines().filter(|line| !line.starts_with('#'));
    // A static library has that word after its name.
    lines
        .filter_map(|line| line.split_once(':'))
        .map(|(name, _)| name.trim_end_matches(" staticlib").to_owned())
        .collect()
}

fn files(folder: &Path) -> Vec<PathBuf> {
    let Ok(entries) = fs::read_dir(folder) else {
        return Vec::new();
    };
    entries.map(|entry| entry.unwrap().path()).collect()
}

/// Whether a name is one of a pattern, in which `*` and a placeholder stand for anything.
fn matches(pattern: &str, name: &str) -> bool {
    let pattern = PLACEHOLDERS
        .iter()
        .fold(pattern.to_owned(), |pattern, word| {
            pattern.replace(word, "*")
        });
    match pattern.split_once('*') {
        None => pattern == name,
        Some((start, end)) => {
            let rest = name.strip_prefix(start);
            rest.is_some_and(|rest| rest.ends_with(end))
        }
    }
}

/// Whether a path from the root leads to something.
pub fn exists(path: &str) -> bool {
    let mut found = vec![root()];
    for part in path.split('/').filter(|part| !part.is_empty()) {
        let next = found.iter().flat_map(|folder| files(folder));
        found = next
            .filter(|path| matches(part, path.file_name().unwrap().to_str().unwrap()))
            .collect();
    }
    !found.is_empty()
}

/// The folder that a path leads to, or the one in which its file is.
pub fn folder(path: &str) -> &str {
    if root().join(path).is_dir() {
        return path;
    }
    path.rsplit_once('/').map_or("", |(folder, _)| folder)
}

/// Whether a crate has a must-fail edit of this name.
pub fn is_edit(of: &str, name: &str) -> bool {
    exists(&format!("crates/{of}/must-fail/{name}.edit"))
}

/// The crates that have must-fail edits.
pub fn edited() -> Vec<String> {
    let all = crates().into_iter();
    all.filter(|name| is_edit(name, "*")).collect()
}

/// The words of a line before its colon.
fn declared(line: &str) -> Option<impl Iterator<Item = &str>> {
    let (names, _) = line.split_once(" :")?;
    Some(names.split(' '))
}

/// What a text of definitions or laws defines for others: definitions, records, data types, their fields and constructors.
fn definitions(text: &str) -> BTreeSet<&str> {
    let (mut names, mut in_data) = (BTreeSet::new(), false);
    for line in text.lines() {
        if !line.starts_with(' ') && !line.is_empty() {
            in_data = line.starts_with("pub data ");
        }
        let bare = line.trim_start();
        let bare = ["abbrev ", "unfoldable "]
            .iter()
            .find_map(|word| bare.strip_prefix(word))
            .unwrap_or(bare);
        if let Some(rest) = bare.strip_prefix("pub ") {
            let typed = ["record ", "data "]
                .iter()
                .find_map(|word| rest.strip_prefix(word));
            match typed {
                Some(rest) => names.extend(rest.split(' ').next()),
                None => names.extend(declared(rest).into_iter().flatten()),
            }
        } else if in_data && line.starts_with("  ") && !bare.starts_with("--") {
            names.extend(declared(bare).into_iter().flatten());
        }
    }
    names
}

/// Whether a text of code has a function, type or constant of this name.
fn has_item(text: &str, name: &str) -> bool {
    ["fn ", "struct ", "enum ", "const "].iter().any(|kind| {
        let start = format!("{kind}{name}");
        let mut ends = text
            .match_indices(&start)
            .map(|(at, _)| &text[at + start.len()..]);
        ends.any(|end| !end.starts_with(|c: char| c.is_alphanumeric() || c == '_'))
    })
}

/// Whether a file, by its path from the root, defines a name.
pub fn defines(file: &str, name: &str) -> bool {
    let Ok(text) = fs::read_to_string(root().join(file)) else {
        return false;
    };
    if file.ends_with(".rt") {
        has_item(&text, name)
    } else {
        definitions(&text).contains(name)
    }
}

/// Whether a crate's code has a function, type or constant of this name.
pub fn has_code(of: &str, name: &str) -> bool {
    let sources = files(&root().join("crates").join(of).join("src"));
    sources
        .iter()
        .any(|path| has_item(&fs::read_to_string(path).unwrap(), name))
}

//! How pages refer to what is in the tree. A quote is told by its form alone:
//!
//! - `crate/specs/File` or `crate/proofs/File` is `crates/crate/specs/File.antt`, also where it is written so; names in a list after it and a
//!   colon or a parenthesis, or before it and "in" or a parenthesis, are defined there. After `crate/specs` and a colon come its files.
//! - `crate::function`, perhaps with modules or a type between, is in the crate's code.
//! - `crate/name` is a must-fail edit of that crate, and so are the names with `_` that follow in its list.
//! - A path begins with a folder of the root. The name of a file alone is in the folder that was named last, or beside the file.

use crate::page::{Page, Quote, is_separator};
use crate::tree;

/// The folders in which pages name files.
const FOLDERS: [&str; 6] = ["docs/", "crates/", "rust/", "examples/", "include/", ".ci/"];

pub fn is_path(text: &str) -> bool {
    FOLDERS.iter().any(|folder| text.starts_with(folder))
}

/// The file of definitions or code that a quote names, by its path from the root.
pub fn file_of(text: &str) -> Option<String> {
    if text.starts_with("crates/") && (text.ends_with(".antt") || text.ends_with(".rt")) {
        return Some(text.to_owned());
    }
    let parts: Vec<_> = text.split('/').collect();
    match parts[..] {
        [of, "specs" | "proofs", _] if of != "crates" => Some(format!("crates/{text}.antt")),
        [_, "src", file] if file.ends_with(".rt") => Some(format!("crates/{text}")),
        _ => None,
    }
}

/// The crate and name of a must-fail edit.
pub fn edit_of(text: &str) -> Option<(&str, &str)> {
    let word = |c: char| c.is_ascii_lowercase() || c.is_ascii_digit() || "_*".contains(c);
    let (of, name) = text.split_once('/')?;
    let folder = ["specs", "proofs", "src"].contains(&name);
    let whole = !name.is_empty() && of.chars().all(word) && name.chars().all(word);
    (whole && !folder && !is_path(text)).then_some((of, name))
}

/// The crate and the last name of a path in the code.
pub fn code_of(text: &str) -> Option<(&str, &str)> {
    let (of, rest) = text.split_once("::")?;
    let last = rest.rsplit("::").next().unwrap();
    of.starts_with(|c: char| c.is_ascii_lowercase())
        .then_some((of, last))
}

/// Whether a quote can be the name of a definition.
pub fn is_name(text: &str) -> bool {
    let letter = |c: char| c.is_ascii_alphanumeric() || "-_".contains(c);
    text.starts_with(|c: char| c.is_ascii_alphabetic()) && text.chars().all(letter)
}

/// For each quote the file that it is listed after, if any.
pub fn listed(quotes: &[Quote]) -> Vec<Option<String>> {
    let mut listed = Vec::new();
    let (mut file, mut opened): (Option<String>, bool) = (None, false);
    for quote in quotes {
        let between = quote.before.trim();
        let goes_on = if opened {
            [":", "("].contains(&between)
        } else {
            is_separator(between)
        };
        let own = file_of(quote.text);
        opened = own.is_some();
        let within = file.filter(|_| goes_on && !opened);
        listed.push(within.clone());
        file = own.or(within);
    }
    listed
}

/// The names listed before each file and "in" or a parenthesis: the quotes' indices, and the file.
pub fn led(quotes: &[Quote]) -> Vec<(usize, String)> {
    let mut led = Vec::new();
    for (index, quote) in quotes.iter().enumerate() {
        let Some(file) = file_of(quote.text).filter(|_| ["in", "("].contains(&quote.before.trim()))
        else {
            continue;
        };
        let mut at = index;
        while at > 0 && (at == index || is_separator(quotes[at].before)) {
            at -= 1;
            led.push((at, file.clone()));
        }
    }
    led
}

/// For each quote the file that it is in the list after `crate/specs` and a colon, if any.
pub fn in_folder(quotes: &[Quote]) -> Vec<Option<String>> {
    let mut files = Vec::new();
    let (mut folder, mut opened): (Option<&str>, bool) = (None, false);
    for quote in quotes {
        let goes_on = if opened {
            quote.before.trim() == ":"
        } else {
            is_separator(quote.before)
        };
        let own = Some(quote.text).filter(|text| is_specs(text));
        opened = own.is_some();
        let within = folder.filter(|_| goes_on && !opened);
        files.push(within.map(|of| format!("crates/{of}/{}.antt", quote.text)));
        folder = own.or(within);
    }
    files
}

/// Whether a quote is `crate/specs`.
fn is_specs(text: &str) -> bool {
    let of = text.strip_suffix("/specs");
    of.is_some_and(|of| !of.contains('/'))
}

/// Whether a quote is the name of a file, without a folder.
fn is_file_name(text: &str) -> bool {
    let ends = [".antt", ".rt", ".rs", ".c", ".h"];
    !text.starts_with('.')
        && !text.contains([' ', '/'])
        && ends.iter().any(|end| text.ends_with(end))
}

/// Files, code and edits that a page names and that aren't there, and names that aren't in the file they are given with.
pub fn missing(page: &Page) -> Vec<String> {
    let prose = page.prose();
    let quotes = page.quotes(&prose);
    let mut missing = Vec::new();
    let mut check = |quote: &Quote, there: bool, place: &str| {
        if !there {
            let what = format!("`{}` isn't in {place}", quote.text);
            missing.push(page.finding(quote.line, &what));
        }
    };
    for (index, file) in led(&quotes) {
        let quote = &quotes[index];
        if file_of(quote.text).is_none() && !is_path(quote.text) {
            let name = quote.text.rsplit("::").next().unwrap();
            check(quote, tree::defines(&file, name), &file);
        }
    }
    let (mut path, mut edits) = ("", None);
    let places = listed(&quotes).into_iter().zip(in_folder(&quotes));
    for (quote, (file, in_folder)) in quotes.iter().zip(places) {
        let text = quote.text;
        edits = edits.filter(|_| is_separator(quote.before) && text.contains('_'));
        if let Some(file) = file {
            check(quote, tree::defines(&file, text), &file);
        } else if let Some(file) = in_folder {
            check(quote, tree::exists(&file), "the folder before it");
        } else if let Some(file) = file_of(text) {
            check(quote, tree::exists(&file), "crates");
        } else if is_specs(text) {
            check(quote, tree::exists(&format!("crates/{text}")), "crates");
        } else if is_file_name(text) {
            let folder = tree::folder(path);
            check(quote, tree::exists(&format!("{folder}/{text}")), folder);
        } else if let Some((of, name)) = code_of(text) {
            check(quote, tree::has_code(of, name), &format!("crates/{of}/src"));
        } else if let Some((of, name)) = edit_of(text) {
            check(quote, tree::is_edit(of, name), "the must-fail edits");
            edits = Some(of);
        } else if let Some(of) = edits {
            let place = format!("crates/{of}/must-fail");
            check(quote, tree::is_edit(of, text), &place);
        }
        if is_path(text) {
            path = text;
        }
    }
    missing
}

//! What each page is held to. A check gives its findings, each with the page's name and the line.

use crate::page::{Page, Quote};
use crate::references::{code_of, edit_of, file_of, in_folder, is_name, is_path, led, listed};
use crate::tree;
use drawbevel::Drawbevel;
use std::collections::BTreeSet;
use std::path::Path;
use testkit::c::root;

/// Longest line of a page that is held to it, in characters.
const LONGEST_LINE: usize = 160;

pub fn long_lines(page: &Page) -> Vec<String> {
    let lines = page.text.lines().enumerate();
    lines
        .map(|(index, line)| (index + 1, line.chars().count()))
        .filter(|(_, count)| *count > LONGEST_LINE)
        .map(|(line, count)| page.finding(line, &format!("{count} characters")))
        .collect()
}

/// Paths in quotes, and links, that lead nowhere.
pub fn dead_ends(page: &Page) -> Vec<String> {
    let mut dead = Vec::new();
    let prose = page.prose();
    for quote in page.quotes(&prose) {
        for path in quote.text.split(' ').filter(|word| is_path(word)) {
            if !tree::exists(path) {
                dead.push(page.finding(quote.line, &format!("there is no {path}")));
            }
        }
    }
    for (line, target) in page.links() {
        if target.contains("://") {
            continue;
        }
        let (file, anchor) = target.split_once('#').unwrap_or((&target, ""));
        let folder = Path::new(&page.name).parent().unwrap();
        let file = match file {
            "" => page.name.clone(),
            file => folder.join(file).to_str().unwrap().to_owned(),
        };
        let leads = |anchor: &str| {
            let of_page = file == page.name;
            let there = || Page::read(&file).anchors();
            let anchors = if of_page { page.anchors() } else { there() };
            anchors.iter().any(|each| each == anchor)
        };
        if !root().join(&file).exists() || !(anchor.is_empty() || leads(anchor)) {
            dead.push(page.finding(line, &format!("the link {target} leads nowhere")));
        }
    }
    dead
}

/// Names of RULES.md that come without a file and are in none that their section named before. Told by their form as in `references`, and
/// further: a must-fail edit comes with its crate; a quote with a character that no name and no path has is text of a login.
pub fn unruled(page: &Page) -> Vec<String> {
    let prose = page.prose();
    let quotes = page.quotes(&prose);
    let before_files: BTreeSet<_> = led(&quotes).into_iter().map(|(index, _)| index).collect();
    let mut findings = Vec::new();
    let mut files = Vec::new();
    for (index, (quote, file)) in quotes.iter().zip(listed(&quotes)).enumerate() {
        if quote.before.contains("\n#") {
            files.clear();
        }
        let text = quote.text;
        if let Some(path) = file_of(text) {
            files.push(path);
            continue;
        }
        let elsewhere = code_of(text).is_some() || edit_of(text).is_some() || is_path(text);
        let of_names = |c: char| c.is_ascii_alphanumeric() || "-_/:.*".contains(c);
        if elsewhere
            || file.is_some()
            || before_files.contains(&index)
            || !text.chars().all(of_names)
        {
            continue;
        }
        let (there, place) = if is_name(text) {
            let there = files.iter().any(|file| tree::defines(file, text));
            (there, "a file that its section named before")
        } else {
            (tree::exists(text), "the root")
        };
        if !there {
            findings.push(page.finding(quote.line, &format!("`{text}` isn't in {place}")));
        }
    }
    findings
}

/// The rows of the tables whose head is this: the line, the first cell and the rest.
fn rows<'a>(page: &'a Page, head: &str) -> Vec<(usize, &'a str, &'a str)> {
    let (mut rows, mut inside) = (Vec::new(), false);
    for (index, line) in page.text.lines().enumerate() {
        inside = line == head || inside && line.starts_with('|');
        if inside && line != head && !line.starts_with("|---") {
            let cells = line.trim_matches('|').split_once(" | ");
            let (first, rest) = cells.unwrap_or((line, ""));
            rows.push((index + 1, first, rest));
        }
    }
    assert!(!rows.is_empty(), "{}: no table '{head}'", page.name);
    rows
}

/// In PROOF.md's first table a name that comes without a file is in one that its row names.
pub fn untabled(page: &Page) -> Vec<String> {
    let head = "| Demand | Statement | Definitions to read beside the rules (`docs/RULES.md`) |";
    let mut findings = Vec::new();
    for (line, demand, rest) in rows(page, head) {
        let row = format!("{demand} | {rest}");
        let quotes = page.quotes(&row);
        let (listed, in_folder) = (listed(&quotes), in_folder(&quotes));
        let led: BTreeSet<_> = led(&quotes).into_iter().map(|(index, _)| index).collect();
        let files: Vec<_> = quotes
            .iter()
            .filter_map(|quote| file_of(quote.text))
            .chain(in_folder.iter().flatten().cloned())
            .collect();
        for (index, Quote { text, .. }) in quotes.iter().enumerate() {
            let elsewhere = listed[index].is_some() || in_folder[index].is_some();
            let alone = is_name(text) && !elsewhere && !led.contains(&index);
            if alone && !files.iter().any(|file| tree::defines(file, text)) {
                let what = format!("`{text}` isn't in a file that its row names");
                findings.push(page.finding(line, &what));
            }
        }
    }
    findings
}

/// In PROOF.md's tables of wrong programs a name without a crate is of the crate named last before it in its cell, and a function's cell may
/// name a crate alone.
pub fn unproved(page: &Page) -> Vec<String> {
    let mut findings = Vec::new();
    for (line, functions, edits) in rows(page, "| Function | Ruled out |") {
        let mut check = |there: bool, text: &str, place: &str| {
            if !there {
                findings.push(page.finding(line, &format!("`{text}` isn't in {place}")));
            }
        };
        let mut of = "";
        for Quote { text, .. } in page.quotes(functions) {
            if let Some((named, _)) = code_of(text) {
                of = named;
            } else if of.is_empty() {
                check(tree::crates().contains(text), text, "crates.txt");
            } else {
                check(tree::has_code(of, text), text, &format!("crates/{of}/src"));
            }
        }
        let mut of = "";
        for Quote { text, .. } in page.quotes(edits) {
            if let Some((named, _)) = edit_of(text) {
                of = named;
            } else {
                let place = format!("crates/{of}/must-fail");
                check(tree::is_edit(of, text), text, &place);
            }
        }
    }
    findings
}

/// Crates that have wrong programs, of which PROOF.md names none.
pub fn unnamed(page: &Page) -> Vec<String> {
    let prose = page.prose();
    let quotes = page.quotes(&prose);
    let edits = quotes.iter().filter_map(|quote| edit_of(quote.text));
    let named: BTreeSet<_> = edits.map(|(of, _)| of).collect();
    let (line, ..) = rows(page, "| Function | Ruled out |")[0];
    let edited = tree::edited().into_iter();
    edited
        .filter(|of| !named.contains(of.as_str()))
        .map(|of| page.finding(line, &format!("the page lacks a wrong program of {of}")))
        .collect()
}

/// ARCHITECTURE.md's table of crates beside crates.txt.
pub fn crates_amiss(page: &Page) -> Vec<String> {
    let mut findings = Vec::new();
    let mut left = tree::crates();
    let rows = rows(page, "| Crate | What it is for |");
    for (line, names, _) in &rows {
        for quote in page.quotes(names) {
            if !left.remove(quote.text) {
                let what = format!("`{}` isn't in crates.txt, or stands twice", quote.text);
                findings.push(page.finding(*line, &what));
            }
        }
    }
    findings.extend(
        left.iter()
            .map(|name| page.finding(rows[0].0, &format!("the table lacks {name}"))),
    );
    findings
}

/// SCRIPT.md's example beside the library's answers.
pub fn example_amiss(page: &Page) -> Vec<String> {
    let blocks = page.blocks("## Example");
    let [(_, script), (first, shown)] = &blocks[..] else {
        return vec![page.finding(1, "the example isn't two blocks")];
    };
    let mut answers = Vec::new();
    script::play(Drawbevel::default(), script.as_bytes(), &mut answers).unwrap();
    let answers = String::from_utf8(answers).unwrap();
    let count = answers.lines().count().max(shown.lines().count());
    let mut findings = Vec::new();
    for index in 0..count {
        let (said, shown) = (answers.lines().nth(index), shown.lines().nth(index));
        if said != shown {
            let what = format!("the library's answer is {said:?}");
            findings.push(page.finding(first + index, &what));
        }
    }
    findings
}

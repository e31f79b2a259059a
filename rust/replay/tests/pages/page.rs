//! A page: its code quotes, each with the text before it and its line; its headings, links and blocks of code.

use std::fs;
use testkit::c::root;

pub struct Page {
    pub name: String,
    pub text: String,
}

/// A code quote.
pub struct Quote<'a> {
    pub text: &'a str,
    /// What stands between the quote before it, or the page's start, and this one.
    pub before: &'a str,
    pub line: usize,
}

impl Page {
    pub fn read(name: &str) -> Self {
        let path = root().join(name);
        let text =
            fs::read_to_string(&path).unwrap_or_else(|error| panic!("{}: {error}", path.display()));
        let name = name.to_owned();
        Page { name, text }
    }

    /// README.md and every page in `docs/`.
    pub fn all() -> Vec<Self> {
        let mut names = vec!["README.md".to_owned()];
        for entry in fs::read_dir(root().join("docs")).unwrap() {
            let name = entry.unwrap().file_name().into_string().unwrap();
            if name.ends_with(".md") {
                names.push(format!("docs/{name}"));
            }
        }
        names.iter().map(|name| Page::read(name)).collect()
    }

    /// A finding on a line of this page.
    pub fn finding(&self, line: usize, what: &str) -> String {
        format!("{}:{line}: {what}", self.name)
    }

    /// The code quotes, in order. `prose` is this page's.
    pub fn quotes<'a>(&self, prose: &'a str) -> Vec<Quote<'a>> {
        let mut quotes = Vec::new();
        let (mut line, mut before) = (1, "");
        for (index, part) in prose.split('`').enumerate() {
            if index % 2 == 1 {
                let text = part;
                assert!(
                    !text.contains('\n'),
                    "{}:{line}: a quote has no end",
                    self.name
                );
                quotes.push(Quote { text, before, line });
            }
            before = part;
            line += part.matches('\n').count();
        }
        quotes
    }

    /// The text with every line of a block of code empty: one between fences, or indented by four.
    pub fn prose(&self) -> String {
        let (mut prose, mut fenced) = (String::new(), false);
        for line in self.text.lines() {
            let fence = line.starts_with("```");
            fenced ^= fence;
            if !(fence || fenced || line.starts_with("    ")) {
                prose += line;
            }
            prose.push('\n');
        }
        prose
    }

    /// The anchors of its headings, as GitHub makes them.
    pub fn anchors(&self) -> Vec<String> {
        let prose = self.prose();
        let headings = prose.lines().filter(|line| line.starts_with('#'));
        let kept = |c: &char| c.is_alphanumeric() || [' ', '-', '_'].contains(c);
        headings
            .map(|line| line.trim_start_matches('#').trim().to_lowercase())
            .map(|title| title.chars().filter(kept).collect::<String>())
            .map(|title| title.replace(' ', "-"))
            .collect()
    }

    /// Each link's target, with its line.
    pub fn links(&self) -> Vec<(usize, String)> {
        let mut links = Vec::new();
        for (index, line) in self.prose().lines().enumerate() {
            for rest in line.split("](").skip(1) {
                let target = rest.split(')').next().unwrap();
                links.push((index + 1, target.to_owned()));
            }
        }
        links
    }

    /// The indented blocks under a heading, without their indent, each with its first line's number.
    pub fn blocks(&self, heading: &str) -> Vec<(usize, String)> {
        let (mut blocks, mut open, mut inside) = (Vec::new(), false, false);
        for (index, line) in self.text.lines().enumerate() {
            if line.starts_with('#') {
                inside = line == heading;
            }
            let code = line.strip_prefix("    ").filter(|_| inside);
            if let Some(code) = code {
                if !open {
                    blocks.push((index + 1, String::new()));
                }
                let (_, block) = blocks.last_mut().unwrap();
                block.push_str(code);
                block.push('\n');
            }
            open = code.is_some();
        }
        blocks
    }
}

/// Whether this stands between two quotes of one list.
pub fn is_separator(between: &str) -> bool {
    [",", ", and", "and", ", or", "or"].contains(&between.trim())
}

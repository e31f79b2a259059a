//! What the header declares, read from its text: constants, inline functions, structs and their fields.

use std::collections::BTreeSet;

/// A struct of the header, with its fields.
pub struct Struct {
    pub name: String,
    /// Each field's type, without `struct`, and its name.
    pub fields: Vec<(String, String)>,
}

/// The text without comments.
fn code(header: &str) -> String {
    let mut parts = header.split("/*");
    let mut code = parts.next().unwrap_or_default().to_owned();
    for part in parts {
        let (_, after) = part.split_once("*/").expect("a comment ends");
        code.push_str(after);
    }
    code
}

/// Its words: identifiers, numbers, and other characters one by one.
fn words(code: &str) -> Vec<String> {
    let mut words: Vec<String> = Vec::new();
    let mut is_open = false;
    for character in code.chars() {
        let is_part = character.is_ascii_alphanumeric() || character == '_';
        match words.last_mut() {
            Some(word) if is_part && is_open => word.push(character),
            _ if character.is_whitespace() => {}
            _ => words.push(character.to_string()),
        }
        is_open = is_part;
    }
    words
}

/// The identifiers of a C text, comments left out.
pub fn identifiers(text: &str) -> BTreeSet<String> {
    words(&code(text)).into_iter().collect()
}

/// The pairs of a struct or variable and its field that a C text names, by `.` or by `->`.
pub fn members(text: &str) -> BTreeSet<(String, String)> {
    let words = words(&code(text).replace("->", "."));
    let triples = words.windows(3).filter(|w| w[1] == ".");
    triples.map(|w| (w[0].clone(), w[2].clone())).collect()
}

/// Every constant.
pub fn constants(header: &str) -> BTreeSet<String> {
    let all = identifiers(header).into_iter();
    all.filter(|word| word.starts_with("DRAWBEVEL_") && word != "DRAWBEVEL_H")
        .collect()
}

/// Every inline function that no other inline function of the header calls.
pub fn functions(header: &str) -> BTreeSet<String> {
    let words = words(&code(header));
    let names: Vec<_> = words
        .windows(2)
        .filter(|w| w[0].starts_with("drawbevel_") && w[1] == "(")
        .map(|w| w[0].clone())
        .collect();
    let is_once = |name: &String| names.iter().filter(|other| *other == name).count() == 1;
    names
        .iter()
        .filter(|name| !name.starts_with("drawbevel_core_") && is_once(name))
        .cloned()
        .collect()
}

/// The place after the brace that closes the one at `open`.
fn end(words: &[String], open: usize) -> usize {
    let mut depth = 0;
    for (place, word) in words.iter().enumerate().skip(open) {
        match &word[..] {
            "{" => depth += 1,
            "}" => depth -= 1,
            _ => {}
        }
        if depth == 0 {
            return place + 1;
        }
    }
    panic!("a brace isn't closed")
}

/// The fields of a struct's or a union's body; of a union within, its members.
fn fields(body: &[String]) -> Vec<(String, String)> {
    let mut list = Vec::new();
    for declaration in body.split(|word| word == ";" || word == "{" || word == "}") {
        let declaration: Vec<_> = declaration
            .iter()
            .filter(|word| *word != "struct")
            .collect();
        let [kind, names @ ..] = &declaration[..] else {
            continue;
        };
        for name in names.split(|word| *word == ",") {
            list.extend(name.first().map(|name| ((*kind).clone(), (*name).clone())));
        }
    }
    list
}

/// Every struct, in the header's order.
pub fn structs(header: &str) -> Vec<Struct> {
    let words = words(&code(header));
    let mut list = Vec::new();
    for (place, w) in words.windows(3).enumerate() {
        if w[0] == "struct" && w[2] == "{" {
            let body = &words[place + 3..end(&words, place + 2) - 1];
            list.push(Struct {
                name: w[1].clone(),
                fields: fields(body),
            });
        }
    }
    list
}

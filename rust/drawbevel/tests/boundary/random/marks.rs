//! What the random run has to have seen: each answer for each kind, and each field refused by itself and at its widest.

use super::is_ping;
use crate::coverage::Coverage;
use crate::expected::{Breach, breaches};
use crate::kinds::{KINDS, Kind, SCSI, Width, kind_of};
use crate::raw::ResponseWords;
use std::fmt;

/// Which function was called.
#[derive(Clone, Copy)]
pub enum Call {
    Send,
    Write,
}

impl fmt::Display for Call {
    fn fmt(&self, f: &mut fmt::Formatter<'_>) -> fmt::Result {
        f.write_str(match self {
            Call::Send => "send",
            Call::Write => "write",
        })
    }
}

impl Call {
    /// The answer where it isn't refused.
    fn done(self) -> u64 {
        match self {
            Call::Send => 32,
            Call::Write => 0,
        }
    }
}

/// A NOP-In without a tag, sent while 32 statuses are held.
pub const PING_AT_FULL: &str = "send NOP-In without a tag, full";

/// A SCSI Response that isn't of the record's task.
const OTHER_TAGS: &str = "other tags";

/// A Data-In or an R2T that can be written, sent while 32 statuses are held.
fn data_at_full(kind: &Kind) -> String {
    format!("send {}, full", kind.name)
}

/// The mark of a send while 32 statuses are held, of words that aren't FULL then, and their answer.
pub fn at_full(words: &ResponseWords) -> Option<(String, u64)> {
    if is_ping(words) {
        return Some((PING_AT_FULL.into(), 32));
    }
    let kind = kind_of(words).filter(|kind| !kind.is_status())?;
    let is_good = breaches(words).is_empty();
    is_good.then(|| (data_at_full(kind), 3))
}

pub fn saw(coverage: &mut Coverage, call: Call, words: &ResponseWords, lent: usize, answer: u64) {
    let kind = kind_of(words);
    let name = kind.map_or("no kind", |kind| kind.name);
    coverage.saw(format!("{call} {name}: {answer}"));
    coverage.saw(format!("{call}, {lent} lent: {answer}"));
    let breaches = breaches(words);
    if let (Some(kind), true, 3) = (kind, breaches.is_empty(), answer) {
        let why = if kind.is_status() {
            OTHER_TAGS
        } else {
            "no status"
        };
        coverage.saw(format!("{call} {}: {why}", kind.name));
    }
    if let (Some(kind), true) = (kind, answer == call.done()) {
        for (place, (field, width)) in (1..).zip(kind.fields) {
            if words[place] == width.greatest() {
                coverage.saw(format!("{call} {name}, {field} at its greatest"));
            }
        }
    }
    if let (Some(kind), [breach], 3 | 5) = (kind, &breaches[..], answer) {
        alone(coverage, call, kind, words, *breach);
    }
}

/// Words that were refused for one thing alone.
fn alone(coverage: &mut Coverage, call: Call, kind: &Kind, words: &ResponseWords, breach: Breach) {
    let name = kind.name;
    let (Breach::TooLong(place) | Breach::TooWide(place)) = breach else {
        coverage.saw(format!("{call} {name}: {breach:?} alone"));
        return;
    };
    let (field, width) = kind.fields[place - 1];
    if words[place] == width.greatest() + 1 {
        coverage.saw(format!("{call} {name}, {field} one too great"));
    }
    if words[place] > u32::MAX.into() {
        coverage.saw(format!("{call} {name}, {field} above 32 bits"));
    }
}

/// The marks without which a run is hollow.
pub fn required() -> Vec<String> {
    let other_tags = format!("send {}: {OTHER_TAGS}", SCSI.name);
    let mut marks = vec![PING_AT_FULL.to_owned(), other_tags];
    for call in [Call::Send, Call::Write] {
        let before: &[u64] = match call {
            Call::Send => &[1, 7, 8],
            Call::Write => &[1],
        };
        for answer in before.iter().chain(&[3]) {
            marks.push(format!("{call} no kind: {answer}"));
        }
        for kind in KINDS {
            marks.extend(of_kind(call, kind, before));
        }
        for lent in [0, 47] {
            marks.push(format!("{call}, {lent} lent: 1"));
        }
        for lent in [48, 64] {
            marks.push(format!("{call}, {lent} lent: {}", call.done()));
        }
        marks.push(format!("{call} SCSI Response: BothResiduals alone"));
        marks.push(format!("{call} Login Response: StageWithoutTransit alone"));
    }
    marks
}

fn of_kind(call: Call, kind: &Kind, before: &[u64]) -> Vec<String> {
    let name = kind.name;
    let is_taken = matches!(call, Call::Write) || kind.is_status();
    let mut answers = before.to_vec();
    answers.push(3);
    if kind.has_data_length() {
        answers.push(5);
    }
    if is_taken {
        answers.push(call.done());
    }
    if let (Call::Send, true) = (call, is_taken) {
        answers.push(10);
    }
    let mut marks: Vec<_> = answers
        .iter()
        .map(|answer| format!("{call} {name}: {answer}"))
        .collect();
    if !is_taken {
        marks.push(format!("{call} {name}: no status"));
        marks.push(data_at_full(kind));
    }
    for (field, width) in kind.fields {
        if is_taken {
            marks.push(format!("{call} {name}, {field} at its greatest"));
        }
        if *width != Width::Bits(64) {
            marks.push(format!("{call} {name}, {field} one too great"));
            marks.push(format!("{call} {name}, {field} above 32 bits"));
        }
    }
    marks
}

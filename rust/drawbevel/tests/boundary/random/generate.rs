//! Words, connections and buffers, mostly at and around the boundaries.

use crate::kinds::{KINDS, Kind, NO_KIND, Width};
use crate::raw::{ResponseWords, Task};
use crate::stand::record_of;
use testkit::Rng;

pub fn connection(rng: &mut Rng) -> u32 {
    match rng.below(12) {
        0 => rng.pick(&[4, 5, 0x100, 0x1_0000, 0x8000_0000, u32::MAX]),
        _ => rng.below(4) as u32,
    }
}

pub fn lent(rng: &mut Rng) -> usize {
    rng.pick(&[0, 47, 48, 48, 48, 48, 64, 64])
}

/// A word that is good in this place.
fn good(rng: &mut Rng, width: Width) -> u64 {
    let greatest = width.greatest();
    match rng.below(4) {
        0 => rng.pick(&[0, 1]),
        1 => greatest,
        2 => greatest - rng.below(2),
        _ => rng.number() % greatest,
    }
    .min(greatest)
}

/// A word above the greatest good one; many would be good if cut to 8, 16, 24, 32 or 48 bits.
fn bad(rng: &mut Rng, width: Width) -> u64 {
    let greatest = width.greatest();
    let above = 1 << rng.pick(&[8, 16, 24, 32, 32, 32, 48, 63]);
    match rng.below(6) {
        0 | 1 => greatest + 1,
        2 => greatest + 2 + rng.below(6),
        3 => u64::MAX,
        _ if above > greatest => good(rng, width) + above,
        _ => greatest + (1 << 48),
    }
}

fn field(rng: &mut Rng, kind: &Kind, words: &mut ResponseWords, is_bad: bool) {
    let place = rng.index(kind.fields.len());
    let width = kind.fields[place].1;
    words[1 + place] = match width {
        Width::Bits(64) => rng.number(),
        _ if is_bad => bad(rng, width),
        _ => good(rng, width),
    };
}

/// Good words of a kind. Words that are no field are anything.
fn good_words(rng: &mut Rng, kind: &Kind) -> ResponseWords {
    let mut words = [0; 10];
    words.fill_with(|| rng.pick(&[0, 0, 1, 8193, 1 << 32, u64::MAX]));
    words[0] = kind.opcode;
    for (word, (_, width)) in words[1..].iter_mut().zip(kind.fields) {
        *word = good(rng, *width);
    }
    match kind.opcode {
        0x21 if rng.below(8) > 0 => words[1 + rng.index(2)] = 0,
        0x23 if words[1] == 0 && rng.below(4) > 0 => words[kind.place("NSG")] = 0,
        _ => {}
    }
    words
}

/// The words of a response: in half of the cases good, else with one or with some words that aren't.
pub fn words(rng: &mut Rng) -> ResponseWords {
    let kind = rng.pick(&KINDS);
    let mut words = good_words(rng, kind);
    match rng.below(16) {
        0..=7 => {}
        8..=12 => field(rng, kind, &mut words, true),
        13 | 14 => {
            for _ in 0..rng.below(4) + 2 {
                field(rng, kind, &mut words, true);
            }
        }
        _ => {
            let above = kind.opcode + (1 << rng.pick(&[6, 8, 16, 32, 63]));
            let other = rng.pick(&NO_KIND);
            words[0] = rng.pick(&[above, other]);
        }
    }
    words
}

/// A record: mostly with the tags of a SCSI Response of these words; other numbers are anything.
pub fn task(rng: &mut Rng, words: &ResponseWords) -> Task {
    let mut task = record_of(words);
    task.numbers[4] = rng.u32();
    task.numbers[6] = rng.pick(&[0, 1, 1, 2, 0x100, 1 << 31]);
    if rng.one_in(8) {
        task.numbers[rng.pick(&[0, 7])] ^= 1 << rng.below(32);
    }
    for place in [1, 2, 3, 5, 8, 9, 10, 11] {
        task.numbers[place] = rng.number() as u32;
    }
    task.wide.fill_with(|| rng.number());
    task
}

//! A task's record as words: those with which `record` shows and sets it.

use crate::parse::Words;
use calls::{OpenR2t, Task};

const NO_TAG: u32 = 0xffff_ffff;
/// How many open R2Ts a record holds.
const MOST_OPEN: u8 = 8;
/// No data lies past this: a Buffer Offset has 32 bits.
const END_OF_OFFSETS: u64 = 1 << 32;

/// The words of a record, all numbers in decimal.
pub fn words(t: &Task) -> String {
    let numbers: [u64; 15] = [
        t.itt.into(),
        t.lun,
        t.tag.into(),
        t.max_burst.into(),
        t.max_r2t.into(),
        t.sent.into(),
        t.acknowledged.into(),
        t.any_data_in.into(),
        t.offset,
        t.burst.into(),
        t.snack_tag.into(),
        t.asked,
        t.came,
        t.data_sn.into(),
        t.open.len() as u64,
    ];
    let open = t.open.iter().flat_map(|r2t| [r2t.tag.into(), r2t.end]);
    let words: Vec<_> = numbers.into_iter().chain(open).collect();
    let words: Vec<_> = words.iter().map(u64::to_string).collect();
    words.join(" ")
}

/// The record of these words; none where they aren't one that a script may set.
pub fn read(words: &mut Words) -> Option<Task> {
    let mut task = Task {
        itt: words.u32()?,
        lun: words.u64()?,
        tag: words.u32()?,
        max_burst: words.u32()?,
        max_r2t: words.u8()?,
        sent: words.u32()?,
        acknowledged: words.u32()?,
        any_data_in: words.bit()?,
        offset: words.u64()?,
        burst: words.u32()?,
        snack_tag: words.u32()?,
        asked: words.u64()?,
        came: words.u64()?,
        data_sn: words.u32()?,
        open: Vec::new(),
    };
    for _ in 0..words.u8()? {
        task.open.push(OpenR2t {
            tag: words.u32()?,
            end: words.u64()?,
        });
    }
    may_be_set(&task).then_some(task)
}

/// Whether a script may set this record: the calls make no other.
pub fn may_be_set(t: &Task) -> bool {
    let open = t.open.len();
    let r2ts = (1..=MOST_OPEN).contains(&t.max_r2t) && open <= t.max_r2t.into();
    let numbers = t.acknowledged <= t.sent && t.burst <= t.max_burst;
    let offsets = t.offset <= END_OF_OFFSETS && t.asked <= END_OF_OFFSETS;
    // From where the data came to each open R2T's end, and the last of these is where data was asked up to.
    let mut ends = t.open.iter().map(|r2t| r2t.end);
    let last = ends.try_fold(t.came, |from, end| (from < end).then_some(end));
    let tags = t.open.iter().all(|r2t| r2t.tag != NO_TAG);
    let burst = open > 0 || t.data_sn == 0;
    r2ts && numbers && offsets && last == Some(t.asked) && tags && burst
}

//! Which Data-In, R2T and Data-Out of tasks were sent, taken and refused, seen from the record before and after them.

use super::{number, those};
use calls::{DataInPdu, Refusal, Task};
use script::{Answer, Call};

const NO_TAG: u32 = 0xffff_ffff;
const LONGEST: u32 = 8192;
const END: u64 = 1 << 32;

/// Mark what a call on a task was about.
pub fn saw(call: &Call, answer: &Answer, before: &Task, after: &Task, marks: &mut Vec<String>) {
    let is_field = matches!(answer, Answer::Refused(Refusal::Field));
    let (name, said) = match (call, answer) {
        (Call::DataIn { pdu, .. }, Answer::DataIn(_)) => ("data-in", data_in(before, after, *pdu)),
        (Call::DataIn { pdu, .. }, _) if is_field => ("data-in", data_in_refused(before, *pdu)),
        (Call::R2t { tag, length, .. }, Answer::R2t(_)) => {
            ("r2t", r2t(before, after, *tag, *length))
        }
        (Call::R2t { tag, length, .. }, _) if is_field => {
            ("r2t", r2t_refused(before, *tag, *length))
        }
        (Call::DataOut { pdu, .. }, Answer::Came(_)) => ("data-out", data_out(before, after, pdu)),
        (Call::DataOut { pdu, .. }, _) if is_field => ("data-out", data_out_refused(before, pdu)),
        (Call::SetRecord { record, .. }, _) => ("record", set(record)),
        _ => return,
    };
    marks.extend(said.iter().map(|text| format!("{name}: {text}")));
    if !is_field {
        marks.push(format!("record {} is used", call.task().expect("a task")));
    }
}

fn data_in(before: &Task, after: &Task, pdu: DataInPdu) -> Vec<&'static str> {
    let (length, f) = (pdu.data_segment_length, pdu.final_bit);
    let to_the_end = before.burst + length == before.max_burst;
    those([
        (to_the_end && f, "burst to its last byte, F set"),
        (to_the_end && !f, "burst to its last byte, F clear"),
        (length == 0, "empty"),
        (
            length == 0 && before.burst > 0 && to_the_end,
            "empty, burst full",
        ),
        (length == LONGEST, "8,192 bytes"),
        (f && before.burst > 0, "F ends a burst of several"),
        (before.burst > 0 && !f, "goes on in a burst"),
        (pdu.acknowledge, "A"),
        (
            !pdu.acknowledge && before.tag != NO_TAG,
            "without A, tag left out",
        ),
        (after.offset == END, "up to 2^32"),
        (after.sent == u32::MAX, "the last number"),
        (before.snack_tag != 0, "after a type 3"),
        (!before.open.is_empty(), "with R2Ts open"),
        (before.offset > 0 && before.burst == 0, "a later burst"),
    ])
}

fn data_in_refused(before: &Task, pdu: DataInPdu) -> Vec<&'static str> {
    let length = u64::from(pdu.data_segment_length);
    let past_burst = u64::from(before.burst) + length > before.max_burst.into();
    let at_the_end = before.offset == END;
    let past_offsets = before.offset + length > END;
    let none_left = before.sent == u32::MAX;
    let no_tag = pdu.acknowledge && before.tag == NO_TAG;
    let reasons = [past_burst, at_the_end || past_offsets, none_left, no_tag];
    if reasons.into_iter().filter(|&is_so| is_so).count() != 1 {
        return Vec::new();
    }
    let by_one = u64::from(before.burst) + length == u64::from(before.max_burst) + 1;
    those([
        (past_burst && by_one, "one byte past the burst, FIELD"),
        (at_the_end && length == 0, "empty at 2^32, FIELD"),
        (
            before.offset + length == END + 1,
            "one byte past 2^32, FIELD",
        ),
        (none_left, "2^32 - 1 sent, FIELD"),
        (no_tag, "A without a transfer tag, FIELD"),
    ])
}

fn r2t(before: &Task, after: &Task, tag: u32, length: u32) -> Vec<&'static str> {
    let open = after.open.len();
    let twice = before.open.iter().any(|r2t| r2t.tag == tag);
    those([
        (length == before.max_burst, "of MaxBurstLength"),
        (length > LONGEST, "of more than a data segment"),
        (open == 8, "the eighth open"),
        (
            open == 1 && before.max_r2t == 1,
            "the one that may stand open",
        ),
        (after.asked == END, "up to 2^32"),
        (after.sent == u32::MAX, "the last number"),
        (twice, "a tag twice"),
        (before.any_data_in, "numbered with Data-In"),
        (before.burst > 0, "in a burst of Data-In"),
        (before.snack_tag != 0, "after a type 3"),
    ])
}

fn r2t_refused(before: &Task, tag: u32, length: u32) -> Vec<&'static str> {
    let (no_tag, none) = (tag == NO_TAG, length == 0);
    let too_long = length > before.max_burst;
    let past_offsets = before.asked + u64::from(length) > END;
    let none_free = before.open.len() >= before.max_r2t.into();
    let none_left = before.sent == u32::MAX;
    let reasons = [no_tag, none, too_long, past_offsets, none_free, none_left];
    if reasons.into_iter().filter(|&is_so| is_so).count() != 1 {
        return Vec::new();
    }
    let by_one = before.asked + u64::from(length) == END + 1;
    those([
        (no_tag, "without a tag, FIELD"),
        (none, "of nothing, FIELD"),
        (
            too_long && length == before.max_burst + 1,
            "one byte above MaxBurstLength, FIELD",
        ),
        (past_offsets && by_one, "one byte past 2^32, FIELD"),
        (none_free && before.max_r2t == 8, "a ninth, FIELD"),
        (
            none_free && before.max_r2t == 1,
            "a second where one may stand open, FIELD",
        ),
        (none_left, "2^32 - 1 sent, FIELD"),
    ])
}

fn data_out(before: &Task, after: &Task, bytes: &[u8]) -> Vec<&'static str> {
    let length = number(bytes, 4) & 0x00ff_ffff;
    let f = bytes[1] & 0x80 != 0;
    let other_lun = bytes[8..16] != before.lun.to_be_bytes();
    those([
        (f, "ends its R2T"),
        (f && before.data_sn > 0, "ends a burst of several"),
        (!f && length > 0, "leaves its R2T open"),
        (!f && length == 0, "empty, F clear"),
        (length == LONGEST, "8,192 bytes"),
        (before.open.len() == 8, "with eight open"),
        (f && !after.open.is_empty(), "the next R2T's turn"),
        (after.came == END, "up to 2^32"),
        (other_lun, "of another LUN"),
        (after.data_sn == u32::MAX, "the last DataSN but one"),
        (before.snack_tag != 0, "after a type 3"),
    ])
}

/// What isn't due in a Data-Out, where it is one thing alone.
fn data_out_refused(before: &Task, bytes: &[u8]) -> Vec<&'static str> {
    if bytes[0] & 0x3f != 0x05 {
        return vec!["another kind, FIELD"];
    }
    if bytes[4] != 0 {
        return vec!["AHS, FIELD"];
    }
    let Some(oldest) = before.open.first() else {
        return vec!["none open, FIELD"];
    };
    let (f, tag) = (bytes[1] & 0x80 != 0, number(bytes, 20));
    let end = before.came + u64::from(number(bytes, 4) & 0x00ff_ffff);
    let other_itt = number(bytes, 16) != before.itt;
    let other_tag = tag != oldest.tag;
    let never_due = before.data_sn == u32::MAX;
    let other_number = number(bytes, 36) != before.data_sn;
    let other_offset = u64::from(number(bytes, 40)) != before.came;
    let past = end > oldest.end;
    let (early, missing) = (f && end < oldest.end, !f && end == oldest.end);
    let bad_end = past || early || missing;
    let reasons = [
        other_itt,
        other_tag,
        never_due || other_number,
        other_offset,
        bad_end,
    ];
    if reasons.into_iter().filter(|&is_so| is_so).count() != 1 {
        return Vec::new();
    }
    let second = before.open.iter().skip(1).any(|r2t| r2t.tag == tag);
    those([
        (other_itt, "another ITT, FIELD"),
        (other_tag && tag == NO_TAG, "unsolicited, FIELD"),
        (other_tag && second, "of a later open R2T, FIELD"),
        (other_number && !never_due, "another DataSN, FIELD"),
        (never_due && !other_number, "DataSN 2^32 - 1, FIELD"),
        (other_offset, "another Buffer Offset, FIELD"),
        (
            past && end == oldest.end + 1,
            "one byte past the end, FIELD",
        ),
        (early && end + 1 == oldest.end, "F one byte early, FIELD"),
        (missing, "F clear at the end, FIELD"),
    ])
}

fn set(record: &Task) -> Vec<&'static str> {
    those([
        (record.open.len() == 8, "set with eight open"),
        (record.open.is_empty(), "set with none open"),
        (record.asked == END, "set, asked up to 2^32"),
        (record.offset == END, "set, Data-In at 2^32"),
        (record.sent == u32::MAX, "set, 2^32 - 1 sent"),
        (record.data_sn == u32::MAX, "set, the last DataSN due"),
    ])
}

//! Which data SNACKs were served and refused, of each type at each level.

use super::{number, those};
use calls::{Refusal, Task};
use script::{Answer, Call};

const NO_TAG: u32 = 0xffff_ffff;

/// Mark what a data SNACK was about.
pub fn saw(
    call: &Call,
    answer: &Answer,
    (before, after): (&Task, &Task),
    level: u8,
    marks: &mut Vec<String>,
) {
    let Call::DataSnack { pdu, .. } = call else {
        return;
    };
    if pdu.len() < 48 {
        return;
    }
    let refused = match answer {
        Answer::Refused(refusal) => Some(*refusal),
        _ => None,
    };
    if pdu[0] & 0x3f != 0x10 {
        if refused == Some(Refusal::Field) && pdu[4] == 0 {
            marks.push("data-snack: another kind, FIELD".into());
        }
        return;
    }
    let kind = pdu[1] & 0x0f;
    let run = (number(pdu, 40), number(pdu, 44));
    let said = match (refused, kind) {
        (None, 0) => type_0(before, run, answer),
        (None, 2) => type_2(before, after, run),
        (None, 3) => type_3(before, answer),
        (Some(Refusal::Snack), _) if level > 0 => refused_run(before, kind, run),
        (Some(Refusal::Field), _) => other_tags(before, kind, pdu),
        _ => Vec::new(),
    };
    marks.extend(said.iter().map(|text| format!("data-snack: {text}")));
    if matches!(refused, None | Some(Refusal::Snack)) {
        let served = if refused.is_none() { "served" } else { "SNACK" };
        marks.push(format!("data-snack: type {kind} at level {level} {served}"));
    }
}

fn type_0(before: &Task, (beg_run, run_length): (u32, u32), answer: &Answer) -> Vec<&'static str> {
    let Answer::Run(run) = answer else {
        return Vec::new();
    };
    let all = beg_run == 0 && run_length == 0;
    let to_the_end = run.first + run.count == before.sent;
    those([
        (all && run.count == 0, "all of none"),
        (all && run.count > 1, "all of several"),
        (
            all && before.acknowledged > 0 && run.count > 0,
            "all but the acknowledged",
        ),
        (!all && run_length == 0, "to the end"),
        (run_length > 0 && !to_the_end, "a part"),
        (run_length > 0 && to_the_end, "up to the last"),
        (run_length > 0 && beg_run == 0, "begins at 0 with a length"),
        (
            run_length > 0 && beg_run == before.acknowledged && beg_run > 0,
            "from the oldest",
        ),
    ])
}

fn type_2(before: &Task, after: &Task, (beg_run, run_length): (u32, u32)) -> Vec<&'static str> {
    let newly = after.acknowledged > before.acknowledged;
    those([
        (newly && beg_run < before.sent, "acknowledges a part"),
        (newly && beg_run == before.sent, "acknowledges all"),
        (newly && before.acknowledged > 0, "acknowledges more"),
        (
            beg_run == before.acknowledged && beg_run > 0,
            "acknowledges the same again",
        ),
        (beg_run < before.acknowledged, "an older DataACK"),
        (run_length > 0, "DataACK with a RunLength"),
    ])
}

fn type_3(before: &Task, answer: &Answer) -> Vec<&'static str> {
    let Answer::Run(run) = answer else {
        return Vec::new();
    };
    those([
        (before.burst > 0, "type 3 in the middle of a burst"),
        (run.count == 0, "type 3 of none"),
        (run.count > 0 && run.first > 0, "type 3 after a DataACK"),
        (run.count > 0 && run.first == 0, "type 3 of all"),
        (!before.open.is_empty(), "type 3 with R2Ts open"),
        (before.data_sn > 0, "type 3 in a burst of Data-Out"),
        (before.snack_tag != 0, "type 3 again"),
        (before.offset == 1 << 32, "type 3 at 2^32"),
    ])
}

/// Why a SNACK at a level above 0 is SNACK.
fn refused_run(before: &Task, kind: u8, (beg_run, run_length): (u32, u32)) -> Vec<&'static str> {
    let (sent, acknowledged) = (before.sent, before.acknowledged);
    let inside = beg_run >= acknowledged && beg_run < sent;
    let by_one = inside && u64::from(beg_run) + u64::from(run_length) == u64::from(sent) + 1;
    let is_next = beg_run == sent && sent > acknowledged;
    match kind {
        0 => those([
            (by_one, "one past the end, SNACK"),
            (inside && run_length > 1 << 31, "far past the end, SNACK"),
            (beg_run < acknowledged, "acknowledged, SNACK"),
            (
                beg_run == 0 && acknowledged > 0,
                "from 0, acknowledged, SNACK",
            ),
            (is_next, "the next number, SNACK"),
        ]),
        2 => those([(
            u64::from(beg_run) == u64::from(sent) + 1,
            "DataACK one above the count, SNACK",
        )]),
        _ => those([
            (beg_run != 0 && run_length == 0, "type 3 with BegRun, SNACK"),
            (
                beg_run == 0 && run_length != 0,
                "type 3 with RunLength, SNACK",
            ),
        ]),
    }
}

/// Why a SNACK is FIELD, where reading has nothing against it.
fn other_tags(before: &Task, kind: u8, pdu: &[u8]) -> Vec<&'static str> {
    let (itt, tag) = (number(pdu, 16), number(pdu, 20));
    let is_read = pdu[4] == 0 && pdu[1] & 0x80 != 0 && kind < 4;
    let good_2 = is_read && kind == 2 && itt == NO_TAG;
    let good_3 = is_read && kind == 3 && tag != 0 && tag != NO_TAG;
    those([
        (
            is_read && kind == 0 && tag == NO_TAG && itt != before.itt,
            "type 0, another ITT, FIELD",
        ),
        (good_3 && itt != before.itt, "type 3, another ITT, FIELD"),
        (good_2 && tag != before.tag, "type 2, another tag, FIELD"),
        (
            good_2 && tag == NO_TAG && before.tag == NO_TAG,
            "type 2 without a transfer tag, FIELD",
        ),
        (
            is_read && kind == 1 && itt == NO_TAG && tag == NO_TAG,
            "type 1, FIELD",
        ),
    ])
}

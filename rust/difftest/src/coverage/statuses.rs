//! Which statuses were sent and resent with a task's record, and refused.

use super::session::View;
use super::{number, those};
use calls::{Refusal, Response, Task};
use script::{Answer, Call};

const LONGEST: u32 = 8192;

/// Mark what a send or a resend with a record was about.
pub fn saw(call: &Call, answer: &Answer, task: &Task, session: &View, marks: &mut Vec<String>) {
    let (name, said) = match call {
        Call::Send {
            connection,
            response,
            ..
        } => ("send", sent(*connection, response, answer, task, session)),
        Call::Resend {
            connection,
            stat_sn,
            ..
        } => {
            let Some(sent) = session.sent(*connection, *stat_sn) else {
                return;
            };
            ("resend", resent(sent, answer, task))
        }
        _ => return,
    };
    marks.extend(said.iter().map(|text| format!("{name}: {text}")));
}

fn sent(
    connection: u32,
    response: &Response,
    answer: &Answer,
    task: &Task,
    session: &View,
) -> Vec<&'static str> {
    let Response::Scsi {
        overflow,
        underflow,
        response: code,
        data_segment_length: length,
        itt,
        snack_tag,
        ..
    } = *response
    else {
        let telling = task.any_data_in && task.sent > 0 && task.snack_tag != 0;
        let is_sent = matches!(answer, Answer::Sent(..));
        return those([(telling && is_sent, "another response with a telling record")]);
    };
    let (other_itt, other_tag) = (itt != task.itt, snack_tag != task.snack_tag);
    match answer {
        Answer::Sent(_, header) => {
            let count = number(header, 36);
            let none = code == 0 && !task.any_data_in && task.sent > 0;
            let failed = code != 0 && task.any_data_in && task.sent > 0;
            those([
                (count > 0, "ExpDataSN is the count"),
                (count == u32::MAX, "ExpDataSN 2^32 - 1"),
                (count > 0 && snack_tag != 0, "ExpDataSN after a type 3"),
                (
                    count > 0 && task.acknowledged > 0,
                    "ExpDataSN after a DataACK",
                ),
                (none && count == 0, "ExpDataSN 0 without Data-In"),
                (
                    failed && count == 0,
                    "ExpDataSN 0 for another response code",
                ),
            ])
        }
        Answer::Refused(Refusal::Field) if !(overflow && underflow) => {
            let full = session.is_full(connection);
            those([
                (other_itt && !other_tag, "another ITT, FIELD"),
                (other_tag && !other_itt, "another SNACK tag, FIELD"),
                (
                    other_tag && snack_tag == 0,
                    "no SNACK tag after a type 3, FIELD",
                ),
                (full, "another tag though full, FIELD"),
            ])
        }
        Answer::Refused(Refusal::TooLong) => {
            let wrong = other_itt || other_tag;
            those([(
                wrong && length > LONGEST,
                "another tag though too long, TOOLONG",
            )])
        }
        _ => Vec::new(),
    }
}

fn resent(sent: &[u8; 48], answer: &Answer, task: &Task) -> Vec<&'static str> {
    let Answer::Resent(_, again) = answer else {
        return Vec::new();
    };
    let telling = task.any_data_in && task.sent > 0 && task.snack_tag != 0;
    if sent[0] != 0x21 {
        return those([(telling, "another status with a telling record")]);
    }
    let (tag, count) = (number(sent, 20), number(sent, 36));
    let (tag_now, count_now) = (number(again, 20), number(again, 36));
    let failed = sent[2] != 0;
    those([
        (count_now != count && count_now > 0, "another ExpDataSN"),
        (count > 0 && count_now == 0, "no ExpDataSN any more"),
        (
            failed && telling && count_now == 0,
            "ExpDataSN 0 for another response code",
        ),
        (tag_now != tag, "another SNACK tag"),
        (
            task.snack_tag == 0 && tag != 0 && tag_now == tag,
            "the stored SNACK tag stays",
        ),
        (number(sent, 16) != task.itt, "with another task's record"),
    ])
}

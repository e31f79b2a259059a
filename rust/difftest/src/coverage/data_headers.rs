//! Which Data-Outs were read and refused, and which Data-Ins, R2Ts and ExpDataSNs written.

use super::those;
use calls::{Pdu, Refusal, Request, Response};
use script::{Answer, Call};

const NO_TAG: u32 = 0xffff_ffff;
const LONGEST: u32 = 8192;

/// Whether a range ends past 2^32.
fn is_past(offset: u32, length: u32) -> bool {
    offset.checked_add(length).is_none()
}

/// Mark what a call with one of these headers was about.
pub fn saw(call: &Call, answer: &Answer, marks: &mut Vec<String>) {
    match call {
        Call::Write {
            numbers, response, ..
        } => {
            let (name, said) = match response {
                Response::DataIn { .. } => ("Data-In", data_in(response, numbers.stat_sn, answer)),
                Response::R2t { .. } => ("R2T", r2t(response, numbers.stat_sn, answer)),
                Response::Scsi { exp_data_sn, .. } => ("SCSI Response", scsi(*exp_data_sn, answer)),
                _ => return,
            };
            marks.extend(said.iter().map(|text| format!("{name}: {text}")));
            if let (true, Answer::Refused(refusal)) = (name != "SCSI Response", answer) {
                marks.push(format!("{name}: refused {}", refusal.number()));
            }
        }
        Call::Read { pdu }
        | Call::Length { header: pdu }
        | Call::Offer { pdu, .. }
        | Call::Snack { pdu, .. }
        | Call::Login { pdu, .. }
            if pdu.len() >= 48 && pdu[0] & 0x3f == 0x05 =>
        {
            let said = data_out(call, pdu, answer);
            marks.extend(said.iter().map(|text| format!("Data-Out: {text}")));
        }
        _ => {}
    }
}

fn data_out(call: &Call, bytes: &[u8], answer: &Answer) -> Vec<&'static str> {
    let refused = match answer {
        Answer::Refused(refusal) => Some(*refusal),
        _ => None,
    };
    let is_field = refused == Some(Refusal::Field);
    let has_ahs = bytes[4] != 0;
    match (call, answer) {
        (_, Answer::Read(pdu)) => read(bytes, pdu),
        (Call::Read { .. }, _) => those([
            (is_field && has_ahs, "AHS refused"),
            (refused == Some(Refusal::Length), "refused 4"),
            (refused == Some(Refusal::TooLong), "refused 5"),
        ]),
        (_, Answer::Length(_)) => vec!["length of it"],
        (Call::Offer { .. }, _) if is_field && !has_ahs => vec!["offered, FIELD"],
        (Call::Snack { .. }, _) if is_field && !has_ahs => vec!["for a SNACK, FIELD"],
        (Call::Login { .. }, _) if is_field && !has_ahs => vec!["for a Login, FIELD"],
        _ => Vec::new(),
    }
}

fn read(bytes: &[u8], pdu: &Pdu) -> Vec<&'static str> {
    let Request::DataOut(own) = pdu.request else {
        return Vec::new();
    };
    let length = pdu.data.length as u32;
    let are_set = bytes[0] & 0x40 != 0 && bytes[24..28] != [0; 4];
    let are_shown = pdu.immediate || pdu.cmd_sn != 0;
    those([
        (own.final_bit, "F set"),
        (!own.final_bit, "F clear"),
        (are_set && !are_shown, "I and CmdSN not shown"),
        (length == 0, "empty"),
        (length == LONGEST, "8,192 bytes of data"),
        (own.ttt == NO_TAG, "TTT 0xffffffff"),
        (is_past(own.buffer_offset, length), "past 2^32"),
    ])
}

fn data_in(response: &Response, stat_sn: u32, answer: &Answer) -> Vec<&'static str> {
    let Response::DataIn {
        final_bit: f,
        acknowledge: a,
        data_segment_length: length,
        ttt,
        ..
    } = *response
    else {
        return Vec::new();
    };
    let is_too_long = matches!(answer, Answer::Refused(Refusal::TooLong));
    let Answer::Written(header) = answer else {
        return those([(is_too_long && length == LONGEST + 1, "8,193 bytes of data")]);
    };
    let has_none = header[24..28] == [0; 4];
    those([
        (!f && !a, "neither F nor A"),
        (f && !a, "F alone"),
        (!f && a, "A alone"),
        (f && a, "F and A"),
        (a && ttt == NO_TAG, "A with TTT 0xffffffff"),
        (stat_sn != 0 && has_none, "StatSN given and not written"),
        (length == 0, "empty"),
        (length == LONGEST, "8,192 bytes of data"),
    ])
}

fn r2t(response: &Response, stat_sn: u32, answer: &Answer) -> Vec<&'static str> {
    let (
        Response::R2t {
            ttt,
            buffer_offset: offset,
            desired_data_transfer_length: length,
            ..
        },
        Answer::Written(header),
    ) = (*response, answer)
    else {
        return Vec::new();
    };
    let is_written = header[24..28] == stat_sn.to_be_bytes();
    those([
        (stat_sn != 0 && is_written, "StatSN written"),
        (ttt == NO_TAG, "TTT 0xffffffff"),
        (length == 0, "asks for nothing"),
        (length > LONGEST, "asks for more than 8,192 bytes"),
        (is_past(offset, length), "past 2^32"),
    ])
}

fn scsi(exp_data_sn: u32, answer: &Answer) -> Vec<&'static str> {
    let Answer::Written(header) = answer else {
        return Vec::new();
    };
    let is_written = header[36..40] == exp_data_sn.to_be_bytes();
    those([
        (exp_data_sn != 0 && is_written, "ExpDataSN written"),
        (exp_data_sn == 0 && is_written, "without ExpDataSN"),
    ])
}

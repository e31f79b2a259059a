//! Which lengths were asked for, seen from the bytes alone.

use script::{Answer, Call};

/// Mark what a question for a length was about.
pub fn saw(call: &Call, answer: &Answer, marks: &mut Vec<String>) {
    let Call::Length { header } = call else {
        return;
    };
    if header.len() < 48 {
        return;
    }
    let mut mark = |text: &str| marks.push(format!("length: {text}"));
    let stated =
        usize::from(header[5]) << 16 | usize::from(header[6]) << 8 | usize::from(header[7]);
    match answer {
        Answer::Length(length) => {
            let whole = *length as usize;
            match header.len() {
                48 if whole > 48 => mark("of a header alone"),
                given if given == whole => mark("of a whole PDU"),
                given if given < whole => mark("of a part of a PDU"),
                _ => mark("of more than a PDU"),
            }
            if header[4] != 0 {
                let is_command = header[0] & 0x3f == 0x01;
                mark(if is_command {
                    "AHS of a SCSI Command"
                } else {
                    "AHS of another kind"
                });
            }
            if stated % 4 != 0 {
                mark("pad");
            }
            if stated == 8192 {
                mark("8,192 bytes of data");
            }
            if whole == 9_260 {
                mark("the greatest");
            }
        }
        Answer::Refused(calls::Refusal::Opcode) if stated > 8192 => mark("OPCODE though too long"),
        Answer::Refused(calls::Refusal::TooLong) if stated == 8193 => mark("8,193 bytes of data"),
        _ => {}
    }
}

//! Reading and writing alone.

use super::damage;
use super::responses::response;
use calls::Numbers;
use script::Call;
use testkit::pdu::{self, NO_TAG};
use testkit::{Bytes, Rng};

/// The next call.
pub fn call(rng: &mut Rng) -> Call {
    if rng.one_in(4) {
        return length(rng);
    }
    if rng.one_in(3) {
        let numbers = Numbers {
            stat_sn: rng.u32(),
            exp_cmd_sn: rng.u32(),
            max_cmd_sn: rng.u32(),
        };
        return Call::Write {
            lent: lent(rng),
            numbers,
            response: response(rng),
        };
    }
    let pdu = match rng.below(20) {
        0 => {
            let length = rng.index(120);
            Bytes(rng.bytes(length))
        }
        _ => {
            let pdu = request(rng);
            damage::perhaps(rng, pdu, 3)
        }
    };
    Call::Read { pdu: pdu.0 }
}

/// A question for a PDU's length: of the whole PDU, of its header alone, and of fewer and of more bytes.
fn length(rng: &mut Rng) -> Call {
    let mut pdu = request(rng);
    if rng.one_in(4) {
        // What a header states needn't be there, and every kind may state additional headers.
        let words = rng.pick(&[1, 2, 9, 254, 255]);
        pdu = pdu.byte(4, words);
    }
    if rng.one_in(4) {
        let stated = rng.pick(&[8188, 8189, 8191, 8192, 8193, 8196, 0x1_0000, 0xff_ffff]);
        pdu = pdu.field(5, 3, stated);
    }
    if rng.one_in(8) {
        let opcode = rng.number() as u8;
        pdu = pdu.byte(0, opcode);
    }
    pdu = damage::perhaps(rng, pdu, 6);
    let whole = pdu.0.len();
    let end = match rng.below(12) {
        0..=3 => 48,
        4 => 47,
        5 => rng.index(48),
        6 => 48 + rng.index(40),
        7 => whole + 1 + rng.index(40),
        _ => whole,
    };
    Call::Length {
        header: pdu.resized(end).0,
    }
}

/// The length of a lent output: long enough, mostly.
pub fn lent(rng: &mut Rng) -> usize {
    match rng.below(12) {
        0 => rng.index(48),
        1 => 47,
        2 => 48,
        3 => 49,
        _ => 48 + rng.index(40),
    }
}

/// A request whose every field has some value, and each boundary now and then.
fn request(rng: &mut Rng) -> Bytes {
    let kind = rng.below(7);
    let start = match kind {
        0 => Bytes::new(0x00, 0x80 | rng.number() as u8),
        1 => scsi_command(rng),
        2 => {
            let function = 1 + rng.below(9) as u8;
            pdu::task_management(0, function)
        }
        3 => pdu::login(rng.number() as u8, b""),
        4 => {
            let reason = rng.below(4) as u8;
            pdu::logout(0, reason)
        }
        5 => Bytes::new(0x05, rng.number() as u8),
        _ => {
            let kind = rng.below(5) as u8;
            pdu::snack(kind, 0, 0)
        }
    };
    let body = rng.bytes(40);
    let mut filled = start;
    filled.0[8..48].copy_from_slice(&body);
    filled = filled.itt(tag(rng)).ttt(tag(rng));
    if kind == 5 {
        let (data_sn, offset) = (rng.u32(), rng.u32());
        filled = filled.field(36, 4, data_sn.into());
        filled = filled.field(40, 4, offset.into());
    }
    if kind == 6 && !rng.one_in(3) {
        filled = snack_tags(rng, filled);
    }
    if rng.one_in(3) || kind == 3 {
        filled = filled.or(0, 0x40);
    }
    if rng.one_in(4) {
        filled = filled.or(0, 0x80);
    }
    if (kind != 2 && kind != 4) || rng.one_in(8) {
        let length = data_length(rng);
        let data = rng.bytes(length);
        filled = filled.data(&data);
    }
    if kind == 1 && rng.one_in(4) || kind == 5 && rng.one_in(12) {
        let words = rng.pick(&[1, 2, 9, 255]);
        filled = filled.ahs(words);
    }
    filled
}

fn scsi_command(rng: &mut Rng) -> Bytes {
    let flags = rng.number() as u8;
    let attribute = if rng.one_in(6) { flags & 7 } else { flags % 5 };
    let direction = if rng.one_in(6) {
        flags & 0xe0
    } else {
        0x80 | flags & 0xf8
    };
    Bytes::new(0x01, direction & 0xf8 | attribute)
}

/// Tags that fit a SNACK's type, or nearly.
fn snack_tags(rng: &mut Rng, pdu: Bytes) -> Bytes {
    match pdu.0[1] & 0x0f {
        0 => pdu.ttt(NO_TAG),
        1 => pdu.itt(NO_TAG).ttt(NO_TAG),
        2 => pdu.itt(NO_TAG),
        _ => {
            let tag = rng.pick(&[0, 1, 0x1234_5678, 0xffff_fffe, NO_TAG]);
            pdu.ttt(tag)
        }
    }
}

fn tag(rng: &mut Rng) -> u32 {
    match rng.below(4) {
        0 => NO_TAG,
        1 => 0,
        _ => rng.number() as u32,
    }
}

fn data_length(rng: &mut Rng) -> usize {
    match rng.below(40) {
        0 => 8192,
        1 => 8191,
        2 => 8193,
        n if n < 15 => 0,
        _ => rng.index(24),
    }
}

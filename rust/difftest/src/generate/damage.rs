//! PDUs with something wrong.

use testkit::{Bytes, Rng};

/// Often leave a PDU as it is, else do one thing to it that may or may not matter.
pub fn perhaps(rng: &mut Rng, pdu: Bytes, one_in: u64) -> Bytes {
    if !rng.one_in(one_in) {
        return pdu;
    }
    damaged(rng, pdu)
}

/// Do one thing to a PDU.
pub fn damaged(rng: &mut Rng, mut pdu: Bytes) -> Bytes {
    let length = pdu.0.len();
    match rng.below(10) {
        0 => {
            let short = rng.index(length);
            pdu.resized(short)
        }
        1 => {
            let more = rng.pick(&[1, 3, 4, 8]);
            pdu.resized(length + more)
        }
        2 => {
            let stated = rng.pick(&[0, 1, 4, 8191, 8192, 8193, 0x01_0000, 0xff_ffff]);
            pdu.field(5, 3, stated)
        }
        3 => {
            let words = rng.pick(&[1, 2, 255]);
            pdu.byte(4, words)
        }
        4 => {
            let words = rng.pick(&[1, 2, 7]);
            pdu.ahs(words)
        }
        5 => {
            let opcode = rng.number() as u8;
            pdu.byte(0, opcode)
        }
        6 => {
            let flags = rng.number() as u8;
            pdu.byte(1, flags)
        }
        7 => pdu.resized(47),
        _ => {
            let bit = rng.index(8 * length);
            pdu.0[bit / 8] ^= 1 << (bit % 8);
            pdu
        }
    }
}

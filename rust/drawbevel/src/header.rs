//! The header reader and writer.

use crate::ffi;
use crate::words::{pdu_of, refusal_of, words_of};
use calls::{Numbers, Pdu, Refusal, Response};

/// Read a whole PDU. A function of its own, which writes the fields of each kind straight to their places in the answer: inlined,
/// the answer would be taken apart and put together again.
#[inline(never)]
pub fn read(input: &[u8]) -> Result<Pdu, Refusal> {
    ffi::read(input, pdu_of, |number| Err(refusal_of(number, 0)))
}

/// The whole length of the PDU that begins with these bytes: what to read off a connection once its first 48 bytes are there. Bytes
/// after the 48 aren't looked at.
#[inline]
pub fn length(header: &[u8]) -> Result<u32, Refusal> {
    match ffi::length(header).parts() {
        (0, length) => Ok(length),
        (number, _) => Err(refusal_of(number, 0)),
    }
}

/// Write a response's header into the first 48 bytes of `out`. A Data-In's StatSN is 0, whatever the numbers say.
#[inline]
pub fn write(out: &mut [u8], numbers: Numbers, response: &Response) -> Result<(), Refusal> {
    let Numbers {
        stat_sn,
        exp_cmd_sn,
        max_cmd_sn,
    } = numbers;
    let words = words_of(response);
    match ffi::write(out, &words, [stat_sn, exp_cmd_sn, max_cmd_sn]) {
        0 => Ok(()),
        number => Err(refusal_of(number, 0)),
    }
}

//! A check that takes minutes: what is passed after 2^31 hand-outs. It is run by hand, and not on the model, which keeps
//! them all.

use super::FILL;
use crate::pdu::scsi_command;
use calls::{Engine, HEADER_BYTES, Offer};

/// Hand out 2^31 numbers and one more, and see which are passed.
pub fn trap_14_passed_ends_after_2_31(e: &mut dyn Engine) {
    let first = 0xffff_ff00u32;
    e.begin_session(first, 1, 0);
    let mut bytes = scsi_command(0).0;
    let mut out = [FILL; HEADER_BYTES];
    let mut hand_out = |e: &mut dyn Engine, number: u32| {
        bytes[24..28].copy_from_slice(&number.to_be_bytes());
        assert_eq!(e.offer(0, number, &bytes), Ok(Offer::Kept));
        e.take(&mut out).unwrap();
    };
    let offered = |e: &mut dyn Engine, number: u32| e.offer(0, 1, &scsi_command(number).0);
    for i in 0..1u32 << 31 {
        hand_out(e, first.wrapping_add(i));
    }
    assert_eq!(offered(e, first), Ok(Offer::Passed));
    assert_eq!(offered(e, first.wrapping_sub(1)), Ok(Offer::Beyond));
    hand_out(e, first.wrapping_add(1 << 31));
    assert_eq!(offered(e, first), Ok(Offer::Beyond));
    assert_eq!(offered(e, first.wrapping_add(1)), Ok(Offer::Passed));
}

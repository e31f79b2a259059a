//! A refusal of the reader leaves both lent arrays as they were.

use crate::raw::read;
use testkit::{Bytes, pdu};

#[test]
fn a_refused_read_leaves_both_arrays() {
    for (pdu, number) in [
        (Bytes::new(0x1f, 0x80), 2),
        (pdu::scsi_command(1).byte(1, 0x07), 3),
        (pdu::snack(4, 0, 0), 3),
        (pdu::logout(1, 3), 3),
        (pdu::data_out(1, 2).ahs(1), 3),
        (pdu::task_management(1, 9), 3),
        (pdu::nop_out(1).resized(0), 4),
        (pdu::nop_out(1).resized(47), 4),
        (pdu::login(0, b"").resized(52), 4),
        (pdu::data_out(1, 2).byte(4, 1), 4),
        (pdu::nop_out(1).field(5, 3, 8193), 5),
        (pdu::data_out(1, 2).field(5, 3, 8193), 5),
    ] {
        let (mut common, mut own) = ([0x5a5a; 8], [0xa5a5; 9]);
        let answer = read(pdu.as_ref(), &mut common, &mut own);
        assert_eq!(answer, number, "{pdu:x?}");
        assert_eq!((common, own), ([0x5a5a; 8], [0xa5a5; 9]), "{pdu:x?}");
    }
}

//! The words of a Data-Out that is read: all of both lent arrays are written.

use crate::raw::read;
use testkit::{Bytes, pdu};

#[test]
fn a_data_out_is_these_words() {
    // Every byte from 8 on has its own value, so that a field read elsewhere shows.
    let numbered = |bytes: Bytes| (8..48u8).fold(bytes, |b, at| b.byte(at.into(), at));
    // Bits of byte 0 that name nothing here, and every bit of byte 1 but F.
    for (first, flags, is_final) in [(0x05, 0x80, 1), (0xc5, 0x7f, 0), (0x45, 0xff, 1)] {
        let bytes = numbered(pdu::data_out(0, 0)).byte(0, first).byte(1, flags);
        let (mut common, mut own) = ([0x5a5a; 8], [0xa5a5; 9]);
        let answer = read(bytes.data(b"abcde").as_ref(), &mut common, &mut own);
        assert_eq!(answer, 0);
        let lun = 0x0809_0a0b_0c0d_0e0f;
        assert_eq!(common, [5, 0, 0, lun, 0x1011_1213, 0x1c1d_1e1f, 48, 5]);
        let numbers = [0x1415_1617, 0x2425_2627, 0x2829_2a2b];
        let [ttt, data_sn, buffer_offset] = numbers;
        assert_eq!(own, [is_final, ttt, data_sn, buffer_offset, 0, 0, 0, 0, 0]);
    }
}

//! The three questions: a PDU's whole length, a connection's next StatSN, the holder of a number.

use super::{FILL, NO_TASK, checks, plain, send};
use crate::pdu::*;
use calls::{Engine, HEADER_BYTES, Holder, Offer, Refusal, Response, Take};

checks![
    length_looks_at_48_bytes_only,
    length_refuses_in_order,
    length_has_no_field_rules,
    length_counts_the_pad,
    length_counts_ahs_in_every_kind,
    length_at_the_longest_data_segment,
    length_of_every_opcode,
    length_is_that_of_what_is_read,
    next_moves_with_statuses_only,
    next_stays_at_a_nop_in_without_a_tag,
    next_of_no_open_connection,
    next_after_a_reopening_is_the_given_one,
    next_wraps,
    holder_is_void_until_handed_out,
    holder_has_no_origin_after_reason_2,
    holder_is_not_changed_by_a_duplicate,
    holder_of_an_emptied_number_is_free,
    holder_of_a_handed_out_number_is_free,
    holder_in_a_full_window,
    holder_of_what_is_not_kept,
    holder_after_reason_0,
];

/// A good PDU of each kind.
fn kinds() -> [Bytes; 7] {
    [
        nop_out(1),
        scsi_command(1),
        task_management(1, 1),
        login(0x87, b""),
        data_out(1, 2),
        logout(1, 1),
        snack(1, 0, 0),
    ]
}

fn length_looks_at_48_bytes_only(e: &mut dyn Engine) {
    for kind in kinds() {
        let whole = kind.ahs(2).data(b"abcde");
        for end in 0..HEADER_BYTES {
            assert_eq!(e.length(&whole.0[..end]), Err(Refusal::Length), "{end}");
        }
        for end in [48, 49, 52, 63, 64, 65, 68, 9_260, 20_000] {
            let bytes = whole.clone().resized(end);
            assert_eq!(e.length(&bytes.0), Ok(64), "{end}");
        }
    }
}

fn length_refuses_in_order(e: &mut dyn Engine) {
    assert_eq!(e.length(&[]), Err(Refusal::Length));
    let both = Bytes::new(0x3f, 0).field(5, 3, 8193);
    let long = nop_out(1).field(5, 3, 8193);
    for short in [&both, &long] {
        let bytes = short.clone().resized(47);
        assert_eq!(e.length(&bytes.0), Err(Refusal::Length));
    }
    // The opcode comes before TOOLONG, and no other LENGTH before either.
    for end in [48, 52, 8_244] {
        let (both, long) = (both.clone().resized(end), long.clone().resized(end));
        assert_eq!(e.length(&both.0), Err(Refusal::Opcode), "{end}");
        assert_eq!(e.length(&long.0), Err(Refusal::TooLong), "{end}");
    }
}

fn length_has_no_field_rules(e: &mut dyn Engine) {
    for (bytes, length) in [
        (nop_out(1).byte(1, 0), 48),
        (nop_out(1).itt(NO_TAG), 48),
        (scsi_command(1).byte(1, 0x07), 48),
        (task_management(1, 9).data(b"a"), 52),
        (login(0x87, b"abc").byte(0, 0x03), 52),
        (data_out(1, 2).ahs(2), 56),
        (logout(1, 0x7f).data(b"abcde"), 56),
        (snack(4, 0, 0).ahs(1), 52),
    ] {
        assert_eq!(e.read(&bytes.0), Err(Refusal::Field), "{bytes:x?}");
        assert_eq!(e.length(&bytes.0), Ok(length), "{bytes:x?}");
    }
}

fn length_counts_the_pad(e: &mut dyn Engine) {
    for (data, length) in [
        (0, 48),
        (1, 52),
        (3, 52),
        (4, 52),
        (5, 56),
        (8, 56),
        (8189, 8240),
    ] {
        let header = nop_out(1).field(5, 3, data);
        assert_eq!(e.length(&header.0), Ok(length), "{data}");
    }
}

fn length_counts_ahs_in_every_kind(e: &mut dyn Engine) {
    for kind in kinds() {
        for words in [0, 1, 2, 128, 255] {
            let header = kind.clone().byte(4, words).field(5, 3, 2);
            let length = 48 + 4 * u32::from(words) + 4;
            assert_eq!(e.length(&header.0), Ok(length), "{header:x?}");
        }
    }
}

fn length_at_the_longest_data_segment(e: &mut dyn Engine) {
    for kind in kinds() {
        let stating = |length| kind.clone().field(5, 3, length);
        assert_eq!(e.length(&stating(8191).0), Ok(8_240));
        assert_eq!(e.length(&stating(8192).0), Ok(8_240));
        assert_eq!(e.length(&stating(8192).byte(4, 255).0), Ok(9_260));
        // 24 bits: the highest byte counts.
        for long in [8193, 0x1_0000, 0x1_0004, 0xff_ffff] {
            assert_eq!(e.length(&stating(long).0), Err(Refusal::TooLong), "{long}");
        }
    }
}

fn length_of_every_opcode(e: &mut dyn Engine) {
    for byte in 0..=255 {
        let known = [0x00, 0x01, 0x02, 0x03, 0x05, 0x06, 0x10].contains(&(byte & 0x3f));
        let wanted = if known { Ok(48) } else { Err(Refusal::Opcode) };
        assert_eq!(e.length(&Bytes::new(byte, 0).0), wanted, "{byte:#x}");
    }
}

fn length_is_that_of_what_is_read(e: &mut dyn Engine) {
    for data in 0..=9 {
        let text = vec![7; data];
        let pdus = [
            nop_out(1),
            scsi_command(1).ahs(3),
            data_out(1, 2),
            snack(1, 0, 0),
        ];
        for bytes in pdus.map(|bytes| bytes.data(&text)) {
            assert!(e.read(&bytes.0).is_ok());
            assert_eq!(e.length(&bytes.0[..48]), Ok(bytes.0.len() as u32));
        }
    }
}

fn next_moves_with_statuses_only(e: &mut dyn Engine) {
    e.begin_session(1, 10, 1);
    e.open(1, 500).unwrap();
    assert_eq!(e.next_stat_sn(0), Ok(10));
    let mut out = [FILL; HEADER_BYTES];
    for stat_sn in 10..42 {
        assert_eq!(e.next_stat_sn(0), Ok(stat_sn));
        assert_eq!(send(e, 0, stat_sn), stat_sn);
    }
    // Neither a refused send nor what becomes of the held ones moves it.
    assert_eq!(
        e.send(0, 1, &NO_TASK, &mut out, &plain(1)),
        Err(Refusal::Full)
    );
    assert_eq!(
        e.send(0, 1, &NO_TASK, &mut out[..47], &plain(1)),
        Err(Refusal::Buffer)
    );
    assert_eq!(e.resend(0, 12, &NO_TASK, &mut out), Ok(12));
    assert!(e.snack(0, &snack(1, 0, 0).0).is_ok());
    assert_eq!(e.next_stat_sn(0), Ok(42));
    for exp_stat_sn in [11, 42] {
        e.acknowledge(0, exp_stat_sn).unwrap();
        assert_eq!(e.next_stat_sn(0), Ok(42));
    }
    assert_eq!(e.next_stat_sn(1), Ok(500));
}

fn next_stays_at_a_nop_in_without_a_tag(e: &mut dyn Engine) {
    e.begin_session(1, 10, 0);
    let nop_in = |itt| Response::NopIn {
        data_segment_length: 0,
        lun: 0,
        itt,
        ttt: 5,
    };
    let mut out = [FILL; HEADER_BYTES];
    for _ in 0..3 {
        assert_eq!(e.send(0, 1, &NO_TASK, &mut out, &nop_in(NO_TAG)), Ok(10));
        assert_eq!(e.next_stat_sn(0), Ok(10));
    }
    assert_eq!(e.send(0, 1, &NO_TASK, &mut out, &nop_in(4)), Ok(10));
    assert_eq!(e.next_stat_sn(0), Ok(11));
    assert_eq!(e.send(0, 1, &NO_TASK, &mut out, &plain(NO_TAG)), Ok(11));
    assert_eq!(e.next_stat_sn(0), Ok(12));
}

fn next_of_no_open_connection(e: &mut dyn Engine) {
    e.begin_session(1, 10, 0);
    for connection in 1..4 {
        assert_eq!(e.next_stat_sn(connection), Err(Refusal::Closed));
    }
    for connection in [4, 5, 255, 256, 0x1_0000, 1 << 31, u32::MAX] {
        assert_eq!(e.next_stat_sn(connection), Err(Refusal::NoConn));
    }
    e.open(3, 7).unwrap();
    assert_eq!(e.next_stat_sn(3), Ok(7));
    e.logout(3, 2).unwrap();
    assert_eq!(e.next_stat_sn(3), Err(Refusal::Closed));
    assert_eq!(e.next_stat_sn(0), Ok(10));
    // Reason 0 closes all.
    e.open(1, 8).unwrap();
    e.logout(0, 0).unwrap();
    for connection in 0..4 {
        assert_eq!(e.next_stat_sn(connection), Err(Refusal::Closed));
    }
}

fn next_after_a_reopening_is_the_given_one(e: &mut dyn Engine) {
    e.begin_session(1, 10, 1);
    e.open(2, 77).unwrap();
    for ticket in 0..3 {
        send(e, 0, ticket);
        send(e, 2, ticket);
    }
    for stat_sn in [0, 12, 13, 0xffff_ffff] {
        e.logout(0, 1).unwrap();
        e.open(0, stat_sn).unwrap();
        assert_eq!(e.next_stat_sn(0), Ok(stat_sn));
        assert_eq!(e.next_stat_sn(2), Ok(80));
    }
}

fn next_wraps(e: &mut dyn Engine) {
    e.begin_session(1, 0xffff_fffe, 0);
    for stat_sn in [0xffff_fffe, 0xffff_ffff, 0, 1] {
        assert_eq!(e.next_stat_sn(0), Ok(stat_sn));
        assert_eq!(send(e, 0, 1), stat_sn);
    }
    assert_eq!(e.next_stat_sn(0), Ok(2));
}

fn offer(e: &mut dyn Engine, connection: u32, number: u32, ticket: u32) -> Offer {
    let bytes = scsi_command(number);
    e.offer(connection, ticket, &bytes.0).unwrap()
}

fn take(e: &mut dyn Engine) -> Take {
    e.take(&mut [FILL; HEADER_BYTES]).unwrap()
}

fn held(ticket: u32, origin: u8) -> Holder {
    let origin = Some(origin);
    Holder::Held { ticket, origin }
}

fn without_origin(ticket: u32) -> Holder {
    let origin = None;
    Holder::Held { ticket, origin }
}

/// Commands 10, 11, 12, a gap at 13, then 14, 15, tickets ten times as high; the even ones came on connection 1, the odd ones on 0.
fn with_a_gap(e: &mut dyn Engine) {
    e.begin_session(10, 1, 0);
    e.open(1, 1).unwrap();
    for number in [10, 11, 12, 14, 15] {
        let connection = u32::from(number % 2 == 0);
        assert_eq!(offer(e, connection, number, 10 * number), Offer::Kept);
    }
}

/// The holders of these numbers.
fn holders<const N: usize>(e: &dyn Engine, numbers: [u32; N]) -> [Holder; N] {
    numbers.map(|number| e.holder(number))
}

fn holder_is_void_until_handed_out(e: &mut dyn Engine) {
    with_a_gap(e);
    e.logout(1, 1).unwrap();
    let before = [Holder::Void, held(110, 0), Holder::Void];
    assert_eq!(holders(e, [10, 11, 12]), before);
    assert_eq!(take(e), Take::Void(10));
    assert_eq!(
        holders(e, [10, 11, 12]),
        [Holder::Free, held(110, 0), Holder::Void]
    );
    // Neither a reopening nor a duplicate brings the command back.
    e.open(1, 1).unwrap();
    assert_eq!(offer(e, 1, 12, 9), Offer::Duplicate);
    assert_eq!(e.holder(12), Holder::Void);
    take(e);
    assert_eq!(take(e), Take::Void(12));
    assert_eq!(holders(e, [10, 11, 12]), [Holder::Free; 3]);
}

fn holder_has_no_origin_after_reason_2(e: &mut dyn Engine) {
    with_a_gap(e);
    assert_eq!(holders(e, [10, 11]), [held(100, 1), held(110, 0)]);
    e.logout(1, 2).unwrap();
    let left = [without_origin(100), held(110, 0), without_origin(120)];
    assert_eq!(holders(e, [10, 11, 12]), left);
    // They aren't the connection's own again after a reopening.
    e.open(1, 1).unwrap();
    assert_eq!(holders(e, [10, 11, 12]), left);
    e.logout(1, 1).unwrap();
    assert_eq!(holders(e, [10, 11, 12]), left);
}

fn holder_is_not_changed_by_a_duplicate(e: &mut dyn Engine) {
    e.begin_session(1, 1, 0);
    e.open(3, 1).unwrap();
    assert_eq!(offer(e, 3, 1, 7), Offer::Kept);
    for (connection, ticket) in [(0, 8), (3, 9)] {
        assert_eq!(offer(e, connection, 1, ticket), Offer::Duplicate);
        assert_eq!(e.holder(1), held(7, 3));
    }
    // Without an origin too.
    e.logout(3, 2).unwrap();
    assert_eq!(offer(e, 0, 1, 10), Offer::Duplicate);
    assert_eq!(e.holder(1), without_origin(7));
}

fn holder_of_an_emptied_number_is_free(e: &mut dyn Engine) {
    for reason in [1, 2] {
        with_a_gap(e);
        assert_eq!(e.holder(14), held(140, 1));
        e.logout(1, reason).unwrap();
        assert_eq!(
            holders(e, [13, 14, 15]),
            [Holder::Free, Holder::Free, held(150, 0)]
        );
        assert_eq!(offer(e, 0, 14, 7), Offer::Kept);
        assert_eq!(e.holder(14), held(7, 0));
    }
}

fn holder_of_a_handed_out_number_is_free(e: &mut dyn Engine) {
    e.begin_session(0xffff_fff0, 1, 0);
    for i in 0..200u32 {
        let number = 0xffff_fff0u32.wrapping_add(i);
        assert_eq!(e.holder(number), Holder::Free);
        assert_eq!(offer(e, 0, number, i), Offer::Kept);
        assert_eq!(e.holder(number), held(i, 0));
        take(e);
        // The one that had its place before is free as well.
        let numbers = [number, number.wrapping_sub(64), number.wrapping_add(64)];
        assert_eq!(holders(e, numbers), [Holder::Free; 3]);
    }
}

fn holder_in_a_full_window(e: &mut dyn Engine) {
    for first in [0, 1, 64, 0xffff_ffe0, 0xffff_ffff] {
        e.begin_session(first, 1, 0);
        for d in (0..64).rev() {
            assert_eq!(e.holder(first.wrapping_add(d)), Holder::Free);
            let ticket = u32::MAX - d;
            assert_eq!(offer(e, 0, first.wrapping_add(d), ticket), Offer::Kept);
        }
        for d in 0..64 {
            assert_eq!(e.holder(first.wrapping_add(d)), held(u32::MAX - d, 0));
        }
        for d in [64, 65, 127, 128, 256, 1 << 31, u32::MAX, u32::MAX - 63] {
            assert_eq!(e.holder(first.wrapping_add(d)), Holder::Free, "{d}");
        }
        take(e);
        assert_eq!(e.holder(first), Holder::Free);
        assert_eq!(e.holder(first.wrapping_add(63)), held(u32::MAX - 63, 0));
        assert_eq!(e.holder(first.wrapping_add(64)), Holder::Free);
        assert_eq!(offer(e, 0, first.wrapping_add(64), 5), Offer::Kept);
        assert_eq!(e.holder(first.wrapping_add(64)), held(5, 0));
        assert_eq!(e.holder(first), Holder::Free);
    }
}

fn holder_of_what_is_not_kept(e: &mut dyn Engine) {
    e.begin_session(100, 1, 0);
    let immediate = scsi_command(100).immediate();
    assert_eq!(e.offer(0, 1, &immediate.0), Ok(Offer::Immediate));
    assert_eq!(e.offer(1, 1, &scsi_command(100).0), Err(Refusal::Closed));
    let broken = scsi_command(100).byte(1, 0x07);
    assert_eq!(e.offer(0, 1, &broken.0), Err(Refusal::Field));
    assert_eq!(offer(e, 0, 99, 1), Offer::Beyond);
    assert_eq!(offer(e, 0, 164, 1), Offer::Beyond);
    assert_eq!(holders(e, [99, 100, 164]), [Holder::Free; 3]);
    // The least ticket is one too.
    assert_eq!(offer(e, 0, 100, 0), Offer::Kept);
    assert_eq!(e.holder(100), held(0, 0));
    take(e);
    assert_eq!(offer(e, 0, 100, 1), Offer::Passed);
    assert_eq!(e.holder(100), Holder::Free);
}

fn holder_after_reason_0(e: &mut dyn Engine) {
    with_a_gap(e);
    e.logout(1, 2).unwrap();
    e.logout(0, 0).unwrap();
    assert_eq!(holders(e, [10, 11, 12]), [Holder::Void; 3]);
    assert_eq!(holders(e, [9, 13, 14, 15]), [Holder::Free; 4]);
    e.open(2, 1).unwrap();
    assert_eq!(offer(e, 2, 15, 3), Offer::Kept);
    assert_eq!(e.holder(15), held(3, 2));
    // A fresh session holds nothing.
    e.begin_session(10, 1, 0);
    assert_eq!(holders(e, [10, 11, 12, 15]), [Holder::Free; 4]);
}

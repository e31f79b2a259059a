//! Data-In at the boundaries of its rules.

use super::super::{FILL, checks, send};
use super::*;

checks![
    data_in_is_written_by_the_record,
    data_in_uses_up_no_stat_sn,
    data_in_carries_the_window_of_now,
    a_burst_ends_at_its_last_byte,
    an_r2t_ends_no_burst_of_data_in,
    no_data_in_passes_the_last_offset,
    fewer_than_2_32_are_sent,
    a_needs_a_transfer_tag,
    data_in_refuses_in_order,
    later_bytes_stay,
];

fn data_in_is_written_by_the_record(e: &mut dyn Engine) {
    let mut c = case(e);
    let fresh = c.task.clone();
    // Without A neither LUN nor transfer tag; no StatSN.
    let wanted = header(&[
        (0, &[0x25, 0, 0, 0, 0, 0, 1, 0]),
        (16, &[0x10, 0x11, 0x12, 0x13, 0xff, 0xff, 0xff, 0xff]),
        (28, &[0, 0, 0, 0x20, 0, 0, 0, 0x5f]),
    ]);
    assert_eq!(c.data_in_on(0, (false, false), 0x100), Ok(wanted));
    let after_first = Task {
        sent: 1,
        any_data_in: true,
        offset: 0x100,
        burst: 0x100,
        ..fresh
    };
    assert_eq!(c.task, after_first);
    // With A both; the next number and offset. F ends the burst.
    let wanted = header(&[
        (0, &[0x25, 0xc0, 0, 0, 0, 0, 0, 0xff]),
        (8, &[8, 9, 10, 11, 12, 13, 14, 15]),
        (16, &[0x10, 0x11, 0x12, 0x13, 0x14, 0x15, 0x16, 0x17]),
        (28, &[0, 0, 0, 0x20, 0, 0, 0, 0x5f]),
        (36, &[0, 0, 0, 1, 0, 0, 1, 0]),
    ]);
    assert_eq!(c.data_in_on(0, (true, true), 0xff), Ok(wanted));
    let after_second = Task {
        sent: 2,
        offset: 0x1ff,
        burst: 0,
        ..after_first
    };
    assert_eq!(c.task, after_second);
    // F without A, and A without F.
    let wanted = |flags, offset: u8, number: u8, tags: &[u8]| {
        header(&[
            (0, &[0x25, flags]),
            (8, tags),
            (28, &[0, 0, 0, 0x20, 0, 0, 0, 0x5f]),
            (36, &[0, 0, 0, number, 0, 0, 1, offset]),
        ])
    };
    let tags: Vec<u8> = (8..24).collect();
    let none = [&[0; 8][..], &tags[8..12], &[0xff; 4]].concat();
    assert_eq!(
        c.data_in_on(0, (false, true), 0),
        Ok(wanted(0x40, 0xff, 2, &tags))
    );
    assert_eq!(
        c.data_in_on(0, (true, false), 0),
        Ok(wanted(0x80, 0xff, 3, &none))
    );
}

fn data_in_uses_up_no_stat_sn(e: &mut dyn Engine) {
    let mut c = case(e);
    for (f, a) in [(false, false), (false, true), (true, false), (true, true)] {
        let sent = c.data_in_on(0, (f, a), 1).unwrap();
        assert_eq!(sent[24..28], [0; 4]);
        assert_eq!(c.e.next_stat_sn(0), Ok(STAT_SN));
        assert_eq!(c.resend(STAT_SN), Err(Refusal::Snack));
    }
    // Nor is it FULL.
    for ticket in 0..32 {
        assert_eq!(send(c.e, 0, ticket), STAT_SN + ticket);
    }
    assert!(c.data_in(true, 1).is_ok());
    assert_eq!(c.e.acknowledge(0, STAT_SN + 32), Ok(32));
}

fn data_in_carries_the_window_of_now(e: &mut dyn Engine) {
    let mut c = case(e);
    c.e.offer(0, 1, &scsi_command(CMD_SN).0).unwrap();
    let h = c.data_in_on(0, (false, false), 1).unwrap();
    assert_eq!((number(&h, 28), number(&h, 32)), (0x21, 0x5f));
    c.e.take(&mut [0; 48]).unwrap();
    let h = c.r2t_on(0, 1, 1).unwrap();
    assert_eq!((number(&h, 28), number(&h, 32)), (0x21, 0x60));
}

fn a_burst_ends_at_its_last_byte(e: &mut dyn Engine) {
    let mut c = case(e);
    assert_eq!(c.data_in(true, 513), Err(Refusal::Field));
    assert_eq!(c.data_in(false, 511), Ok((0, 0)));
    assert_eq!(c.data_in(false, 2), Err(Refusal::Field));
    assert_eq!(c.data_in(true, 2), Err(Refusal::Field));
    assert_eq!(c.data_in(false, 1), Ok((1, 511)));
    // The burst is full: an empty PDU still goes in, a byte doesn't, with F or without.
    assert_eq!(c.data_in(false, 0), Ok((2, 512)));
    assert_eq!(c.data_in(false, 1), Err(Refusal::Field));
    assert_eq!(c.data_in(true, 1), Err(Refusal::Field));
    assert_eq!(c.data_in(true, 0), Ok((3, 512)));
    assert_eq!(c.task.burst, 0);
    // The limit is the burst's, not the transfer's; neither DataSN nor the offset starts anew.
    assert_eq!(c.data_in(true, 512), Ok((4, 512)));
    assert_eq!(c.data_in(false, 512), Ok((5, 1024)));
    assert_eq!((c.task.sent, c.task.offset, c.task.burst), (6, 1536, 512));
    // The longest data segment in the longest burst, and none in the shortest.
    let mut c = with(e, |t| t.max_burst = u32::MAX);
    c.task.burst = u32::MAX - 8192;
    assert_eq!(c.data_in(false, 8192), Ok((0, 0)));
    assert_eq!(c.task.burst, u32::MAX);
    assert_eq!(c.data_in(false, 1), Err(Refusal::Field));
    let mut c = with(e, |t| t.max_burst = 0);
    assert_eq!(c.data_in(false, 1), Err(Refusal::Field));
    assert_eq!(c.data_in(false, 0), Ok((0, 0)));
}

fn an_r2t_ends_no_burst_of_data_in(e: &mut dyn Engine) {
    let mut c = case(e);
    assert_eq!(c.data_in(false, 500), Ok((0, 0)));
    assert_eq!(c.r2t(1, 512), Ok((1, 0)));
    assert_eq!(c.data_in(false, 13), Err(Refusal::Field));
    // One numbering, but offsets of their own.
    assert_eq!(c.data_in(false, 12), Ok((2, 500)));
    assert_eq!(c.r2t(2, 100), Ok((3, 512)));
}

fn no_data_in_passes_the_last_offset(e: &mut dyn Engine) {
    let mut at = |offset, length| {
        let mut c = with(e, |t| t.offset = offset);
        let answer = c.data_in(false, length);
        (answer, c.task.offset)
    };
    let last = 0xffff_ffff;
    assert_eq!(at(END - 1, 0), (Ok((0, last)), END - 1));
    assert_eq!(at(END - 1, 1), (Ok((0, last)), END));
    assert_eq!(at(END - 1, 2).0, Err(Refusal::Field));
    assert_eq!(at(END - 512, 512), (Ok((0, 0xffff_fe00)), END));
    assert_eq!(at(END - 511, 512).0, Err(Refusal::Field));
    // At 2^32 nothing is left, not even for an empty one.
    for offset in [END, END + 1, u64::MAX] {
        assert_eq!(at(offset, 0).0, Err(Refusal::Field));
        assert_eq!(at(offset, 1).0, Err(Refusal::Field));
    }
    // A type 3 goes back from there.
    let mut c = with(e, |t| t.offset = END);
    assert_eq!(c.data_in(true, 0), Err(Refusal::Field));
    assert_eq!(c.send_anew(5, last), Ok((0, 0)));
    assert_eq!(c.data_in(true, 1), Ok((0, last)));
}

fn fewer_than_2_32_are_sent(e: &mut dyn Engine) {
    let mut c = with(e, |t| t.sent = 0xffff_fffe);
    assert_eq!(c.data_in(false, 1), Ok((0xffff_fffe, 0)));
    assert_eq!(c.task.sent, 0xffff_ffff);
    assert_eq!(c.data_in(false, 1), Err(Refusal::Field));
    assert_eq!(c.data_in(true, 0), Err(Refusal::Field));
    assert_eq!(c.r2t(1, 1), Err(Refusal::Field));
    let sent = c.status(0, ITT, 0).unwrap();
    assert_eq!(number(&sent, 36), 0xffff_ffff);
    let mut c = with(e, |t| t.sent = 0xffff_fffe);
    assert_eq!(c.r2t(1, 1), Ok((0xffff_fffe, 0)));
    assert_eq!(c.r2t(2, 1), Err(Refusal::Field));
    // A type 3 makes room again.
    assert_eq!(c.send_anew(5, 0), Ok((0, 0xffff_ffff)));
    assert_eq!(c.r2t(2, 1), Ok((0, 1)));
}

fn a_needs_a_transfer_tag(e: &mut dyn Engine) {
    let mut c = with(e, |t| t.tag = NO_TAG);
    for f in [false, true] {
        assert_eq!(c.data_in_on(0, (f, true), 1), Err(Refusal::Field));
        assert!(c.data_in_on(0, (f, false), 1).is_ok());
    }
    // Tags 0 and 0xfffffffe are tags, A is no matter of the level, and may come twice in a burst.
    for tag in [0, 0xffff_fffe] {
        let mut c = at_level(e, 0, TaskGiven { tag, ..GIVEN });
        for _ in 0..2 {
            let h = c.data_in_on(0, (false, true), 1).unwrap();
            assert_eq!((h[1], number(&h, 20)), (0x40, tag));
        }
    }
}

/// BUFFER, NOCONN, CLOSED, TOOLONG, FIELD.
fn data_in_refuses_in_order(e: &mut dyn Engine) {
    let mut c = with(e, |t| t.tag = NO_TAG);
    let long = DataInPdu {
        final_bit: true,
        acknowledge: true,
        data_segment_length: 8193,
    };
    for length in [0, 47] {
        let mut short = vec![FILL; length];
        let answer = c.on_record(|e, task| e.data_in(4, task, &mut short, long));
        assert_eq!(answer, Err(Refusal::Buffer));
        assert_eq!(short, vec![FILL; length]);
    }
    let both = (true, true);
    for none in [4, 255, 256, u32::MAX] {
        assert_eq!(c.data_in_on(none, both, 8193), Err(Refusal::NoConn));
    }
    for closed in 1..4 {
        assert_eq!(c.data_in_on(closed, both, 8193), Err(Refusal::Closed));
        assert_eq!(c.data_in_on(closed, both, 1), Err(Refusal::Closed));
    }
    for long in [8193, 1 << 24, u32::MAX] {
        assert_eq!(c.data_in_on(0, both, long), Err(Refusal::TooLong));
    }
    assert_eq!(c.data_in_on(0, both, 8192), Err(Refusal::Field));
    assert_eq!(c.data_in_on(0, (true, false), 8192), Err(Refusal::Field));
    c.task.max_burst = 8192;
    assert_eq!(c.data_in_on(0, both, 8192), Err(Refusal::Field));
    assert!(c.data_in_on(0, (true, false), 8192).is_ok());
}

fn later_bytes_stay(e: &mut dyn Engine) {
    let c = case(e);
    let pdu = DataInPdu {
        final_bit: true,
        acknowledge: false,
        data_segment_length: 1,
    };
    let mut task = c.task;
    let mut out = [FILL; 60];
    assert_eq!(c.e.data_in(0, &mut task, &mut out, pdu), Ok(()));
    assert_eq!((out[0], &out[48..]), (0x25, &[FILL; 12][..]));
    let mut out = [FILL; 60];
    assert_eq!(c.e.r2t(0, &mut task, &mut out, 1, 1), Ok(()));
    assert_eq!((out[0], &out[48..]), (0x31, &[FILL; 12][..]));
}

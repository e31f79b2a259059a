//! Data-In at the boundaries of its rules.

use crate::{END, FILL, GIVEN, at_level, case, header, number};
use calls::{DataInPdu, Engine, Refusal, Task, TaskGiven};
use testkit::pdu::{self, NO_TAG};

#[test]
fn a_data_in_is_written_by_the_record() {
    let mut c = case();
    // Without A neither LUN nor transfer tag; no StatSN; ExpCmdSN 0x20, MaxCmdSN 0x5f.
    let wanted = header(&[
        (0, &[0x25, 0, 0, 0, 0, 0, 1, 0]),
        (16, &[0x10, 0x11, 0x12, 0x13, 0xff, 0xff, 0xff, 0xff]),
        (28, &[0, 0, 0, 0x20, 0, 0, 0, 0x5f]),
    ]);
    assert_eq!(c.data_in_on(0, (false, false), 0x100), Ok(wanted));
    let after_first = Task {
        sent: 1,
        any_data_in: true,
        offset: 0x100,
        burst: 0x100,
        ..case().task
    };
    assert_eq!(c.task, after_first);
    // With A both; the next number and offset. F ends the burst.
    let wanted = header(&[
        (0, &[0x25, 0xc0, 0, 0, 0, 0, 0, 0xff]),
        (8, &[8, 9, 10, 11, 12, 13, 14, 15]),
        (16, &[0x10, 0x11, 0x12, 0x13, 0x14, 0x15, 0x16, 0x17]),
        (28, &[0, 0, 0, 0x20, 0, 0, 0, 0x5f]),
        (36, &[0, 0, 0, 1, 0, 0, 1, 0]),
    ]);
    assert_eq!(c.data_in_on(0, (true, true), 0xff), Ok(wanted));
    let after_second = Task {
        sent: 2,
        offset: 0x1ff,
        burst: 0,
        ..after_first
    };
    assert_eq!(c.task, after_second);
    assert_eq!(c.model.next_stat_sn(0), Ok(0x18), "no number is used up");
    assert_eq!(
        c.model.resend(0, 0x18, &c.task, &mut [0; 48]),
        Err(Refusal::Snack)
    );
}

#[test]
fn data_in_carries_the_window_of_now() {
    let mut c = case();
    c.model.offer(0, 1, &pdu::scsi_command(0x20).0).unwrap();
    let h = c.data_in_on(0, (false, false), 1).unwrap();
    assert_eq!((number(&h, 28), number(&h, 32)), (0x21, 0x5f));
    c.model.take(&mut [0; 48]).unwrap();
    let h = c.r2t_on(0, 1, 1).unwrap();
    assert_eq!((number(&h, 28), number(&h, 32)), (0x21, 0x60));
}

#[test]
fn later_bytes_of_a_lent_output_stay() {
    let mut c = case();
    let pdu = DataInPdu {
        final_bit: true,
        acknowledge: false,
        data_segment_length: 1,
    };
    let mut out = [FILL; 50];
    c.model.data_in(0, &mut c.task, &mut out, pdu).unwrap();
    assert_eq!((out[0], &out[48..]), (0x25, &[FILL, FILL][..]));
    let mut out = [FILL; 50];
    c.model.r2t(0, &mut c.task, &mut out, 1, 1).unwrap();
    assert_eq!((out[0], &out[48..]), (0x31, &[FILL, FILL][..]));
}

#[test]
fn a_burst_ends_at_max_burst_length_and_numbers_go_on() {
    let mut c = case();
    assert_eq!(c.data_in(true, 513), Err(Refusal::Field));
    assert_eq!(c.data_in(false, 511), Ok((0, 0)));
    assert_eq!(c.data_in(false, 2), Err(Refusal::Field));
    assert_eq!(c.data_in(false, 1), Ok((1, 511)));
    // The burst is full: an empty PDU still goes in, a byte doesn't, with F or without.
    assert_eq!(c.data_in(false, 1), Err(Refusal::Field));
    assert_eq!(c.data_in(true, 1), Err(Refusal::Field));
    assert_eq!(c.data_in(true, 0), Ok((2, 512)));
    assert_eq!(c.task.burst, 0);
    // The limit is the burst's, not the transfer's; DataSN doesn't start anew.
    assert_eq!(c.data_in(true, 512), Ok((3, 512)));
    assert_eq!(c.data_in(true, 512), Ok((4, 1024)));
    assert_eq!((c.task.sent, c.task.offset), (5, 1536));
}

#[test]
fn an_r2t_ends_no_burst_of_data_in() {
    let mut c = case();
    assert_eq!(c.data_in(false, 500), Ok((0, 0)));
    assert_eq!(c.r2t(1, 512), Ok((1, 0)));
    assert_eq!(c.data_in(false, 13), Err(Refusal::Field));
    // One numbering, but offsets of their own.
    assert_eq!(c.data_in(false, 12), Ok((2, 500)));
    assert_eq!(c.r2t(2, 100), Ok((3, 512)));
}

#[test]
fn no_data_in_passes_the_last_offset() {
    let at = |offset| case().set(|t| t.offset = offset);
    let last = 0xffff_ffff;
    assert_eq!(at(END - 1).data_in(false, 0), Ok((0, last)));
    assert_eq!(at(END - 1).data_in(false, 2), Err(Refusal::Field));
    let mut c = at(END - 1);
    assert_eq!(c.data_in(false, 1), Ok((0, last)));
    assert_eq!(c.task.offset, END);
    assert_eq!(c.data_in(true, 0), Err(Refusal::Field));
    assert_eq!(c.data_in(true, 1), Err(Refusal::Field));
    assert_eq!(at(END - 512).data_in(true, 512), Ok((0, 0xffff_fe00)));
    assert_eq!(at(END - 511).data_in(true, 512), Err(Refusal::Field));
    assert_eq!(at(END + 1).data_in(true, 0), Err(Refusal::Field));
    assert_eq!(at(u64::MAX).data_in(true, 0), Err(Refusal::Field));
    assert_eq!(at(u64::MAX).data_in(true, 1), Err(Refusal::Field));
}

#[test]
fn fewer_than_2_32_are_sent() {
    let mut c = case().set(|t| t.sent = 0xffff_fffe);
    assert_eq!(c.data_in(false, 1), Ok((0xffff_fffe, 0)));
    assert_eq!(c.task.sent, 0xffff_ffff);
    assert_eq!(c.data_in(false, 1), Err(Refusal::Field));
    assert_eq!(c.r2t(1, 1), Err(Refusal::Field));
    assert_eq!(c.exp_data_sn(0), 0xffff_ffff);
    let mut c = case().set(|t| t.sent = 0xffff_fffe);
    assert_eq!(c.r2t(1, 1), Ok((0xffff_fffe, 0)));
    assert_eq!(c.r2t(1, 1), Err(Refusal::Field));
    // A type 3 makes room again.
    assert_eq!(c.send_anew(5, 0), Ok((0, 0xffff_ffff)));
    assert_eq!(c.r2t(1, 1), Ok((0, 1)));
}

#[test]
fn a_needs_a_transfer_tag() {
    let mut c = case().set(|t| t.tag = NO_TAG);
    for f in [false, true] {
        assert_eq!(c.data_in_on(0, (f, true), 1), Err(Refusal::Field));
        assert!(c.data_in_on(0, (f, false), 1).is_ok());
    }
    // Tag 0 is a tag, A is no matter of the level, and may come twice in a burst.
    let mut c = at_level(0, TaskGiven { tag: 0, ..GIVEN });
    for _ in 0..2 {
        let h = c.data_in_on(0, (false, true), 1).unwrap();
        assert_eq!((h[1], number(&h, 20)), (0x40, 0));
    }
}

#[test]
fn order_of_refusals_of_data_in() {
    let mut c = case().set(|t| t.max_burst = 8192);
    let pdu = |data_segment_length| DataInPdu {
        final_bit: true,
        acknowledge: false,
        data_segment_length,
    };
    // Everything wrong at once: BUFFER, NOCONN, CLOSED, TOOLONG, FIELD.
    let short = c.model.data_in(4, &mut c.task, &mut [0; 47], pdu(8193));
    assert_eq!(short, Err(Refusal::Buffer));
    let none = c.model.data_in(4, &mut c.task, &mut [], pdu(0));
    assert_eq!(none, Err(Refusal::Buffer));
    let both = (true, false);
    assert_eq!(c.data_in_on(4, both, 8193), Err(Refusal::NoConn));
    assert_eq!(c.data_in_on(u32::MAX, both, 0), Err(Refusal::NoConn));
    assert_eq!(c.data_in_on(3, both, 8193), Err(Refusal::Closed));
    assert_eq!(c.data_in_on(0, both, 8193), Err(Refusal::TooLong));
    assert_eq!(c.data_in_on(0, both, u32::MAX), Err(Refusal::TooLong));
    c.task.max_burst = 8191;
    assert_eq!(c.data_in_on(0, both, 8192), Err(Refusal::Field));
    c.task.max_burst = 8192;
    assert!(c.data_in_on(0, both, 8192).is_ok());
}

#[test]
fn data_calls_go_on_any_open_connection() {
    let mut c = case();
    c.model.open(3, 0x99).unwrap();
    assert_eq!(number(&c.r2t_on(3, 1, 1).unwrap(), 24), 0x99);
    assert_eq!(number(&c.r2t_on(0, 1, 1).unwrap(), 24), 0x18);
    assert_eq!(number(&c.data_in_on(3, (true, true), 1).unwrap(), 24), 0);
    c.model.logout(0, 1).unwrap();
    assert_eq!(c.r2t_on(0, 1, 1), Err(Refusal::Closed));
    assert!(c.r2t_on(3, 1, 1).is_ok());
}

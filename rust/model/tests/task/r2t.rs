//! R2T at the boundaries of its rules.

use crate::{END, GIVEN, ITT, at_level, case, data_out, header};
use calls::{Engine, OpenR2t, Refusal, Task, TaskGiven};
use testkit::pdu::NO_TAG;

#[test]
fn an_r2t_is_written_by_the_record_and_uses_up_no_number() {
    let mut c = at_level(1, TaskGiven { came: 10, ..GIVEN });
    let wanted = |stat_sn, r2t_sn, tag, offset, length| {
        header(&[
            (0, &[0x31, 0x80]),
            (8, &[8, 9, 10, 11, 12, 13, 14, 15]),
            (16, &[0x10, 0x11, 0x12, 0x13, 0, 0, 0, tag]),
            (24, &[0, 0, 0, stat_sn, 0, 0, 0, 0x20, 0, 0, 0, 0x5f]),
            (36, &[0, 0, 0, r2t_sn, 0, 0, 0, offset, 0, 0, 0, length]),
        ])
    };
    assert_eq!(c.r2t_on(0, 1, 20), Ok(wanted(0x18, 0, 1, 10, 20)));
    assert_eq!(c.r2t_on(0, 2, 1), Ok(wanted(0x18, 1, 2, 30, 1)));
    let after = Task {
        sent: 2,
        asked: 31,
        came: 10,
        open: vec![OpenR2t { tag: 1, end: 30 }, OpenR2t { tag: 2, end: 31 }],
        ..case().task
    };
    assert_eq!(c.task, after);
    assert_eq!(c.model.next_stat_sn(0), Ok(0x18));
    // A status moves the next StatSN; the R2T isn't stored beside it, also where the ledger is full.
    c.status(0, ITT, 0).unwrap();
    assert_eq!(c.r2t_on(0, 3, 1), Ok(wanted(0x19, 2, 3, 31, 1)));
    for _ in 1..32 {
        c.status(0, ITT, 0).unwrap();
    }
    assert_eq!(c.status(0, ITT, 0), Err(Refusal::Full));
    assert_eq!(c.r2t_on(0, 4, 1), Ok(wanted(0x38, 3, 4, 32, 1)));
    assert!(c.data_in_on(0, (true, true), 1).is_ok());
    assert_eq!(c.model.acknowledge(0, 0x38), Ok(32));
}

#[test]
fn tag_and_length_of_an_r2t() {
    let mut c = case();
    assert_eq!(c.r2t(NO_TAG, 1), Err(Refusal::Field));
    assert_eq!(c.r2t(1, 0), Err(Refusal::Field));
    assert_eq!(c.r2t(1, 513), Err(Refusal::Field));
    assert_eq!(c.r2t(1, u32::MAX), Err(Refusal::Field));
    assert_eq!(c.r2t(0xffff_fffe, 512), Ok((0, 0)));
    assert_eq!(c.r2t(0, 1), Ok((1, 512)));
    // A tag may be used twice. No limit of a data segment binds the length.
    assert_eq!(c.r2t(0, 1), Ok((2, 513)));
    c.task.max_burst = u32::MAX;
    assert_eq!(c.r2t(1, 0xffff_fdfe), Ok((3, 514)));
    assert_eq!(c.task.asked, END);
}

#[test]
fn no_r2t_passes_the_last_offset() {
    let at = |asked| case().set(|t| t.asked = asked);
    assert_eq!(at(END - 512).r2t(1, 512), Ok((0, 0xffff_fe00)));
    assert_eq!(at(END - 511).r2t(1, 512), Err(Refusal::Field));
    let mut c = at(END - 1);
    assert_eq!(c.r2t(1, 2), Err(Refusal::Field));
    assert_eq!(c.r2t(1, 1), Ok((0, 0xffff_ffff)));
    assert_eq!(c.task.open, [OpenR2t { tag: 1, end: END }]);
    assert_eq!(c.r2t(1, 1), Err(Refusal::Field));
    assert_eq!(at(u64::MAX).r2t(1, 1), Err(Refusal::Field));
    assert_eq!(at(u64::MAX).r2t(1, 512), Err(Refusal::Field));
    // The last byte comes, and the record says where.
    c.task.came = END - 1;
    let pdu = data_out(1, 0, 0xffff_ffff, 1, true);
    assert_eq!(c.data_out(&pdu), Ok((0xffff_ffff, 1, 0)));
    assert_eq!((c.task.came, c.task.asked), (END, END));
}

#[test]
fn order_of_refusals_of_an_r2t() {
    let mut c = case();
    let short = c.model.r2t(4, &mut c.task, &mut [0; 47], NO_TAG, 0);
    assert_eq!(short, Err(Refusal::Buffer));
    assert_eq!(c.r2t_on(4, NO_TAG, 0), Err(Refusal::NoConn));
    assert_eq!(c.r2t_on(1, NO_TAG, 0), Err(Refusal::Closed));
    assert_eq!(c.r2t_on(0, NO_TAG, 0), Err(Refusal::Field));
}

#[test]
fn eight_r2ts_stand_open_and_are_answered_in_order() {
    let mut c = case();
    for at in 0..8 {
        assert_eq!(c.r2t(0x70 + at, 10), Ok((at, 10 * at)));
    }
    assert_eq!(c.r2t(0x78, 10), Err(Refusal::Field), "a ninth");
    // Another's tag, at its own place or at the oldest one's, isn't due.
    for at in 1..8 {
        for offset in [0, 10 * at] {
            let pdu = data_out(0x70 + at, 0, offset, 10, true);
            assert_eq!(c.data_out(&pdu), Err(Refusal::Field));
        }
    }
    for at in 0..8 {
        let open = 7 - at as u8;
        let pdu = data_out(0x70 + at, 0, 10 * at, 4, false);
        assert_eq!(c.data_out(&pdu), Ok((10 * at, 4, open + 1)));
        let pdu = data_out(0x70 + at, 1, 10 * at + 4, 6, true);
        assert_eq!(c.data_out(&pdu), Ok((10 * at + 4, 6, open)));
    }
    assert_eq!((c.task.came, c.task.asked), (80, 80));
    assert_eq!(c.r2t(0x78, 10), Ok((8, 80)));
}

#[test]
fn max_outstanding_r2t_is_the_tasks() {
    for max_r2t in 1..=8 {
        let mut c = at_level(1, TaskGiven { max_r2t, ..GIVEN });
        for at in 0..u32::from(max_r2t) {
            assert_eq!(c.r2t(at, 1), Ok((at, at)));
        }
        assert_eq!(c.r2t(99, 1), Err(Refusal::Field));
        // One answered, one more may be asked for; a type 3 closes none.
        assert!(c.data_out(&data_out(0, 0, 0, 1, true)).is_ok());
        assert!(c.r2t(99, 1).is_ok());
        assert!(c.send_anew(5, 0).is_ok());
        assert_eq!(c.r2t(99, 1), Err(Refusal::Field));
    }
}

#[test]
fn a_record_that_no_call_gave_holds_eight_at_most() {
    for max_r2t in [9, 255] {
        let mut c = case().set(|t| t.max_r2t = max_r2t);
        for at in 0..8 {
            assert_eq!(c.r2t(at, 1), Ok((at, at)));
        }
        assert_eq!(c.r2t(8, 1), Err(Refusal::Field));
    }
    let mut c = case().set(|t| t.max_r2t = 0);
    assert_eq!(c.r2t(1, 1), Err(Refusal::Field));
}

//! R2T at the boundaries of its rules.

use super::super::{FILL, checks, send};
use super::*;

checks![
    an_r2t_is_written_by_the_record,
    an_r2t_uses_up_no_stat_sn_and_is_not_held,
    tag_and_length_of_an_r2t,
    no_r2t_passes_the_last_offset,
    eight_r2ts_stand_open_and_a_ninth_does_not,
    max_outstanding_r2t_is_the_tasks,
    an_r2t_refuses_in_order,
];

fn an_r2t_is_written_by_the_record(e: &mut dyn Engine) {
    let mut c = at_level(e, 1, TaskGiven { came: 10, ..GIVEN });
    let fresh = c.task.clone();
    let wanted = |r2t_sn, tag, offset, length| {
        header(&[
            (0, &[0x31, 0x80]),
            (8, &[8, 9, 10, 11, 12, 13, 14, 15]),
            (16, &[0x10, 0x11, 0x12, 0x13, 0, 0, 0, tag]),
            (24, &[0, 0, 0, 0x18, 0, 0, 0, 0x20, 0, 0, 0, 0x5f]),
            (36, &[0, 0, 0, r2t_sn, 0, 0, 0, offset, 0, 0, 0, length]),
        ])
    };
    assert_eq!(c.r2t_on(0, 1, 20), Ok(wanted(0, 1, 10, 20)));
    assert_eq!(c.r2t_on(0, 2, 1), Ok(wanted(1, 2, 30, 1)));
    let after = Task {
        sent: 2,
        asked: 31,
        open: vec![OpenR2t { tag: 1, end: 30 }, OpenR2t { tag: 2, end: 31 }],
        ..fresh
    };
    assert_eq!(c.task, after);
    // One numbering with Data-In.
    assert_eq!(c.data_in(true, 5), Ok((2, 0)));
    assert_eq!(c.r2t_on(0, 3, 4), Ok(wanted(3, 3, 31, 4)));
    // What came doesn't move what is asked for.
    assert_eq!(c.came(&data_out_of(1, 0, 10, 20, true)), Ok((10, 20, 2)));
    assert_eq!(c.r2t_on(0, 4, 4), Ok(wanted(4, 4, 35, 4)));
}

fn an_r2t_uses_up_no_stat_sn_and_is_not_held(e: &mut dyn Engine) {
    let mut c = case(e);
    for tag in 0..2 {
        let sent = c.r2t_on(0, tag, 1).unwrap();
        assert_eq!(number(&sent, 24), STAT_SN);
        assert_eq!(c.e.next_stat_sn(0), Ok(STAT_SN));
        assert_eq!(c.resend(STAT_SN), Err(Refusal::Snack));
    }
    // A status moves the next StatSN; the R2T isn't stored beside it, also where the ledger is full.
    for ticket in 0..32 {
        assert_eq!(send(c.e, 0, ticket), STAT_SN + ticket);
    }
    let sent = c.r2t_on(0, 2, 1).unwrap();
    assert_eq!((number(&sent, 24), number(&sent, 36)), (STAT_SN + 32, 2));
    assert_eq!(c.resend(STAT_SN + 32), Err(Refusal::Snack));
    assert_eq!(c.e.acknowledge(0, STAT_SN + 33), Err(Refusal::Stale));
    assert_eq!(c.e.acknowledge(0, STAT_SN + 32), Ok(32));
}

fn tag_and_length_of_an_r2t(e: &mut dyn Engine) {
    let mut c = case(e);
    assert_eq!(c.r2t(NO_TAG, 1), Err(Refusal::Field));
    assert_eq!(c.r2t(1, 0), Err(Refusal::Field));
    assert_eq!(c.r2t(1, 513), Err(Refusal::Field));
    assert_eq!(c.r2t(1, u32::MAX), Err(Refusal::Field));
    assert_eq!(c.r2t(0xffff_fffe, 512), Ok((0, 0)));
    assert_eq!(c.r2t(0, 1), Ok((1, 512)));
    // A tag may be used twice, also the one that Data-In bears. No limit of a data segment binds the length.
    assert_eq!(c.r2t(0, 1), Ok((2, 513)));
    assert_eq!(c.r2t(TAG, 1), Ok((3, 514)));
    c.task.max_burst = u32::MAX;
    assert_eq!(c.r2t(1, 0xffff_fdfd), Ok((4, 515)));
    assert_eq!(c.task.asked, END);
    // A burst of Data-In under way is no matter.
    let mut c = case(e);
    assert_eq!(c.data_in(false, 512), Ok((0, 0)));
    assert_eq!(c.r2t(1, 512), Ok((1, 0)));
}

fn no_r2t_passes_the_last_offset(e: &mut dyn Engine) {
    let mut at = |asked: u64, length| {
        let mut c = with(e, |t| (t.asked, t.came) = (asked, asked));
        let answer = c.r2t(1, length);
        (answer, c.task.asked)
    };
    assert_eq!(at(END - 512, 512), (Ok((0, 0xffff_fe00)), END));
    assert_eq!(at(END - 511, 512).0, Err(Refusal::Field));
    assert_eq!(at(END - 1, 1), (Ok((0, 0xffff_ffff)), END));
    for asked in [END - 1, END, END + 1, u64::MAX] {
        assert_eq!(at(asked, 2).0, Err(Refusal::Field));
    }
    for asked in [END, u64::MAX] {
        assert_eq!(at(asked, 1).0, Err(Refusal::Field));
    }
    // The last byte is asked for, comes, and nothing can be asked for after it.
    let mut c = with(e, |t| (t.asked, t.came) = (END - 1, END - 1));
    assert_eq!(c.r2t(1, 1), Ok((0, 0xffff_ffff)));
    assert_eq!(c.task.open, [OpenR2t { tag: 1, end: END }]);
    let pdu = data_out_of(1, 0, 0xffff_ffff, 1, true);
    assert_eq!(c.came(&pdu), Ok((0xffff_ffff, 1, 0)));
    assert_eq!((c.task.came, c.task.asked), (END, END));
    assert_eq!(c.r2t(1, 1), Err(Refusal::Field));
}

fn eight_r2ts_stand_open_and_a_ninth_does_not(e: &mut dyn Engine) {
    let mut c = case(e);
    for at in 0..8 {
        assert_eq!(c.r2t(0x70 + at, 10), Ok((at, 10 * at)));
    }
    assert_eq!(c.r2t(0x78, 10), Err(Refusal::Field), "a ninth");
    // Three times round: each answered is followed by one more, and always the oldest is due.
    for at in 0..24 {
        let pdu = data_out_of(0x70 + at, 0, 10 * at, 4, false);
        assert_eq!(c.came(&pdu), Ok((10 * at, 4, 8)));
        assert_eq!(c.r2t(0x78 + at, 10), Err(Refusal::Field));
        let pdu = data_out_of(0x70 + at, 1, 10 * at + 4, 6, true);
        assert_eq!(c.came(&pdu), Ok((10 * at + 4, 6, 7)));
        assert_eq!(c.r2t(0x78 + at, 10), Ok((8 + at, 80 + 10 * at)));
    }
    let open: Vec<_> = (24..32)
        .map(|at| OpenR2t {
            tag: 0x70 + at,
            end: 10 * u64::from(at) + 10,
        })
        .collect();
    assert_eq!(c.task.open, open);
    for at in 24..32u8 {
        let pdu = data_out_of(0x70 + u32::from(at), 0, 10 * u32::from(at), 10, true);
        assert_eq!(c.came(&pdu), Ok((10 * u32::from(at), 10, 31 - at)));
    }
    assert_eq!((c.task.came, c.task.asked, c.task.data_sn), (320, 320, 0));
}

fn max_outstanding_r2t_is_the_tasks(e: &mut dyn Engine) {
    for max_r2t in 1..=8 {
        let mut c = at_level(e, 1, TaskGiven { max_r2t, ..GIVEN });
        for at in 0..u32::from(max_r2t) {
            assert_eq!(c.r2t(at, 1), Ok((at, at)));
        }
        assert_eq!(c.r2t(99, 1), Err(Refusal::Field));
        // One answered, one more may be asked for; a type 3 closes none.
        assert!(c.came(&data_out_of(0, 0, 0, 1, true)).is_ok());
        assert!(c.r2t(99, 1).is_ok());
        assert!(c.send_anew(5, 0).is_ok());
        assert_eq!(c.r2t(99, 1), Err(Refusal::Field));
    }
}

/// BUFFER, NOCONN, CLOSED, FIELD. Writing has nothing to refuse in an R2T.
fn an_r2t_refuses_in_order(e: &mut dyn Engine) {
    let mut c = case(e);
    for length in [0, 47] {
        let mut short = vec![FILL; length];
        let answer = c.on_record(|e, task| e.r2t(4, task, &mut short, NO_TAG, 0));
        assert_eq!(answer, Err(Refusal::Buffer));
        assert_eq!(short, vec![FILL; length]);
    }
    for none in [4, 256, u32::MAX] {
        assert_eq!(c.r2t_on(none, NO_TAG, 0), Err(Refusal::NoConn));
    }
    assert_eq!(c.r2t_on(1, NO_TAG, 0), Err(Refusal::Closed));
    assert_eq!(c.r2t_on(1, 1, 1), Err(Refusal::Closed));
    assert_eq!(c.r2t_on(0, NO_TAG, 0), Err(Refusal::Field));
}

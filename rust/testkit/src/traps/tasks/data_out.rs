//! Data-Out at the boundaries of its rules.

use super::super::checks;
use super::*;

checks![
    data_out_walks_through_its_r2ts,
    data_out_shows_in_the_record,
    f_stands_exactly_at_the_end,
    the_oldest_r2t_is_answered_first,
    data_out_that_is_not_due_is_field,
    data_sn_starts_anew_with_each_r2t,
    the_last_data_sn_is_never_due,
    lun_and_level_are_not_looked_at,
    other_kinds_are_no_data_out,
    data_out_refuses_in_order,
];

/// Two open R2Ts after 100 bytes of immediate data: tag 1 up to 120, tag 2 up to 130.
fn asking(e: &mut dyn Engine) -> Case<'_> {
    let mut c = at_level(e, 1, TaskGiven { came: 100, ..GIVEN });
    assert_eq!(c.r2t(1, 20), Ok((0, 100)));
    assert_eq!(c.r2t(2, 10), Ok((1, 120)));
    c
}

fn data_out_walks_through_its_r2ts(e: &mut dyn Engine) {
    let mut c = asking(e);
    let steps = [
        (data_out_of(1, 0, 100, 8, false), (100, 8, 2)),
        // Empty, without F, before the end: more than once, and at the start.
        (data_out_of(1, 1, 108, 0, false), (108, 0, 2)),
        (data_out_of(1, 2, 108, 0, false), (108, 0, 2)),
        (data_out_of(1, 3, 108, 11, false), (108, 11, 2)),
        (data_out_of(1, 4, 119, 1, true), (119, 1, 1)),
        (data_out_of(2, 0, 120, 0, false), (120, 0, 1)),
        (data_out_of(2, 1, 120, 10, true), (120, 10, 0)),
    ];
    for (pdu, answer) in steps {
        assert_eq!(c.came(&pdu), Ok(answer));
    }
    assert_eq!((c.task.came, c.task.asked, c.task.data_sn), (130, 130, 0));
    assert_eq!((c.task.sent, c.task.any_data_in), (2, false));
    // Nothing is open any more.
    for f in [false, true] {
        let empty = data_out_of(2, 0, 130, 0, f);
        assert_eq!(c.came(&empty), Err(Refusal::Field));
    }
}

fn data_out_shows_in_the_record(e: &mut dyn Engine) {
    let mut c = asking(e);
    let before = c.task.clone();
    c.came(&data_out_of(1, 0, 100, 19, false)).unwrap();
    let after_first = Task {
        came: 119,
        data_sn: 1,
        ..before
    };
    assert_eq!(c.task, after_first);
    c.came(&data_out_of(1, 1, 119, 1, true)).unwrap();
    let after_second = Task {
        came: 120,
        data_sn: 0,
        open: vec![OpenR2t { tag: 2, end: 130 }],
        ..after_first
    };
    assert_eq!(c.task, after_second);
}

fn f_stands_exactly_at_the_end(e: &mut dyn Engine) {
    let mut c = asking(e);
    for (count, f) in [
        (0, true),
        (1, true),
        (19, true),
        (20, false),
        (21, true),
        (21, false),
        (30, true),
    ] {
        let pdu = data_out_of(1, 0, 100, count, f);
        assert_eq!(c.came(&pdu), Err(Refusal::Field), "{count} {f}");
    }
    assert_eq!(c.came(&data_out_of(1, 0, 100, 19, false)), Ok((100, 19, 2)));
    for (count, f) in [(0, true), (1, false), (2, true), (2, false)] {
        let pdu = data_out_of(1, 1, 119, count, f);
        assert_eq!(c.came(&pdu), Err(Refusal::Field), "{count} {f}");
    }
    assert_eq!(c.came(&data_out_of(1, 1, 119, 1, true)), Ok((119, 1, 1)));
    // The pad isn't data, and other bits of byte 1 aren't F.
    let pdu = data_out_of(2, 0, 120, 9, false).byte(1, 0x7f);
    assert_eq!(c.came(&pdu), Ok((120, 9, 1)));
    let pdu = data_out_of(2, 1, 129, 1, true).byte(1, 0xff);
    assert_eq!(c.came(&pdu), Ok((129, 1, 0)));
}

fn the_oldest_r2t_is_answered_first(e: &mut dyn Engine) {
    let mut c = case(e);
    for at in 0..8 {
        c.r2t(0x70 + at, 10).unwrap();
    }
    for oldest in 0..8 {
        // Another's tag, at its own place or at the oldest one's, isn't due.
        for at in (0..8).filter(|&at| at != oldest) {
            for offset in [10 * oldest, 10 * at] {
                let pdu = data_out_of(0x70 + at, 0, offset, 10, true);
                assert_eq!(c.came(&pdu), Err(Refusal::Field), "{at}");
            }
        }
        let pdu = data_out_of(0x70 + oldest, 0, 10 * oldest, 10, true);
        assert_eq!(c.came(&pdu), Ok((10 * oldest, 10, 7 - oldest as u8)));
    }
}

fn data_out_that_is_not_due_is_field(e: &mut dyn Engine) {
    let good = data_out_of(1, 0, 100, 20, true);
    let refused = [
        good.clone().itt(ITT + 1),
        good.clone().itt(NO_TAG),
        good.clone().ttt(2),
        good.clone().ttt(0),
        good.clone().ttt(TAG),
        // Unsolicited data.
        good.clone().ttt(NO_TAG),
        data_out_of(1, 1, 100, 20, true),
        data_out_of(1, 0x100, 100, 20, true),
        data_out_of(1, u32::MAX, 100, 20, true),
        data_out_of(1, 0, 99, 20, true),
        data_out_of(1, 0, 99, 21, true),
        data_out_of(1, 0, 101, 19, true),
        data_out_of(1, 0, 0, 20, true),
        data_out_of(1, 0, u32::MAX, 20, true),
        // The R2T's own offset isn't counted from 0, nor is the second's data taken with the first.
        data_out_of(1, 0, 100, 30, true),
    ];
    let mut c = asking(e);
    for pdu in refused {
        assert_eq!(c.came(&pdu), Err(Refusal::Field), "{:?}", &pdu.0[..48]);
    }
    assert_eq!(c.came(&good), Ok((100, 20, 1)));
    // The same again isn't due either.
    assert_eq!(c.came(&good), Err(Refusal::Field));
    // No R2T was ever sent: immediate data brings no burst.
    let mut c = at_level(e, 1, TaskGiven { came: 100, ..GIVEN });
    for tag in [0, 1, NO_TAG] {
        assert_eq!(c.came(&good.clone().ttt(tag)), Err(Refusal::Field));
    }
}

fn data_sn_starts_anew_with_each_r2t(e: &mut dyn Engine) {
    let mut c = asking(e);
    for data_sn in 0..19 {
        assert_eq!(c.task.data_sn, data_sn);
        for wrong in [data_sn + 1, data_sn.wrapping_sub(1)] {
            let pdu = data_out_of(1, wrong, 100 + data_sn, 1, false);
            assert_eq!(c.came(&pdu), Err(Refusal::Field));
        }
        c.came(&data_out_of(1, data_sn, 100 + data_sn, 1, false))
            .unwrap();
    }
    c.came(&data_out_of(1, 19, 119, 1, true)).unwrap();
    for wrong in [1, 19, 20] {
        let pdu = data_out_of(2, wrong, 120, 10, true);
        assert_eq!(c.came(&pdu), Err(Refusal::Field));
    }
    assert_eq!(c.came(&data_out_of(2, 0, 120, 10, true)), Ok((120, 10, 0)));
    // An R2T that is sent in the middle of a burst doesn't start it anew; nor does a type 3.
    let mut c = asking(e);
    c.came(&data_out_of(1, 0, 100, 1, false)).unwrap();
    c.r2t(3, 1).unwrap();
    c.data_in(true, 1).unwrap();
    c.send_anew(9, 0).unwrap();
    assert_eq!(c.came(&data_out_of(1, 1, 101, 1, false)), Ok((101, 1, 3)));
}

fn the_last_data_sn_is_never_due(e: &mut dyn Engine) {
    let mut c = asking(e);
    c.task.data_sn = u32::MAX - 1;
    c.came(&data_out_of(1, u32::MAX - 1, 100, 1, false))
        .unwrap();
    assert_eq!(c.task.data_sn, u32::MAX);
    for (count, f) in [(0, false), (1, false), (19, true)] {
        for data_sn in [u32::MAX, 0] {
            let pdu = data_out_of(1, data_sn, 101, count, f);
            assert_eq!(c.came(&pdu), Err(Refusal::Field));
        }
    }
    let mut c = asking(e);
    c.task.data_sn = u32::MAX - 1;
    let pdu = data_out_of(1, u32::MAX - 1, 100, 20, true);
    assert_eq!(c.came(&pdu), Ok((100, 20, 1)));
}

fn lun_and_level_are_not_looked_at(e: &mut dyn Engine) {
    for level in [0, 1, 2, 255] {
        let mut c = at_level(e, level, GIVEN);
        c.r2t(1, 3).unwrap();
        for (data_sn, lun) in [(0, 0), (1, LUN), (2, u64::MAX)] {
            let pdu = data_out_of(1, data_sn, data_sn, 1, data_sn == 2).field(8, 8, lun);
            assert!(c.came(&pdu).is_ok(), "{lun:#x}");
        }
    }
}

fn other_kinds_are_no_data_out(e: &mut dyn Engine) {
    let mut c = asking(e);
    for bytes in [
        nop_out(1),
        scsi_command(1),
        task_management(1, 1),
        login(0x87, b""),
        logout(1, 0),
        snack(0, 0, 0),
        data_snack(3, 0, 0),
    ] {
        let bytes = bytes.itt(ITT);
        assert_eq!(c.came(&bytes), Err(Refusal::Field), "{:?}", bytes.0);
    }
}

/// NOCONN, CLOSED, LENGTH under 48 bytes, OPCODE, TOOLONG, LENGTH, FIELD.
fn data_out_refuses_in_order(e: &mut dyn Engine) {
    let mut c = asking(e);
    // Nothing in it is due.
    let wrong = data_out_of(9, 9, 9, 1, true).itt(9);
    let on = |c: &mut Case, connection, bytes: &[u8]| {
        c.on_record(|e, task| e.data_out(connection, task, bytes))
    };
    for none in [4, 256, u32::MAX] {
        assert_eq!(on(&mut c, none, &[]), Err(Refusal::NoConn));
        assert_eq!(on(&mut c, none, &wrong.0), Err(Refusal::NoConn));
    }
    assert_eq!(on(&mut c, 1, &[]), Err(Refusal::Closed));
    assert_eq!(on(&mut c, 1, &wrong.0), Err(Refusal::Closed));
    let unknown = wrong.clone().byte(0, 0x3f);
    assert_eq!(on(&mut c, 0, &unknown.0[..47]), Err(Refusal::Length));
    let long = unknown.clone().field(5, 3, 8193);
    assert_eq!(on(&mut c, 0, &long.0), Err(Refusal::Opcode));
    let long = wrong.clone().field(5, 3, 8193);
    assert_eq!(on(&mut c, 0, &long.0), Err(Refusal::TooLong));
    let more = wrong.clone().resized(56);
    assert_eq!(on(&mut c, 0, &more.0), Err(Refusal::Length));
    assert_eq!(on(&mut c, 0, &wrong.0), Err(Refusal::Field));
    // What is due, but with additional headers.
    let ahs = data_out_of(1, 0, 100, 20, true).ahs(1);
    assert_eq!(on(&mut c, 0, &ahs.0), Err(Refusal::Field));
    assert!(on(&mut c, 0, &data_out_of(1, 0, 100, 20, true).0).is_ok());
}

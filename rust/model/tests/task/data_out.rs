//! Data-Out at the boundaries of its rules.

use crate::{Case, GIVEN, ITT, at_level, case, data_out, data_snack};
use calls::{Engine, OpenR2t, Refusal, Task, TaskGiven};
use testkit::Bytes;
use testkit::pdu::{self, NO_TAG};

/// Two open R2Ts after 100 bytes of immediate data: tag 1 up to 120, tag 2 up to 130.
fn asking() -> Case {
    let mut c = at_level(1, TaskGiven { came: 100, ..GIVEN });
    assert_eq!(c.r2t(1, 20), Ok((0, 100)));
    assert_eq!(c.r2t(2, 10), Ok((1, 120)));
    c
}

#[test]
fn data_out_walks_through_its_r2ts() {
    let mut c = asking();
    let steps = [
        (data_out(1, 0, 100, 8, false), (100, 8, 2)),
        // Empty, without F, before the end.
        (data_out(1, 1, 108, 0, false), (108, 0, 2)),
        (data_out(1, 2, 108, 11, false), (108, 11, 2)),
        (data_out(1, 3, 119, 1, true), (119, 1, 1)),
        // DataSN starts anew with the next R2T.
        (data_out(2, 0, 120, 10, true), (120, 10, 0)),
    ];
    for (pdu, answer) in steps {
        assert_eq!(c.data_out(&pdu), Ok(answer));
    }
    let after = Task {
        sent: 2,
        asked: 130,
        came: 130,
        ..case().task
    };
    assert_eq!(c.task, after);
    // Nothing is open any more.
    let empty = data_out(2, 0, 130, 0, true);
    assert_eq!(c.data_out(&empty), Err(Refusal::Field));
}

#[test]
fn a_data_out_shows_in_the_record() {
    let mut c = asking();
    let before = c.task.clone();
    c.data_out(&data_out(1, 0, 100, 19, false)).unwrap();
    let after_first = Task {
        came: 119,
        data_sn: 1,
        ..before
    };
    assert_eq!(c.task, after_first);
    c.data_out(&data_out(1, 1, 119, 1, true)).unwrap();
    let after_second = Task {
        came: 120,
        data_sn: 0,
        open: vec![OpenR2t { tag: 2, end: 130 }],
        ..after_first
    };
    assert_eq!(c.task, after_second);
}

#[test]
fn a_data_out_that_is_not_due_is_field() {
    let refused = [
        data_out(1, 0, 100, 20, true).itt(ITT + 1),
        data_out(1, 0, 100, 20, true).itt(NO_TAG),
        data_out(2, 0, 100, 20, true),
        data_out(NO_TAG, 0, 100, 20, true),
        data_out(1, 1, 100, 20, true),
        data_out(1, u32::MAX, 100, 20, true),
        data_out(1, 0, 99, 20, true),
        data_out(1, 0, 99, 21, true),
        data_out(1, 0, 101, 19, true),
        data_out(1, 0, 0, 20, true),
        // Past the end, F set before it, F clear at it.
        data_out(1, 0, 100, 21, true),
        data_out(1, 0, 100, 21, false),
        data_out(1, 0, 100, 30, true),
        data_out(1, 0, 100, 19, true),
        data_out(1, 0, 100, 0, true),
        data_out(1, 0, 100, 20, false),
        // Other kinds.
        pdu::nop_out(1),
        pdu::scsi_command(1),
        pdu::login(0x87, b""),
        data_snack(0, 0, 0),
    ];
    for pdu in refused {
        assert_eq!(asking().data_out(&pdu), Err(Refusal::Field), "{pdu:?}");
    }
    // LUN, ExpStatSN and reserved bytes aren't looked at.
    let good = data_out(1, 0, 100, 20, true)
        .field(8, 8, u64::MAX)
        .or(0, 0xc0)
        .or(1, 0x7f)
        .field(24, 8, u64::MAX)
        .field(32, 4, 9)
        .field(44, 4, 9);
    assert_eq!(asking().data_out(&good), Ok((100, 20, 1)));
    let good = data_out(1, 0, 100, 19, false);
    assert_eq!(asking().data_out(&good), Ok((100, 19, 2)));
    // Nothing was asked for.
    let unsolicited = [
        data_out(NO_TAG, 0, 0, 1, true),
        data_out(0, 0, 0, 0, true),
        data_out(0, 0, 0, 0, false),
    ];
    for pdu in unsolicited {
        assert_eq!(case().data_out(&pdu), Err(Refusal::Field));
    }
}

#[test]
fn data_sn_of_data_out_goes_up_by_one_and_never_to_the_last() {
    let mut c = asking();
    assert!(c.data_out(&data_out(1, 0, 100, 1, false)).is_ok());
    for data_sn in [0, 2] {
        let pdu = data_out(1, data_sn, 101, 1, false);
        assert_eq!(c.data_out(&pdu), Err(Refusal::Field));
    }
    c.task.data_sn = 0xffff_fffe;
    let pdu = data_out(1, 0xffff_fffe, 101, 1, false);
    assert!(c.data_out(&pdu).is_ok());
    assert_eq!(c.task.data_sn, 0xffff_ffff);
    for (count, f) in [(1, false), (18, true)] {
        let pdu = data_out(1, 0xffff_ffff, 102, count, f);
        assert_eq!(c.data_out(&pdu), Err(Refusal::Field));
        let pdu = data_out(1, 0, 102, count, f);
        assert_eq!(c.data_out(&pdu), Err(Refusal::Field));
    }
    // The one before the last may be the last of its burst.
    c.task.data_sn = 0xffff_fffe;
    let pdu = data_out(1, 0xffff_fffe, 102, 18, true);
    assert_eq!(c.data_out(&pdu), Ok((102, 18, 1)));
    assert_eq!(c.task.data_sn, 0);
}

#[test]
fn order_of_refusals_of_data_out_and_data_snack() {
    let mut c = asking();
    // Not due, besides what the bytes are.
    let wrong = [
        (data_out(9, 9, 9, 0, true).resized(47), Refusal::Length),
        (
            data_out(9, 9, 9, 0, true).field(5, 3, 8193),
            Refusal::TooLong,
        ),
        (data_out(9, 9, 9, 0, true).resized(52), Refusal::Length),
        (data_out(9, 9, 9, 0, true).ahs(1), Refusal::Field),
        (Bytes::new(0x04, 0x80), Refusal::Opcode),
        (data_out(9, 9, 9, 0, true), Refusal::Field),
    ];
    for (pdu, refusal) in wrong {
        assert_eq!(c.data_out(&pdu), Err(refusal));
        assert_eq!(c.snack(&pdu, 0), Err(refusal));
        for (connection, first) in [(1, Refusal::Closed), (4, Refusal::NoConn)] {
            let answer = c.model.data_out(connection, &mut c.task, &pdu.0);
            assert_eq!(answer, Err(first));
            let answer = c.model.data_snack(connection, &mut c.task, 0, &pdu.0);
            assert_eq!(answer, Err(first));
        }
    }
    // A good one with AHS is still FIELD.
    let ahs = data_out(1, 0, 100, 20, true).ahs(1);
    assert_eq!(c.data_out(&ahs), Err(Refusal::Field));
}

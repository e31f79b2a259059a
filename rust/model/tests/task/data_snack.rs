//! SNACKs of type 0, 2 and 3.

use crate::{Case, GIVEN, ITT, TAG, at_level, case, data_out, data_snack};
use calls::{DataSnack, Engine, Refusal, Task};
use testkit::pdu::{self, NO_TAG};

/// Five sent (Data-In 0, 1, 3, 4 and R2T 2), the first two acknowledged.
fn sending() -> Case {
    let mut c = case();
    for f in [false, true] {
        c.data_in_on(0, (f, true), 100).unwrap();
    }
    assert_eq!(c.r2t(1, 50), Ok((2, 0)));
    assert_eq!(c.data_in(true, 100), Ok((3, 200)));
    assert_eq!(c.data_in(false, 100), Ok((4, 300)));
    assert_eq!(c.data_ack(2), Ok(2));
    c
}

#[test]
fn runs_of_a_data_snack() {
    let mut c = sending();
    let good = [
        ((0, 0), (2, 3)),
        ((2, 0), (2, 3)),
        ((2, 1), (2, 1)),
        ((2, 3), (2, 3)),
        ((3, 0), (3, 2)),
        ((3, 2), (3, 2)),
        ((4, 0), (4, 1)),
        ((4, 1), (4, 1)),
    ];
    for ((beg_run, run_length), answer) in good {
        assert_eq!(c.run(beg_run, run_length), Ok(answer));
    }
    // Acknowledged, not sent, or in part so. BegRun 0 with a RunLength isn't "all".
    let refused = [
        (0, 1),
        (0, 5),
        (1, 0),
        (1, 4),
        (2, 4),
        (4, 2),
        (5, 0),
        (5, 1),
        (2, u32::MAX),
        (u32::MAX, 0),
        (u32::MAX, 2),
    ];
    for (beg_run, run_length) in refused {
        assert_eq!(c.run(beg_run, run_length), Err(Refusal::Snack));
    }
}

#[test]
fn runs_from_number_0_while_it_is_not_acknowledged() {
    let mut c = case();
    // Nothing sent: all of them is none, from the next number on.
    assert_eq!(c.run(0, 0), Ok((0, 0)));
    assert_eq!(c.run(0, 1), Err(Refusal::Snack));
    for _ in 0..3 {
        c.data_in_on(0, (true, true), 1).unwrap();
    }
    assert_eq!(c.run(0, 0), Ok((0, 3)));
    assert_eq!(c.run(0, 1), Ok((0, 1)));
    assert_eq!(c.run(0, 3), Ok((0, 3)));
    assert_eq!(c.run(0, 4), Err(Refusal::Snack));
    assert_eq!(c.data_ack(1), Ok(1));
    assert_eq!(c.run(0, 1), Err(Refusal::Snack));
    assert_eq!(c.data_ack(3), Ok(2));
    assert_eq!(c.run(0, 0), Ok((3, 0)));
    assert_eq!(c.run(2, 0), Err(Refusal::Snack));
    assert_eq!(c.run(3, 0), Err(Refusal::Snack));
}

#[test]
fn runs_at_the_last_number() {
    let mut c = case().set(|t| {
        t.sent = 0xffff_ffff;
        t.acknowledged = 0xffff_fffd;
    });
    assert_eq!(c.run(0, 0), Ok((0xffff_fffd, 2)));
    assert_eq!(c.run(0xffff_fffe, 0), Ok((0xffff_fffe, 1)));
    assert_eq!(c.run(0xffff_fffe, 1), Ok((0xffff_fffe, 1)));
    assert_eq!(c.run(0xffff_fffe, 2), Err(Refusal::Snack));
    assert_eq!(c.run(0xffff_fffe, 0xffff_ffff), Err(Refusal::Snack));
    assert_eq!(c.run(0xffff_ffff, 0), Err(Refusal::Snack));
    assert_eq!(c.data_ack(0xffff_ffff), Ok(2));
    assert_eq!(c.run(0, 0), Ok((0xffff_ffff, 0)));
}

#[test]
fn a_data_ack_never_goes_back() {
    let mut c = sending();
    assert_eq!(c.data_ack(6), Err(Refusal::Snack), "above the count sent");
    assert_eq!(c.data_ack(u32::MAX), Err(Refusal::Snack));
    assert_eq!(c.data_ack(2), Ok(0));
    assert_eq!(c.data_ack(4), Ok(2));
    for older in [0, 1, 3, 4] {
        let before = c.task.clone();
        assert_eq!(c.data_ack(older), Ok(0), "{older}");
        assert_eq!(c.task, before);
    }
    // RunLength isn't looked at.
    let odd = data_snack(2, 5, 77);
    assert_eq!(c.snack(&odd, 0), Ok(DataSnack::Acknowledged(1)));
    let after = Task {
        acknowledged: 5,
        ..sending().task
    };
    assert_eq!(c.task, after);
    // What comes after a type 3 starts at the highest BegRun.
    assert_eq!(c.send_anew(9, 0), Ok((5, 0)));
    assert_eq!(c.data_in(true, 1), Ok((5, 0)));
}

#[test]
fn tags_of_a_data_snack() {
    // Types 0 and 3 go by ITT, type 2 by the transfer tag.
    for kind in [0, 3] {
        for itt in [ITT + 1, NO_TAG, 0] {
            let pdu = data_snack(kind, 0, 0).itt(itt);
            assert_eq!(sending().snack(&pdu, 0), Err(Refusal::Field));
        }
        let mut c = sending().set(|t| t.tag = NO_TAG);
        assert!(c.snack(&data_snack(kind, 0, 0), 0).is_ok());
    }
    for ttt in [TAG + 1, NO_TAG, 0] {
        let pdu = data_snack(2, 2, 0).ttt(ttt);
        assert_eq!(sending().snack(&pdu, 0), Err(Refusal::Field));
    }
    // No tag is never due, also where the record has none.
    let mut c = sending().set(|t| t.tag = NO_TAG);
    let pdu = data_snack(2, 2, 0).ttt(NO_TAG);
    assert_eq!(c.snack(&pdu, 0), Err(Refusal::Field));
    // Type 1 is the ledger's; other kinds are no SNACK. LUN isn't looked at.
    for pdu in [
        pdu::snack(1, 0, 0),
        pdu::snack(1, 0x18, 1),
        pdu::nop_out(1),
        data_out(1, 0, 0, 50, true),
    ] {
        assert_eq!(sending().snack(&pdu, 0), Err(Refusal::Field));
    }
    let pdu = data_snack(2, 2, 0).field(8, 8, u64::MAX);
    assert!(sending().snack(&pdu, 0).is_ok());
    // The ledger's call refuses the others as before.
    for kind in [0, 2, 3] {
        let answer = sending().model.snack(0, &data_snack(kind, 0, 0).0);
        assert_eq!(answer, Err(Refusal::Snack));
    }
}

#[test]
fn at_level_0_every_data_snack_is_refused_after_field() {
    for kind in [0, 2, 3] {
        let mut c = at_level(0, GIVEN);
        c.data_in_on(0, (true, true), 1).unwrap();
        let good = data_snack(kind, 0, 0);
        assert_eq!(c.snack(&good, 0), Err(Refusal::Snack));
        let not_due = good
            .itt(if kind == 2 { NO_TAG } else { 9 })
            .ttt(match kind {
                0 => NO_TAG,
                _ => 9,
            });
        assert_eq!(c.snack(&not_due, 0), Err(Refusal::Field));
    }
    let mut c = at_level(0, GIVEN);
    assert_eq!(c.snack(&pdu::snack(1, 0, 0), 0), Err(Refusal::Field));
    // Any other level serves.
    for level in [1, 2, 255] {
        assert_eq!(at_level(level, GIVEN).run(0, 0), Ok((0, 0)));
    }
}

#[test]
fn a_type_3_with_a_run_is_refused() {
    for (beg_run, run_length) in [(2, 0), (0, 1), (2, 3), (u32::MAX, 0), (0, u32::MAX)] {
        let mut c = sending();
        let pdu = data_snack(3, beg_run, run_length);
        assert_eq!(c.snack(&pdu, 0), Err(Refusal::Snack));
        let not_due = pdu.itt(9);
        assert_eq!(c.snack(&not_due, 0), Err(Refusal::Field));
    }
}

#[test]
fn a_type_3_in_the_middle_of_a_burst() {
    let mut c = sending();
    let before = c.task.clone();
    assert_eq!((before.sent, before.burst), (5, 100));
    assert_eq!(c.send_anew(0x55, 200), Ok((2, 3)));
    let after = Task {
        sent: 2,
        offset: 200,
        burst: 0,
        snack_tag: 0x55,
        ..before
    };
    assert_eq!(c.task, after, "the open R2T stays open");
    // The burst begins anew: 512 bytes fit again.
    assert_eq!(c.data_in(false, 512), Ok((2, 200)));
    assert_eq!(c.data_in(false, 1), Err(Refusal::Field));
    assert_eq!(c.data_in(true, 0), Ok((3, 712)));
    // R2Ts go on in the same numbering, from where was asked for.
    assert_eq!(c.r2t(2, 50), Ok((4, 50)));
    assert_eq!(
        c.data_out(&data_out(1, 0, 0, 50, true)),
        Ok((0, 50, 1)),
        "the R2T from before"
    );
    assert_eq!(c.run(0, 0), Ok((2, 3)));
    // A second one: the tag is replaced, also by the same tag; the offset may be any.
    assert_eq!(c.send_anew(0x55, 0xffff_ffff), Ok((2, 3)));
    assert_eq!(c.data_in(true, 1), Ok((2, 0xffff_ffff)));
    assert_eq!(c.data_in(true, 0), Err(Refusal::Field));
    assert_eq!(c.send_anew(0x56, 0), Ok((2, 1)));
    assert_eq!(c.task.snack_tag, 0x56);
    assert_eq!(c.send_anew(0x57, 7), Ok((2, 0)), "none is left");
    assert_eq!(c.data_in(true, 1), Ok((2, 7)));
}

#[test]
fn a_type_3_before_any_data_ack_goes_back_to_0() {
    let mut c = case();
    for _ in 0..3 {
        c.data_in(true, 10).unwrap();
    }
    assert_eq!(c.send_anew(1, 0), Ok((0, 3)));
    // What went back is no longer sent.
    assert_eq!(c.run(0, 1), Err(Refusal::Snack));
    assert_eq!(c.data_ack(1), Err(Refusal::Snack));
    assert_eq!(c.data_ack(0), Ok(0));
    assert_eq!(c.data_in(true, 10), Ok((0, 0)));
    assert_eq!(c.exp_data_sn(0), 1);
}

//! Data SNACK at the boundaries of its rules.

use super::super::checks;
use super::*;

checks![
    data_runs,
    data_runs_of_none_and_at_the_end,
    data_ack_acknowledges_what_stands_before,
    data_ack_has_the_tasks_transfer_tag,
    type_3_goes_on_from_the_acknowledged,
    type_3_in_the_middle_of_a_burst,
    type_3_has_no_run,
    the_types_have_their_tags,
    each_type_at_each_level,
    data_snack_refuses_in_order,
];

/// A task that sent numbers 0 to 4, of which 0 and 1 are acknowledged: three Data-In of 100 bytes in one burst, two R2Ts.
fn five_sent(e: &mut dyn Engine) -> Case<'_> {
    let mut c = case(e);
    for at in 0..3 {
        assert_eq!(c.data_in(false, 100), Ok((at, 100 * at)));
    }
    assert_eq!(c.r2t(1, 10), Ok((3, 0)));
    assert_eq!(c.r2t(2, 10), Ok((4, 10)));
    assert_eq!(c.data_ack(2), Ok(2));
    c
}

fn data_runs(e: &mut dyn Engine) {
    let mut c = five_sent(e);
    for (run, answer) in [
        ((0, 0), Ok((2, 3))),
        ((2, 0), Ok((2, 3))),
        ((2, 1), Ok((2, 1))),
        ((2, 3), Ok((2, 3))),
        ((3, 0), Ok((3, 2))),
        ((3, 2), Ok((3, 2))),
        ((4, 0), Ok((4, 1))),
        ((4, 1), Ok((4, 1))),
        // Acknowledged, not sent, and past the end: not clipped, and no wrap.
        ((0, 1), Err(Refusal::Snack)),
        ((0, 5), Err(Refusal::Snack)),
        ((1, 0), Err(Refusal::Snack)),
        ((1, 2), Err(Refusal::Snack)),
        ((2, 4), Err(Refusal::Snack)),
        ((3, 3), Err(Refusal::Snack)),
        ((4, 2), Err(Refusal::Snack)),
        ((5, 0), Err(Refusal::Snack)),
        ((5, 1), Err(Refusal::Snack)),
        ((4, u32::MAX), Err(Refusal::Snack)),
        ((2, u32::MAX - 1), Err(Refusal::Snack)),
        ((u32::MAX, 0), Err(Refusal::Snack)),
        ((u32::MAX, 3), Err(Refusal::Snack)),
    ] {
        assert_eq!(c.run(run.0, run.1), answer, "{run:?}");
    }
    // With number 0 among them, (0,n) begins there.
    let mut c = case(e);
    for _ in 0..3 {
        c.data_in(true, 1).unwrap();
    }
    assert_eq!(c.run(0, 0), Ok((0, 3)));
    assert_eq!(c.run(0, 1), Ok((0, 1)));
    assert_eq!(c.run(0, 2), Ok((0, 2)));
    assert_eq!(c.run(0, 3), Ok((0, 3)));
    assert_eq!(c.run(0, 4), Err(Refusal::Snack));
}

fn data_runs_of_none_and_at_the_end(e: &mut dyn Engine) {
    // None sent, none left: the next number and 0.
    let mut c = case(e);
    assert_eq!(c.run(0, 0), Ok((0, 0)));
    assert_eq!(c.run(0, 1), Err(Refusal::Snack));
    let mut c = five_sent(e);
    assert_eq!(c.data_ack(5), Ok(3));
    assert_eq!(c.run(0, 0), Ok((5, 0)));
    assert_eq!(c.run(5, 0), Err(Refusal::Snack));
    assert_eq!(c.run(4, 1), Err(Refusal::Snack));
    // The greatest count.
    let mut c = with(e, |t| (t.sent, t.acknowledged) = (u32::MAX, 1));
    assert_eq!(c.run(0, 0), Ok((1, u32::MAX - 1)));
    assert_eq!(c.run(u32::MAX - 1, 0), Ok((u32::MAX - 1, 1)));
    assert_eq!(c.run(u32::MAX - 1, 2), Err(Refusal::Snack));
    assert_eq!(c.run(2, u32::MAX - 2), Ok((2, u32::MAX - 2)));
    assert_eq!(c.run(2, u32::MAX - 1), Err(Refusal::Snack));
    assert_eq!(c.run(u32::MAX, 0), Err(Refusal::Snack));
    assert_eq!(c.data_ack(u32::MAX), Ok(u32::MAX - 1));
}

fn data_ack_acknowledges_what_stands_before(e: &mut dyn Engine) {
    let mut c = five_sent(e);
    // Above the count: SNACK. An older one, and the same again: nothing new, and nothing goes back.
    for beg_run in [6, 7, u32::MAX] {
        assert_eq!(c.data_ack(beg_run), Err(Refusal::Snack));
    }
    let before = c.task.clone();
    for beg_run in [2, 1, 0, 2] {
        assert_eq!(c.data_ack(beg_run), Ok(0));
        assert_eq!(c.task, before);
    }
    assert_eq!(c.data_ack(4), Ok(2));
    let after = Task {
        acknowledged: 4,
        ..before
    };
    assert_eq!(c.task, after);
    assert_eq!(c.data_ack(5), Ok(1));
    assert_eq!(c.data_ack(5), Ok(0));
    // RunLength isn't looked at, nor is the offset.
    c.data_in(true, 1).unwrap();
    for length in [1, 5, u32::MAX] {
        let answer = c.snack(&data_snack(2, 6, length), 0xbad);
        let wanted = if length == 1 { 1 } else { 0 };
        assert_eq!(answer, Ok(DataSnack::Acknowledged(wanted)));
    }
    assert_eq!(c.data_in(true, 1), Ok((6, 301)));
}

fn data_ack_has_the_tasks_transfer_tag(e: &mut dyn Engine) {
    let mut c = five_sent(e);
    for tag in [TAG + 1, 0, 1, NO_TAG] {
        let pdu = data_snack(2, 3, 0).ttt(tag);
        assert_eq!(c.snack(&pdu, 0), Err(Refusal::Field), "{tag:#x}");
    }
    // Without a transfer tag none is due, not even 0xffffffff.
    let mut c = with(e, |t| t.tag = NO_TAG);
    c.data_in(true, 1).unwrap();
    for tag in [NO_TAG, TAG, 0] {
        let pdu = data_snack(2, 1, 0).ttt(tag);
        assert_eq!(c.snack(&pdu, 0), Err(Refusal::Field), "{tag:#x}");
    }
    // Tag 0 is a tag. The LUN isn't compared.
    let mut c = with(e, |t| t.tag = 0);
    c.data_in(true, 1).unwrap();
    let pdu = data_snack(2, 1, 0).ttt(0).field(8, 8, 5);
    assert_eq!(c.snack(&pdu, 0), Ok(DataSnack::Acknowledged(1)));
}

fn type_3_goes_on_from_the_acknowledged(e: &mut dyn Engine) {
    let mut c = five_sent(e);
    let before = c.task.clone();
    assert_eq!(c.send_anew(0x55, 0x1234), Ok((2, 3)));
    let after = Task {
        sent: 2,
        offset: 0x1234,
        burst: 0,
        snack_tag: 0x55,
        ..before
    };
    assert_eq!(c.task, after, "open R2Ts stay open");
    // Data-In and R2T are numbered on, together.
    assert_eq!(c.data_in(false, 512), Ok((2, 0x1234)));
    assert_eq!(c.r2t(3, 10), Ok((3, 20)));
    assert_eq!(c.came(&data_out_of(1, 0, 0, 10, true)), Ok((0, 10, 2)));
    // Again: the same numbers, and the last tag counts. One that was used may come again.
    for tag in [0x56, 0xffff_fffe, 0x56] {
        assert_eq!(c.send_anew(tag, 0).map(|run| run.0), Ok(2));
        assert_eq!((c.task.sent, c.task.snack_tag), (2, tag));
    }
    // All acknowledged, or none sent: the next number and 0.
    c.data_in(true, 1).unwrap();
    assert_eq!(c.data_ack(3), Ok(1));
    assert_eq!(c.send_anew(0x57, 7), Ok((3, 0)));
    assert_eq!(c.data_in(true, 1), Ok((3, 7)));
    let mut c = case(e);
    assert_eq!(c.send_anew(0x57, u32::MAX), Ok((0, 0)));
    assert!(!c.task.any_data_in);
    assert_eq!(c.data_in(true, 1), Ok((0, u32::MAX)));
}

fn type_3_in_the_middle_of_a_burst(e: &mut dyn Engine) {
    let mut c = case(e);
    assert_eq!(c.data_in(true, 512), Ok((0, 0)));
    assert_eq!(c.data_in(false, 300), Ok((1, 512)));
    assert_eq!(c.data_in(false, 213), Err(Refusal::Field));
    // An older DataACK doesn't move the number, a newer one does.
    assert_eq!(c.data_ack(1), Ok(1));
    assert_eq!(c.data_ack(0), Ok(0));
    assert_eq!(c.send_anew(5, 512), Ok((1, 1)));
    assert_eq!(c.data_in(false, 512), Ok((1, 512)));
    assert_eq!(c.data_in(false, 1), Err(Refusal::Field));
    assert_eq!(c.data_in(true, 0), Ok((2, 1024)));
    // Acknowledged after the type 3, the count is the one after it.
    assert_eq!(c.data_ack(4), Err(Refusal::Snack));
    assert_eq!(c.data_ack(3), Ok(2));
    assert_eq!(c.send_anew(6, 0), Ok((3, 0)));
    assert_eq!(c.task.sent, 3);
}

fn type_3_has_no_run(e: &mut dyn Engine) {
    let mut c = five_sent(e);
    for (beg_run, run_length) in [(2, 0), (0, 1), (0, 3), (2, 3), (u32::MAX, 0), (0, u32::MAX)] {
        let answer = c.snack(&data_snack(3, beg_run, run_length), 0);
        assert_eq!(answer, Err(Refusal::Snack), "{beg_run} {run_length}");
    }
    assert_eq!(c.send_anew(7, 0), Ok((2, 3)));
}

fn the_types_have_their_tags(e: &mut dyn Engine) {
    let mut c = five_sent(e);
    for kind in [0, 3] {
        for tag in [ITT + 1, 0, NO_TAG] {
            let pdu = data_snack(kind, 0, 0).itt(tag);
            assert_eq!(c.snack(&pdu, 0), Err(Refusal::Field), "{kind} {tag:#x}");
        }
        // The LUN isn't compared.
        let pdu = data_snack(kind, 0, 0).field(8, 8, !LUN);
        assert_eq!(c.snack(&pdu, 0).map(first_and_count), Ok((2, 3)));
    }
    // A task of ITT 0xffffffff has its SNACKs too.
    let mut c = with(e, |t| t.itt = NO_TAG);
    c.data_in(true, 1).unwrap();
    let answer = c.snack(&data_snack(0, 0, 0).itt(NO_TAG), 0);
    assert_eq!(answer.map(first_and_count), Ok((0, 1)));
    // A status SNACK is none of these.
    for pdu in [snack(1, 0, 0), snack(1, 2, 1)] {
        assert_eq!(c.snack(&pdu, 0), Err(Refusal::Field));
    }
}

fn each_type_at_each_level(e: &mut dyn Engine) {
    for level in [0, 1, 2, 255] {
        let mut c = at_level(e, level, GIVEN);
        c.data_in(true, 1).unwrap();
        let run = |answer| {
            if level == 0 {
                Err(Refusal::Snack)
            } else {
                Ok(answer)
            }
        };
        assert_eq!(c.run(0, 0), run((0, 1)));
        assert_eq!(c.run(0, 1), run((0, 1)));
        assert_eq!(c.run(1, 1), Err(Refusal::Snack));
        assert_eq!(c.data_ack(1), run((1, 0)).map(|(count, _)| count));
        assert_eq!(c.send_anew(5, 0), run((1, 0)));
        // The ledger's SNACK still takes none of these.
        for kind in [0, 2, 3] {
            assert_eq!(c.e.snack(0, &data_snack(kind, 0, 0).0), Err(Refusal::Snack));
        }
    }
}

/// NOCONN, CLOSED, reading's, FIELD, SNACK.
fn data_snack_refuses_in_order(e: &mut dyn Engine) {
    for level in [0, 1] {
        let mut c = at_level(e, level, GIVEN);
        let wrong = data_snack(0, 9, 9).itt(9);
        let on = |c: &mut Case, connection, bytes: &[u8]| {
            let answer = c.on_record(|e, task| e.data_snack(connection, task, 0, bytes));
            answer.map(first_and_count)
        };
        for none in [4, 256, u32::MAX] {
            assert_eq!(on(&mut c, none, &[]), Err(Refusal::NoConn));
            assert_eq!(on(&mut c, none, &wrong.0), Err(Refusal::NoConn));
        }
        assert_eq!(on(&mut c, 1, &[]), Err(Refusal::Closed));
        assert_eq!(on(&mut c, 1, &wrong.0), Err(Refusal::Closed));
        let unknown = wrong.clone().byte(0, 0x3f);
        assert_eq!(on(&mut c, 0, &unknown.0[..47]), Err(Refusal::Length));
        let long = unknown.clone().field(5, 3, 8193);
        assert_eq!(on(&mut c, 0, &long.0), Err(Refusal::Opcode));
        let long = wrong.clone().field(5, 3, 8193);
        assert_eq!(on(&mut c, 0, &long.0), Err(Refusal::TooLong));
        let more = wrong.clone().resized(52);
        assert_eq!(on(&mut c, 0, &more.0), Err(Refusal::Length));
        // The tag, the type and the kind come before the level and the run.
        for field in [
            wrong.clone(),
            data_snack(2, 9, 0).ttt(TAG + 1),
            data_snack(3, 9, 9).itt(9),
            snack(1, 9, 9),
            snack(4, 0, 0).itt(ITT),
            data_snack(3, 0, 0).ttt(0),
            data_out_of(1, 0, 0, 1, true),
            nop_out(1).itt(ITT),
        ] {
            assert_eq!(on(&mut c, 0, &field.0), Err(Refusal::Field));
        }
        for kind in [0, 2, 3] {
            let pdu = data_snack(kind, 9, 9);
            assert_eq!(on(&mut c, 0, &pdu.0), Err(Refusal::Snack));
        }
    }
}

//! Traps 14 to 25: the command window.

use super::{FILL, checks};
use crate::pdu::*;
use calls::{Engine, HEADER_BYTES, LogoutCounts, Offer, Out, Refusal, Take};

checks![
    trap_14_passed_is_for_numbers_handed_out,
    trap_14_passed_far_back,
    trap_15_a_void_number_is_held,
    trap_16_sixty_four_without_a_gap,
    trap_17_the_wrap,
    trap_18_logout_works_with_exp_cmd_sn_before_it,
    trap_18_reason_0_takes_all,
    trap_19_newly_voided_only,
    trap_20_reason_2_leaves_no_origin,
    trap_21_emptied_places_are_free,
    trap_22_a_duplicate_changes_nothing,
    trap_22_immediate_changes_nothing,
    trap_23_the_session_goes_on_after_reason_0,
    trap_24_kinds_that_are_offered,
    trap_25_the_kept_header,
    order_of_refusals,
    a_take_needs_its_output,
    four_connections,
];

/// Offer a command that can be told by its tag, which is its ticket.
fn offer(e: &mut dyn Engine, connection: u32, number: u32, ticket: u32) -> Offer {
    let bytes = scsi_command(number).itt(ticket);
    e.offer(connection, ticket, &bytes.0).unwrap()
}

/// Take, and check that the header written is that of the command kept.
fn take(e: &mut dyn Engine) -> Take {
    let mut out = [FILL; HEADER_BYTES];
    let answer = e.take(&mut out).unwrap();
    match answer {
        Take::Out(o) => assert_eq!(out[..], scsi_command(o.cmd_sn).itt(o.ticket).0),
        _ => assert_eq!(out, [FILL; HEADER_BYTES], "no byte is written"),
    }
    answer
}

fn out(cmd_sn: u32, ticket: u32, origin: Option<u8>) -> Take {
    Take::Out(Out {
        cmd_sn,
        ticket,
        origin,
    })
}

fn counts(emptied: u32, voided: u32) -> Result<LogoutCounts, Refusal> {
    Ok(LogoutCounts { emptied, voided })
}

fn numbers(e: &dyn Engine) -> (u32, u32) {
    let window = e.window();
    (window.exp_cmd_sn, window.max_cmd_sn)
}

fn trap_14_passed_is_for_numbers_handed_out(e: &mut dyn Engine) {
    e.begin_session(100, 1, 0);
    for number in [99, 0, 164, 100 + (1 << 31), 99u32.wrapping_sub(1 << 31)] {
        assert_eq!(offer(e, 0, number, 1), Offer::Beyond, "{number}");
    }
    for number in 100..103 {
        assert_eq!(offer(e, 0, number, number), Offer::Kept);
        assert_eq!(take(e), out(number, number, Some(0)));
    }
    for (number, answer) in [
        (99, Offer::Beyond),
        (100, Offer::Passed),
        (102, Offer::Passed),
        (166, Offer::Kept),
        (167, Offer::Beyond),
    ] {
        assert_eq!(offer(e, 0, number, 1), answer, "{number}");
    }
}

fn trap_14_passed_far_back(e: &mut dyn Engine) {
    e.begin_session(0xffff_ff80, 1, 0);
    for i in 0..300u32 {
        let number = 0xffff_ff80u32.wrapping_add(i);
        assert_eq!(offer(e, 0, number, i), Offer::Kept);
        assert_eq!(take(e), out(number, i, Some(0)));
    }
    for i in 0..300u32 {
        let number = 0xffff_ff80u32.wrapping_add(i);
        assert_eq!(offer(e, 0, number, i), Offer::Passed);
    }
    assert_eq!(offer(e, 0, 0xffff_ff7f, 1), Offer::Beyond);
}

fn trap_15_a_void_number_is_held(e: &mut dyn Engine) {
    e.begin_session(5, 1, 0);
    e.open(1, 1).unwrap();
    assert_eq!(offer(e, 1, 5, 50), Offer::Kept);
    assert_eq!(e.logout(1, 1), counts(0, 1));
    assert_eq!(offer(e, 0, 5, 51), Offer::Duplicate);
    assert_eq!(numbers(e), (6, 68));
    assert_eq!(take(e), Take::Void(5));
    assert_eq!(numbers(e), (6, 69));
    assert_eq!(offer(e, 0, 5, 52), Offer::Passed);
    assert_eq!(take(e), Take::Nothing);
}

fn trap_16_sixty_four_without_a_gap(e: &mut dyn Engine) {
    for first in [0, 1, 0xffff_ffe0] {
        e.begin_session(first, 1, 0);
        for d in (0..64).rev() {
            assert_eq!(offer(e, 0, first.wrapping_add(d), d), Offer::Kept);
            let gapless = if d == 0 { 64 } else { 0 };
            assert_eq!(e.window().exp_cmd_sn, first.wrapping_add(gapless));
        }
        assert_eq!(numbers(e), (first.wrapping_add(64), first.wrapping_add(63)));
        assert_eq!(offer(e, 0, first.wrapping_add(64), 1), Offer::Beyond);
        for d in 0..64 {
            assert_eq!(take(e), out(first.wrapping_add(d), d, Some(0)));
            let max = first.wrapping_add(64 + d);
            assert_eq!(numbers(e), (first.wrapping_add(64), max));
        }
        assert_eq!(take(e), Take::Nothing);
    }
}

fn trap_17_the_wrap(e: &mut dyn Engine) {
    e.begin_session(0, 1, 0);
    assert_eq!(numbers(e), (0, 63));
    assert_eq!(offer(e, 0, 0xffff_ffff, 1), Offer::Beyond);
    e.begin_session(0xffff_ffff, 1, 0);
    assert_eq!(offer(e, 0, 0, 10), Offer::Kept);
    assert_eq!(offer(e, 0, 0xffff_ffff, 9), Offer::Kept);
    assert_eq!(numbers(e), (1, 0x3e));
    assert_eq!(take(e), out(0xffff_ffff, 9, Some(0)));
    assert_eq!(take(e), out(0, 10, Some(0)));
    assert_eq!(offer(e, 0, 0xffff_ffff, 1), Offer::Passed);
    assert_eq!(offer(e, 0, 0, 1), Offer::Passed);
    assert_eq!(offer(e, 0, 0xffff_fffe, 1), Offer::Beyond);
}

/// Commands 10, 11, 12, a gap at 13, then 14, 15; the even ones came on connection 1, the odd ones on 0.
fn with_a_gap(e: &mut dyn Engine) {
    e.begin_session(10, 1, 0);
    e.open(1, 1).unwrap();
    for number in [10, 11, 12, 14, 15] {
        let connection = u32::from(number % 2 == 0);
        assert_eq!(offer(e, connection, number, number), Offer::Kept);
    }
}

fn trap_18_logout_works_with_exp_cmd_sn_before_it(e: &mut dyn Engine) {
    with_a_gap(e);
    // 10 and 12 void, 14 emptied; connection 0's own stay.
    assert_eq!(e.logout(1, 1), counts(1, 2));
    assert_eq!(e.window().exp_cmd_sn, 13);
    assert_eq!(take(e), Take::Void(10));
    assert_eq!(take(e), out(11, 11, Some(0)));
    assert_eq!(take(e), Take::Void(12));
    assert_eq!(offer(e, 0, 13, 13), Offer::Kept);
    assert_eq!(e.window().exp_cmd_sn, 14);
    assert_eq!(take(e), out(13, 13, Some(0)));
    assert_eq!(take(e), Take::Nothing);
    assert_eq!(offer(e, 0, 15, 1), Offer::Duplicate);
}

fn trap_18_reason_0_takes_all(e: &mut dyn Engine) {
    with_a_gap(e);
    assert_eq!(e.logout(1, 2), counts(1, 0));
    // 10 and 12 have no origin now, 11 and 15 are connection 0's.
    assert_eq!(e.logout(1, 0), Err(Refusal::Closed));
    e.open(2, 1).unwrap();
    assert_eq!(e.logout(0, 0), counts(1, 3));
    for number in 10..13 {
        assert_eq!(take(e), Take::Void(number));
    }
    assert_eq!(take(e), Take::Nothing);
    for connection in 0..4 {
        assert_eq!(e.logout(connection, 0), Err(Refusal::Closed));
    }
}

fn trap_19_newly_voided_only(e: &mut dyn Engine) {
    with_a_gap(e);
    assert_eq!(e.logout(1, 1), counts(1, 2));
    e.open(1, 1).unwrap();
    assert_eq!(offer(e, 1, 13, 13), Offer::Kept);
    assert_eq!(e.logout(1, 1), counts(0, 1));
    e.open(2, 1).unwrap();
    // 11 and 15 are what is left that isn't void.
    assert_eq!(e.logout(2, 0), counts(1, 1));
}

fn trap_20_reason_2_leaves_no_origin(e: &mut dyn Engine) {
    with_a_gap(e);
    assert_eq!(e.logout(1, 2), counts(1, 0));
    e.open(1, 1).unwrap();
    assert_eq!(e.logout(1, 1), counts(0, 0));
    assert_eq!(take(e), out(10, 10, None));
    assert_eq!(take(e), out(11, 11, Some(0)));
    assert_eq!(take(e), out(12, 12, None));
    assert_eq!(take(e), Take::Nothing);
}

fn trap_21_emptied_places_are_free(e: &mut dyn Engine) {
    with_a_gap(e);
    assert_eq!(e.logout(1, 1), counts(1, 2));
    assert_eq!(offer(e, 0, 14, 140), Offer::Kept);
    assert_eq!(offer(e, 0, 13, 130), Offer::Kept);
    for _ in 10..13 {
        take(e);
    }
    assert_eq!(take(e), out(13, 130, Some(0)));
    assert_eq!(take(e), out(14, 140, Some(0)));
    assert_eq!(take(e), out(15, 15, Some(0)));
}

fn trap_22_a_duplicate_changes_nothing(e: &mut dyn Engine) {
    e.begin_session(1, 1, 0);
    e.open(3, 1).unwrap();
    assert_eq!(offer(e, 3, 1, 7), Offer::Kept);
    assert_eq!(offer(e, 0, 1, 8), Offer::Duplicate);
    assert_eq!(take(e), out(1, 7, Some(3)));
}

fn trap_22_immediate_changes_nothing(e: &mut dyn Engine) {
    e.begin_session(1, 1, 0);
    for number in [1, 0, 64, 65, 0x8000_0000] {
        let kinds = [
            nop_out(number).itt(NO_TAG),
            scsi_command(number),
            task_management(number, 1),
            logout(number, 0),
        ];
        for bytes in kinds {
            let answer = e.offer(0, 1, &bytes.immediate().0);
            assert_eq!(answer, Ok(Offer::Immediate));
        }
    }
    assert_eq!(numbers(e), (1, 64));
    assert_eq!(take(e), Take::Nothing);
}

fn trap_23_the_session_goes_on_after_reason_0(e: &mut dyn Engine) {
    with_a_gap(e);
    assert_eq!(e.logout(0, 0), counts(2, 3));
    assert_eq!(numbers(e), (13, 73));
    assert_eq!(e.open(2, 9), Ok(()));
    assert_eq!(offer(e, 2, 13, 13), Offer::Kept);
    for number in 10..13 {
        assert_eq!(take(e), Take::Void(number));
    }
    assert_eq!(take(e), out(13, 13, Some(2)));
    assert_eq!(e.open(0, 4), Ok(()));
    assert_eq!(offer(e, 0, 12, 1), Offer::Passed);
}

fn trap_24_kinds_that_are_offered(e: &mut dyn Engine) {
    e.begin_session(1, 1, 1);
    for bytes in [
        login(0x87, b""),
        snack(1, 0, 0),
        snack(1, 0, 0).immediate(),
        // With a number that would be kept, and with I.
        data_out(1, 2).cmd_sn(1),
        data_out(1, 2).cmd_sn(1).immediate(),
        data_out(1, 2).cmd_sn(1).data(b"abcde"),
    ] {
        assert_eq!(e.offer(0, 1, &bytes.0), Err(Refusal::Field));
    }
    let kinds = [
        nop_out(1),
        scsi_command(2),
        task_management(3, 8),
        logout(4, 2),
    ];
    for bytes in kinds {
        assert_eq!(e.offer(0, 1, &bytes.0), Ok(Offer::Kept));
    }
    assert_eq!(e.window().exp_cmd_sn, 5);
}

fn trap_25_the_kept_header(e: &mut dyn Engine) {
    e.begin_session(1, 1, 0);
    let bytes = scsi_command(1)
        .byte(0, 0x81)
        .byte(1, 0xb9)
        .byte(2, 0xaa)
        .byte(3, 0xbb);
    let bytes = bytes.ahs(2).data(b"abcde");
    assert_eq!(e.offer(0, 0xffff_ffff, &bytes.0), Ok(Offer::Kept));
    let mut lent = [FILL; 60];
    assert_eq!(e.take(&mut lent), Ok(out(1, 0xffff_ffff, Some(0))));
    assert_eq!(lent[..48], bytes.0[..48]);
    assert_eq!(lent[48..], [FILL; 12]);
}

fn order_of_refusals(e: &mut dyn Engine) {
    e.begin_session(1, 1, 0);
    let bad = Bytes::new(0x3f, 0);
    assert_eq!(e.offer(4, 1, &bad.0), Err(Refusal::NoConn));
    assert_eq!(e.offer(u32::MAX, 1, &bad.0), Err(Refusal::NoConn));
    assert_eq!(e.offer(1, 1, &bad.0), Err(Refusal::Closed));
    assert_eq!(e.offer(0, 1, &bad.0), Err(Refusal::Opcode));
    assert_eq!(e.offer(0, 1, &[]), Err(Refusal::Length));
    assert_eq!(e.logout(4, 3), Err(Refusal::NoConn));
    assert_eq!(e.logout(256, 0), Err(Refusal::NoConn));
    assert_eq!(e.logout(1, 3), Err(Refusal::Closed));
    assert_eq!(e.logout(0, 3), Err(Refusal::Field));
    assert_eq!(e.logout(0, 255), Err(Refusal::Field));
    assert_eq!(e.open(4, 1), Err(Refusal::NoConn));
    assert_eq!(e.open(0, 1), Err(Refusal::Open));
}

fn a_take_needs_its_output(e: &mut dyn Engine) {
    e.begin_session(1, 1, 0);
    let mut short = [FILL; HEADER_BYTES - 1];
    assert_eq!(e.take(&mut short), Err(Refusal::Buffer));
    assert_eq!(offer(e, 0, 1, 1), Offer::Kept);
    assert_eq!(e.take(&mut short), Err(Refusal::Buffer));
    assert_eq!(short, [FILL; HEADER_BYTES - 1]);
    assert_eq!(take(e), out(1, 1, Some(0)));
}

fn four_connections(e: &mut dyn Engine) {
    e.begin_session(1, 1, 0);
    for connection in 1..4 {
        assert_eq!(e.open(connection, 1), Ok(()));
        assert_eq!(e.open(connection, 1), Err(Refusal::Open));
    }
    for connection in 0..4 {
        assert_eq!(offer(e, connection, 1 + connection, 1), Offer::Kept);
    }
    for connection in 0..4u8 {
        assert_eq!(take(e), out(1 + u32::from(connection), 1, Some(connection)));
    }
}

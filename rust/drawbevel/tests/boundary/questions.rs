//! The three questions by the words that come back: all of an answer's words, and every array as it was.

use crate::raw::{Answer, Lent, Session, length};
use crate::session_refusals::odd_sessions;
use crate::stand::*;
use testkit::{Bytes, pdu};

const VOID: u32 = 39;
const FREE: u32 = 41;
const HELD: u32 = 42;
const NO_ORIGIN: u32 = 4;

/// The whole word of an answer with a value.
fn packed(number: u32, value: u32) -> u64 {
    u64::from(value) << 32 | u64::from(number)
}

fn next(s: &Session, connection: u32) -> u64 {
    let before = s.clone();
    let answer = s.next_stat_sn(connection);
    assert!(*s == before, "next of {connection} changed the session");
    answer
}

fn holder(s: &Session, number: u32) -> Answer {
    let before = s.clone();
    let answer = s.holder(number);
    assert!(*s == before, "holder of {number:#x} changed the session");
    answer
}

#[test]
fn a_length_is_one_word_and_a_refusal_has_no_value() {
    for (pdu, whole) in [
        (pdu::nop_out(1), 48),
        (pdu::nop_out(1).data(b"a"), 52),
        (pdu::scsi_command(1).ahs(255).data(&[7; 8192]), 9_260),
        (pdu::logout(1, 7).ahs(1).data(b"abcde"), 60),
    ] {
        for end in [48, pdu.0.len()] {
            assert_eq!(length(&pdu.0[..end]), packed(OK, whole), "{pdu:x?}");
        }
    }
    let long = pdu::nop_out(1).field(5, 3, 8193);
    for (pdu, number) in [
        (Bytes(Vec::new()), 4),
        (pdu::nop_out(1).resized(47), 4),
        (Bytes::new(0x1f, 0x80).field(5, 3, 8193), 2),
        (long, 5),
    ] {
        assert_eq!(length(&pdu.0), number, "{pdu:x?}");
    }
}

#[test]
fn the_next_stat_sn_is_one_word_and_a_refusal_has_no_value() {
    let s = session();
    assert_eq!(next(&s, OPEN), packed(DONE, 101));
    assert_eq!(next(&s, FULL_ONE), packed(DONE, 232));
    assert_eq!(next(&s, SHUT), CLOSED.into());
    for connection in NO_CONNECTIONS {
        assert_eq!(next(&s, connection), NOCONN.into());
    }
}

#[test]
fn a_holder_is_four_words() {
    let mut s = session();
    let number = s.window()[2].wrapping_sub(63);
    let ticket = 0xffff_ffff;
    for (place, connection) in [(1, FULL_ONE), (2, OPEN), (4, FULL_ONE)] {
        let command = pdu::scsi_command(number.wrapping_add(place));
        assert_eq!(s.offer(connection, ticket, &command.0) as u32, 33);
    }
    assert_eq!(holder(&s, number), [HELD, 9, OPEN, 0]);
    assert_eq!(holder(&s, number + 1), [HELD, ticket, FULL_ONE, 0]);
    assert_eq!(holder(&s, number + 4), [HELD, ticket, FULL_ONE, 0]);
    for free in [3, 5, 63, 64, 1 << 31, u32::MAX] {
        assert_eq!(holder(&s, number.wrapping_add(free)), [FREE, 0, 0, 0]);
    }
    assert_eq!(s.logout(FULL_ONE, 2)[0], DONE);
    assert_eq!(holder(&s, number + 1), [HELD, ticket, NO_ORIGIN, 0]);
    assert_eq!(holder(&s, number + 4), [FREE, 0, 0, 0]);
    assert_eq!(s.logout(OPEN, 1)[0], DONE);
    assert_eq!(holder(&s, number), [VOID, 0, 0, 0]);
    assert_eq!(holder(&s, number + 2), [VOID, 0, 0, 0]);
    assert_eq!(holder(&s, number + 1), [HELD, ticket, NO_ORIGIN, 0]);
    s.take(&mut Lent::new(HEADER));
    assert_eq!(holder(&s, number), [FREE, 0, 0, 0]);
}

/// What is held where no call wrote the words isn't said; that each question is answered and leaves them is.
#[test]
fn questions_leave_odd_words() {
    for s in odd_sessions() {
        for connection in NO_CONNECTIONS {
            assert_eq!(next(&s, connection), NOCONN.into());
        }
        for connection in 0..4 {
            let answer = next(&s, connection);
            assert!(
                answer == CLOSED.into() || answer as u32 == DONE,
                "{answer:#x}"
            );
        }
        for number in [0, 1, 63, 64, 65, 0x101, 0x140, 0x1_0040, u32::MAX] {
            match holder(&s, number) {
                [FREE | VOID, 0, 0, 0] | [HELD, _, 0..=NO_ORIGIN, 0] => {}
                other => panic!("holder of {number:#x}: {other:x?}"),
            }
        }
    }
}

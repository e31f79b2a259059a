//! A session to put fixed cases to, and the checks that every refusal has in common.

use crate::expected;
use crate::kinds::{Kind, SCSI, TASK_MANAGEMENT, kind_of};
use crate::raw::{self, Lent, ResponseWords, Session, Task};
use testkit::pdu;

pub const OK: u32 = 0;
pub const BUFFER: u32 = 1;
pub const FIELD: u32 = 3;
pub const TOOLONG: u32 = 5;
pub const NOCONN: u32 = 7;
pub const CLOSED: u32 = 8;
pub const FULL: u32 = 10;
pub const DONE: u32 = 32;

/// Open, with one status held and StatSN 101 next.
pub const OPEN: u32 = 0;
/// Open, with 32 statuses held.
pub const FULL_ONE: u32 = 1;
/// Closed by a logout.
pub const SHUT: u32 = 2;
/// Numbers that no connection has; cut to eight or sixteen bits the last ones would be open ones.
pub const NO_CONNECTIONS: [u32; 5] = [4, 5, 0x100, 0x1_0000, u32::MAX];

pub const HEADER: usize = 48;
pub const TICKET: u32 = 0x7e57;
pub const NUMBERS: [u32; 3] = [0x1819_1a1b, 0x1c1d_1e1f, 0x2021_2223];

/// How many Data-In and R2T the records of the fixed cases have sent.
pub const SENT: u32 = 0x5152_5354;

/// A record with the tags of a SCSI Response of these words, as far as they fit.
pub fn record_of(words: &ResponseWords) -> Task {
    let mut task = Task::ZERO;
    if words[0] == SCSI.opcode {
        task.numbers[0] = words[SCSI.place("ITT")] as u32;
        task.numbers[7] = words[SCSI.place("SNACK tag")] as u32;
    }
    (task.numbers[4], task.numbers[6]) = (SENT, 1);
    task
}

/// The words as they are sent with that record: a SCSI Response has its ExpDataSN, whatever it states itself.
fn as_sent(words: &ResponseWords) -> ResponseWords {
    let mut sent = *words;
    if words[0] == SCSI.opcode {
        let is_completed = words[SCSI.place("response")] == 0;
        sent[SCSI.place("ExpDataSN")] = if is_completed { SENT.into() } else { 0 };
    }
    sent
}

/// The session of the constants above, with a command held.
pub fn session() -> Session {
    let mut s = Session::fresh(1, 100, 1);
    let mut out = Lent::new(HEADER);
    assert_eq!(s.open(FULL_ONE, 200) as u32, DONE);
    assert_eq!(s.open(SHUT, 300) as u32, DONE);
    assert_eq!(s.logout(SHUT, 1)[0], DONE);
    let plain = &TASK_MANAGEMENT.good;
    let mut send = |connection| s.send(connection, TICKET, &Task::ZERO, plain, &mut out) as u32;
    assert_eq!(send(OPEN), DONE);
    for _ in 0..32 {
        assert_eq!(send(FULL_ONE), DONE);
    }
    assert_eq!(s.offer(OPEN, 9, pdu::nop_out(1).as_ref()) as u32, 33);
    s
}

/// The answer of a send to that session; where it is a refusal, nothing lent has changed.
pub fn sent(connection: u32, words: &ResponseWords, lent: usize) -> u32 {
    let mut s = session();
    let (before, mut out, given) = (s.clone(), Lent::new(lent), *words);
    let task = record_of(words);
    let answer = s.send(connection, TICKET, &task, words, &mut out) as u32;
    assert_eq!(*words, given, "the words of the response changed");
    assert_eq!(task, record_of(words), "the record changed");
    if answer < DONE {
        assert_eq!(out, Lent::new(lent), "a refused send wrote bytes");
        assert!(s == before, "a refused send changed the session");
    }
    answer
}

/// The answer of a write; where it is a refusal, no lent byte has changed.
pub fn written(words: &ResponseWords, lent: usize) -> u32 {
    let mut out = Lent::new(lent);
    let answer = raw::write(&mut out, words, NUMBERS);
    if answer != OK {
        assert_eq!(out, Lent::new(lent), "a refused write wrote bytes");
    }
    answer
}

/// Both functions refuse the words with this number.
pub fn refused(words: &ResponseWords, number: u32) {
    assert_eq!(written(words, HEADER), number, "write of {words:x?}");
    assert_eq!(sent(OPEN, words, HEADER), number, "send of {words:x?}");
}

/// Both functions take the words, and write the same header but for its numbers; a send of what is no status is FIELD.
pub fn taken(words: &ResponseWords) {
    let mut wanted = Lent::new(HEADER);
    expected::write(wanted.part(), words, NUMBERS).unwrap();
    let mut out = Lent::new(HEADER);
    assert_eq!(raw::write(&mut out, words, NUMBERS), OK);
    assert_eq!(out, wanted, "write of {words:x?}");
    if !kind_of(words).is_some_and(Kind::is_status) {
        assert_eq!(sent(OPEN, words, HEADER), FIELD, "send of {words:x?}");
        return;
    }
    let mut out = Lent::new(HEADER);
    let answer = session().send(OPEN, TICKET, &record_of(words), words, &mut out);
    assert_eq!(answer, 101 << 32 | u64::from(DONE), "send of {words:x?}");
    expected::write(wanted.part(), &as_sent(words), [101, 2, 64]).unwrap();
    assert_eq!(out, wanted, "send of {words:x?}");
}

//! A session of the core beside the one of the rules: each call is made on both, and all that is lent compared.

use super::fault::Fault;
use crate::expected::{self, Book};
use crate::kinds::{NOP_IN, TASK_MANAGEMENT};
use crate::raw::{self, Lent, ResponseWords, Session, Task};
use calls::{Engine, Offer, Refusal, Response, Take};
use std::fmt::Debug;
use testkit::{Rng, pdu};

/// A result, or the first difference in words.
pub type Checked<T> = Result<T, String>;

/// One session on both sides.
pub struct Pair {
    session: Session,
    book: Book,
    /// Each connection's first StatSN.
    first: [u32; 4],
    fault: Fault,
}

/// An answer with a value, as it comes back in one word.
fn packed(answer: Result<u32, Refusal>) -> u64 {
    match answer {
        Ok(value) => u64::from(value) << 32 | 32,
        Err(refusal) => refusal.number().into(),
    }
}

/// An answer's number, without its value.
fn number<T>(answer: Result<T, Refusal>) -> u32 {
    packed(answer.map(|_| 0)) as u32
}

fn same<T: PartialEq + Debug>(what: &str, got: T, wanted: T) -> Checked<()> {
    if got == wanted {
        return Ok(());
    }
    Err(format!("{what}: {got:x?}, and not {wanted:x?}"))
}

/// A NOP-In with ITT 0xffffffff.
pub fn is_ping(words: &ResponseWords) -> bool {
    words[0] == NOP_IN.opcode && words[NOP_IN.place("ITT")] == 0xffff_ffff
}

impl Pair {
    pub fn fresh(rng: &mut Rng, fault: Fault) -> Self {
        let (first, stat_sn, level) = (rng.u32(), rng.u32(), rng.pick(&[0, 1, 1, 2]));
        Pair {
            session: Session::fresh(first, stat_sn, level),
            book: Book::fresh(first, stat_sn, level),
            first: [stat_sn, 0, 0, 0],
            fault,
        }
    }

    /// Gives the answer's number.
    pub fn send(
        &mut self,
        connection: u32,
        ticket: u32,
        task: &Task,
        words: &ResponseWords,
        lent: usize,
    ) -> Checked<u64> {
        let (mut out, mut wanted) = (Lent::new(lent), Lent::new(lent));
        let (before, given, s) = (self.session.clone(), *words, &mut self.session);
        let answer = self
            .fault
            .send(s, connection, ticket, task, words, &mut out);
        let expected = self
            .book
            .send(connection, ticket, task, words, wanted.part());
        let call = format!("send of {words:x?} on {connection}, {lent} bytes lent, {task:x?}");
        same(&format!("{call}: answer"), answer, packed(expected))?;
        same(&format!("{call}: bytes"), out.bytes, wanted.bytes.clone())?;
        same(&format!("{call}: words"), *words, given)?;
        if expected.is_ok() && !is_ping(words) {
            one_stored(&before, &self.session, &wanted.bytes[..48], ticket)?;
        } else {
            same(&format!("{call}: stays"), self.session == before, true)?;
        }
        self.same_window()?;
        Ok(answer & 0xffff_ffff)
    }

    /// Gives the answer's number.
    pub fn write(&self, words: &ResponseWords, lent: usize, numbers: [u32; 3]) -> Checked<u64> {
        let (mut out, mut wanted) = (Lent::new(lent), Lent::new(lent));
        let answer = raw::write(&mut out, &self.fault.shown(words), numbers);
        let expected = match expected::write(wanted.part(), words, numbers) {
            Ok(()) => 0,
            Err(refusal) => refusal.number(),
        };
        let call = format!("write of {words:x?}, {lent} bytes lent");
        same(&format!("{call}: answer"), answer, expected.into())?;
        same(&format!("{call}: bytes"), out.bytes, wanted.bytes)?;
        Ok(answer.into())
    }

    fn same_window(&self) -> Checked<()> {
        let [_, exp_cmd_sn, max_cmd_sn, _] = self.session.window();
        let wanted = self.book.model.window();
        same("ExpCmdSN", exp_cmd_sn, wanted.exp_cmd_sn)?;
        same("MaxCmdSN", max_cmd_sn, wanted.max_cmd_sn)
    }

    /// Whether 32 statuses are held.
    pub fn is_full(&self, connection: u32) -> bool {
        let (mut model, plain) = (self.book.model.clone(), Response::Reject { reason: 1 });
        let task = calls::Task::fresh_for(0);
        model.send(connection, 0, &task, &mut [0; 48], &plain) == Err(Refusal::Full)
    }

    fn fill(&mut self, connection: u32) -> Checked<()> {
        for ticket in 0..33 {
            self.send(connection, ticket, &Task::ZERO, &TASK_MANAGEMENT.good, 48)?;
        }
        Ok(())
    }

    fn open(&mut self, connection: u32, stat_sn: u32) -> Checked<()> {
        let expected = self.book.model.open(connection, stat_sn);
        let answer = self.session.open(connection, stat_sn);
        if expected.is_ok() {
            self.book.open[connection as usize] = true;
            self.first[connection as usize] = stat_sn;
        }
        same("open", answer as u32, number(expected))
    }

    fn logout(&mut self, connection: u32, reason: u8) -> Checked<()> {
        let expected = self.book.model.logout(connection, reason);
        let answer = self.session.logout(connection, reason);
        match (expected, reason) {
            (Err(_), _) => {}
            (Ok(_), 0) => self.book.open = [false; 4],
            (Ok(_), _) => self.book.open[connection as usize] = false,
        }
        same("logout", answer[0], number(expected))
    }

    fn acknowledge(&mut self, connection: u32, exp_stat_sn: u32) -> Checked<()> {
        let expected = self.book.model.acknowledge(connection, exp_stat_sn);
        let answer = self.session.acknowledge(connection, exp_stat_sn);
        same("acknowledge", answer, packed(expected))
    }

    fn offer(&mut self, connection: u32, cmd_sn: u32) -> Checked<()> {
        let pdu = pdu::nop_out(cmd_sn);
        let expected = match self.book.model.offer(connection, 1, pdu.as_ref()) {
            Err(refusal) => refusal.number(),
            Ok(Offer::Kept) => 33,
            Ok(Offer::Duplicate) => 34,
            Ok(Offer::Passed) => 35,
            Ok(Offer::Beyond) => 36,
            Ok(Offer::Immediate) => 37,
        };
        let answer = self.session.offer(connection, 1, pdu.as_ref());
        same("offer", answer as u32, expected.into())
    }

    fn take(&mut self) -> Checked<()> {
        let (mut out, mut wanted) = (Lent::new(48), Lent::new(48));
        let expected = match self.book.model.take(wanted.part()) {
            Err(refusal) => refusal.number(),
            Ok(Take::Nothing) => 38,
            Ok(Take::Void(_)) => 39,
            Ok(Take::Out(_)) => 40,
        };
        same("take", self.session.take(&mut out)[0], expected.into())?;
        same("take", out, wanted)
    }

    /// Every status that may be held is held on both sides or on none, with its header and ticket.
    pub fn same_ledgers(&mut self, sends: u32) -> Checked<()> {
        let mut later = Task::ZERO;
        later.numbers = [0x51, 0, 0, 0, 0x54, 0x55, 2, 0x57, 0, 0, 0, 0];
        for connection in 0..4 {
            for n in 0..sends {
                let stat_sn = self.first[connection as usize].wrapping_add(n);
                for task in [&Task::ZERO, &later] {
                    let (mut out, mut wanted) = (Lent::new(64), Lent::new(64));
                    let (book, record) = (&mut self.book.model, expected::record(task));
                    let expected = book.resend(connection, stat_sn, &record, wanted.part());
                    let answer = self.session.resend(connection, stat_sn, task, &mut out);
                    same("resend", answer, packed(expected))?;
                    same("resend", out, wanted)?;
                }
            }
        }
        Ok(())
    }

    /// A call that brings the session elsewhere.
    pub fn travel(&mut self, rng: &mut Rng) -> Checked<()> {
        let connection = rng.below(4) as u32;
        let first = self.first[connection as usize];
        match rng.below(10) {
            0 | 1 => self.fill(connection),
            2 | 3 => self.open(connection, rng.u32()),
            4 => self.logout(connection, rng.pick(&[0, 1, 1, 1, 2, 2, 2, 3])),
            5 => self.acknowledge(connection, first.wrapping_add(rng.below(80) as u32)),
            6 => self.take(),
            _ => {
                let next = self.book.model.window().exp_cmd_sn;
                self.offer(connection, next.wrapping_add(rng.pick(&[0, 0, 1, 2])))
            }
        }
    }
}

/// At most one slot has changed, and it holds the header and the ticket; no command's array has.
fn one_stored(before: &Session, after: &Session, header: &[u8], ticket: u32) -> Checked<()> {
    same("headers of commands", after.headers, before.headers)?;
    same("tickets of commands", after.tickets, before.tickets)?;
    let is_same = |slot: &usize| {
        let bytes = 48 * slot..48 * slot + 48;
        before.statuses[bytes.clone()] == after.statuses[bytes]
            && before.status_tickets[*slot] == after.status_tickets[*slot]
    };
    let mut changed = (0..128).filter(|slot| !is_same(slot));
    if let Some(slot) = changed.next() {
        let stored = &after.statuses[48 * slot..48 * slot + 48];
        same("the stored header", stored, header)?;
        same("the stored ticket", after.status_tickets[slot], ticket)?;
    }
    same("another slot that changed", changed.next(), None)
}

//! A session: one object, its parts lent to the proved functions call by call.

use crate::Task;
use crate::ffi::{Answer, DONE, Packed, Parts};
use crate::words::{refusal_of, words_of};
use calls::{
    Came, DataInPdu, DataSnack, Holder, LogoutCounts, Offer, Out, Refusal, Response, Run, Take,
    Window,
};

/// A session. It holds no pointer and may be moved and cloned; a clone goes its own way.
#[derive(Clone)]
pub struct Session {
    parts: Parts,
}

// What the first word of an answer says.
const KEPT: u32 = 33;
const DUPLICATE: u32 = 34;
const PASSED: u32 = 35;
const BEYOND: u32 = 36;
const NOTHING: u32 = 38;
const VOID: u32 = 39;
const FREE: u32 = 41;
const RUN: u32 = 43;
/// The origin of a command that has none.
const NO_ORIGIN: u32 = 4;

/// The origin of a command, where it has one.
#[inline]
fn origin_of(word: u32) -> Option<u8> {
    (word != NO_ORIGIN).then_some(word as u8)
}

/// The words after the answer's number where it is no refusal.
#[inline]
fn done([answer, a, b, c]: Answer) -> Result<(u32, [u32; 3]), Refusal> {
    if answer < DONE {
        return Err(refusal_of(answer, 0));
    }
    Ok((answer, [a, b, c]))
}

/// The answer's number and its value where it is no refusal.
#[inline]
fn one(packed: Packed) -> Result<(u32, u32), Refusal> {
    let (answer, value) = packed.parts();
    if answer < DONE {
        return Err(refusal_of(answer, 0));
    }
    Ok((answer, value))
}

impl Session {
    /// A fresh session: its first command number, connection 0's first StatSN, and the ErrorRecoveryLevel.
    pub fn new(first: u32, stat_sn: u32, level: u8) -> Self {
        Session {
            parts: Parts::fresh(first, stat_sn, level),
        }
    }

    /// Offer a whole PDU that came on a connection.
    #[inline]
    pub fn offer(&mut self, connection: u32, ticket: u32, pdu: &[u8]) -> Result<Offer, Refusal> {
        let (answer, _) = one(self.parts.offer(connection, ticket, pdu))?;
        Ok(match answer {
            KEPT => Offer::Kept,
            DUPLICATE => Offer::Duplicate,
            PASSED => Offer::Passed,
            BEYOND => Offer::Beyond,
            _ => Offer::Immediate,
        })
    }

    /// Hand out the next command; its header is written to `out`.
    #[inline]
    pub fn take(&mut self, out: &mut [u8]) -> Result<Take, Refusal> {
        let (answer, [cmd_sn, ticket, origin]) = done(self.parts.take(out))?;
        Ok(match answer {
            NOTHING => Take::Nothing,
            VOID => Take::Void(cmd_sn),
            _ => Take::Out(Out {
                cmd_sn,
                ticket,
                origin: origin_of(origin),
            }),
        })
    }

    /// A logout's effect on an open connection.
    #[inline]
    pub fn logout(&mut self, connection: u32, reason: u8) -> Result<LogoutCounts, Refusal> {
        let (_, [emptied, voided, _]) = done(self.parts.logout(connection, reason))?;
        Ok(LogoutCounts { emptied, voided })
    }

    /// Open a closed connection.
    #[inline]
    pub fn open(&mut self, connection: u32, stat_sn: u32) -> Result<(), Refusal> {
        one(self.parts.open(connection, stat_sn)).map(|_| ())
    }

    /// Send a status, with its task's record; its header is written to `out`. The answer is its StatSN. A SCSI Response must have the
    /// record's Initiator Task Tag and SNACK tag, and gets its ExpDataSN from it: its own `exp_data_sn` isn't looked at. For other
    /// responses any record will do. A Data-In or an R2T is no status: it is FIELD where it isn't TOOLONG; [`Session::data_in`] and
    /// [`Session::r2t`] write a task's next ones, [`write`](crate::write()) any.
    #[inline]
    pub fn send(
        &mut self,
        connection: u32,
        ticket: u32,
        task: &Task,
        out: &mut [u8],
        response: &Response,
    ) -> Result<u32, Refusal> {
        let words = words_of(response);
        let (_, stat_sn) = one(self
            .parts
            .send(connection, ticket, &task.parts, out, &words))?;
        Ok(stat_sn)
    }

    /// Acknowledge every status before this number. The answer is how many were released.
    #[inline]
    pub fn acknowledge(&mut self, connection: u32, exp_stat_sn: u32) -> Result<u32, Refusal> {
        let (_, count) = one(self.parts.acknowledge(connection, exp_stat_sn))?;
        Ok(count)
    }

    /// A status SNACK, a whole PDU.
    #[inline]
    pub fn snack(&self, connection: u32, pdu: &[u8]) -> Result<Run, Refusal> {
        let (_, [first, count, _]) = done(self.parts.snack(connection, pdu))?;
        Ok(Run { first, count })
    }

    /// Write a held status again, to `out`. The answer is its ticket. A SCSI Response has ExpDataSN, and the SNACK tag after a SNACK of
    /// type 3, from its task's record as it is now.
    #[inline]
    pub fn resend(
        &self,
        connection: u32,
        stat_sn: u32,
        task: &Task,
        out: &mut [u8],
    ) -> Result<u32, Refusal> {
        let (_, ticket) = one(self.parts.resend(connection, stat_sn, &task.parts, out))?;
        Ok(ticket)
    }

    /// Both numbers of the command window.
    #[inline]
    pub fn window(&self) -> Window {
        let [_, exp_cmd_sn, max_cmd_sn, _] = self.parts.window();
        Window {
            exp_cmd_sn,
            max_cmd_sn,
        }
    }

    /// The next StatSN of an open connection.
    #[inline]
    pub fn next_stat_sn(&self, connection: u32) -> Result<u32, Refusal> {
        let (_, stat_sn) = one(self.parts.next_stat_sn(connection))?;
        Ok(stat_sn)
    }

    /// Who holds a command number, any number of 32 bits.
    #[inline]
    pub fn holder(&self, number: u32) -> Holder {
        let [answer, ticket, origin, _] = self.parts.holder(number);
        match answer {
            FREE => Holder::Free,
            VOID => Holder::Void,
            _ => Holder::Held {
                ticket,
                origin: origin_of(origin),
            },
        }
    }

    /// Send the next Data-In of a task; its header is written to `out`.
    #[inline]
    pub fn data_in(
        &self,
        connection: u32,
        task: &mut Task,
        out: &mut [u8],
        pdu: DataInPdu,
    ) -> Result<(), Refusal> {
        one(self.parts.data_in(connection, &mut task.parts, out, pdu)).map(|_| ())
    }

    /// Send the next R2T of a task, with this Target Transfer Tag and Desired Data Transfer Length; its header is written to `out`.
    #[inline]
    pub fn r2t(
        &self,
        connection: u32,
        task: &mut Task,
        out: &mut [u8],
        tag: u32,
        length: u32,
    ) -> Result<(), Refusal> {
        let parts = &mut task.parts;
        one(self.parts.r2t(connection, parts, out, tag, length)).map(|_| ())
    }

    /// Take a Data-Out, a whole PDU, for the task of its Initiator Task Tag: where its data belong.
    #[inline]
    pub fn data_out(&self, connection: u32, task: &mut Task, pdu: &[u8]) -> Result<Came, Refusal> {
        let answer = self.parts.data_out(connection, &mut task.parts, pdu);
        let (_, [offset, count, open]) = done(answer)?;
        Ok(Came {
            offset,
            count,
            open: open as u8,
        })
    }

    /// Take a SNACK of type 0, 2 or 3, a whole PDU. A type 0's run the caller sends again itself. After a type 3 Data-In goes on from
    /// the run's first number, at `offset`: where the acknowledged data end.
    #[inline]
    pub fn data_snack(
        &self,
        connection: u32,
        task: &mut Task,
        offset: u32,
        pdu: &[u8],
    ) -> Result<DataSnack, Refusal> {
        let parts = &mut task.parts;
        let answer = self.parts.data_snack(connection, parts, offset, pdu);
        Ok(match done(answer)? {
            (RUN, [first, count, _]) => DataSnack::Run(Run { first, count }),
            (_, [count, ..]) => DataSnack::Acknowledged(count),
        })
    }
}

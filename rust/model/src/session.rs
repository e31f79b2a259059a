//! A session: the command window and the ledgers of the open connections. Refusals stand in document 01's order.

use crate::fields::put;
use crate::ledger::Ledger;
use crate::read::{NO_TAG, read};
use crate::task;
use crate::window::CommandWindow;
use crate::write::{header, judge};
use calls::{
    Came, DataInPdu, DataSnack, HEADER_BYTES, Holder, LogoutCounts, Numbers, Offer, Refusal,
    Request, Response, Run, Take, Task, Window,
};
use std::collections::BTreeMap;

/// Connection numbers are below this.
const CONNECTIONS: u32 = 4;
/// The one SNACK type that asks for statuses.
const STATUS_SNACK: u8 = 1;

/// A session.
#[derive(Clone, Debug)]
pub struct Session {
    window: CommandWindow,
    /// The open connections.
    ledgers: BTreeMap<u32, Ledger>,
    level: u8,
}

impl Session {
    pub fn fresh(first: u32, stat_sn: u32, level: u8) -> Self {
        Session {
            window: CommandWindow::fresh(first),
            ledgers: BTreeMap::from([(0, Ledger::opened(stat_sn))]),
            level,
        }
    }

    /// The ledger of an open connection: NOCONN, then CLOSED.
    fn ledger(&self, connection: u32) -> Result<&Ledger, Refusal> {
        if connection >= CONNECTIONS {
            return Err(Refusal::NoConn);
        }
        self.ledgers.get(&connection).ok_or(Refusal::Closed)
    }

    /// The same, to change it.
    fn ledger_mut(&mut self, connection: u32) -> Result<&mut Ledger, Refusal> {
        self.ledger(connection)?;
        self.ledgers.get_mut(&connection).ok_or(Refusal::Closed)
    }

    pub fn window(&self) -> Window {
        Window {
            exp_cmd_sn: self.window.exp_cmd_sn(),
            max_cmd_sn: self.window.max_cmd_sn(),
        }
    }

    /// The numbers that a response on this connection carries now.
    fn numbers(&self, connection: u32) -> Result<Numbers, Refusal> {
        let window = self.window();
        Ok(Numbers {
            stat_sn: self.ledger(connection)?.next(),
            exp_cmd_sn: window.exp_cmd_sn,
            max_cmd_sn: window.max_cmd_sn,
        })
    }

    pub fn next_stat_sn(&self, connection: u32) -> Result<u32, Refusal> {
        Ok(self.ledger(connection)?.next())
    }

    pub fn holder(&self, number: u32) -> Holder {
        self.window.holder(number)
    }

    pub fn offer(&mut self, connection: u32, ticket: u32, pdu: &[u8]) -> Result<Offer, Refusal> {
        self.ledger(connection)?;
        let read = read(pdu)?;
        match read.request {
            Request::NopOut(_)
            | Request::ScsiCommand(_)
            | Request::TaskManagement(_)
            | Request::Logout(_) => {}
            Request::Login(_) | Request::DataOut(_) | Request::Snack(_) => {
                return Err(Refusal::Field);
            }
        }
        if read.immediate {
            return Ok(Offer::Immediate);
        }
        let mut kept = [0; HEADER_BYTES];
        kept.copy_from_slice(&pdu[..HEADER_BYTES]);
        Ok(self
            .window
            .offer(read.cmd_sn, kept, ticket, connection as u8))
    }

    pub fn take(&mut self, out: &mut [u8]) -> Result<Take, Refusal> {
        long_enough(out)?;
        let (answer, header) = self.window.take();
        if let Some(header) = header {
            out[..HEADER_BYTES].copy_from_slice(&header);
        }
        Ok(answer)
    }

    pub fn logout(&mut self, connection: u32, reason: u8) -> Result<LogoutCounts, Refusal> {
        self.ledger(connection)?;
        if reason > 2 {
            return Err(Refusal::Field);
        }
        let counts = self.window.logout(connection as u8, reason);
        if reason == 0 {
            self.ledgers.clear();
        } else {
            self.ledgers.remove(&connection);
        }
        Ok(counts)
    }

    pub fn open(&mut self, connection: u32, stat_sn: u32) -> Result<(), Refusal> {
        match self.ledger(connection) {
            Ok(_) => Err(Refusal::Open),
            Err(Refusal::Closed) => {
                self.ledgers.insert(connection, Ledger::opened(stat_sn));
                Ok(())
            }
            Err(refusal) => Err(refusal),
        }
    }

    /// Send a status: of a SCSI Response, ExpDataSN is the record's.
    pub fn send(
        &mut self,
        connection: u32,
        ticket: u32,
        task: &Task,
        out: &mut [u8],
        response: &Response,
    ) -> Result<u32, Refusal> {
        long_enough(out)?;
        let numbers = self.numbers(connection)?;
        judge(response)?;
        if matches!(response, Response::DataIn { .. } | Response::R2t { .. }) {
            return Err(Refusal::Field);
        }
        let status = task::status(task, response)?;
        let ledger = self.ledger_mut(connection)?;
        let stored = !matches!(status, Response::NopIn { itt: NO_TAG, .. });
        if stored && ledger.is_full() {
            return Err(Refusal::Full);
        }
        let header = header(numbers, &status);
        if stored {
            ledger.store(header, ticket);
        }
        out[..HEADER_BYTES].copy_from_slice(&header);
        Ok(numbers.stat_sn)
    }

    pub fn acknowledge(&mut self, connection: u32, exp_stat_sn: u32) -> Result<u32, Refusal> {
        self.ledger_mut(connection)?.acknowledge(exp_stat_sn)
    }

    pub fn snack(&mut self, connection: u32, pdu: &[u8]) -> Result<Run, Refusal> {
        let level = self.level;
        let ledger = self.ledger(connection)?;
        let Request::Snack(snack) = read(pdu)?.request else {
            return Err(Refusal::Field);
        };
        if snack.kind != STATUS_SNACK || level == 0 {
            return Err(Refusal::Snack);
        }
        ledger.run(snack.beg_run, snack.run_length)
    }

    /// Send a status again: of a SCSI Response, ExpDataSN and the tag of a type 3 SNACK are the record's.
    pub fn resend(
        &mut self,
        connection: u32,
        stat_sn: u32,
        task: &Task,
        out: &mut [u8],
    ) -> Result<u32, Refusal> {
        long_enough(out)?;
        let (window, level) = (self.window(), self.level);
        let ledger = self.ledger(connection)?;
        let (mut header, ticket) = ledger.held(stat_sn).ok_or(Refusal::Snack)?;
        if level == 0 {
            return Err(Refusal::Snack);
        }
        put(&mut header, 28, 4, window.exp_cmd_sn.into());
        put(&mut header, 32, 4, window.max_cmd_sn.into());
        task::renew(task, &mut header);
        out[..HEADER_BYTES].copy_from_slice(&header);
        Ok(ticket)
    }

    /// Send a Data-In.
    pub fn data_in(
        &self,
        connection: u32,
        task: &Task,
        out: &mut [u8],
        pdu: DataInPdu,
    ) -> Result<Task, Refusal> {
        long_enough(out)?;
        let numbers = self.numbers(connection)?;
        judge(&task::next_data_in(task, pdu))?;
        let (response, after) = task::data_in(task, pdu)?;
        out[..HEADER_BYTES].copy_from_slice(&header(numbers, &response));
        Ok(after)
    }

    /// Send an R2T. It carries the next StatSN, uses up none and isn't stored. Writing has nothing to refuse in it.
    pub fn r2t(
        &self,
        connection: u32,
        task: &Task,
        out: &mut [u8],
        tag: u32,
        desired_data_transfer_length: u32,
    ) -> Result<Task, Refusal> {
        long_enough(out)?;
        let numbers = self.numbers(connection)?;
        let (response, after) = task::r2t(task, tag, desired_data_transfer_length)?;
        out[..HEADER_BYTES].copy_from_slice(&header(numbers, &response));
        Ok(after)
    }

    /// Take a Data-Out, a whole PDU.
    pub fn data_out(
        &self,
        connection: u32,
        task: &Task,
        pdu: &[u8],
    ) -> Result<(Came, Task), Refusal> {
        self.ledger(connection)?;
        task::data_out(task, &read(pdu)?)
    }

    /// Take a SNACK of type 0, 2 or 3, a whole PDU.
    pub fn data_snack(
        &self,
        connection: u32,
        task: &Task,
        offset: u32,
        pdu: &[u8],
    ) -> Result<(DataSnack, Task), Refusal> {
        self.ledger(connection)?;
        task::data_snack(task, self.level, offset, &read(pdu)?)
    }
}

/// BUFFER: a lent output must have room for a header.
fn long_enough(out: &[u8]) -> Result<(), Refusal> {
    if out.len() < HEADER_BYTES {
        return Err(Refusal::Buffer);
    }
    Ok(())
}

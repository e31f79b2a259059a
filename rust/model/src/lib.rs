//! An independent implementation of document 01 and of the requests after it: plain Rust, written from the papers,
//! plainly right rather than fast.
//! History is unbounded, and what is held stands in maps keyed by its number. The proved engine is compared with it.

mod block;
mod fields;
mod judge;
mod keys;
mod ledger;
mod login;
mod read;
mod session;
mod task;
mod value;
mod window;
mod write;

use calls::{
    Came, DataInPdu, DataSnack, Engine, Holder, LoginAnswer, LogoutCounts, Numbers, Offer,
    Parameters, Pdu, Refusal, Response, Run, Take, Task, TaskGiven, Window,
};
use login::Login;
use session::Session;

/// The name of the target before a login is begun.
pub const TARGET_NAME: &[u8] = b"iqn.2026-11.example:drawbevel";

/// The model: one session, one login, the reader and the writer.
#[derive(Clone, Debug)]
pub struct Model {
    session: Session,
    login: Login,
}

impl Default for Model {
    /// The session of `session 1 1 0` and a login to [`TARGET_NAME`].
    fn default() -> Self {
        Model {
            session: Session::fresh(1, 1, 0),
            login: Login::fresh(TARGET_NAME),
        }
    }
}

impl Engine for Model {
    fn begin_session(&mut self, first: u32, stat_sn: u32, level: u8) {
        self.session = Session::fresh(first, stat_sn, level);
    }

    fn offer(&mut self, connection: u32, ticket: u32, pdu: &[u8]) -> Result<Offer, Refusal> {
        self.session.offer(connection, ticket, pdu)
    }

    fn take(&mut self, out: &mut [u8]) -> Result<Take, Refusal> {
        self.session.take(out)
    }

    fn logout(&mut self, connection: u32, reason: u8) -> Result<LogoutCounts, Refusal> {
        self.session.logout(connection, reason)
    }

    fn open(&mut self, connection: u32, stat_sn: u32) -> Result<(), Refusal> {
        self.session.open(connection, stat_sn)
    }

    fn send(
        &mut self,
        connection: u32,
        ticket: u32,
        task: &Task,
        out: &mut [u8],
        response: &Response,
    ) -> Result<u32, Refusal> {
        self.session.send(connection, ticket, task, out, response)
    }

    fn acknowledge(&mut self, connection: u32, exp_stat_sn: u32) -> Result<u32, Refusal> {
        self.session.acknowledge(connection, exp_stat_sn)
    }

    fn snack(&mut self, connection: u32, pdu: &[u8]) -> Result<Run, Refusal> {
        self.session.snack(connection, pdu)
    }

    fn resend(
        &mut self,
        connection: u32,
        stat_sn: u32,
        task: &Task,
        out: &mut [u8],
    ) -> Result<u32, Refusal> {
        self.session.resend(connection, stat_sn, task, out)
    }

    fn window(&self) -> Window {
        self.session.window()
    }

    fn next_stat_sn(&self, connection: u32) -> Result<u32, Refusal> {
        self.session.next_stat_sn(connection)
    }

    fn holder(&self, number: u32) -> Holder {
        self.session.holder(number)
    }

    fn task(&self, given: TaskGiven) -> Result<Task, Refusal> {
        task::make(given)
    }

    fn data_in(
        &mut self,
        connection: u32,
        task: &mut Task,
        out: &mut [u8],
        pdu: DataInPdu,
    ) -> Result<(), Refusal> {
        *task = self.session.data_in(connection, task, out, pdu)?;
        Ok(())
    }

    fn r2t(
        &mut self,
        connection: u32,
        task: &mut Task,
        out: &mut [u8],
        tag: u32,
        length: u32,
    ) -> Result<(), Refusal> {
        *task = self.session.r2t(connection, task, out, tag, length)?;
        Ok(())
    }

    fn data_out(&mut self, connection: u32, task: &mut Task, pdu: &[u8]) -> Result<Came, Refusal> {
        let (came, after) = self.session.data_out(connection, task, pdu)?;
        *task = after;
        Ok(came)
    }

    fn data_snack(
        &mut self,
        connection: u32,
        task: &mut Task,
        offset: u32,
        pdu: &[u8],
    ) -> Result<DataSnack, Refusal> {
        let (answer, after) = self.session.data_snack(connection, task, offset, pdu)?;
        *task = after;
        Ok(answer)
    }

    fn length(&self, header: &[u8]) -> Result<u32, Refusal> {
        read::length(header)
    }

    fn read(&self, pdu: &[u8]) -> Result<Pdu, Refusal> {
        read::read(pdu)
    }

    fn write(&self, out: &mut [u8], numbers: Numbers, response: &Response) -> Result<(), Refusal> {
        write::write(out, numbers, response)
    }

    fn begin_login(&mut self, target_name: &[u8]) {
        self.login = Login::fresh(target_name);
    }

    fn login(
        &mut self,
        live: u16,
        new: u16,
        gather: &mut [u8],
        text: &mut [u8],
        pdu: &[u8],
    ) -> Result<LoginAnswer, Refusal> {
        self.login.request(live, new, gather, text, pdu)
    }

    fn parameters(&self) -> Parameters {
        self.login.parameters()
    }
}

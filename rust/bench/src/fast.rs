//! Hand-optimised Rust: `&mut self`, fixed arrays, bit maps relative to the next number, loads of whole words.

mod keys;
mod ledger;
mod login;
mod read;
pub mod session;
pub mod task;
mod text;
mod window;
mod write;

use calls::{
    Came, DataInPdu, DataSnack, Engine, Holder, LoginAnswer, LogoutCounts, Numbers, Offer,
    Parameters, Pdu, Refusal, Response, Run, Take, Task, TaskGiven, Window,
};

/// The hand-optimised engine.
#[derive(Clone)]
pub struct Fast {
    session: session::Session,
    login: login::Login,
}

impl Default for Fast {
    fn default() -> Self {
        Fast {
            session: session::Session::fresh(1, 1, 0),
            login: login::Login::fresh(b"iqn.2026-11.example:drawbevel"),
        }
    }
}

impl Engine for Fast {
    fn begin_session(&mut self, first: u32, stat_sn: u32, level: u8) {
        self.session = session::Session::fresh(first, stat_sn, level);
    }

    #[inline]
    fn offer(&mut self, connection: u32, ticket: u32, pdu: &[u8]) -> Result<Offer, Refusal> {
        self.session.offer(connection, ticket, pdu)
    }

    #[inline]
    fn take(&mut self, out: &mut [u8]) -> Result<Take, Refusal> {
        self.session.take(out)
    }

    #[inline]
    fn logout(&mut self, connection: u32, reason: u8) -> Result<LogoutCounts, Refusal> {
        self.session.logout(connection, reason)
    }

    #[inline]
    fn open(&mut self, connection: u32, stat_sn: u32) -> Result<(), Refusal> {
        self.session.open(connection, stat_sn)
    }

    #[inline]
    fn send(
        &mut self,
        connection: u32,
        ticket: u32,
        task: &Task,
        out: &mut [u8],
        response: &Response,
    ) -> Result<u32, Refusal> {
        self.session
            .send(connection, ticket, &task.into(), out, response)
    }

    #[inline]
    fn acknowledge(&mut self, connection: u32, exp_stat_sn: u32) -> Result<u32, Refusal> {
        self.session.acknowledge(connection, exp_stat_sn)
    }

    #[inline]
    fn snack(&mut self, connection: u32, pdu: &[u8]) -> Result<Run, Refusal> {
        self.session.snack(connection, pdu)
    }

    #[inline]
    fn resend(
        &mut self,
        connection: u32,
        stat_sn: u32,
        task: &Task,
        out: &mut [u8],
    ) -> Result<u32, Refusal> {
        self.session.resend(connection, stat_sn, &task.into(), out)
    }

    #[inline]
    fn window(&self) -> Window {
        self.session.window()
    }

    #[inline]
    fn next_stat_sn(&self, connection: u32) -> Result<u32, Refusal> {
        self.session.next_stat_sn(connection)
    }

    #[inline]
    fn holder(&self, number: u32) -> Holder {
        self.session.holder(number)
    }

    #[inline]
    fn task(&self, given: TaskGiven) -> Result<Task, Refusal> {
        task::Task::make(given).map(|task| (&task).into())
    }

    #[inline]
    fn data_in(
        &mut self,
        connection: u32,
        task: &mut Task,
        out: &mut [u8],
        pdu: DataInPdu,
    ) -> Result<(), Refusal> {
        on_record(task, |task| {
            self.session.data_in(connection, task, out, pdu)
        })
    }

    #[inline]
    fn r2t(
        &mut self,
        connection: u32,
        task: &mut Task,
        out: &mut [u8],
        tag: u32,
        length: u32,
    ) -> Result<(), Refusal> {
        on_record(task, |task| {
            self.session.r2t(connection, task, out, tag, length)
        })
    }

    #[inline]
    fn data_out(&mut self, connection: u32, task: &mut Task, pdu: &[u8]) -> Result<Came, Refusal> {
        on_record(task, |task| self.session.data_out(connection, task, pdu))
    }

    #[inline]
    fn data_snack(
        &mut self,
        connection: u32,
        task: &mut Task,
        offset: u32,
        pdu: &[u8],
    ) -> Result<DataSnack, Refusal> {
        on_record(task, |task| {
            self.session.data_snack(connection, task, offset, pdu)
        })
    }

    #[inline]
    fn length(&self, header: &[u8]) -> Result<u32, Refusal> {
        read::length(header)
    }

    #[inline]
    fn read(&self, pdu: &[u8]) -> Result<Pdu, Refusal> {
        read::read(pdu)
    }

    #[inline]
    fn write(&self, out: &mut [u8], numbers: Numbers, response: &Response) -> Result<(), Refusal> {
        write::write(out, numbers, response)
    }

    fn begin_login(&mut self, target_name: &[u8]) {
        self.login = login::Login::fresh(target_name);
    }

    fn login(
        &mut self,
        live: u16,
        new: u16,
        gather: &mut [u8],
        text: &mut [u8],
        pdu: &[u8],
    ) -> Result<LoginAnswer, Refusal> {
        self.login.request(live, new, gather, text, pdu)
    }

    fn parameters(&self) -> Parameters {
        self.login.parameters()
    }
}

/// A data call on the engine's own form of a record.
fn on_record<T>(
    task: &mut Task,
    call: impl FnOnce(&mut task::Task) -> Result<T, Refusal>,
) -> Result<T, Refusal> {
    let mut own = (&*task).into();
    let answer = call(&mut own)?;
    *task = (&own).into();
    Ok(answer)
}

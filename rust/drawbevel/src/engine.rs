//! The library as an engine: what the tools and tests play calls on.

use crate::{Login, Session, header, task};
use calls::{
    Came, DataInPdu, DataSnack, Engine, Holder, LoginAnswer, LogoutCounts, Numbers, Offer,
    Parameters, Pdu, Refusal, Response, Run, Take, Task, TaskGiven, Window,
};

/// One session, one login with its target's name, the reader and the writer.
#[derive(Clone)]
pub struct Drawbevel {
    session: Session,
    login: Login,
    target_name: Vec<u8>,
}

impl Default for Drawbevel {
    fn default() -> Self {
        Drawbevel {
            session: Session::new(1, 1, 0),
            login: Login::new(),
            target_name: b"iqn.2026-11.example:drawbevel".to_vec(),
        }
    }
}

/// The words of a record.
///
/// # Panics
/// Where it has more than eight open R2Ts.
fn words_of(task: &Task) -> task::Task {
    let words = task::Task::try_from(task);
    words.unwrap_or_else(|too_many| panic!("{too_many}: {task:?}"))
}

/// A data call on a record's words. They come back whether it is refused or not, so that a refusal that changes them shows.
fn on_words<T>(task: &mut Task, call: impl FnOnce(&mut task::Task) -> T) -> T {
    let mut words = words_of(task);
    let answer = call(&mut words);
    *task = (&words).into();
    answer
}

impl Engine for Drawbevel {
    fn begin_session(&mut self, first: u32, stat_sn: u32, level: u8) {
        self.session = Session::new(first, stat_sn, level);
    }

    #[inline]
    fn offer(&mut self, connection: u32, ticket: u32, pdu: &[u8]) -> Result<Offer, Refusal> {
        self.session.offer(connection, ticket, pdu)
    }

    #[inline]
    fn take(&mut self, out: &mut [u8]) -> Result<Take, Refusal> {
        self.session.take(out)
    }

    #[inline]
    fn logout(&mut self, connection: u32, reason: u8) -> Result<LogoutCounts, Refusal> {
        self.session.logout(connection, reason)
    }

    #[inline]
    fn open(&mut self, connection: u32, stat_sn: u32) -> Result<(), Refusal> {
        self.session.open(connection, stat_sn)
    }

    #[inline]
    fn send(
        &mut self,
        connection: u32,
        ticket: u32,
        task: &Task,
        out: &mut [u8],
        response: &Response,
    ) -> Result<u32, Refusal> {
        let task = words_of(task);
        self.session.send(connection, ticket, &task, out, response)
    }

    #[inline]
    fn acknowledge(&mut self, connection: u32, exp_stat_sn: u32) -> Result<u32, Refusal> {
        self.session.acknowledge(connection, exp_stat_sn)
    }

    #[inline]
    fn snack(&mut self, connection: u32, pdu: &[u8]) -> Result<Run, Refusal> {
        self.session.snack(connection, pdu)
    }

    #[inline]
    fn resend(
        &mut self,
        connection: u32,
        stat_sn: u32,
        task: &Task,
        out: &mut [u8],
    ) -> Result<u32, Refusal> {
        self.session
            .resend(connection, stat_sn, &words_of(task), out)
    }

    #[inline]
    fn window(&self) -> Window {
        self.session.window()
    }

    #[inline]
    fn next_stat_sn(&self, connection: u32) -> Result<u32, Refusal> {
        self.session.next_stat_sn(connection)
    }

    #[inline]
    fn holder(&self, number: u32) -> Holder {
        self.session.holder(number)
    }

    #[inline]
    fn task(&self, given: TaskGiven) -> Result<Task, Refusal> {
        task::Task::new(given).map(|task| (&task).into())
    }

    #[inline]
    fn data_in(
        &mut self,
        connection: u32,
        task: &mut Task,
        out: &mut [u8],
        pdu: DataInPdu,
    ) -> Result<(), Refusal> {
        on_words(task, |task| {
            self.session.data_in(connection, task, out, pdu)
        })
    }

    #[inline]
    fn r2t(
        &mut self,
        connection: u32,
        task: &mut Task,
        out: &mut [u8],
        tag: u32,
        length: u32,
    ) -> Result<(), Refusal> {
        on_words(task, |task| {
            self.session.r2t(connection, task, out, tag, length)
        })
    }

    #[inline]
    fn data_out(&mut self, connection: u32, task: &mut Task, pdu: &[u8]) -> Result<Came, Refusal> {
        on_words(task, |task| self.session.data_out(connection, task, pdu))
    }

    #[inline]
    fn data_snack(
        &mut self,
        connection: u32,
        task: &mut Task,
        offset: u32,
        pdu: &[u8],
    ) -> Result<DataSnack, Refusal> {
        on_words(task, |task| {
            self.session.data_snack(connection, task, offset, pdu)
        })
    }

    #[inline]
    fn length(&self, header: &[u8]) -> Result<u32, Refusal> {
        header::length(header)
    }

    #[inline]
    fn read(&self, pdu: &[u8]) -> Result<Pdu, Refusal> {
        header::read(pdu)
    }

    #[inline]
    fn write(&self, out: &mut [u8], numbers: Numbers, response: &Response) -> Result<(), Refusal> {
        header::write(out, numbers, response)
    }

    fn begin_login(&mut self, target_name: &[u8]) {
        self.login = Login::new();
        self.target_name = target_name.to_vec();
    }

    fn login(
        &mut self,
        live: u16,
        new: u16,
        gather: &mut [u8],
        text: &mut [u8],
        pdu: &[u8],
    ) -> Result<LoginAnswer, Refusal> {
        let name = &self.target_name;
        self.login.request(name, live, new, gather, text, pdu)
    }

    fn parameters(&self) -> Parameters {
        self.login.parameters()
    }
}

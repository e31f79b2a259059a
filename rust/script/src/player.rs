//! Plays calls on an engine: lends the outputs, keeps the gather area and the tasks' records, and sees whether a byte
//! changed that must not.

use crate::call::{Answer, Call};
use crate::{TARGET_NAME, TASKS};
use calls::{DataSnack, Engine, HEADER_BYTES, LoginAnswer, Refusal, Response, Take, Task};

/// The byte that a lent output is filled with before each call.
pub const FILL: u8 = 0xee;
/// The most bytes that are lent at once; a call that would lend more is lent these. Answers don't depend on it, and a
/// script can't make the tool ask for more memory than this.
const MOST_LENT: usize = 65_535;

/// An engine with the areas that it is lent and the records that it is given.
pub struct Player<E> {
    engine: E,
    tasks: Vec<Task>,
    gather: Vec<u8>,
    /// How many bytes of the gather area count as gathered, by the rules.
    gathered: usize,
}

/// What a call did.
#[derive(Clone, Debug, PartialEq, Eq)]
pub struct Played {
    /// The answer.
    pub answer: Answer,
    /// Whether lent bytes are other than the rules say.
    pub touched: bool,
    /// The lent output after the call, empty where none was lent.
    pub lent: Vec<u8>,
}

impl Played {
    /// The answer of a call that lends nothing.
    fn plain(answer: Result<Answer, Refusal>) -> Self {
        Played {
            answer: answer.unwrap_or_else(Answer::Refused),
            touched: false,
            lent: Vec::new(),
        }
    }

    /// The answer of a call that was lent an output and wrote its first `written` bytes.
    fn lent(answer: Answer, lent: Vec<u8>, written: usize) -> Self {
        let rest = lent.get(written..).unwrap_or_default();
        Played {
            answer,
            touched: rest.iter().any(|&byte| byte != FILL),
            lent,
        }
    }
}

impl<E: Engine> Player<E> {
    /// Start with the session of `session 1 1 0`, the login to [`TARGET_NAME`], and fresh records.
    pub fn new(mut engine: E) -> Self {
        engine.begin_session(1, 1, 0);
        engine.begin_login(TARGET_NAME);
        Player {
            engine,
            tasks: vec![Task::fresh_for(0); TASKS],
            gather: vec![FILL; MOST_LENT],
            gathered: 0,
        }
    }

    /// The engine.
    pub fn engine(&self) -> &E {
        &self.engine
    }

    /// The tasks' records as the last calls left them.
    pub fn tasks(&self) -> &[Task] {
        &self.tasks
    }

    /// The gather area as the last call left it.
    pub fn gather(&self) -> &[u8] {
        &self.gather
    }

    /// Play one call.
    pub fn play(&mut self, call: &Call) -> Played {
        let e = &mut self.engine;
        match call {
            Call::Session {
                first,
                stat_sn,
                level,
            } => {
                e.begin_session(*first, *stat_sn, *level);
                Played::plain(Ok(Answer::Session))
            }
            Call::Offer {
                connection,
                ticket,
                pdu,
            } => Played::plain(e.offer(*connection, *ticket, pdu).map(Answer::Offered)),
            Call::Take { lent } => take(e, *lent),
            Call::Logout { connection, reason } => {
                Played::plain(e.logout(*connection, *reason).map(Answer::LoggedOut))
            }
            Call::Open {
                connection,
                stat_sn,
            } => Played::plain(e.open(*connection, *stat_sn).map(|()| Answer::Opened)),
            Call::Send {
                connection,
                ticket,
                lent,
                task,
                response,
            } => {
                let record = task.map(|n| &self.tasks[usize::from(n)]);
                let record = record.cloned().unwrap_or_else(|| fresh_for(response));
                header(
                    *lent,
                    |out| e.send(*connection, *ticket, &record, out, response),
                    Answer::Sent,
                )
            }
            Call::Acknowledge {
                connection,
                exp_stat_sn,
            } => {
                let released = e.acknowledge(*connection, *exp_stat_sn);
                Played::plain(released.map(Answer::Acknowledged))
            }
            Call::Snack { connection, pdu } => {
                Played::plain(e.snack(*connection, pdu).map(Answer::Run))
            }
            Call::Resend {
                connection,
                stat_sn,
                lent,
                task,
            } => {
                let fresh = Task::fresh_for(0);
                let record = task.map_or(&fresh, |n| &self.tasks[usize::from(n)]);
                header(
                    *lent,
                    |out| e.resend(*connection, *stat_sn, record, out),
                    Answer::Resent,
                )
            }
            Call::Window => Played::plain(Ok(Answer::Window(e.window()))),
            Call::Next { connection } => {
                Played::plain(e.next_stat_sn(*connection).map(Answer::Next))
            }
            Call::Holder { number } => Played::plain(Ok(Answer::Holder(e.holder(*number)))),
            Call::Task { .. }
            | Call::DataIn { .. }
            | Call::R2t { .. }
            | Call::DataOut { .. }
            | Call::DataSnack { .. }
            | Call::Record { .. }
            | Call::SetRecord { .. } => self.data(call),
            Call::Length { header } => Played::plain(e.length(header).map(Answer::Length)),
            Call::Read { pdu } => Played::plain(e.read(pdu).map(Answer::Read)),
            Call::Write {
                lent,
                numbers,
                response,
            } => header(
                *lent,
                |out| e.write(out, *numbers, response),
                |(), header| Answer::Written(header),
            ),
            Call::LoginBegin { name } => {
                e.begin_login(name);
                self.gather.fill(FILL);
                self.gathered = 0;
                Played::plain(Ok(Answer::LoginBegun))
            }
            Call::Login { .. } => self.login(call),
            Call::Params => Played::plain(Ok(Answer::Params(e.parameters()))),
        }
    }

    /// A call on a task's record.
    fn data(&mut self, call: &Call) -> Played {
        let e = &mut self.engine;
        let n = call.task().expect("only for calls on a record");
        let record = &mut self.tasks[usize::from(n)];
        match call {
            Call::Task { given, .. } => {
                let made = e.task(*given).map(|task| *record = task);
                Played::plain(made.map(|()| Answer::Task))
            }
            Call::DataIn {
                connection,
                lent,
                pdu,
                ..
            } => header(
                *lent,
                |out| e.data_in(*connection, record, out, *pdu),
                |(), header| Answer::DataIn(header),
            ),
            Call::R2t {
                connection,
                lent,
                tag,
                length,
                ..
            } => header(
                *lent,
                |out| e.r2t(*connection, record, out, *tag, *length),
                |(), header| Answer::R2t(header),
            ),
            Call::DataOut {
                connection, pdu, ..
            } => Played::plain(e.data_out(*connection, record, pdu).map(Answer::Came)),
            Call::DataSnack {
                connection,
                offset,
                pdu,
                ..
            } => {
                let said = e.data_snack(*connection, record, *offset, pdu);
                Played::plain(said.map(|said| match said {
                    DataSnack::Run(run) => Answer::Run(run),
                    DataSnack::Acknowledged(count) => Answer::Acknowledged(count),
                }))
            }
            Call::SetRecord { record: given, .. } => {
                *record = given.clone();
                Played::plain(Ok(Answer::RecordSet))
            }
            _ => Played::plain(Ok(Answer::Record(record.clone()))),
        }
    }

    fn login(&mut self, call: &Call) -> Played {
        let Call::Login {
            live,
            new,
            gather,
            text,
            pdu,
        } = call
        else {
            unreachable!("only for login calls");
        };
        let before = self.gather.clone();
        let area = &mut self.gather[..(*gather as usize).min(MOST_LENT)];
        let mut lent = vec![FILL; (*text as usize).min(MOST_LENT)];
        let answer = self.engine.login(*live, *new, area, &mut lent, pdu);
        let mut wanted = before;
        if answer.is_ok() {
            self.gather_by_the_rules(&mut wanted, pdu);
        }
        let mut played = match answer {
            Ok(answer) => login_answer(answer, lent),
            Err(refusal) => Played::lent(Answer::Refused(refusal), lent, 0),
        };
        played.touched |= self.gather != wanted;
        played
    }

    /// What a request that wasn't refused does to the gather area: with C its text is gathered, and text without C
    /// after gathered bytes joins them.
    fn gather_by_the_rules(&mut self, area: &mut [u8], pdu: &[u8]) {
        let more = pdu.get(1).is_some_and(|flags| flags & 0x40 != 0);
        let data = data_of(pdu);
        let end = self.gathered + data.len();
        if (more || self.gathered > 0) && end <= area.len() {
            area[self.gathered..end].copy_from_slice(data);
        }
        self.gathered = if more { end } else { 0 };
    }
}

/// The data segment of a login request that was read; empty where it is none.
fn data_of(pdu: &[u8]) -> &[u8] {
    let Some(&[high, middle, low]) = pdu.get(5..8) else {
        return &[];
    };
    let length = usize::from(high) << 16 | usize::from(middle) << 8 | usize::from(low);
    pdu.get(HEADER_BYTES..HEADER_BYTES + length)
        .unwrap_or_default()
}

fn login_answer(answer: LoginAnswer, lent: Vec<u8>) -> Played {
    let length = answer.text_length.min(lent.len());
    let text = lent[..length].to_vec();
    Played::lent(Answer::Login(answer, text), lent, length)
}

/// The record that a response goes with where none is named: a fresh one, for a SCSI Response with its Initiator Task
/// Tag.
fn fresh_for(response: &Response) -> Task {
    match response {
        Response::Scsi { itt, .. } => Task::fresh_for(*itt),
        _ => Task::fresh_for(0),
    }
}

fn take<E: Engine>(engine: &mut E, lent: usize) -> Played {
    let mut out = vec![FILL; lent];
    match engine.take(&mut out) {
        Ok(Take::Nothing) => Played::lent(Answer::Nothing, out, 0),
        Ok(Take::Void(number)) => Played::lent(Answer::Void(number), out, 0),
        Ok(Take::Out(o)) => Played::lent(Answer::Out(o, start(&out)), out, HEADER_BYTES),
        Err(refusal) => Played::lent(Answer::Refused(refusal), out, 0),
    }
}

/// A call that writes one header to the lent output.
fn header<T>(
    lent: usize,
    call: impl FnOnce(&mut [u8]) -> Result<T, Refusal>,
    answer: impl FnOnce(T, [u8; HEADER_BYTES]) -> Answer,
) -> Played {
    let mut out = vec![FILL; lent];
    match call(&mut out) {
        Ok(result) => Played::lent(answer(result, start(&out)), out, HEADER_BYTES),
        Err(refusal) => Played::lent(Answer::Refused(refusal), out, 0),
    }
}

/// The header in an output; an engine that answers on a shorter one shows what there is.
fn start(out: &[u8]) -> [u8; HEADER_BYTES] {
    let mut header = [FILL; HEADER_BYTES];
    let length = out.len().min(HEADER_BYTES);
    header[..length].copy_from_slice(&out[..length]);
    header
}

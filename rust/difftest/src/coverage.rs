//! What a run reached. A clean run counts only if everything in the list of what is required was seen.

mod data_headers;
mod length;
mod login;
mod required;
mod session;
mod snacks;
mod statuses;
mod tasks;

pub use required::required;

use calls::{Holder, Offer, Task};
use script::{Answer, Call, Played};
use std::collections::BTreeMap;

/// How often something must have been seen.
const ENOUGH: u64 = 3;

/// What was seen, and how often.
#[derive(Debug, Default)]
pub struct Coverage {
    seen: BTreeMap<String, u64>,
    session: session::View,
    login: login::View,
}

impl Coverage {
    /// Record a call and its answer, and of a call on a task the record before and after it.
    pub fn saw(&mut self, call: &Call, played: &Played, records: Option<(&Task, &Task)>) {
        let answer = &played.answer;
        let mut marks = vec![format!("{}: {}", call_name(call), answer_name(answer))];
        if let Answer::Refused(refusal) = answer {
            marks.push(format!("refusal {}", refusal.number()));
            if let Some(status) = refusal.status() {
                marks.push(format!("status {status:#06x}"));
            }
        }
        if let Answer::Written(header) | Answer::Sent(_, header) = answer {
            marks.push(format!("{} {:#04x}", call_name(call), header[0]));
        }
        length::saw(call, answer, &mut marks);
        data_headers::saw(call, answer, &mut marks);
        if let Some((before, after)) = records {
            tasks::saw(call, answer, before, after, &mut marks);
            snacks::saw(
                call,
                answer,
                (before, after),
                self.session.level(),
                &mut marks,
            );
            statuses::saw(call, answer, before, &self.session, &mut marks);
        }
        self.session.saw(call, answer, &mut marks);
        self.login.saw(call, answer, &mut marks);
        for mark in marks {
            *self.seen.entry(mark).or_default() += 1;
        }
    }

    /// How often something was seen.
    pub fn count(&self, mark: &str) -> u64 {
        self.seen.get(mark).copied().unwrap_or(0)
    }

    /// Everything that is required and wasn't seen often enough.
    pub fn missing(&self) -> Vec<String> {
        let seen_enough = |mark: &String| self.count(mark) >= ENOUGH;
        required()
            .into_iter()
            .filter(|mark| !seen_enough(mark))
            .collect()
    }

    /// Panic where something is missing.
    pub fn assert_whole(&self) {
        let missing = self.missing();
        assert!(missing.is_empty(), "not reached: {missing:#?}");
    }

    /// Everything that was seen, with its count.
    pub fn seen(&self) -> impl Iterator<Item = (&str, u64)> {
        self.seen.iter().map(|(mark, &count)| (&mark[..], count))
    }
}

fn call_name(call: &Call) -> &'static str {
    match call {
        Call::Session { .. } => "session",
        Call::Offer { .. } => "offer",
        Call::Take { .. } => "take",
        Call::Logout { .. } => "logout",
        Call::Open { .. } => "open",
        Call::Send { .. } => "send",
        Call::Acknowledge { .. } => "ack",
        Call::Snack { .. } => "snack",
        Call::Resend { .. } => "resend",
        Call::Window => "window",
        Call::Next { .. } => "next",
        Call::Holder { .. } => "holder",
        Call::Task { .. } => "task",
        Call::DataIn { .. } => "data-in",
        Call::R2t { .. } => "r2t",
        Call::DataOut { .. } => "data-out",
        Call::DataSnack { .. } => "data-snack",
        Call::Record { .. } | Call::SetRecord { .. } => "record",
        Call::Length { .. } => "length",
        Call::Read { .. } => "read",
        Call::Write { .. } => "write",
        Call::LoginBegin { .. } => "login-begin",
        Call::Login { .. } => "login",
        Call::Params => "params",
    }
}

/// The texts that are so.
fn those<const N: usize>(list: [(bool, &'static str); N]) -> Vec<&'static str> {
    let so = list.into_iter().filter(|(is_so, _)| *is_so);
    so.map(|(_, text)| text).collect()
}

/// The big-endian number of four bytes.
fn number(bytes: &[u8], at: usize) -> u32 {
    u32::from_be_bytes([bytes[at], bytes[at + 1], bytes[at + 2], bytes[at + 3]])
}

fn answer_name(answer: &Answer) -> String {
    let name = match answer {
        Answer::Session => "session",
        Answer::Offered(Offer::Kept) => "kept",
        Answer::Offered(Offer::Duplicate) => "duplicate",
        Answer::Offered(Offer::Passed) => "passed",
        Answer::Offered(Offer::Beyond) => "beyond",
        Answer::Offered(Offer::Immediate) => "immediate",
        Answer::Nothing => "nothing",
        Answer::Void(_) => "void",
        Answer::Out(out, _) if out.origin.is_none() => "out, origin none",
        Answer::Out(..) => "out",
        Answer::LoggedOut(_) => "logged out",
        Answer::Opened => "opened",
        Answer::Sent(..) => "sent",
        Answer::Acknowledged(0) => "acknowledged none",
        Answer::Acknowledged(_) => "acknowledged",
        Answer::Run(_) => "run",
        Answer::Resent(..) => "resent",
        Answer::Window(_) => "window",
        Answer::Next(_) => "next",
        Answer::Holder(Holder::Free) => "free",
        Answer::Holder(Holder::Void) => "void",
        Answer::Holder(Holder::Held { origin: None, .. }) => "held, origin none",
        Answer::Holder(Holder::Held { .. }) => "held",
        Answer::Task => "task",
        Answer::DataIn(_) => "data-in",
        Answer::R2t(_) => "r2t",
        Answer::Came(_) => "came",
        Answer::Record(_) => "record",
        Answer::RecordSet => "set",
        Answer::Length(_) => "length",
        Answer::Read(pdu) => pdu.request.kind(),
        Answer::Written(_) => "written",
        Answer::LoginBegun => "begun",
        Answer::Login(answer, _) if answer.transit => "answer, T set",
        Answer::Login(..) => "answer, T clear",
        Answer::Params(_) => "params",
        Answer::Refused(refusal) => return format!("refused {}", refusal.number()),
    };
    name.into()
}

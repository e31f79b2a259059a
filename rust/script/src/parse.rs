//! A line as a call.

mod response;
mod words;

use crate::call::Call;
use crate::record;
use calls::{DataInPdu, TaskGiven};

pub use words::Words;

/// The call of a line; none where it is a bad line.
pub fn parse(line: &[u8]) -> Option<Call> {
    let mut words = Words::of(line)?;
    let call = match words.word()? {
        b"session" => Call::Session {
            first: words.u32()?,
            stat_sn: words.u32()?,
            level: words.u8()?,
        },
        b"offer" => Call::Offer {
            connection: words.u32()?,
            ticket: words.u32()?,
            pdu: words.bytes()?,
        },
        b"take" => Call::Take {
            lent: words.lent()?,
        },
        b"logout" => Call::Logout {
            connection: words.u32()?,
            reason: words.u8()?,
        },
        b"open" => Call::Open {
            connection: words.u32()?,
            stat_sn: words.u32()?,
        },
        b"send" => Call::Send {
            connection: words.u32()?,
            ticket: words.u32()?,
            lent: words.lent()?,
            task: words.with_task()?,
            response: words.status()?,
        },
        b"ack" => Call::Acknowledge {
            connection: words.u32()?,
            exp_stat_sn: words.u32()?,
        },
        b"snack" => Call::Snack {
            connection: words.u32()?,
            pdu: words.bytes()?,
        },
        b"resend" => Call::Resend {
            connection: words.u32()?,
            stat_sn: words.u32()?,
            lent: words.lent()?,
            task: words.with_task()?,
        },
        b"window" => Call::Window,
        b"next" => Call::Next {
            connection: words.u32()?,
        },
        b"holder" => Call::Holder {
            number: words.u32()?,
        },
        b"task" => Call::Task {
            task: words.task()?,
            given: TaskGiven {
                itt: words.u32()?,
                lun: words.u64()?,
                tag: words.u32()?,
                came: words.u32()?,
                max_burst: words.u32()?,
                max_r2t: words.u16()?,
            },
        },
        b"data-in" => Call::DataIn {
            connection: words.u32()?,
            task: words.task()?,
            lent: words.lent()?,
            pdu: DataInPdu {
                final_bit: words.bit()?,
                acknowledge: words.bit()?,
                data_segment_length: words.u32()?,
            },
        },
        b"r2t" => Call::R2t {
            connection: words.u32()?,
            task: words.task()?,
            lent: words.lent()?,
            tag: words.u32()?,
            length: words.u32()?,
        },
        b"data-out" => Call::DataOut {
            connection: words.u32()?,
            task: words.task()?,
            pdu: words.bytes()?,
        },
        b"data-snack" => Call::DataSnack {
            connection: words.u32()?,
            task: words.task()?,
            offset: words.u32()?,
            pdu: words.bytes()?,
        },
        b"record" => {
            let task = words.task()?;
            match words.are_over() {
                true => Call::Record { task },
                false => Call::SetRecord {
                    task,
                    record: record::read(&mut words)?,
                },
            }
        }
        b"length" => Call::Length {
            header: words.bytes()?,
        },
        b"read" => Call::Read {
            pdu: words.bytes()?,
        },
        b"write" => Call::Write {
            lent: words.lent()?,
            numbers: words.numbers()?,
            response: words.response()?,
        },
        b"login-begin" => Call::LoginBegin {
            name: words.word()?.to_vec(),
        },
        b"login" => Call::Login {
            live: words.u16()?,
            new: words.u16()?,
            gather: words.u32()?,
            text: words.u32()?,
            pdu: words.bytes()?,
        },
        b"params" => Call::Params,
        _ => return None,
    };
    words.are_over().then_some(call)
}

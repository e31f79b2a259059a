//! A call as a line: what `parse` reads back. A difference that a random run finds is printed as a script.

use crate::call::Call;
use crate::record;
use crate::show::hex;
use calls::{Response, TaskGiven};

/// The line of a call, without its line feed.
pub fn call_line(call: &Call) -> Vec<u8> {
    let text = match call {
        Call::Session {
            first,
            stat_sn,
            level,
        } => format!("session {first:#x} {stat_sn:#x} {level}"),
        Call::Offer {
            connection,
            ticket,
            pdu,
        } => format!("offer {connection} {ticket:#x} {}", hex(pdu)),
        Call::Take { lent } => format!("take {lent}"),
        Call::Logout { connection, reason } => format!("logout {connection} {reason}"),
        Call::Open {
            connection,
            stat_sn,
        } => format!("open {connection} {stat_sn:#x}"),
        Call::Send {
            connection,
            ticket,
            lent,
            task,
            response,
        } => format!(
            "send {connection} {ticket:#x} {lent}{} {}",
            with_task(*task),
            words(response)
        ),
        Call::Acknowledge {
            connection,
            exp_stat_sn,
        } => format!("ack {connection} {exp_stat_sn:#x}"),
        Call::Snack { connection, pdu } => format!("snack {connection} {}", hex(pdu)),
        Call::Resend {
            connection,
            stat_sn,
            lent,
            task,
        } => format!(
            "resend {connection} {stat_sn:#x} {lent}{}",
            with_task(*task)
        ),
        Call::Window => "window".into(),
        Call::Next { connection } => format!("next {connection}"),
        Call::Holder { number } => format!("holder {number:#x}"),
        Call::Task { task, given } => format!("task {task} {}", given_words(given)),
        Call::DataIn {
            connection,
            task,
            lent,
            pdu,
        } => {
            let (f, a) = (u8::from(pdu.final_bit), u8::from(pdu.acknowledge));
            let length = pdu.data_segment_length;
            format!("data-in {connection} {task} {lent} {f} {a} {length}")
        }
        Call::R2t {
            connection,
            task,
            lent,
            tag,
            length,
        } => format!("r2t {connection} {task} {lent} {tag:#x} {length}"),
        Call::DataOut {
            connection,
            task,
            pdu,
        } => format!("data-out {connection} {task} {}", hex(pdu)),
        Call::DataSnack {
            connection,
            task,
            offset,
            pdu,
        } => format!("data-snack {connection} {task} {offset:#x} {}", hex(pdu)),
        Call::Record { task } => format!("record {task}"),
        Call::SetRecord { task, record } => format!("record {task} {}", record::words(record)),
        Call::Length { header } => format!("length {}", hex(header)),
        Call::Read { pdu } => format!("read {}", hex(pdu)),
        Call::Write {
            lent,
            numbers: n,
            response,
        } => format!(
            "write {lent} {:#x} {:#x} {:#x} {}",
            n.stat_sn,
            n.exp_cmd_sn,
            n.max_cmd_sn,
            words(response)
        ),
        Call::LoginBegin { name } => return [b"login-begin ", &name[..]].concat(),
        Call::Login {
            live,
            new,
            gather,
            text,
            pdu,
        } => format!("login {live:#x} {new:#x} {gather} {text} {}", hex(pdu)),
        Call::Params => "params".into(),
    };
    text.into_bytes()
}

/// `[task N]`, with the space before it.
fn with_task(task: Option<u8>) -> String {
    task.map_or(String::new(), |n| format!(" task {n}"))
}

/// What a record is made from.
fn given_words(given: &TaskGiven) -> String {
    let tags = format!("{:#x} {:#x} {:#x}", given.itt, given.lun, given.tag);
    let limits = format!("{} {}", given.max_burst, given.max_r2t);
    format!("{tags} {} {limits}", given.came)
}

/// A RESPONSE. Of a `send` these words are a bad line where they are a Data-In's, an R2T's, or have an ExpDataSN.
fn words(response: &Response) -> String {
    match *response {
        Response::NopIn {
            data_segment_length: length,
            lun,
            itt,
            ttt,
        } => format!("nop-in {length} {lun:#x} {itt:#x} {ttt:#x}"),
        Response::Scsi {
            overflow,
            underflow,
            response,
            status,
            data_segment_length: length,
            itt,
            snack_tag,
            residual,
            exp_data_sn,
        } => {
            let (o, u) = (u8::from(overflow), u8::from(underflow));
            let tags = format!("{itt:#x} {snack_tag:#x} {residual:#x}");
            let ninth = match exp_data_sn {
                0 => String::new(),
                _ => format!(" {exp_data_sn:#x}"),
            };
            format!("scsi-response {o} {u} {response} {status} {length} {tags}{ninth}")
        }
        Response::TaskManagement { response, itt } => format!("task-response {response} {itt:#x}"),
        Response::Login {
            csg,
            transit,
            nsg,
            data_segment_length: length,
            isid,
            tsih,
            itt,
            status_class,
            status_detail,
        } => {
            let stages = format!("{csg} {} {nsg}", u8::from(transit));
            let tags = format!("{isid:#x} {tsih:#x} {itt:#x}");
            format!("login-response {stages} {length} {tags} {status_class} {status_detail}")
        }
        Response::DataIn {
            final_bit,
            acknowledge,
            data_segment_length: length,
            lun,
            itt,
            ttt,
            data_sn,
            buffer_offset: offset,
        } => {
            let (f, a) = (u8::from(final_bit), u8::from(acknowledge));
            let tags = format!("{lun:#x} {itt:#x} {ttt:#x}");
            format!("data-in {f} {a} {length} {tags} {data_sn:#x} {offset:#x}")
        }
        Response::Logout {
            response,
            itt,
            time2wait,
            time2retain,
        } => format!("logout-response {response} {itt:#x} {time2wait} {time2retain}"),
        Response::R2t {
            lun,
            itt,
            ttt,
            r2t_sn,
            buffer_offset: offset,
            desired_data_transfer_length: length,
        } => format!("r2t {lun:#x} {itt:#x} {ttt:#x} {r2t_sn:#x} {offset:#x} {length:#x}"),
        Response::Reject { reason } => format!("reject {reason}"),
    }
}

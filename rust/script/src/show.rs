//! An answer as a line. Numbers of 32 bits are `0x` and eight hex digits, of 64 bits sixteen, of 16 bits four; counts,
//! offsets, single bits and codes of 8 bits or less are decimal.

use crate::call::Answer;
use crate::record;
use calls::{Holder, LoginAnswer, Offer, Parameters, Pdu, Refusal, Request};
use std::fmt::Write;

/// Bytes as hex digits, or `-` for none.
pub fn hex(bytes: &[u8]) -> String {
    if bytes.is_empty() {
        return "-".into();
    }
    bytes.iter().fold(String::new(), |mut text, byte| {
        write!(text, "{byte:02x}").expect("text");
        text
    })
}

/// The line of an answer, without its line feed.
pub fn answer_line(answer: &Answer) -> String {
    match answer {
        Answer::Session => "session".into(),
        Answer::Offered(offer) => offer_word(*offer).into(),
        Answer::Nothing => "nothing".into(),
        Answer::Void(number) => format!("void {number:#010x}"),
        Answer::Out(out, header) => {
            let numbers = format!("{:#010x} {:#010x}", out.cmd_sn, out.ticket);
            format!("out {numbers} {} {}", origin_word(out.origin), hex(header))
        }
        Answer::LoggedOut(counts) => {
            format!("emptied {} voided {}", counts.emptied, counts.voided)
        }
        Answer::Opened => "opened".into(),
        Answer::Sent(stat_sn, header) => format!("sent {stat_sn:#010x} {}", hex(header)),
        Answer::Acknowledged(count) => format!("acknowledged {count}"),
        Answer::Run(run) => format!("run {:#010x} {}", run.first, run.count),
        Answer::Resent(ticket, header) => format!("resent {ticket:#010x} {}", hex(header)),
        Answer::Window(window) => format!(
            "expcmdsn {:#010x} maxcmdsn {:#010x}",
            window.exp_cmd_sn, window.max_cmd_sn
        ),
        Answer::Next(stat_sn) => format!("next {stat_sn:#010x}"),
        Answer::Holder(holder) => holder_line(*holder),
        Answer::Task => "task".into(),
        Answer::DataIn(header) => format!("data-in {}", hex(header)),
        Answer::R2t(header) => format!("r2t {}", hex(header)),
        Answer::Came(came) => {
            format!(
                "came {:#010x} {} open {}",
                came.offset, came.count, came.open
            )
        }
        Answer::Record(task) => format!("record {}", record::words(task)),
        Answer::RecordSet => "record".into(),
        Answer::Length(length) => format!("length {length}"),
        Answer::Read(pdu) => pdu_line(pdu),
        Answer::Written(header) => format!("written {}", hex(header)),
        Answer::LoginBegun => "login".into(),
        Answer::Login(answer, text) => login_line(answer, text),
        Answer::Params(parameters) => params_line(parameters),
        Answer::Refused(refusal) => refusal_line(*refusal),
    }
}

fn offer_word(offer: Offer) -> &'static str {
    match offer {
        Offer::Kept => "kept",
        Offer::Duplicate => "duplicate",
        Offer::Passed => "passed",
        Offer::Beyond => "beyond",
        Offer::Immediate => "immediate",
    }
}

fn origin_word(origin: Option<u8>) -> String {
    match origin {
        Some(connection) => connection.to_string(),
        None => "none".into(),
    }
}

fn holder_line(holder: Holder) -> String {
    match holder {
        Holder::Free => "free".into(),
        Holder::Void => "void".into(),
        Holder::Held { ticket, origin } => format!("held {ticket:#010x} {}", origin_word(origin)),
    }
}

fn refusal_line(refusal: Refusal) -> String {
    match refusal.status() {
        Some(status) => format!("refused {} {status:#06x}", refusal.number()),
        None => format!("refused {}", refusal.number()),
    }
}

fn bit(set: bool) -> u8 {
    u8::from(set)
}

fn pdu_line(pdu: &Pdu) -> String {
    let (kind, fields) = match pdu.request {
        Request::NopOut(n) => ("nop-out", format!("ttt={:#010x}", n.ttt)),
        Request::ScsiCommand(c) => {
            let (f, r, w) = (bit(c.final_bit), bit(c.read), bit(c.write));
            let length = c.expected_data_transfer_length;
            let cdb = format!("cdb0={:#018x} cdb1={:#018x}", c.cdb[0], c.cdb[1]);
            let flags = format!("f={f} r={r} w={w} attribute={}", c.attribute);
            let fields = format!(
                "{flags} edtl={length:#010x} {cdb} ahs={}",
                c.total_ahs_length
            );
            ("scsi-command", fields)
        }
        Request::TaskManagement(t) => {
            let function = format!(
                "function={} rtt={:#010x}",
                t.function, t.referenced_task_tag
            );
            let numbers = format!(
                "refcmdsn={:#010x} expdatasn={:#010x}",
                t.ref_cmd_sn, t.exp_data_sn
            );
            ("task-management", format!("{function} {numbers}"))
        }
        Request::Login(l) => {
            let (t, c) = (bit(l.transit), bit(l.continues));
            let stages = format!("t={t} c={c} csg={} nsg={}", l.csg, l.nsg);
            let versions = format!("versionmax={} versionmin={}", l.version_max, l.version_min);
            let tags = format!(
                "isid={:#018x} tsih={:#06x} cid={:#06x}",
                l.isid, l.tsih, l.cid
            );
            ("login", format!("{stages} {versions} {tags}"))
        }
        Request::DataOut(d) => {
            let start = format!("f={} ttt={:#010x}", bit(d.final_bit), d.ttt);
            let numbers = format!(
                "datasn={:#010x} offset={:#010x}",
                d.data_sn, d.buffer_offset
            );
            ("data-out", format!("{start} {numbers}"))
        }
        Request::Logout(l) => ("logout", format!("reason={} cid={:#06x}", l.reason, l.cid)),
        Request::Snack(s) => {
            let run = format!(
                "begrun={:#010x} runlength={:#010x}",
                s.beg_run, s.run_length
            );
            (
                "snack",
                format!("type={} ttt={:#010x} {run}", s.kind, s.ttt),
            )
        }
    };
    let common = format!(
        "i={} cmdsn={:#010x} lun={:#018x} itt={:#010x} expstatsn={:#010x}",
        bit(pdu.immediate),
        pdu.cmd_sn,
        pdu.lun,
        pdu.itt,
        pdu.exp_stat_sn
    );
    let data = format!("data={}+{}", pdu.data.offset, pdu.data.length);
    format!("{kind} {common} {fields} {data}")
}

fn login_line(a: &LoginAnswer, text: &[u8]) -> String {
    let stages = format!("{} {} {} {}", a.stage, bit(a.transit), a.csg, a.nsg);
    format!("answer {stages} {:#06x} {}", a.tsih, hex(text))
}

fn params_line(p: &Parameters) -> String {
    let yes = |set| if set { "Yes" } else { "No" };
    [
        "params".into(),
        format!("MaxConnections={}", p.max_connections),
        format!("MaxOutstandingR2T={}", p.max_outstanding_r2t),
        format!("InitialR2T={}", yes(p.initial_r2t)),
        format!("DataPDUInOrder={}", yes(p.data_pdu_in_order)),
        format!("DataSequenceInOrder={}", yes(p.data_sequence_in_order)),
        format!("ImmediateData={}", yes(p.immediate_data)),
        format!(
            "MaxRecvDataSegmentLength={}",
            p.max_recv_data_segment_length
        ),
        format!("MaxBurstLength={}", p.max_burst_length),
        format!("FirstBurstLength={}", p.first_burst_length),
        format!("DefaultTime2Wait={}", p.default_time2wait),
        format!("DefaultTime2Retain={}", p.default_time2retain),
        format!("ErrorRecoveryLevel={}", p.error_recovery_level),
    ]
    .join(" ")
}

//! PDUs that are read. The responses that the program writes after them have no input to play.

use crate::{assert_same, file};
use calls::{Engine, Pdu, Request};
use model::Model;
use std::fmt::Write as _;

/// The PDU of a line: hexadecimal digits, and after a plus sign how many bytes 0x61 follow.
pub fn pdu_of(line: &str) -> Vec<u8> {
    let (hex, more) = line.split_once('+').unwrap_or((line, "0"));
    let digit = |b: u8| char::from(b).to_digit(16).expect("a hexadecimal digit") as u8;
    let pairs = hex.as_bytes().chunks_exact(2);
    let mut pdu: Vec<u8> = pairs.map(|d| digit(d[0]) << 4 | digit(d[1])).collect();
    pdu.resize(pdu.len() + more.parse::<usize>().expect("a number"), 0x61);
    pdu
}

fn own(out: &mut String, request: &Request) {
    match request {
        Request::NopOut(x) => write!(out, " ttt=0x{:08x}", x.ttt),
        Request::ScsiCommand(x) => {
            let [f, r, w] = [x.final_bit, x.read, x.write].map(u8::from);
            let [cdb0, cdb1] = x.cdb;
            write!(
                out,
                " f={f} r={r} w={w} attribute={} edtl=0x{:08x} cdb0=0x{cdb0:016x} cdb1=0x{cdb1:016x} ahs={}",
                x.attribute, x.expected_data_transfer_length, x.total_ahs_length
            )
        }
        Request::TaskManagement(x) => write!(
            out,
            " function={} rtt=0x{:08x} refcmdsn=0x{:08x} expdatasn=0x{:08x}",
            x.function, x.referenced_task_tag, x.ref_cmd_sn, x.exp_data_sn
        ),
        Request::Login(x) => {
            let [t, c] = [x.transit, x.continues].map(u8::from);
            write!(
                out,
                " t={t} c={c} csg={} nsg={} versionmax={} versionmin={} isid=0x{:016x} tsih=0x{:04x} cid=0x{:04x}",
                x.csg, x.nsg, x.version_max, x.version_min, x.isid, x.tsih, x.cid
            )
        }
        Request::DataOut(x) => write!(
            out,
            " f={} ttt=0x{:08x} datasn=0x{:08x} offset=0x{:08x}",
            u8::from(x.final_bit),
            x.ttt,
            x.data_sn,
            x.buffer_offset
        ),
        Request::Logout(x) => write!(out, " reason={} cid=0x{:04x}", x.reason, x.cid),
        Request::Snack(x) => write!(
            out,
            " type={} ttt=0x{:08x} begrun=0x{:08x} runlength=0x{:08x}",
            x.kind, x.ttt, x.beg_run, x.run_length
        ),
    }
    .unwrap();
}

pub fn shown(out: &mut String, p: &Pdu, pdu: &[u8]) {
    write!(
        out,
        "{} i={} cmdsn=0x{:08x} lun=0x{:016x} itt=0x{:08x} expstatsn=0x{:08x}",
        p.request.kind(),
        u8::from(p.immediate),
        p.cmd_sn,
        p.lun,
        p.itt,
        p.exp_stat_sn
    )
    .unwrap();
    own(out, &p.request);
    let data = &pdu[p.data.offset..p.data.offset + p.data.length];
    writeln!(out, " data={}+{}", p.data.offset, data.len()).unwrap();
    if let (Some(first), Some(last)) = (data.first(), data.last()) {
        writeln!(out, "    data starts {first:02x}, ends {last:02x}").unwrap();
    }
}

#[test]
fn header_vectors_are_the_models() {
    let model = Model::default();
    let mut out = String::new();
    let mut read = 0;
    for line in file("header_vectors", "stdin").lines() {
        if line.is_empty() {
            continue;
        }
        if line.starts_with('#') {
            writeln!(out, "{line}").unwrap();
            continue;
        }
        read += 1;
        let pdu = pdu_of(line);
        match model.read(&pdu) {
            Ok(p) => shown(&mut out, &p, &pdu),
            Err(refusal) => writeln!(out, "refused {}", refusal.number()).unwrap(),
        }
    }
    assert!(read > 100, "only {read} PDUs were read");
    let printed = file("header_vectors", "stdout");
    let lines = out.lines().count();
    let of_requests: String = printed.split_inclusive('\n').take(lines).collect();
    assert_same(&out, &of_requests);
}

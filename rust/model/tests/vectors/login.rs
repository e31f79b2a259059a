//! Logins.

use crate::{assert_same, file};
use calls::{Engine, LoginAnswer, Parameters, Refusal};
use model::Model;
use std::fmt::Write as _;

const TARGET: &[u8] = b"iqn.2026-11.example:drawbevel";
const AREA: usize = 8192;

fn number(word: &str) -> u64 {
    match word.strip_prefix("0x") {
        Some(hex) => u64::from_str_radix(hex, 16).expect("hexadecimal digits"),
        None => word.parse().expect("decimal digits"),
    }
}

/// The PDU of a line's numbers and text: bytes 0 and 1, Version-min, ISID, TSIH, CID; less what is cut off its end.
fn login_pdu(n: &[u64; 11], text: &str) -> Vec<u8> {
    let mut pdu = vec![0; 48];
    pdu[0] = n[0] as u8;
    pdu[1] = n[1] as u8;
    pdu[3] = n[2] as u8;
    pdu[6..8].copy_from_slice(&(text.len() as u16).to_be_bytes());
    pdu[13] = n[3] as u8;
    pdu[14..16].copy_from_slice(&(n[4] as u16).to_be_bytes());
    pdu[20..22].copy_from_slice(&(n[5] as u16).to_be_bytes());
    pdu.extend(text.bytes().map(|b| if b == b'|' { 0 } else { b }));
    pdu.resize(pdu.len().next_multiple_of(4), 0);
    pdu.truncate(pdu.len().saturating_sub(n[10] as usize));
    pdu
}

fn refused(out: &mut String, refusal: Refusal) {
    write!(out, "refused {}", refusal.number()).unwrap();
    match refusal.status() {
        Some(status) => writeln!(out, " 0x{status:04x}").unwrap(),
        None => out.push('\n'),
    }
}

fn accepted(out: &mut String, a: &LoginAnswer, text: &[u8]) {
    let transit = if a.transit { " T" } else { "" };
    let shown: String = text[..a.text_length]
        .iter()
        .map(|&b| if b == 0 { '|' } else { char::from(b) })
        .collect();
    writeln!(
        out,
        "stage {}{transit} CSG {} NSG {} TSIH 0x{:04x} {shown}",
        a.stage, a.csg, a.nsg, a.tsih
    )
    .unwrap();
}

fn parameters(out: &mut String, p: &Parameters) {
    let values = [
        p.max_connections,
        p.max_outstanding_r2t,
        p.initial_r2t.into(),
        p.data_pdu_in_order.into(),
        p.data_sequence_in_order.into(),
        p.immediate_data.into(),
        p.max_recv_data_segment_length,
        p.max_burst_length,
        p.first_burst_length,
        p.default_time2wait,
        p.default_time2retain,
        p.error_recovery_level,
    ];
    for value in values {
        write!(out, "{value} ").unwrap();
    }
    out.push('\n');
}

#[test]
fn login_vectors_are_the_models() {
    let input = file("login_vectors", "stdin");
    let mut model = Model::default();
    model.begin_login(TARGET);
    let (mut gather, mut text) = ([0xee; AREA], [0xee; AREA]);
    let mut out = String::new();
    let mut requests = 0;
    for line in input.lines() {
        match line {
            "login" => {
                model.begin_login(TARGET);
                out.push_str("login\n");
            }
            "params" => parameters(&mut out, &model.parameters()),
            _ if line.is_empty() || line.starts_with('#') => writeln!(out, "{line}").unwrap(),
            _ => {
                requests += 1;
                let mut words = line.splitn(12, ' ');
                let n: [u64; 11] =
                    std::array::from_fn(|_| number(words.next().expect("11 numbers")));
                let pdu = login_pdu(&n, words.next().unwrap_or(""));
                let (g, t) = (AREA.min(n[8] as usize), AREA.min(n[9] as usize));
                let answer = model.login(
                    n[6] as u16,
                    n[7] as u16,
                    &mut gather[..g],
                    &mut text[..t],
                    &pdu,
                );
                match answer {
                    Ok(a) => accepted(&mut out, &a, &text),
                    Err(refusal) => refused(&mut out, refusal),
                }
            }
        }
    }
    assert!(requests > 100, "only {requests} requests were played");
    assert_same(&out, &file("login_vectors", "stdout"));
}

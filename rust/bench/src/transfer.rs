//! What a long transfer costs: the nanoseconds of one PDU of it, however much came before.

use crate::cases::connection;
use crate::data::{BURST, DATA, GIVEN, answering, numbered, used};
use crate::timing::median;
use bench::sessions::Session;
use calls::{DataInPdu, HEADER_BYTES};
use std::hint::black_box;
use std::time::Instant;
use testkit::Bytes;

/// Bytes of a transfer, with a name.
const LENGTHS: [(&str, u64); 2] = [("1 MiB", 1 << 20), ("1 GiB", 1 << 30)];
/// PDUs in one measurement at least, and measurements of which the middle one counts.
const PDUS: u64 = 4096;
const BATCHES: usize = 11;

/// Nanoseconds of a Data-In and of a Data-Out with its share of the R2T, after so many bytes of one transfer.
pub fn times<S: Session>() -> Vec<f64> {
    let each = |one: fn(&mut S, &mut Burst, u64)| {
        let of_length = move |&(_, bytes): &(&str, u64)| {
            let (mut session, mut burst) = (S::begun(1, 1, 1), Burst::new());
            let transfers = (PDUS * u64::from(DATA)).div_ceil(bytes);
            let pdus = transfers * bytes / u64::from(DATA);
            let batches: Vec<f64> = (0..BATCHES)
                .map(|_| {
                    let start = Instant::now();
                    for _ in 0..transfers {
                        one(&mut session, &mut burst, bytes);
                    }
                    start.elapsed().as_nanos() as f64 / pdus as f64
                })
                .collect();
            median(&batches)
        };
        LENGTHS.iter().map(of_length)
    };
    each(read).chain(each(write)).collect()
}

/// Print the costs, a column for each engine.
pub fn print(columns: &[(&str, Vec<f64>)]) {
    println!("ns for a PDU of 8,192 bytes in a transfer of so many");
    let head: String = columns
        .iter()
        .map(|(name, _)| format!("{name:>16}"))
        .collect();
    println!("{:24}{head}", "transfer");
    let ways = ["read", "write"];
    let rows = ways
        .iter()
        .flat_map(|way| LENGTHS.map(|(length, _)| format!("{way} {length}")));
    for (row, name) in rows.enumerate() {
        let line: String = columns
            .iter()
            .map(|(_, times)| format!("{:16.1}", times[row]))
            .collect();
        println!("{name:<24}{line}");
    }
}

/// The Data-Out of a burst, made before time is taken.
struct Burst {
    middle: Bytes,
    last: Bytes,
}

impl Burst {
    fn new() -> Self {
        Burst {
            middle: answering(0x31, DATA, false),
            last: answering(0x31, DATA, true),
        }
    }
}

/// A whole transfer to the initiator, in bursts.
fn read<S: Session>(session: &mut S, _: &mut Burst, bytes: u64) {
    let (mut task, mut out) = (S::record(GIVEN), [0; HEADER_BYTES]);
    for pdu in 1..=bytes / u64::from(DATA) {
        let pdu = DataInPdu {
            final_bit: pdu % u64::from(BURST / DATA) == 0,
            acknowledge: false,
            data_segment_length: DATA,
        };
        let sent = session.data_in(connection(), black_box(&mut task), &mut out, pdu);
        assert!(black_box(sent).is_ok());
        black_box(&out);
    }
}

/// A whole transfer from the initiator, an R2T for each burst.
fn write<S: Session>(session: &mut S, pdus: &mut Burst, bytes: u64) {
    let (mut task, mut out) = (S::record(GIVEN), [0; HEADER_BYTES]);
    let mut offset = 0;
    while offset < bytes {
        let burst = u64::from(BURST).min(bytes - offset) as u32;
        let sent = session.r2t(connection(), black_box(&mut task), &mut out, 0x31, burst);
        assert!(black_box(sent).is_ok());
        for data_sn in 0..burst / DATA {
            let is_last = data_sn == burst / DATA - 1;
            let pdu = if is_last {
                &mut pdus.last
            } else {
                &mut pdus.middle
            };
            numbered(pdu, data_sn, offset as u32);
            let came = session.data_out(connection(), black_box(&mut task), &black_box(&*pdu).0);
            used(came.unwrap());
            offset += u64::from(DATA);
        }
    }
}

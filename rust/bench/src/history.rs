//! What a long history costs: offer, take, send and acknowledge, after more and more of them.

use crate::cases::connection;
use crate::data::GIVEN;
use crate::timing::median;
use bench::sessions::Session;
use calls::{HEADER_BYTES, Response};
use std::hint::black_box;
use std::time::Instant;
use testkit::pdu;

const LENGTHS: [u32; 4] = [1_000, 10_000, 100_000, 1_000_000];
/// Steps in one measurement, and measurements of which the middle one counts.
const STEPS: u32 = 500;
const BATCHES: usize = 11;

/// Nanoseconds of a step after each length of history.
pub fn times<S: Session>() -> Vec<f64> {
    let (mut session, task) = (S::begun(0, 0, 1), S::record(GIVEN));
    let mut played = 0;
    LENGTHS
        .iter()
        .map(|&length| {
            while played < length {
                step(&mut session, &task, &mut played);
            }
            let batches: Vec<f64> = (0..BATCHES)
                .map(|_| {
                    let start = Instant::now();
                    for _ in 0..STEPS {
                        step(&mut session, &task, &mut played);
                    }
                    start.elapsed().as_nanos() as f64 / f64::from(STEPS)
                })
                .collect();
            median(&batches)
        })
        .collect()
}

/// Print the costs, a column for each session.
pub fn print(columns: &[(&str, Vec<f64>)]) {
    println!("ns for offer + take + send + ack after so many of them");
    let head: String = columns
        .iter()
        .map(|(name, _)| format!("{name:>16}"))
        .collect();
    println!("{:24}{head}", "history");
    for (row, length) in LENGTHS.iter().enumerate() {
        let line: String = columns
            .iter()
            .map(|(_, times)| format!("{:16.1}", times[row]))
            .collect();
        println!("{length:<24}{line}");
    }
}

fn step<S: Session>(session: &mut S, task: &S::Record, played: &mut u32) {
    let number = *played;
    *played += 1;
    let mut out = [0; HEADER_BYTES];
    let bytes = pdu::scsi_command(number);
    let _ = black_box(session.offer(connection(), number, &bytes.0));
    let _ = black_box(session.take(&mut out));
    let response = Response::TaskManagement {
        response: 0,
        itt: number,
    };
    let _ = black_box(session.send(connection(), number, task, &mut out, &response));
    let _ = black_box(session.acknowledge(connection(), number.wrapping_add(1)));
}

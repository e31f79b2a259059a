//! The calls on a task's record that are timed, and sends with one. A target keeps records in a table and finds them by their tag, so where a
//! record lies is hidden from the optimiser: it stays in memory between calls.

use crate::cases::{Case, SCSI, connection};
use crate::timing::nanoseconds;
use bench::sessions::Session;
use calls::{Came, DataInPdu, DataSnack, HEADER_BYTES, Run, TaskGiven};
use std::hint::black_box;
use testkit::Bytes;
use testkit::pdu;

/// The cases, in the table's order.
pub fn all<S: Session>() -> Vec<Case> {
    vec![
        ("send + ack", send_ack::<S>),
        ("resend", resend::<S>),
        ("data-in", data_in::<S>),
        ("r2t", r2t::<S>),
        ("data-out", data_out::<S>),
        ("r2t + data-out", r2t_data_out::<S>),
        ("data-snack", data_snack::<S>),
    ]
}

pub const ITT: u32 = 0x11;
/// Bytes of a PDU's data, and of a burst.
pub const DATA: u32 = 8192;
pub const BURST: u32 = 262_144;

pub const GIVEN: TaskGiven = TaskGiven {
    itt: ITT,
    lun: 1 << 48,
    tag: 0x21,
    came: 0,
    max_burst: BURST,
    max_r2t: 8,
};

/// A session of level 1 that holds 16 statuses on connection 0.
pub fn session<S: Session>() -> S {
    let mut session = S::begun(0xffff_fff0, 1, 1);
    let (task, mut out) = (S::record(GIVEN), [0; HEADER_BYTES]);
    for ticket in 0..16 {
        session.send(0, ticket, &task, &mut out, &SCSI).unwrap();
    }
    session
}

/// A Data-Out that answers an R2T of this tag with so many bytes.
pub fn answering(tag: u32, count: u32, is_final: bool) -> Bytes {
    let pdu = Bytes::new(0x05, if is_final { 0x80 } else { 0 });
    pdu.itt(ITT).ttt(tag).data(&vec![7; count as usize])
}

/// Its number and offset in place.
pub fn numbered(pdu: &mut Bytes, data_sn: u32, offset: u32) {
    pdu.0[36..40].copy_from_slice(&data_sn.to_be_bytes());
    pdu.0[40..44].copy_from_slice(&offset.to_be_bytes());
}

/// What a target takes from the answer to a Data-Out, number by number.
#[inline]
pub fn used(came: Came) {
    black_box(came.offset);
    black_box(came.count);
    black_box(came.open);
}

fn send_ack<S: Session>() -> f64 {
    let mut session = session::<S>();
    let (task, mut out) = (S::record(GIVEN), [0; HEADER_BYTES]);
    nanoseconds(|| {
        let record = black_box(&task);
        let sent = session.send(connection(), 7, record, &mut out, black_box(&SCSI));
        if let Ok(stat_sn) = sent {
            let _ = black_box(session.acknowledge(connection(), stat_sn.wrapping_sub(15)));
        }
        black_box(&out);
    })
}

fn resend<S: Session>() -> f64 {
    let mut session = session::<S>();
    let (task, mut out) = (S::record(GIVEN), [0; HEADER_BYTES]);
    nanoseconds(|| {
        let record = black_box(&task);
        let _ = black_box(session.resend(connection(), black_box(9), record, &mut out));
        black_box(&out);
    })
}

/// The next Data-In, a burst in eight. At the end of all offsets another transfer begins.
fn data_in<S: Session>() -> f64 {
    let mut session = session::<S>();
    let (fresh, mut out) = (S::record(GIVEN), [0; HEADER_BYTES]);
    let (mut task, mut played) = (fresh.clone(), 0u32);
    nanoseconds(|| {
        played += 1;
        let pdu = DataInPdu {
            final_bit: played % 8 == 0,
            acknowledge: played % 8 == 0,
            data_segment_length: black_box(DATA),
        };
        let sent = session.data_in(connection(), black_box(&mut task), &mut out, pdu);
        if black_box(sent).is_err() {
            task = fresh.clone();
        }
        black_box(&out);
    })
}

/// The next R2T. After eight the record is a fresh one.
fn r2t<S: Session>() -> f64 {
    let mut session = session::<S>();
    let (fresh, mut out) = (S::record(GIVEN), [0; HEADER_BYTES]);
    let (mut task, mut open) = (fresh.clone(), 0);
    nanoseconds(|| {
        if open == 8 {
            task = fresh.clone();
            open = 0;
        }
        open += 1;
        let length = black_box(BURST);
        let sent = session.r2t(connection(), black_box(&mut task), &mut out, 0x31, length);
        assert!(sent.is_ok());
        black_box(&out);
    })
}

/// A Data-Out in the midst of its burst, without data: one is as good as the next.
fn data_out<S: Session>() -> f64 {
    let mut session = session::<S>();
    let (mut task, mut out) = (S::record(GIVEN), [0; HEADER_BYTES]);
    session.r2t(0, &mut task, &mut out, 0x31, BURST).unwrap();
    let (mut pdu, mut data_sn) = (answering(0x31, 0, false), 0);
    nanoseconds(|| {
        numbered(&mut pdu, data_sn, 0);
        let came = session.data_out(connection(), black_box(&mut task), &black_box(&pdu).0);
        used(came.unwrap());
        data_sn += 1;
    })
}

/// An R2T and the Data-Out that answers it whole. At the end of all offsets another transfer begins.
fn r2t_data_out<S: Session>() -> f64 {
    let mut session = session::<S>();
    let (fresh, mut out) = (S::record(GIVEN), [0; HEADER_BYTES]);
    let (mut task, mut offset) = (fresh.clone(), 0u32);
    let mut pdu = answering(0x31, DATA, true);
    nanoseconds(|| {
        if offset > u32::MAX - DATA {
            task = fresh.clone();
            offset = 0;
        }
        let record = black_box(&mut task);
        let sent = session.r2t(connection(), record, &mut out, 0x31, black_box(DATA));
        numbered(&mut pdu, 0, offset);
        let came = session.data_out(connection(), black_box(record), &black_box(&pdu).0);
        assert!(black_box(sent).is_ok());
        used(came.unwrap());
        offset += DATA;
        black_box(&out);
    })
}

/// A SNACK of type 0 for nine of the sixteen Data-In that aren't acknowledged.
fn data_snack<S: Session>() -> f64 {
    let mut session = session::<S>();
    let (mut task, mut out) = (S::record(GIVEN), [0; HEADER_BYTES]);
    for _ in 0..16 {
        let pdu = DataInPdu {
            final_bit: true,
            acknowledge: false,
            data_segment_length: DATA,
        };
        session.data_in(0, &mut task, &mut out, pdu).unwrap();
    }
    let pdu = pdu::snack(0, 4, 9).itt(ITT);
    let run = Run { first: 4, count: 9 };
    let answer = session.data_snack(0, &mut task, 0, &pdu.0);
    assert_eq!(answer, Ok(DataSnack::Run(run)));
    nanoseconds(|| {
        let record = black_box(&mut task);
        let answer = session.data_snack(connection(), record, 0, &black_box(&pdu).0);
        black_box(&answer);
    })
}

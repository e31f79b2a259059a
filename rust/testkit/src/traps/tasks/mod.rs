//! The data calls of request L1: a record's making, Data-In, R2T, Data-Out, data SNACK, and statuses with a record.

pub(super) mod data_in;
pub(super) mod data_out;
pub(super) mod data_snack;
pub(super) mod r2t;
pub(super) mod status;

use super::{FILL, checks};
use crate::pdu::*;
use calls::{
    Came, DataInPdu, DataSnack, Engine, HEADER_BYTES, OpenR2t, Refusal, Response, Run, Task,
    TaskGiven,
};

checks![
    a_record_starts_at_the_immediate_data,
    a_record_holds_one_to_eight_open_r2ts,
    data_calls_go_on_any_open_connection,
    data_calls_leave_window_and_ledgers,
    two_tasks_have_records_of_their_own,
];

type Header = [u8; HEADER_BYTES];

/// The end of all offsets.
const END: u64 = 1 << 32;
const ITT: u32 = 0x1011_1213;
const LUN: u64 = 0x0809_0a0b_0c0d_0e0f;
const TAG: u32 = 0x1415_1617;
/// The StatSN and the command number that a session begins with here.
const STAT_SN: u32 = 0x18;
const CMD_SN: u32 = 0x20;

/// A task with bursts of up to 512 bytes, 8 open R2Ts, and no immediate data.
const GIVEN: TaskGiven = TaskGiven {
    itt: ITT,
    lun: LUN,
    tag: TAG,
    came: 0,
    max_burst: 512,
    max_r2t: 8,
};

/// A session and the record of one task, which is as the last call left it.
struct Case<'e> {
    e: &'e mut dyn Engine,
    task: Task,
}

/// A fresh session of this level, and a fresh record.
fn at_level(e: &mut dyn Engine, level: u8, given: TaskGiven) -> Case<'_> {
    e.begin_session(CMD_SN, STAT_SN, level);
    let task = e.task(given).unwrap();
    Case { e, task }
}

/// The same at level 1, of [`GIVEN`].
fn case(e: &mut dyn Engine) -> Case<'_> {
    at_level(e, 1, GIVEN)
}

/// The same with some of the record set by hand.
fn with(e: &mut dyn Engine, change: impl FnOnce(&mut Task)) -> Case<'_> {
    let mut c = case(e);
    change(&mut c.task);
    c
}

/// The header that was written; a refusal writes nothing.
fn header_of<T>(out: Header, answer: Result<T, Refusal>) -> Result<Header, Refusal> {
    if answer.is_err() {
        assert_eq!(out, [FILL; HEADER_BYTES], "a refusal writes nothing");
    }
    answer.map(|_| out)
}

impl Case<'_> {
    /// A data call, whose refusal leaves the record.
    fn on_record<T>(
        &mut self,
        call: impl FnOnce(&mut dyn Engine, &mut Task) -> Result<T, Refusal>,
    ) -> Result<T, Refusal> {
        let before = self.task.clone();
        let answer = call(self.e, &mut self.task);
        if answer.is_err() {
            assert_eq!(self.task, before, "a refusal leaves the record");
        }
        answer
    }

    fn data_in_on(
        &mut self,
        connection: u32,
        (final_bit, acknowledge): (bool, bool),
        data_segment_length: u32,
    ) -> Result<Header, Refusal> {
        let pdu = DataInPdu {
            final_bit,
            acknowledge,
            data_segment_length,
        };
        let mut out = [FILL; HEADER_BYTES];
        let answer = self.on_record(|e, task| e.data_in(connection, task, &mut out, pdu));
        header_of(out, answer)
    }

    /// A Data-In without A; its DataSN and Buffer Offset.
    fn data_in(&mut self, f: bool, length: u32) -> Result<(u32, u32), Refusal> {
        let header = self.data_in_on(0, (f, false), length)?;
        Ok((number(&header, 36), number(&header, 40)))
    }

    fn r2t_on(&mut self, connection: u32, tag: u32, length: u32) -> Result<Header, Refusal> {
        let mut out = [FILL; HEADER_BYTES];
        let answer = self.on_record(|e, task| e.r2t(connection, task, &mut out, tag, length));
        header_of(out, answer)
    }

    /// An R2T; its R2TSN and Buffer Offset.
    fn r2t(&mut self, tag: u32, length: u32) -> Result<(u32, u32), Refusal> {
        let header = self.r2t_on(0, tag, length)?;
        Ok((number(&header, 36), number(&header, 40)))
    }

    /// A Data-Out of these bytes; offset, count and how many are open after it.
    fn came(&mut self, pdu: &Bytes) -> Result<(u32, u32, u8), Refusal> {
        let Came {
            offset,
            count,
            open,
        } = self.on_record(|e, task| e.data_out(0, task, &pdu.0))?;
        Ok((offset, count, open))
    }

    fn snack(&mut self, pdu: &Bytes, offset: u32) -> Result<DataSnack, Refusal> {
        self.on_record(|e, task| e.data_snack(0, task, offset, &pdu.0))
    }

    /// A SNACK of type 0; first number and count. It changes nothing.
    fn run(&mut self, beg_run: u32, run_length: u32) -> Result<(u32, u32), Refusal> {
        let before = self.task.clone();
        let answer = self.snack(&data_snack(0, beg_run, run_length), 0xbad);
        assert_eq!(self.task, before, "a type 0 changes nothing");
        answer.map(first_and_count)
    }

    /// A SNACK of type 2; how many it acknowledges.
    fn data_ack(&mut self, beg_run: u32) -> Result<u32, Refusal> {
        match self.snack(&data_snack(2, beg_run, 0), 0xbad)? {
            DataSnack::Acknowledged(count) => Ok(count),
            run => panic!("{run:?}"),
        }
    }

    /// A SNACK of type 3 with this tag; first number and count.
    fn send_anew(&mut self, tag: u32, offset: u32) -> Result<(u32, u32), Refusal> {
        let answer = self.snack(&data_snack(3, 0, 0).ttt(tag), offset);
        answer.map(first_and_count)
    }

    /// Send a SCSI Response with the record; its header.
    fn status(&mut self, code: u8, itt: u32, snack_tag: u32) -> Result<Header, Refusal> {
        let mut out = [FILL; HEADER_BYTES];
        let response = scsi(code, itt, snack_tag);
        let answer = self.e.send(0, 7, &self.task, &mut out, &response);
        header_of(out, answer)
    }

    /// Send a SCSI Response again with the record; its header.
    fn resend(&mut self, stat_sn: u32) -> Result<Header, Refusal> {
        let mut out = [FILL; HEADER_BYTES];
        let answer = self.e.resend(0, stat_sn, &self.task, &mut out);
        header_of(out, answer)
    }
}

fn first_and_count(answer: DataSnack) -> (u32, u32) {
    match answer {
        DataSnack::Run(Run { first, count }) => (first, count),
        acknowledged => panic!("{acknowledged:?}"),
    }
}

/// A Data-Out of the task: Target Transfer Tag, DataSN, Buffer Offset, bytes of data, F.
fn data_out_of(ttt: u32, data_sn: u32, offset: u32, count: usize, f: bool) -> Bytes {
    let header = data_out(data_sn, offset).itt(ITT).ttt(ttt);
    header
        .byte(1, if f { 0x80 } else { 0 })
        .data(&vec![7; count])
}

/// A SNACK with the tags that the task's record wants.
fn data_snack(kind: u8, beg_run: u32, run_length: u32) -> Bytes {
    let bytes = snack(kind, beg_run, run_length);
    if kind == 2 {
        bytes.ttt(TAG)
    } else {
        bytes.itt(ITT)
    }
}

/// A SCSI Response, whose stated ExpDataSN is not looked at.
fn scsi(response: u8, itt: u32, snack_tag: u32) -> Response {
    Response::Scsi {
        overflow: false,
        underflow: false,
        response,
        status: 2,
        data_segment_length: 3,
        itt,
        snack_tag,
        residual: 0,
        exp_data_sn: 0xbad,
    }
}

/// The big-endian number of four bytes.
fn number(bytes: &[u8], at: usize) -> u32 {
    u32::from_be_bytes([bytes[at], bytes[at + 1], bytes[at + 2], bytes[at + 3]])
}

/// A header of these pieces, each at its place; all else 0.
fn header(places: &[(usize, &[u8])]) -> Header {
    let mut h = [0; HEADER_BYTES];
    for (at, bytes) in places {
        h[*at..*at + bytes.len()].copy_from_slice(bytes);
    }
    h
}

fn a_record_starts_at_the_immediate_data(e: &mut dyn Engine) {
    for came in [0, 100, u32::MAX] {
        for max_burst in [0, 512, u32::MAX] {
            let given = TaskGiven {
                came,
                max_burst,
                max_r2t: 3,
                ..GIVEN
            };
            let fresh = Task {
                lun: LUN,
                tag: TAG,
                max_burst,
                max_r2t: 3,
                asked: came.into(),
                came: came.into(),
                ..Task::fresh_for(ITT)
            };
            assert_eq!(e.task(given), Ok(fresh));
        }
    }
    let mut c = at_level(e, 1, TaskGiven { came: 100, ..GIVEN });
    assert_eq!(c.r2t(1, 20), Ok((0, 100)));
    // Data-In has an offset of its own.
    assert_eq!(c.data_in(true, 20), Ok((1, 0)));
}

fn a_record_holds_one_to_eight_open_r2ts(e: &mut dyn Engine) {
    for max_r2t in 1..=8 {
        let made = e.task(TaskGiven { max_r2t, ..GIVEN }).unwrap();
        assert_eq!(u16::from(made.max_r2t), max_r2t);
    }
    // Not cut to eight bits either.
    for max_r2t in [0, 9, 10, 0x100, 0x101, 0x108, 0xff00, 0xffff] {
        let made = e.task(TaskGiven { max_r2t, ..GIVEN });
        assert_eq!(made, Err(Refusal::Field), "{max_r2t}");
    }
}

fn data_calls_go_on_any_open_connection(e: &mut dyn Engine) {
    let mut c = case(e);
    c.e.open(3, 0x99).unwrap();
    assert_eq!(number(&c.r2t_on(3, 1, 1).unwrap(), 24), 0x99);
    assert_eq!(number(&c.r2t_on(0, 2, 1).unwrap(), 24), STAT_SN);
    assert_eq!(number(&c.data_in_on(3, (true, true), 1).unwrap(), 24), 0);
    let pdu = data_out_of(1, 0, 0, 1, true);
    let answer = c.on_record(|e, task| e.data_out(3, task, &pdu.0));
    assert_eq!(answer.map(|came| came.open), Ok(1));
    let answer = c.on_record(|e, task| e.data_snack(3, task, 0, &data_snack(0, 0, 0).0));
    assert_eq!(answer.map(first_and_count), Ok((0, 3)));
    // The record goes on where its connection was closed, on another.
    c.e.logout(0, 1).unwrap();
    assert_eq!(c.r2t_on(0, 3, 1), Err(Refusal::Closed));
    assert_eq!(c.data_in_on(0, (true, true), 1), Err(Refusal::Closed));
    assert!(c.r2t_on(3, 3, 1).is_ok());
    // And on a reopened one, and in a new session.
    c.e.open(0, 0x55).unwrap();
    assert_eq!(number(&c.r2t_on(0, 4, 1).unwrap(), 24), 0x55);
    c.e.begin_session(1, 0x66, 0);
    let anew = c.r2t_on(0, 5, 1).unwrap();
    assert_eq!((number(&anew, 24), number(&anew, 36)), (0x66, 5));
}

fn data_calls_leave_window_and_ledgers(e: &mut dyn Engine) {
    let mut c = case(e);
    c.status(0, ITT, 0).unwrap();
    c.e.offer(0, 5, &scsi_command(CMD_SN + 1).0).unwrap();
    let before = c.e.window();
    for (tag, at) in [(1, 0), (2, 1)] {
        c.r2t(tag, 1).unwrap();
        c.data_in(false, 1).unwrap();
        c.came(&data_out_of(tag, 0, at, 1, true)).unwrap();
    }
    c.run(0, 0).unwrap();
    c.data_ack(1).unwrap();
    c.send_anew(5, 0).unwrap();
    // Refusals too.
    c.r2t(NO_TAG, 1).unwrap_err();
    c.data_in(false, 8193).unwrap_err();
    c.came(&data_out_of(1, 0, 0, 1, true)).unwrap_err();
    assert_eq!(c.e.window(), before);
    assert_eq!(c.e.next_stat_sn(0), Ok(STAT_SN + 1));
    let all = Run {
        first: STAT_SN,
        count: 1,
    };
    assert_eq!(c.e.snack(0, &snack(1, 0, 0).0), Ok(all));
    // A Data-Out's and a SNACK's own ExpStatSN acknowledges nothing.
    c.r2t(1, 1).unwrap();
    let pdu = data_out_of(1, 0, 2, 1, true).field(28, 4, u64::from(STAT_SN) + 1);
    c.came(&pdu).unwrap();
    let pdu = data_snack(0, 0, 0).field(28, 4, u64::from(STAT_SN) + 1);
    c.snack(&pdu, 0).unwrap();
    assert_eq!(c.e.acknowledge(0, STAT_SN + 1), Ok(1));
    assert_eq!(c.run(0, 0), Ok((1, 1)), "a status is no DataACK");
}

fn two_tasks_have_records_of_their_own(e: &mut dyn Engine) {
    let mut c = case(e);
    let other = TaskGiven {
        itt: ITT + 1,
        came: 50,
        ..GIVEN
    };
    let mut other = c.e.task(other).unwrap();
    assert_eq!(c.data_in(false, 500), Ok((0, 0)));
    assert_eq!(c.r2t(1, 10), Ok((1, 0)));
    std::mem::swap(&mut c.task, &mut other);
    assert_eq!(c.data_in(false, 512), Ok((0, 0)));
    assert_eq!(c.r2t(1, 10), Ok((1, 50)));
    // Each takes its own PDUs alone.
    let own = data_out_of(1, 0, 50, 10, true).itt(ITT + 1);
    assert_eq!(c.came(&own.clone().itt(ITT)), Err(Refusal::Field));
    assert_eq!(c.came(&own), Ok((50, 10, 0)));
    std::mem::swap(&mut c.task, &mut other);
    assert_eq!(c.task.open, [OpenR2t { tag: 1, end: 10 }]);
    assert_eq!(c.data_in(false, 13), Err(Refusal::Field));
    assert_eq!(c.data_in(false, 12), Ok((2, 500)));
}

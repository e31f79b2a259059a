//! The data calls at every boundary of request L1's rules, as sequences worked through by hand.

mod data_in;
mod data_out;
mod data_snack;
mod r2t;
mod record;
mod status;

use calls::{
    Came, DataInPdu, DataSnack, Engine, HEADER_BYTES, Refusal, Response, Run, Task, TaskGiven,
};
use model::Model;
use testkit::Bytes;
use testkit::pdu;

type Header = [u8; HEADER_BYTES];

/// The byte that a lent output is filled with.
const FILL: u8 = 0xee;
/// The end of all offsets.
const END: u64 = 1 << 32;

const ITT: u32 = 0x1011_1213;
const LUN: u64 = 0x0809_0a0b_0c0d_0e0f;
const TAG: u32 = 0x1415_1617;

/// A task with bursts of up to 512 bytes, 8 open R2Ts, and no immediate data.
const GIVEN: TaskGiven = TaskGiven {
    itt: ITT,
    lun: LUN,
    tag: TAG,
    came: 0,
    max_burst: 512,
    max_r2t: 8,
};

/// A session and the record of one task, which is replaced after each call that isn't refused.
struct Case {
    model: Model,
    task: Task,
}

/// A session of first command number 0x20 and first StatSN 0x18, with this level.
fn at_level(level: u8, given: TaskGiven) -> Case {
    let mut model = Model::default();
    model.begin_session(0x20, 0x18, level);
    let task = model.task(given).unwrap();
    Case { model, task }
}

fn case() -> Case {
    at_level(1, GIVEN)
}

/// A header from the lent output, which a refusal leaves.
fn written<T>(out: Header, answer: Result<T, Refusal>) -> Result<Header, Refusal> {
    if answer.is_err() {
        assert_eq!(out, [FILL; HEADER_BYTES], "a refusal writes nothing");
    }
    answer.map(|_| out)
}

impl Case {
    /// Change the record by hand.
    fn set(mut self, change: impl FnOnce(&mut Task)) -> Self {
        change(&mut self.task);
        self
    }

    /// A data call, whose refusal leaves the record.
    fn on_record<T>(
        &mut self,
        call: impl FnOnce(&mut Model, &mut Task) -> Result<T, Refusal>,
    ) -> Result<T, Refusal> {
        let before = self.task.clone();
        let answer = call(&mut self.model, &mut self.task);
        if answer.is_err() {
            assert_eq!(self.task, before, "a refusal leaves the record");
        }
        answer
    }

    fn data_in_on(
        &mut self,
        connection: u32,
        (f, a): (bool, bool),
        length: u32,
    ) -> Result<Header, Refusal> {
        let pdu = DataInPdu {
            final_bit: f,
            acknowledge: a,
            data_segment_length: length,
        };
        let mut out = [FILL; HEADER_BYTES];
        let answer = self.on_record(|model, task| model.data_in(connection, task, &mut out, pdu));
        written(out, answer)
    }

    /// A Data-In without A; its DataSN and Buffer Offset.
    fn data_in(&mut self, f: bool, length: u32) -> Result<(u32, u32), Refusal> {
        let header = self.data_in_on(0, (f, false), length)?;
        Ok((number(&header, 36), number(&header, 40)))
    }

    fn r2t_on(&mut self, connection: u32, tag: u32, length: u32) -> Result<Header, Refusal> {
        let mut out = [FILL; HEADER_BYTES];
        let answer =
            self.on_record(|model, task| model.r2t(connection, task, &mut out, tag, length));
        written(out, answer)
    }

    /// An R2T; its R2TSN and Buffer Offset.
    fn r2t(&mut self, tag: u32, length: u32) -> Result<(u32, u32), Refusal> {
        let header = self.r2t_on(0, tag, length)?;
        Ok((number(&header, 36), number(&header, 40)))
    }

    /// A Data-Out of these bytes; offset, count and how many are open after it.
    fn data_out(&mut self, pdu: &Bytes) -> Result<(u32, u32, u8), Refusal> {
        let Came {
            offset,
            count,
            open,
        } = self.on_record(|model, task| model.data_out(0, task, &pdu.0))?;
        Ok((offset, count, open))
    }

    fn snack(&mut self, pdu: &Bytes, offset: u32) -> Result<DataSnack, Refusal> {
        self.on_record(|model, task| model.data_snack(0, task, offset, &pdu.0))
    }

    /// A SNACK of type 0; first number and count.
    fn run(&mut self, beg_run: u32, run_length: u32) -> Result<(u32, u32), Refusal> {
        let before = self.task.clone();
        let answer = self.snack(&data_snack(0, beg_run, run_length), 0xbad);
        assert_eq!(self.task, before, "a type 0 changes nothing");
        answer.map(first_and_count)
    }

    /// A SNACK of type 2; how many it acknowledges.
    fn data_ack(&mut self, beg_run: u32) -> Result<u32, Refusal> {
        let answer = self.snack(&data_snack(2, beg_run, 0), 0xbad)?;
        let DataSnack::Acknowledged(count) = answer else {
            panic!("{answer:?}");
        };
        Ok(count)
    }

    /// A SNACK of type 3 with this tag; first number and count.
    fn send_anew(&mut self, tag: u32, offset: u32) -> Result<(u32, u32), Refusal> {
        let answer = self.snack(&data_snack(3, 0, 0).ttt(tag), offset);
        answer.map(first_and_count)
    }

    /// Send a SCSI Response; its header.
    fn status(&mut self, code: u8, itt: u32, snack_tag: u32) -> Result<Header, Refusal> {
        let mut out = [FILL; HEADER_BYTES];
        let response = scsi(code, itt, snack_tag);
        let answer = self.model.send(0, 7, &self.task, &mut out, &response);
        written(out, answer)
    }

    /// ExpDataSN of a SCSI Response sent now.
    fn exp_data_sn(&mut self, code: u8) -> u32 {
        number(&self.status(code, ITT, self.task.snack_tag).unwrap(), 36)
    }
}

fn first_and_count(answer: DataSnack) -> (u32, u32) {
    let DataSnack::Run(Run { first, count }) = answer else {
        panic!("{answer:?}");
    };
    (first, count)
}

/// A Data-Out of the task: Target Transfer Tag, DataSN, Buffer Offset, bytes of data, F.
fn data_out(ttt: u32, data_sn: u32, offset: u32, count: usize, f: bool) -> Bytes {
    Bytes::new(0x05, if f { 0x80 } else { 0 })
        .itt(ITT)
        .ttt(ttt)
        .field(36, 4, data_sn.into())
        .field(40, 4, offset.into())
        .data(&vec![7; count])
}

/// A SNACK with the tags that the task's record wants.
fn data_snack(kind: u8, beg_run: u32, run_length: u32) -> Bytes {
    let snack = pdu::snack(kind, beg_run, run_length);
    if kind == 2 {
        snack.ttt(TAG)
    } else {
        snack.itt(ITT)
    }
}

fn scsi(response: u8, itt: u32, snack_tag: u32) -> Response {
    Response::Scsi {
        overflow: false,
        underflow: false,
        response,
        status: 2,
        data_segment_length: 3,
        itt,
        snack_tag,
        residual: 0,
        // The record decides, not this.
        exp_data_sn: 0xbad,
    }
}

/// The big-endian number of four bytes.
fn number(bytes: &[u8], at: usize) -> u32 {
    bytes[at..at + 4]
        .iter()
        .fold(0, |n, &b| n << 8 | u32::from(b))
}

/// A header of these pieces, each at its place; all else 0.
fn header(places: &[(usize, &[u8])]) -> Header {
    let mut h = [0; HEADER_BYTES];
    for (at, bytes) in places {
        h[*at..*at + bytes.len()].copy_from_slice(bytes);
    }
    h
}

//! The calls on a task's record, beside the model's: on records as calls leave them, and on others.

use crate::shim::{Library, Shim};
use calls::{DataInPdu, Engine, HEADER_BYTES, OpenR2t, Refusal, Response, Task, TaskGiven};
use model::Model;
use std::fmt::Debug;
use testkit::{Bytes, Rng, pdu};

const SEED: u64 = 64_000_005;
const TASKS: usize = 300;
/// Calls on one task.
const STRETCH: usize = 30;
const ITT: u32 = 0x1011_1213;
const TAG: u32 = 0x1415_1617;
const NO_TAG: u32 = 0xffff_ffff;

const GIVEN: TaskGiven = TaskGiven {
    itt: ITT,
    lun: 0x0809_0a0b_0c0d_0e0f,
    tag: TAG,
    came: 0x18,
    max_burst: 0x1c1d,
    max_r2t: 7,
};

pub fn made(library: &Library) {
    let (engine, model) = (library.engine(), Model::default());
    for max_r2t in [0, 1, 7, 8, 9, 0x101, 0xffff] {
        let given = TaskGiven { max_r2t, ..GIVEN };
        assert_eq!(engine.task(given), model.task(given), "{max_r2t}");
    }
    let odd = TaskGiven {
        lun: u64::MAX - 1,
        tag: NO_TAG,
        came: u32::MAX,
        max_burst: 0,
        max_r2t: 1,
        ..GIVEN
    };
    assert_eq!(engine.task(odd), model.task(odd));
}

/// Both engines, and a record for each.
struct Pair<'l> {
    ours: (Shim<'l>, Task),
    model: (Model, Task),
}

impl Pair<'_> {
    /// One call on both: the same answer, the same bytes and the same record.
    fn call<T: PartialEq + Debug>(
        &mut self,
        lent: usize,
        call: impl Fn(&mut dyn Engine, &mut Task, &mut [u8]) -> Result<T, Refusal>,
    ) {
        let (mut out, mut wanted) = (vec![0xee; lent], vec![0xee; lent]);
        let (engine, task) = &mut self.ours;
        let said = call(engine, task, &mut out);
        let (model, record) = &mut self.model;
        let due = call(model, record, &mut wanted);
        assert_eq!((said, out), (due, wanted), "{record:?}");
        assert_eq!(task, record);
    }
}

/// A record as calls leave it, or with more.
fn record(rng: &mut Rng, fresh: Task) -> Task {
    let mut task = fresh;
    if rng.one_in(2) {
        task.tag = rng.pick(&[TAG, NO_TAG]);
        task.sent = rng.pick(&[5, u32::MAX - 1, u32::MAX]);
        task.acknowledged = rng.below(6) as u32;
        task.any_data_in = true;
        task.offset = rng.pick(&[7, 1 << 32, (1 << 32) - 1]);
        task.burst = rng.below(9) as u32;
        task.data_sn = rng.pick(&[0, 1, u32::MAX]);
        task.snack_tag = rng.pick(&[0, 0x66]);
        for k in 0..rng.below(8) {
            task.asked = task.came + 8 * (k + 1);
            let (tag, end) = (0x40 + k as u32, task.asked);
            task.open.push(OpenR2t { tag, end });
        }
    }
    task
}

/// A Data-Out, mostly the one due.
fn data_out(rng: &mut Rng, task: &Task) -> Bytes {
    let oldest = task.open.first().copied();
    let oldest = oldest.unwrap_or(OpenR2t { tag: 1, end: 9 });
    let left = oldest.end.saturating_sub(task.came).min(8192);
    let count = if rng.one_in(3) { rng.below(8) } else { left };
    let is_final = (count == left) ^ rng.one_in(9);
    let off = |rng: &mut Rng| u32::from(rng.one_in(12));
    Bytes::new(0x05, if is_final { 0x80 } else { 0 })
        .itt(task.itt ^ off(rng))
        .ttt(oldest.tag ^ off(rng))
        .field(36, 4, (task.data_sn ^ off(rng)).into())
        .field(40, 4, (task.came as u32 ^ off(rng)).into())
        .data(&vec![7; count as usize])
}

/// A SNACK, mostly the task's.
fn snack(rng: &mut Rng, task: &Task) -> Bytes {
    let kind = rng.pick(&[0, 0, 1, 2, 2, 3]);
    let beg_run = rng.pick(&[0, 0, task.acknowledged, task.sent, 1, 2]);
    let snack = pdu::snack(kind, beg_run, rng.pick(&[0, 0, 1, 2]));
    match kind {
        0 => snack.itt(task.itt),
        2 => snack.ttt(task.tag),
        3 => snack.itt(task.itt).ttt(0x77).field(40, 8, 0),
        _ => snack,
    }
}

fn status(rng: &mut Rng, task: &Task) -> Response {
    Response::Scsi {
        overflow: false,
        underflow: false,
        response: rng.pick(&[0, 0, 1]),
        status: 2,
        data_segment_length: 3,
        itt: task.itt ^ u32::from(rng.one_in(5)),
        snack_tag: task.snack_tag ^ u32::from(rng.one_in(5)),
        residual: 4,
        exp_data_sn: 0xbad,
    }
}

pub fn as_the_model(library: &Library) {
    let mut rng = Rng::new(SEED);
    let rng = &mut rng;
    for _ in 0..TASKS {
        let (mut engine, mut model) = (library.engine(), Model::default());
        let level = rng.pick(&[0, 1, 1, 1]);
        engine.begin_session(0x20, 0x18, level);
        model.begin_session(0x20, 0x18, level);
        let task = record(rng, model.task(GIVEN).unwrap());
        let mut pair = Pair {
            ours: (engine, task.clone()),
            model: (model, task),
        };
        for _ in 0..STRETCH {
            step(rng, &mut pair);
        }
    }
}

fn step(rng: &mut Rng, pair: &mut Pair) {
    let task = pair.model.1.clone();
    let connection = rng.pick(&[0, 0, 0, 0, 0, 1, 4]);
    let lent = rng.pick(&[47, HEADER_BYTES, HEADER_BYTES, HEADER_BYTES, 50]);
    match rng.below(6) {
        0 => {
            let pdu = DataInPdu {
                final_bit: rng.one_in(2),
                acknowledge: rng.one_in(2),
                data_segment_length: rng.pick(&[0, 1, 512, 8193]),
            };
            pair.call(lent, |e, task, out| e.data_in(connection, task, out, pdu));
        }
        1 => {
            let (tag, length) = (rng.pick(&[1, 2, NO_TAG]), rng.pick(&[0, 3, 8, 9000]));
            pair.call(lent, |e, task, out| {
                e.r2t(connection, task, out, tag, length)
            });
        }
        2 => {
            let pdu = data_out(rng, &task);
            pair.call(0, |e, task, _| e.data_out(connection, task, &pdu.0));
        }
        3 => {
            let (pdu, offset) = (snack(rng, &task), rng.below(99) as u32);
            pair.call(0, |e, task, _| {
                e.data_snack(connection, task, offset, &pdu.0)
            });
        }
        4 => {
            let response = status(rng, &task);
            pair.call(lent, |e, task, out| {
                e.send(connection, 7, task, out, &response)
            });
        }
        _ => {
            let stat_sn = 0x18 + rng.below(3) as u32;
            pair.call(lent, |e, task, out| {
                e.resend(connection, stat_sn, task, out)
            });
        }
    }
}

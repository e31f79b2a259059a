//! The data of sixteen tasks, interleaved in one session: bursts and R2Ts to their last byte, everything that may come for
//! them, statuses with their records, and other calls between.

use super::damage;
use super::headers::lent;
use super::records::{END, given, record, transfer_tag};
use super::responses::{scsi_of, status};
use super::sessions::{Sessions, near_the_wrap};
use calls::{DataInPdu, OpenR2t, Task};
use script::{Answer, Call, TASKS};
use testkit::pdu::{self, NO_TAG};
use testkit::{Bytes, Rng};

/// The longest data segment.
const LONGEST: u32 = 8192;

/// What the calls of the moment are mostly about.
#[derive(Clone, Copy)]
enum Mood {
    /// Data-In.
    Read,
    /// R2Ts up to as many as may stand open.
    Ask,
    /// R2Ts, and the Data-Out that answers them.
    Write,
    Recover,
    Statuses,
    Anything,
}

const MOODS: [Mood; 10] = [
    Mood::Read,
    Mood::Read,
    Mood::Ask,
    Mood::Write,
    Mood::Write,
    Mood::Write,
    Mood::Recover,
    Mood::Recover,
    Mood::Statuses,
    Mood::Anything,
];

/// The calls on sixteen records, and what is known of them and of their session.
pub struct Tasks {
    sessions: Sessions,
    begun: bool,
    /// Records that were made or set in this stretch.
    set: usize,
    tasks: Vec<Task>,
    /// The record of the moment.
    now: u8,
    mood: Mood,
    /// Calls left in this mood.
    left: u64,
}

impl Tasks {
    pub fn new(rng: &mut Rng) -> Self {
        Tasks {
            sessions: Sessions::new(rng),
            begun: false,
            set: 0,
            tasks: vec![Task::fresh_for(0); TASKS],
            now: 0,
            mood: Mood::Anything,
            left: 0,
        }
    }

    pub fn call(&mut self, rng: &mut Rng) -> Call {
        if !self.begun {
            self.begun = true;
            return self.sessions.call(rng);
        }
        if self.set < TASKS {
            self.now = self.set as u8;
            return self.fresh(rng);
        }
        if self.left == 0 {
            self.mood = rng.pick(&MOODS);
            self.left = 5 + rng.below(40);
            self.now = rng.below(TASKS as u64) as u8;
        }
        self.left -= 1;
        if rng.one_in(6) {
            // Tasks take turns, and two moods on one record too.
            self.now = rng.below(TASKS as u64) as u8;
        }
        if !self.sessions.has_open() && rng.one_in(2) {
            return Call::Open {
                connection: rng.below(4) as u32,
                stat_sn: near_the_wrap(rng),
            };
        }
        match rng.below(40) {
            0..=4 => return self.sessions.call(rng),
            5 => return self.fresh(rng),
            6 => return Call::Record { task: self.now },
            7..=8 => return self.anything(rng),
            _ => {}
        }
        match self.mood {
            Mood::Read => self.data_in(rng),
            Mood::Ask => self.r2t(rng),
            Mood::Write => self.write(rng),
            Mood::Recover if rng.one_in(3) => self.data_in(rng),
            Mood::Recover => self.snack(rng),
            Mood::Statuses => self.statuses(rng),
            Mood::Anything => self.anything(rng),
        }
    }

    fn task(&self) -> &Task {
        &self.tasks[usize::from(self.now)]
    }

    fn anything(&mut self, rng: &mut Rng) -> Call {
        match rng.below(10) {
            0..=1 => self.data_in(rng),
            2 => self.r2t(rng),
            3..=5 => self.write(rng),
            6..=7 => self.snack(rng),
            _ => self.statuses(rng),
        }
    }

    /// A record made or set.
    fn fresh(&mut self, rng: &mut Rng) -> Call {
        let task = self.now;
        if rng.one_in(2) {
            let given = given(rng);
            return Call::Task { task, given };
        }
        let record = record(rng);
        assert!(script::may_be_set(&record), "{record:?}");
        Call::SetRecord { task, record }
    }

    /// Mostly an open connection, else another, else none that exists.
    fn connection(&self, rng: &mut Rng) -> u32 {
        match rng.below(60) {
            0 => rng.pick(&[4, 5, 255, 256, 0x8000_0000, u32::MAX]),
            1..=2 => rng.below(4) as u32,
            _ => self.sessions.open_connection(rng),
        }
    }

    fn data_in(&mut self, rng: &mut Rng) -> Call {
        let task = self.task();
        let in_burst = task.max_burst.saturating_sub(task.burst);
        let in_offsets = END.saturating_sub(task.offset).min(u32::MAX.into()) as u32;
        let left = in_burst.min(in_offsets);
        let length = match rng.below(24) {
            0..=1 => in_burst,
            2 => in_burst.saturating_add(1),
            3 => in_offsets,
            4 => in_offsets.saturating_add(1),
            5 => 0,
            6 => LONGEST,
            7 => LONGEST + 1,
            8 => rng.u32(),
            9..=13 => left.min(LONGEST),
            _ => rng.below(u64::from(left.min(600)) + 1) as u32,
        };
        let is_full = length >= in_burst;
        Call::DataIn {
            connection: self.connection(rng),
            task: self.now,
            lent: lent(rng),
            pdu: DataInPdu {
                final_bit: if is_full {
                    !rng.one_in(4)
                } else {
                    rng.one_in(4)
                },
                acknowledge: rng.one_in(4),
                data_segment_length: length,
            },
        }
    }

    fn r2t(&mut self, rng: &mut Rng) -> Call {
        let task = self.task();
        let in_offsets = END.saturating_sub(task.asked).min(u32::MAX.into()) as u32;
        let length = match rng.below(24) {
            0 => task.max_burst,
            1 => task.max_burst.saturating_add(1),
            2 => 0,
            3 => in_offsets,
            4 => in_offsets.saturating_add(1),
            5 => rng.u32(),
            6..=7 => task.max_burst.min(in_offsets).min(3 * LONGEST),
            _ => 1 + rng.below(u64::from(task.max_burst.clamp(1, 60))) as u32,
        };
        let open: Vec<_> = task.open.iter().map(|r2t| r2t.tag).collect();
        let tag = match rng.below(16) {
            0 => NO_TAG,
            1 if !open.is_empty() => rng.pick(&open),
            _ => transfer_tag(rng),
        };
        Call::R2t {
            connection: self.connection(rng),
            task: self.now,
            lent: lent(rng),
            tag,
            length,
        }
    }

    fn write(&mut self, rng: &mut Rng) -> Call {
        match self.task().open.first() {
            Some(&oldest) if !rng.one_in(4) => self.data_out(rng, oldest),
            None if rng.one_in(12) => {
                let end = self.task().came.saturating_add(rng.below(3));
                let tag = rng.pick(&[0, 1, NO_TAG]);
                self.data_out(rng, OpenR2t { tag, end })
            }
            _ => self.r2t(rng),
        }
    }

    /// A Data-Out for the oldest R2T, mostly due in all but one thing at most.
    fn data_out(&mut self, rng: &mut Rng, oldest: OpenR2t) -> Call {
        let task = self.task();
        let left = oldest.end.saturating_sub(task.came);
        let longest = u64::from(LONGEST);
        let count = match rng.below(12) {
            0 => left.saturating_sub(1),
            1 => left.saturating_add(1),
            2 => 0,
            3 => left.min(longest),
            4 => rng.below(left.min(longest) + 1),
            5..=8 => left,
            _ => rng.below(left.min(64) + 1),
        };
        let count = count.min(longest) as usize;
        let at_the_end = count as u64 == left;
        let f = at_the_end != rng.one_in(12);
        let header = pdu::data_out(task.data_sn, task.came as u32);
        let header = header.itt(task.itt).ttt(oldest.tag);
        let header = header.byte(1, if f { 0x80 } else { 0 } | rng.number() as u8 & 0x7f);
        let header = match rng.below(4) {
            0 => header.field(8, 8, task.lun),
            _ => header.field(8, 8, rng.number()),
        };
        let mut bytes = header.data(&vec![rng.number() as u8; count]);
        if rng.one_in(3) {
            bytes = self.undue(rng, bytes);
        }
        Call::DataOut {
            connection: self.connection(rng),
            task: self.now,
            pdu: damage::perhaps(rng, bytes, 24).0,
        }
    }

    /// One thing of a Data-Out not due; or now and then another kind of PDU.
    fn undue(&self, rng: &mut Rng, bytes: Bytes) -> Bytes {
        let task = self.task();
        let tags: Vec<_> = task.open.iter().skip(1).map(|r2t| r2t.tag).collect();
        match rng.below(12) {
            0 => bytes.itt(rng.pick(&[task.itt.wrapping_add(1), NO_TAG, 0])),
            1..=2 if !tags.is_empty() => bytes.ttt(rng.pick(&tags)),
            3 => bytes.ttt(NO_TAG),
            4 => bytes.ttt(transfer_tag(rng)),
            5..=7 => {
                let due = task.data_sn;
                let other = [due.wrapping_add(1), due.wrapping_sub(1), 0, u32::MAX];
                bytes.field(36, 4, rng.pick(&other).into())
            }
            8..=9 => {
                let due = task.came as u32;
                let other = [
                    due.wrapping_add(1),
                    due.wrapping_sub(1),
                    0,
                    task.asked as u32,
                ];
                bytes.field(40, 4, rng.pick(&other).into())
            }
            10 => pdu::snack(0, 0, 0).itt(task.itt),
            11 => pdu::scsi_command(rng.u32()).itt(task.itt),
            _ => bytes,
        }
    }

    /// A SNACK of any type, mostly with the tag that is due.
    fn snack(&mut self, rng: &mut Rng) -> Call {
        let task = self.task();
        let kind = rng.pick(&[0, 0, 0, 0, 0, 1, 2, 2, 2, 3, 3]);
        let among = task.sent.saturating_sub(task.acknowledged);
        let inside = task
            .acknowledged
            .saturating_add(rng.below(u64::from(among) + 1) as u32);
        let beg_run = match rng.below(16) {
            0 => task.acknowledged,
            1 => task.acknowledged.wrapping_sub(1),
            2 => task.sent,
            3 => task.sent.wrapping_add(1),
            4 => task.sent.wrapping_sub(1),
            5 => rng.u32(),
            6..=9 => 0,
            _ => inside,
        };
        let to_the_end = task.sent.wrapping_sub(beg_run);
        let run_length = match rng.below(10) {
            0..=2 => 0,
            3 => to_the_end,
            4 => to_the_end.wrapping_add(1),
            5 => rng.u32(),
            _ => rng.below(4) as u32,
        };
        let (beg_run, run_length) = match kind {
            3 if !rng.one_in(5) => (0, 0),
            _ => (beg_run, run_length),
        };
        let mut bytes = pdu::snack(kind, beg_run, run_length);
        let other = rng.pick(&[task.itt.wrapping_add(1), 0, NO_TAG, task.tag]);
        let is_other = rng.one_in(12);
        bytes = match kind {
            0 | 3 => bytes.itt(if is_other { other } else { task.itt }),
            2 => bytes.ttt(if is_other { other } else { task.tag }),
            _ => bytes,
        };
        if kind == 3 {
            let tag = 1 + rng.below(0xffff_fffe) as u32;
            bytes = bytes.ttt(rng.pick(&[tag, 1, 7, 0xffff_fffe]));
        }
        bytes = bytes.field(8, 8, rng.number());
        if rng.one_in(24) {
            let others = [pdu::nop_out(1), pdu::data_out(0, 0)];
            bytes = others[rng.index(2)].clone().itt(task.itt);
        }
        let (last, far) = (END - 1, rng.below(END));
        let near = last - rng.below(2000);
        let offset = rng.pick(&[0, task.offset.min(last), far, near, last]);
        Call::DataSnack {
            connection: self.connection(rng),
            task: self.now,
            offset: offset as u32,
            pdu: damage::perhaps(rng, bytes, 24).0,
        }
    }

    /// Statuses sent and resent, with this task's record or another's or none.
    fn statuses(&mut self, rng: &mut Rng) -> Call {
        let connection = self.connection(rng);
        if self.sessions.is_full(connection) && rng.one_in(6) {
            return self.sessions.acknowledge(rng);
        }
        let task = (!rng.one_in(12)).then_some(self.now);
        if rng.one_in(3) {
            return Call::Resend {
                connection,
                stat_sn: self.sessions.stat_sn(rng, connection),
                lent: lent(rng),
                task,
            };
        }
        let response = match rng.below(4) {
            0 => status(rng),
            _ => scsi_of(rng, self.task()),
        };
        Call::Send {
            connection,
            ticket: rng.u32(),
            lent: lent(rng),
            task,
            response,
        }
    }

    pub fn saw(&mut self, call: &Call, answer: &Answer, tasks: &[Task]) {
        self.sessions.saw(call, answer);
        if let Some(n) = call.task().map(usize::from) {
            self.tasks[n].clone_from(&tasks[n]);
            // A refused making leaves a record that is of an earlier stretch.
            if n == self.set && matches!(answer, Answer::Task | Answer::RecordSet) {
                self.set += 1;
            }
        }
    }
}

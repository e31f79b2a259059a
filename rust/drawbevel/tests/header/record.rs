//! A task's record as the words that go to the shim.

use calls::{OpenR2t, Task};

const PLACES: usize = 8;

/// The words, in the order of the shim's `struct words`.
#[repr(C)]
#[derive(Clone, Copy)]
pub struct Words {
    numbers: [u32; 12],
    tags: [u32; PLACES],
    wide: [u64; 4],
    ends: [u64; PLACES],
}

impl Words {
    /// Words that no record has.
    pub const FILLED: Words = Words {
        numbers: [0xa5a5_a5a5; 12],
        tags: [0xa5a5_a5a5; PLACES],
        wide: [0xa5a5_a5a5_a5a5_a5a5; 4],
        ends: [0xa5a5_a5a5_a5a5_a5a5; PLACES],
    };

    /// The words of a record. Its ring begins at another place from PDU to PDU, and a place that isn't open holds anything.
    pub fn of(task: &Task) -> Self {
        let mut words = Words::FILLED;
        for (k, r2t) in task.open.iter().enumerate() {
            let place = (task.sent as usize + k) % PLACES;
            (words.tags[place], words.ends[place]) = (r2t.tag, r2t.end);
        }
        words.numbers = [
            task.itt,
            task.tag,
            task.max_burst,
            task.max_r2t.into(),
            task.sent,
            task.acknowledged,
            task.any_data_in.into(),
            task.snack_tag,
            task.burst,
            task.data_sn,
            task.sent,
            task.open.len() as u32,
        ];
        words.wide = [task.lun, task.offset, task.asked, task.came];
        words
    }

    /// The record of the words.
    pub fn record(&self) -> Task {
        let n = &self.numbers;
        let place = |k: usize| (n[10] as usize + k) % PLACES;
        let open = (0..n[11] as usize).map(|k| OpenR2t {
            tag: self.tags[place(k)],
            end: self.ends[place(k)],
        });
        Task {
            itt: n[0],
            lun: self.wide[0],
            tag: n[1],
            max_burst: n[2],
            max_r2t: n[3].try_into().unwrap(),
            sent: n[4],
            acknowledged: n[5],
            any_data_in: n[6] != 0,
            offset: self.wide[1],
            burst: n[8],
            snack_tag: n[7],
            asked: self.wide[2],
            came: self.wide[3],
            data_sn: n[9],
            open: open.collect(),
        }
    }

    /// A call on a record's words, which change as they do.
    pub fn lend<T>(task: &mut Task, call: impl FnOnce(&mut Words) -> T) -> T {
        let mut words = Words::of(task);
        let answer = call(&mut words);
        *task = words.record();
        answer
    }
}

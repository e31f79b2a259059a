//! A task's record, as the words that the proved functions take.

use crate::ffi::TaskParts;
use crate::words::refusal_of;
use calls::{OpenR2t, Refusal, TaskGiven};
use std::fmt;

/// How many open R2Ts a record holds.
const PLACES: usize = 8;

/// The record of a task's data: what was sent, what was asked for and what came. Make one for each SCSI command when it is taken, or
/// offered as immediate, and give it with each call on the task until its status is acknowledged. A call changes it in place; a clone
/// goes its own way. It converts from and to [`calls::Task`], in which every number may be set.
#[derive(Clone)]
pub struct Task {
    pub(crate) parts: TaskParts,
}

impl Task {
    /// A fresh record: nothing sent, and nothing came but the immediate data. FIELD for a MaxOutstandingR2T of 0 or above 8.
    pub fn new(given: TaskGiven) -> Result<Self, Refusal> {
        match TaskParts::fresh(given) {
            Ok(parts) => Ok(Task { parts }),
            Err(number) => Err(refusal_of(number, 0)),
        }
    }

    /// Initiator Task Tag.
    pub fn itt(&self) -> u32 {
        self.parts.numbers[0]
    }

    /// Logical unit number.
    pub fn lun(&self) -> u64 {
        self.parts.wide[0]
    }

    /// Target Transfer Tag of Data-In with A; 0xffffffff where there is none.
    pub fn tag(&self) -> u32 {
        self.parts.numbers[1]
    }

    /// MaxBurstLength.
    pub fn max_burst(&self) -> u32 {
        self.parts.numbers[2]
    }

    /// MaxOutstandingR2T.
    pub fn max_r2t(&self) -> u8 {
        // Each way to make a record gives it eight bits.
        self.parts.numbers[3] as u8
    }

    /// Count of Data-In and R2T sent: the next DataSN and the next R2TSN.
    pub fn sent(&self) -> u32 {
        self.parts.numbers[4]
    }

    /// How many of these are acknowledged.
    pub fn acknowledged(&self) -> u32 {
        self.parts.numbers[5]
    }

    /// Whether a Data-In was ever sent.
    pub fn any_data_in(&self) -> bool {
        self.parts.numbers[6] != 0
    }

    /// SNACK tag of the latest SNACK of type 3, 0 before any.
    pub fn snack_tag(&self) -> u32 {
        self.parts.numbers[7]
    }

    /// Bytes so far of the burst that the next Data-In goes on.
    pub fn burst(&self) -> u32 {
        self.parts.numbers[8]
    }

    /// The next Data-In's Buffer Offset.
    pub fn offset(&self) -> u64 {
        self.parts.wide[1]
    }

    /// Up to where data was asked for: the next R2T's Buffer Offset.
    pub fn asked(&self) -> u64 {
        self.parts.wide[2]
    }

    /// Up to where data came: the next Data-Out's Buffer Offset.
    pub fn came(&self) -> u64 {
        self.parts.wide[3]
    }

    /// The next Data-Out's DataSN in its burst.
    pub fn data_sn(&self) -> u32 {
        self.parts.numbers[9]
    }

    /// The open R2Ts, the oldest first.
    pub fn open(&self) -> impl ExactSizeIterator<Item = OpenR2t> + '_ {
        let oldest = self.parts.numbers[10] as usize % PLACES;
        let count = (self.parts.numbers[11] as usize).min(PLACES);
        (0..count).map(move |k| {
            let place = (oldest + k) % PLACES;
            OpenR2t {
                tag: self.parts.tags[place],
                end: self.parts.ends[place],
            }
        })
    }
}

impl From<&Task> for calls::Task {
    fn from(task: &Task) -> Self {
        calls::Task {
            itt: task.itt(),
            lun: task.lun(),
            tag: task.tag(),
            max_burst: task.max_burst(),
            max_r2t: task.max_r2t(),
            sent: task.sent(),
            acknowledged: task.acknowledged(),
            any_data_in: task.any_data_in(),
            offset: task.offset(),
            burst: task.burst(),
            snack_tag: task.snack_tag(),
            asked: task.asked(),
            came: task.came(),
            data_sn: task.data_sn(),
            open: task.open().collect(),
        }
    }
}

/// A record with more than eight open R2Ts, for which there are no places.
#[derive(Clone, Copy, Debug, PartialEq, Eq)]
pub struct TooManyOpen;

impl fmt::Display for TooManyOpen {
    fn fmt(&self, f: &mut fmt::Formatter<'_>) -> fmt::Result {
        write!(f, "a record holds at most {PLACES} open R2Ts")
    }
}

impl std::error::Error for TooManyOpen {}

impl TryFrom<&calls::Task> for Task {
    type Error = TooManyOpen;

    /// The oldest open R2T comes to the first place.
    fn try_from(task: &calls::Task) -> Result<Self, TooManyOpen> {
        let (mut tags, mut ends) = ([0; PLACES], [0; PLACES]);
        if task.open.len() > PLACES {
            return Err(TooManyOpen);
        }
        for (place, r2t) in task.open.iter().enumerate() {
            (tags[place], ends[place]) = (r2t.tag, r2t.end);
        }
        let numbers = [
            task.itt,
            task.tag,
            task.max_burst,
            task.max_r2t.into(),
            task.sent,
            task.acknowledged,
            task.any_data_in.into(),
            task.snack_tag,
            task.burst,
            task.data_sn,
            0,
            task.open.len() as u32,
        ];
        let wide = [task.lun, task.offset, task.asked, task.came];
        Ok(Task {
            parts: TaskParts {
                numbers,
                wide,
                tags,
                ends,
            },
        })
    }
}

impl fmt::Debug for Task {
    fn fmt(&self, f: &mut fmt::Formatter<'_>) -> fmt::Result {
        calls::Task::from(self).fmt(f)
    }
}

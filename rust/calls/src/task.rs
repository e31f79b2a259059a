//! A task's data: the record that the caller holds, and what the data calls take and answer. Names are RFC 7143's.

use crate::Run;

/// A task's record: what was sent, what was asked for and what came. The caller gives it with each call on that task as
/// it was last answered. The fields stand in the order of the call script.
#[derive(Clone, Debug, PartialEq, Eq)]
pub struct Task {
    /// Initiator Task Tag.
    pub itt: u32,
    /// Logical unit number.
    pub lun: u64,
    /// Target Transfer Tag of Data-In with A; 0xffffffff where there is none.
    pub tag: u32,
    /// MaxBurstLength.
    pub max_burst: u32,
    /// MaxOutstandingR2T, 1 to 8.
    pub max_r2t: u8,
    /// Count of Data-In and R2T sent: the next DataSN and the next R2TSN.
    pub sent: u32,
    /// How many of these are acknowledged.
    pub acknowledged: u32,
    /// Whether a Data-In was ever sent.
    pub any_data_in: bool,
    /// The next Data-In's Buffer Offset.
    pub offset: u64,
    /// Bytes so far of the burst that the next Data-In goes on.
    pub burst: u32,
    /// SNACK tag of the latest SNACK of type 3, 0 before any.
    pub snack_tag: u32,
    /// Up to where data was asked for: the next R2T's Buffer Offset.
    pub asked: u64,
    /// Up to where data came: the next Data-Out's Buffer Offset.
    pub came: u64,
    /// The next Data-Out's DataSN in its burst.
    pub data_sn: u32,
    /// The open R2Ts, the oldest first.
    pub open: Vec<OpenR2t>,
}

impl Task {
    /// The fresh record of a task with this tag: LUN 0, no Target Transfer Tag, no immediate data, the standard
    /// MaxBurstLength, and one open R2T at most.
    pub const fn fresh_for(itt: u32) -> Self {
        Task {
            itt,
            lun: 0,
            tag: 0xffff_ffff,
            max_burst: 262_144,
            max_r2t: 1,
            sent: 0,
            acknowledged: 0,
            any_data_in: false,
            offset: 0,
            burst: 0,
            snack_tag: 0,
            asked: 0,
            came: 0,
            data_sn: 0,
            open: Vec::new(),
        }
    }
}

/// An R2T that isn't wholly answered.
#[derive(Clone, Copy, Debug, PartialEq, Eq)]
pub struct OpenR2t {
    /// Target Transfer Tag.
    pub tag: u32,
    /// Up to where it asks for data.
    pub end: u64,
}

/// What a record is made from.
#[derive(Clone, Copy, Debug, PartialEq, Eq)]
pub struct TaskGiven {
    /// Initiator Task Tag.
    pub itt: u32,
    /// Logical unit number.
    pub lun: u64,
    /// Target Transfer Tag of Data-In with A; 0xffffffff for none.
    pub tag: u32,
    /// Length of the immediate data that came with the command.
    pub came: u32,
    /// MaxBurstLength.
    pub max_burst: u32,
    /// MaxOutstandingR2T.
    pub max_r2t: u16,
}

/// What the caller says of a Data-In; the rest is the record's.
#[derive(Clone, Copy, Debug, PartialEq, Eq)]
pub struct DataInPdu {
    /// F: the last PDU of its burst.
    pub final_bit: bool,
    /// A: asks for a DataACK.
    pub acknowledge: bool,
    /// DataSegmentLength.
    pub data_segment_length: u32,
}

/// The answer to a Data-Out: its data and what is still open.
#[derive(Clone, Copy, Debug, PartialEq, Eq)]
pub struct Came {
    /// Place of the data in the whole transfer.
    pub offset: u32,
    /// Bytes of data.
    pub count: u32,
    /// How many R2Ts are open after it.
    pub open: u8,
}

/// The answer to a data SNACK.
#[derive(Clone, Copy, Debug, PartialEq, Eq)]
pub enum DataSnack {
    /// Types 0 and 3: the Data-In and R2T to send again, and all that are sent anew.
    Run(Run),
    /// Type 2: how many Data-In and R2T are newly acknowledged.
    Acknowledged(u32),
}

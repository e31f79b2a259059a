//! A PDU as read: its common fields together with one of seven request kinds. Names are RFC 7143's.

/// A PDU that was read. An absent common field is 0.
#[derive(Clone, Copy, Debug, PartialEq, Eq)]
pub struct Pdu {
    /// I, byte 0.
    pub immediate: bool,
    /// Command number.
    pub cmd_sn: u32,
    /// Logical unit number.
    pub lun: u64,
    /// Initiator Task Tag.
    pub itt: u32,
    /// The next status number that the initiator expects.
    pub exp_stat_sn: u32,
    /// What only this kind has.
    pub request: Request,
    /// Where the data segment stands in the input.
    pub data: Data,
}

/// The place of the data segment in the input, without pad.
#[derive(Clone, Copy, Debug, PartialEq, Eq)]
pub struct Data {
    /// Its first byte's place.
    pub offset: usize,
    /// DataSegmentLength.
    pub length: usize,
}

/// The seven request kinds.
#[derive(Clone, Copy, Debug, PartialEq, Eq)]
pub enum Request {
    /// 0x00
    NopOut(NopOut),
    /// 0x01
    ScsiCommand(ScsiCommand),
    /// 0x02
    TaskManagement(TaskManagement),
    /// 0x03
    Login(Login),
    /// 0x05
    DataOut(DataOut),
    /// 0x06
    Logout(Logout),
    /// 0x10
    Snack(Snack),
}

impl Request {
    /// The kind, as vectors and coverage name it.
    pub fn kind(&self) -> &'static str {
        match self {
            Request::NopOut(_) => "nop-out",
            Request::ScsiCommand(_) => "scsi-command",
            Request::TaskManagement(_) => "task-management",
            Request::Login(_) => "login",
            Request::DataOut(_) => "data-out",
            Request::Logout(_) => "logout",
            Request::Snack(_) => "snack",
        }
    }
}

/// NOP-Out.
#[derive(Clone, Copy, Debug, PartialEq, Eq)]
pub struct NopOut {
    /// Target Transfer Tag.
    pub ttt: u32,
}

/// SCSI Command.
#[derive(Clone, Copy, Debug, PartialEq, Eq)]
pub struct ScsiCommand {
    /// F: no unsolicited data follow.
    pub final_bit: bool,
    /// R: data are read.
    pub read: bool,
    /// W: data are written.
    pub write: bool,
    /// Task attribute.
    pub attribute: u8,
    /// Expected Data Transfer Length.
    pub expected_data_transfer_length: u32,
    /// CDB, bytes 32 to 39 and 40 to 47.
    pub cdb: [u64; 2],
    /// TotalAHSLength, in words of four bytes.
    pub total_ahs_length: u8,
}

/// Task Management Function Request.
#[derive(Clone, Copy, Debug, PartialEq, Eq)]
pub struct TaskManagement {
    /// Function.
    pub function: u8,
    /// Referenced Task Tag.
    pub referenced_task_tag: u32,
    /// RefCmdSN.
    pub ref_cmd_sn: u32,
    /// ExpDataSN.
    pub exp_data_sn: u32,
}

/// Login Request.
#[derive(Clone, Copy, Debug, PartialEq, Eq)]
pub struct Login {
    /// T: go to the next stage.
    pub transit: bool,
    /// C: the text goes on in the next request.
    pub continues: bool,
    /// Current stage.
    pub csg: u8,
    /// Next stage.
    pub nsg: u8,
    /// Version-max.
    pub version_max: u8,
    /// Version-min.
    pub version_min: u8,
    /// Initiator's session identifier, 48 bits.
    pub isid: u64,
    /// Target's session handle.
    pub tsih: u16,
    /// Connection identifier.
    pub cid: u16,
}

/// SCSI Data-Out.
#[derive(Clone, Copy, Debug, PartialEq, Eq)]
pub struct DataOut {
    /// F: the last of its burst.
    pub final_bit: bool,
    /// Target Transfer Tag.
    pub ttt: u32,
    /// DataSN.
    pub data_sn: u32,
    /// Buffer Offset.
    pub buffer_offset: u32,
}

/// Logout Request.
#[derive(Clone, Copy, Debug, PartialEq, Eq)]
pub struct Logout {
    /// Reason code.
    pub reason: u8,
    /// Connection identifier.
    pub cid: u16,
}

/// SNACK Request.
#[derive(Clone, Copy, Debug, PartialEq, Eq)]
pub struct Snack {
    /// Type.
    pub kind: u8,
    /// Target Transfer Tag or SNACK tag.
    pub ttt: u32,
    /// First number of the run.
    pub beg_run: u32,
    /// Numbers in the run.
    pub run_length: u32,
}

//! The eight responses that are written, before they have their numbers. Values are as wide as a caller may state them.

/// A response to write.
#[derive(Clone, Copy, Debug, PartialEq, Eq)]
pub enum Response {
    /// 0x20
    NopIn {
        /// DataSegmentLength.
        data_segment_length: u32,
        /// Logical unit number.
        lun: u64,
        /// Initiator Task Tag.
        itt: u32,
        /// Target Transfer Tag.
        ttt: u32,
    },
    /// 0x21
    Scsi {
        /// O, residual overflow.
        overflow: bool,
        /// U, residual underflow.
        underflow: bool,
        /// iSCSI response.
        response: u8,
        /// SCSI status.
        status: u8,
        /// DataSegmentLength.
        data_segment_length: u32,
        /// Initiator Task Tag.
        itt: u32,
        /// SNACK tag.
        snack_tag: u32,
        /// Residual count.
        residual: u32,
        /// ExpDataSN.
        exp_data_sn: u32,
    },
    /// 0x22
    TaskManagement {
        /// Response.
        response: u8,
        /// Initiator Task Tag.
        itt: u32,
    },
    /// 0x23
    Login {
        /// Current stage.
        csg: u8,
        /// T.
        transit: bool,
        /// Next stage.
        nsg: u8,
        /// DataSegmentLength.
        data_segment_length: u32,
        /// Initiator's session identifier, 48 bits.
        isid: u64,
        /// Target's session handle.
        tsih: u16,
        /// Initiator Task Tag.
        itt: u32,
        /// Status-Class.
        status_class: u8,
        /// Status-Detail.
        status_detail: u8,
    },
    /// 0x25
    DataIn {
        /// F: the last of its burst.
        final_bit: bool,
        /// A: the data are to be acknowledged.
        acknowledge: bool,
        /// DataSegmentLength.
        data_segment_length: u32,
        /// Logical unit number.
        lun: u64,
        /// Initiator Task Tag.
        itt: u32,
        /// Target Transfer Tag.
        ttt: u32,
        /// DataSN.
        data_sn: u32,
        /// Buffer Offset.
        buffer_offset: u32,
    },
    /// 0x26
    Logout {
        /// Response.
        response: u8,
        /// Initiator Task Tag.
        itt: u32,
        /// Time2Wait.
        time2wait: u16,
        /// Time2Retain.
        time2retain: u16,
    },
    /// 0x31
    R2t {
        /// Logical unit number.
        lun: u64,
        /// Initiator Task Tag.
        itt: u32,
        /// Target Transfer Tag.
        ttt: u32,
        /// R2TSN.
        r2t_sn: u32,
        /// Buffer Offset.
        buffer_offset: u32,
        /// Desired Data Transfer Length.
        desired_data_transfer_length: u32,
    },
    /// 0x3f
    Reject {
        /// Reason.
        reason: u8,
    },
}

/// The numbers that a response is written with.
#[derive(Clone, Copy, Debug, PartialEq, Eq)]
pub struct Numbers {
    /// Status number.
    pub stat_sn: u32,
    /// Next command number that the target expects.
    pub exp_cmd_sn: u32,
    /// Last command number that the target takes.
    pub max_cmd_sn: u32,
}

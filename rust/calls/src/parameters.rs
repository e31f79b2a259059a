//! The settled parameters of a login.

/// The twelve keys of document 01's table, each at its value in force. A login starts with the standard values.
#[derive(Clone, Copy, Debug, PartialEq, Eq)]
pub struct Parameters {
    /// MaxConnections
    pub max_connections: u32,
    /// MaxOutstandingR2T
    pub max_outstanding_r2t: u32,
    /// InitialR2T
    pub initial_r2t: bool,
    /// DataPDUInOrder
    pub data_pdu_in_order: bool,
    /// DataSequenceInOrder
    pub data_sequence_in_order: bool,
    /// ImmediateData
    pub immediate_data: bool,
    /// MaxRecvDataSegmentLength
    pub max_recv_data_segment_length: u32,
    /// MaxBurstLength
    pub max_burst_length: u32,
    /// FirstBurstLength
    pub first_burst_length: u32,
    /// DefaultTime2Wait
    pub default_time2wait: u32,
    /// DefaultTime2Retain
    pub default_time2retain: u32,
    /// ErrorRecoveryLevel
    pub error_recovery_level: u32,
}

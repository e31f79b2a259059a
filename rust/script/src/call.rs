//! The calls of a script and their answers, as data.

use calls::{
    Came, DataInPdu, HEADER_BYTES, Holder, LoginAnswer, LogoutCounts, Numbers, Offer, Out,
    Parameters, Pdu, Refusal, Response, Run, Task, TaskGiven, Window,
};

/// A call. `lent` is the length of the output that it lends, `task` the number of the task's record, below
/// [`TASKS`](crate::TASKS); where a send or a resend has none, it goes with a fresh record.
#[derive(Clone, Debug, PartialEq, Eq)]
pub enum Call {
    /// `session`
    Session {
        /// First command number.
        first: u32,
        /// Connection 0's first StatSN.
        stat_sn: u32,
        /// ErrorRecoveryLevel.
        level: u8,
    },
    /// `offer`
    Offer {
        /// Connection number.
        connection: u32,
        /// Ticket.
        ticket: u32,
        /// The PDU.
        pdu: Vec<u8>,
    },
    /// `take`
    Take {
        /// Length lent.
        lent: usize,
    },
    /// `logout`
    Logout {
        /// Connection number.
        connection: u32,
        /// Reason code.
        reason: u8,
    },
    /// `open`
    Open {
        /// Connection number.
        connection: u32,
        /// First StatSN.
        stat_sn: u32,
    },
    /// `send`
    Send {
        /// Connection number.
        connection: u32,
        /// Ticket.
        ticket: u32,
        /// Length lent.
        lent: usize,
        /// Number of the record.
        task: Option<u8>,
        /// The response. A script's is a status, and its ExpDataSN is 0.
        response: Response,
    },
    /// `ack`
    Acknowledge {
        /// Connection number.
        connection: u32,
        /// ExpStatSN.
        exp_stat_sn: u32,
    },
    /// `snack`
    Snack {
        /// Connection number.
        connection: u32,
        /// The PDU.
        pdu: Vec<u8>,
    },
    /// `resend`
    Resend {
        /// Connection number.
        connection: u32,
        /// StatSN.
        stat_sn: u32,
        /// Length lent.
        lent: usize,
        /// Number of the record.
        task: Option<u8>,
    },
    /// `window`
    Window,
    /// `next`
    Next {
        /// Connection number.
        connection: u32,
    },
    /// `holder`
    Holder {
        /// Command number.
        number: u32,
    },
    /// `task`
    Task {
        /// Number of the record.
        task: u8,
        /// What the record is made from.
        given: TaskGiven,
    },
    /// `data-in`
    DataIn {
        /// Connection number.
        connection: u32,
        /// Number of the record.
        task: u8,
        /// Length lent.
        lent: usize,
        /// F, A and the data length.
        pdu: DataInPdu,
    },
    /// `r2t`
    R2t {
        /// Connection number.
        connection: u32,
        /// Number of the record.
        task: u8,
        /// Length lent.
        lent: usize,
        /// Target Transfer Tag.
        tag: u32,
        /// Desired Data Transfer Length.
        length: u32,
    },
    /// `data-out`
    DataOut {
        /// Connection number.
        connection: u32,
        /// Number of the record.
        task: u8,
        /// The PDU.
        pdu: Vec<u8>,
    },
    /// `data-snack`
    DataSnack {
        /// Connection number.
        connection: u32,
        /// Number of the record.
        task: u8,
        /// Where Data-In goes on after a type 3.
        offset: u32,
        /// The PDU.
        pdu: Vec<u8>,
    },
    /// `record`, which shows a record.
    Record {
        /// Number of the record.
        task: u8,
    },
    /// `record` with a record's words, which sets it.
    SetRecord {
        /// Number of the record.
        task: u8,
        /// The record.
        record: Task,
    },
    /// `length`
    Length {
        /// The PDU, or its first bytes.
        header: Vec<u8>,
    },
    /// `read`
    Read {
        /// The PDU.
        pdu: Vec<u8>,
    },
    /// `write`
    Write {
        /// Length lent.
        lent: usize,
        /// The numbers to write.
        numbers: Numbers,
        /// The response.
        response: Response,
    },
    /// `login-begin`
    LoginBegin {
        /// The target's name.
        name: Vec<u8>,
    },
    /// `login`
    Login {
        /// The live session's handle.
        live: u16,
        /// The new handle.
        new: u16,
        /// Length lent of the gather area.
        gather: u32,
        /// Length lent of the text output.
        text: u32,
        /// The PDU.
        pdu: Vec<u8>,
    },
    /// `params`
    Params,
}

impl Call {
    /// The number of the record that the call is given, or sets or shows.
    pub fn task(&self) -> Option<u8> {
        match self {
            Call::Task { task, .. }
            | Call::DataIn { task, .. }
            | Call::R2t { task, .. }
            | Call::DataOut { task, .. }
            | Call::DataSnack { task, .. }
            | Call::Record { task }
            | Call::SetRecord { task, .. } => Some(*task),
            Call::Send { task, .. } | Call::Resend { task, .. } => *task,
            _ => None,
        }
    }
}

/// An answer, with the bytes that it shows.
#[derive(Clone, Debug, PartialEq, Eq)]
pub enum Answer {
    /// A fresh session.
    Session,
    /// To an offer.
    Offered(Offer),
    /// To a take: nothing.
    Nothing,
    /// To a take: a void number.
    Void(u32),
    /// To a take: a command.
    Out(Out, [u8; HEADER_BYTES]),
    /// To a logout.
    LoggedOut(LogoutCounts),
    /// To an opening.
    Opened,
    /// To a send: StatSN and header.
    Sent(u32, [u8; HEADER_BYTES]),
    /// To an acknowledgement: the count released; to a data SNACK of type 2: the count newly acknowledged.
    Acknowledged(u32),
    /// To a SNACK, of statuses or of data.
    Run(Run),
    /// To a resend: ticket and header.
    Resent(u32, [u8; HEADER_BYTES]),
    /// Both window numbers.
    Window(Window),
    /// The next StatSN of a connection.
    Next(u32),
    /// Who holds a number.
    Holder(Holder),
    /// A task's record is made.
    Task,
    /// To a Data-In: its header.
    DataIn([u8; HEADER_BYTES]),
    /// To an R2T: its header.
    R2t([u8; HEADER_BYTES]),
    /// To a Data-Out.
    Came(Came),
    /// A task's record.
    Record(Task),
    /// A task's record is set.
    RecordSet,
    /// The whole length of a PDU.
    Length(u32),
    /// A PDU read.
    Read(Pdu),
    /// A header written.
    Written([u8; HEADER_BYTES]),
    /// A fresh login.
    LoginBegun,
    /// To a login request, with its text.
    Login(LoginAnswer, Vec<u8>),
    /// The parameters in force.
    Params(Parameters),
    /// To any call.
    Refused(Refusal),
}

//! Refusals, with the numbers of document 01.

/// Why a call was refused. A refusal changes nothing, but [`Refusal::Login`] ends that login.
#[derive(Clone, Copy, Debug, PartialEq, Eq, Hash, PartialOrd, Ord)]
pub enum Refusal {
    /// A lent output is too short.
    Buffer,
    /// Byte 0 names no request that is read here.
    Opcode,
    /// A field rule is broken.
    Field,
    /// The input isn't exactly the PDU that its header states.
    Length,
    /// DataSegmentLength is above the limit.
    TooLong,
    /// A rule of the login refuses, with this status (class and detail).
    Login(u16),
    /// No such connection number.
    NoConn,
    /// The connection isn't open, or the login is over.
    Closed,
    /// The connection to open is open.
    Open,
    /// 32 statuses are unacknowledged.
    Full,
    /// An ExpStatSN outside the ledger.
    Stale,
    /// A run or number not wholly held, a SNACK of another type, or ErrorRecoveryLevel 0.
    Snack,
}

impl Refusal {
    /// The number that document 01 gives this refusal.
    pub fn number(self) -> u8 {
        match self {
            Refusal::Buffer => 1,
            Refusal::Opcode => 2,
            Refusal::Field => 3,
            Refusal::Length => 4,
            Refusal::TooLong => 5,
            Refusal::Login(_) => 6,
            Refusal::NoConn => 7,
            Refusal::Closed => 8,
            Refusal::Open => 9,
            Refusal::Full => 10,
            Refusal::Stale => 11,
            Refusal::Snack => 12,
        }
    }

    /// The status that comes with number 6.
    pub fn status(self) -> Option<u16> {
        match self {
            Refusal::Login(status) => Some(status),
            _ => None,
        }
    }
}

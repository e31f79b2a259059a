//! What the calls of a session and of a login answer where they aren't refused.

/// The answer to an offer.
#[derive(Clone, Copy, Debug, PartialEq, Eq, Hash, PartialOrd, Ord)]
pub enum Offer {
    /// The command is held from now on.
    Kept,
    /// Its number is held already.
    Duplicate,
    /// Its number was handed out.
    Passed,
    /// Its number is outside the window and wasn't handed out.
    Beyond,
    /// An immediate command: nothing changes.
    Immediate,
}

/// The answer to a take.
#[derive(Clone, Copy, Debug, PartialEq, Eq)]
pub enum Take {
    /// The next number isn't held.
    Nothing,
    /// The next number is handed out as void: its command went with a logout.
    Void(u32),
    /// A command is handed out; its header stands in the lent output.
    Out(Out),
}

/// A command that was handed out.
#[derive(Clone, Copy, Debug, PartialEq, Eq)]
pub struct Out {
    /// Its number.
    pub cmd_sn: u32,
    /// The ticket given with the offer.
    pub ticket: u32,
    /// The connection it came on, or none after a logout for recovery.
    pub origin: Option<u8>,
}

/// Who holds a command number.
#[derive(Clone, Copy, Debug, PartialEq, Eq)]
pub enum Holder {
    /// Nobody: the number isn't held.
    Free,
    /// It is held as void until it is handed out: its command went with a logout.
    Void,
    /// A command is held.
    Held {
        /// The ticket given with the offer that was kept.
        ticket: u32,
        /// The connection it came on, or none after a logout for recovery.
        origin: Option<u8>,
    },
}

/// The answer to a logout.
#[derive(Clone, Copy, Debug, PartialEq, Eq)]
pub struct LogoutCounts {
    /// Commands emptied.
    pub emptied: u32,
    /// Commands newly voided.
    pub voided: u32,
}

/// The answer to a SNACK: a run of held status numbers, or of a task's Data-In and R2T.
#[derive(Clone, Copy, Debug, PartialEq, Eq)]
pub struct Run {
    /// The first number, the next one where none is held.
    pub first: u32,
    /// How many.
    pub count: u32,
}

/// Both numbers of the command window.
#[derive(Clone, Copy, Debug, PartialEq, Eq)]
pub struct Window {
    /// The next number wanted.
    pub exp_cmd_sn: u32,
    /// The last number that is kept.
    pub max_cmd_sn: u32,
}

/// The answer to a login request; its text stands in the first bytes of the lent output.
#[derive(Clone, Copy, Debug, PartialEq, Eq)]
pub struct LoginAnswer {
    /// The stage after the call: 0, 1 or 3.
    pub stage: u8,
    /// T.
    pub transit: bool,
    /// CSG, as in the request.
    pub csg: u8,
    /// NSG, 0 where T is clear.
    pub nsg: u8,
    /// Target's session handle.
    pub tsih: u16,
    /// Length of the text.
    pub text_length: usize,
}

//! The words that every engine and every tool here share: requests and responses as data, answers, refusals with
//! the numbers of document 01, and the trait [`Engine`] of everything that answers the calls.
//!
//! There is no rule of the protocol in this crate, only names: the engines that are compared share it.

mod answer;
mod engine;
mod parameters;
mod refusal;
mod request;
mod response;
mod task;

pub use answer::{Holder, LoginAnswer, LogoutCounts, Offer, Out, Run, Take, Window};
pub use engine::Engine;
pub use parameters::Parameters;
pub use refusal::Refusal;
pub use request::{
    Data, DataOut, Login, Logout, NopOut, Pdu, Request, ScsiCommand, Snack, TaskManagement,
};
pub use response::{Numbers, Response};
pub use task::{Came, DataInPdu, DataSnack, OpenR2t, Task, TaskGiven};

/// Bytes of a PDU's header.
pub const HEADER_BYTES: usize = 48;
/// Least length of a lent gather area and of a lent text output.
pub const TEXT_BYTES: usize = 8192;

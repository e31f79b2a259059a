//! Drawbevel for Rust: safe functions over the proved static library, with the rules' names as enums. Everything unsafe
//! stands in one module; what crosses the boundary are numbers, slices and arrays of fixed size.

mod engine;
mod ffi;
mod header;
mod login;
pub mod login_response;
mod session;
mod task;
mod words;

pub use calls::{
    Came, Data, DataInPdu, DataSnack, Engine, Holder, LoginAnswer, LogoutCounts, Numbers, Offer,
    OpenR2t, Out, Parameters, Pdu, Refusal, Request, Response, Run, Take, TaskGiven, Window,
};
pub use engine::Drawbevel;
pub use header::{length, read, write};
pub use login::Login;
pub use session::Session;
pub use task::{Task, TooManyOpen};

/// The fields of each request kind.
pub mod request {
    pub use calls::{DataOut, Login, Logout, NopOut, ScsiCommand, Snack, TaskManagement};
}

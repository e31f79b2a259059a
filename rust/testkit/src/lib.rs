//! What the tests share: request PDUs built byte by byte, a seeded generator of numbers, the boundaries of document 01's
//! rules as checks that any engine can be put to, engines with faults to find, and C programs compiled and run.

pub mod c;
pub mod fault;
pub mod pdu;
pub mod rng;
pub mod traps;

pub use fault::{Broken, Fault};
pub use pdu::Bytes;
pub use rng::Rng;

//! The C functions themselves, by the words that they are lent. The bindings and the engines can only say what a typed response can;
//! C can lend any word, and any array. What must come back is written here from document 01, not from the core.

// The proved library is linked with the bindings.
use drawbevel as _;

mod coverage;
mod expected;
mod kinds;
mod login_refusals;
mod order;
mod questions;
mod random;
mod raw;
mod read_refusals;
mod read_words;
mod session_refusals;
mod stand;
mod task;
mod widths;

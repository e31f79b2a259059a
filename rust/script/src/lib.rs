//! The call script: calls as lines, played on one engine, one answer line for each. The tool with which two engineers
//! settle what a session did: the same script always gives the same answers.

mod call;
mod line;
mod parse;
mod play;
mod player;
mod record;
mod show;
mod word;

pub use call::{Answer, Call};
pub use line::call_line;
pub use parse::parse;
pub use play::play;
pub use player::{FILL, Played, Player};
pub use record::may_be_set;
pub use show::{answer_line, hex};

/// Longest line, without its line feed.
pub const LONGEST_LINE: usize = 65_536;
/// How many tasks' records are kept.
pub const TASKS: usize = 16;
/// The name of the target before the first `login-begin`.
pub const TARGET_NAME: &[u8] = b"iqn.2026-11.example:drawbevel";

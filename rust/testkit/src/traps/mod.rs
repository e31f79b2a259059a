//! The boundaries of document 01's and the requests' rules, as checks for any engine. The names carry the number of the trap in the
//! project's list of places where a careless reader goes wrong.

mod data_headers;
mod ledger;
mod login;
mod login_keys;
mod login_steps;
pub mod long;
mod questions;
mod reading;
mod sequences;
mod tasks;
mod window;
mod writing;

pub use login_keys::LIBISCSI;

use calls::{Engine, HEADER_BYTES, Response, Task};

/// A check: it panics where the engine is wrong.
pub type Check = fn(&mut dyn Engine);

/// Makes the list of a file's checks.
macro_rules! checks {
    ($($name:ident),* $(,)?) => {
        /// The checks of this file, by name.
        pub(crate) const CHECKS: &[(&str, $crate::traps::Check)] = &[$((stringify!($name), $name)),*];
    };
}
use checks;

/// Every check, by name.
pub fn all() -> Vec<(&'static str, Check)> {
    let files = [
        reading::CHECKS,
        writing::CHECKS,
        data_headers::CHECKS,
        window::CHECKS,
        ledger::CHECKS,
        questions::CHECKS,
        tasks::CHECKS,
        tasks::data_in::CHECKS,
        tasks::r2t::CHECKS,
        tasks::data_out::CHECKS,
        tasks::data_snack::CHECKS,
        tasks::status::CHECKS,
        login::CHECKS,
        login_steps::CHECKS,
        login_keys::CHECKS,
        sequences::CHECKS,
    ];
    files.concat()
}

/// Put a fresh engine to each check; panics with the names of those that fail.
pub fn run<E: Engine>(fresh: impl Fn() -> E + std::panic::RefUnwindSafe) {
    let failed = failures(fresh);
    assert!(failed.is_empty(), "failed: {failed:?}");
}

/// The names of the checks that fail.
pub fn failures<E: Engine>(fresh: impl Fn() -> E + std::panic::RefUnwindSafe) -> Vec<&'static str> {
    let mut failed = Vec::new();
    for (name, check) in all() {
        if std::panic::catch_unwind(|| check(&mut fresh())).is_err() {
            failed.push(name);
        }
    }
    failed
}

/// The byte that a lent output is filled with.
const FILL: u8 = 0xee;

/// The record that a response other than a SCSI Response goes with: none of it is looked at.
static NO_TASK: Task = Task::fresh_for(0);

/// A task management response: the plainest status.
fn plain(itt: u32) -> Response {
    Response::TaskManagement { response: 0, itt }
}

/// Send a plain status and give its StatSN.
fn send(e: &mut dyn Engine, connection: u32, ticket: u32) -> u32 {
    let mut out = [FILL; HEADER_BYTES];
    e.send(connection, ticket, &NO_TASK, &mut out, &plain(ticket))
        .unwrap()
}

//! Where the calls come from.

mod damage;
mod headers;
mod logins;
mod records;
mod responses;
mod sessions;
mod tasks;
mod text;

use calls::Task;
use script::{Answer, Call};
use testkit::Rng;

/// What a stretch of calls is about.
#[derive(Clone, Copy, Debug, PartialEq, Eq)]
pub enum Area {
    /// Reading and writing headers.
    Headers,
    /// Logins.
    Logins,
    /// Sessions.
    Sessions,
    /// The data of tasks, in sessions.
    Tasks,
}

impl Area {
    /// All areas.
    pub const ALL: [Area; 4] = [Area::Headers, Area::Logins, Area::Sessions, Area::Tasks];

    /// Calls in a row before the next area's turn. A session is one stretch: long enough to go deep. So are the records of
    /// tasks: a stretch makes or sets each one before it counts on it.
    pub(crate) fn stretch(self) -> usize {
        match self {
            Area::Headers => 300,
            Area::Logins => 600,
            Area::Sessions => 1200,
            Area::Tasks => 1500,
        }
    }
}

/// Makes the calls of one stretch.
pub enum Generator {
    Headers,
    Logins(logins::Logins),
    Sessions(Box<sessions::Sessions>),
    Tasks(Box<tasks::Tasks>),
}

impl Generator {
    pub fn new(area: Area, rng: &mut Rng) -> Self {
        match area {
            Area::Headers => Generator::Headers,
            Area::Logins => Generator::Logins(logins::Logins::default()),
            Area::Sessions => Generator::Sessions(Box::new(sessions::Sessions::new(rng))),
            Area::Tasks => Generator::Tasks(Box::new(tasks::Tasks::new(rng))),
        }
    }

    /// The next call.
    pub fn call(&mut self, rng: &mut Rng) -> Call {
        match self {
            Generator::Headers => headers::call(rng),
            Generator::Logins(logins) => logins.call(rng),
            Generator::Sessions(sessions) => sessions.call(rng),
            Generator::Tasks(tasks) => tasks.call(rng),
        }
    }

    /// Learn what was answered, and the records as they are now, so that later calls go where something is.
    pub fn saw(&mut self, call: &Call, answer: &Answer, tasks: &[Task]) {
        match self {
            Generator::Headers => {}
            Generator::Logins(logins) => logins.saw(call, answer),
            Generator::Sessions(sessions) => sessions.saw(call, answer),
            Generator::Tasks(generator) => generator.saw(call, answer, tasks),
        }
    }
}

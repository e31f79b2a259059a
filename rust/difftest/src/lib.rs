//! Differential tests: random and hostile calls through two engines, their answers and every lent byte compared, and
//! a record of what was reached, so that a clean run that reached nothing isn't taken for a proof of anything.

mod compare;
mod coverage;
mod generate;
mod seed;

pub use compare::{Difference, Report, run};
pub use coverage::{Coverage, required};
pub use generate::Area;
pub use seed::seed;

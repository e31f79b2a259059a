//! The benchmark's own engine: the same rules by hand-optimised Rust, as fast as a careful engineer writes them without
//! a proof. The ratios are to it. And sessions of each engine with records in its own form.

mod fast;
pub mod sessions;

pub use fast::Fast;

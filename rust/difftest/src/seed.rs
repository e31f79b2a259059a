//! The seed of a run: always printed, and to be chosen where a run is to be repeated or varied.

use std::io::Write;

/// The environment's `DRAWBEVEL_SEED`, or else the seed given; says which on standard error, also where a test's output
/// is captured.
pub fn seed(usual: u64) -> u64 {
    let chosen = std::env::var("DRAWBEVEL_SEED").ok();
    let seed = chosen.and_then(|word| word.parse().ok()).unwrap_or(usual);
    // Not by `eprintln!`, which a test that passes swallows.
    let _ = writeln!(
        std::io::stderr(),
        "seed {seed} (DRAWBEVEL_SEED chooses another)"
    );
    seed
}

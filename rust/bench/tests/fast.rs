//! The hand-optimised engine answers as the model does: a ratio to a wrong program would say nothing.

use bench::Fast;
use difftest::{Area, run, seed};
use model::Model;

const SEED: u64 = 51_197_143;

#[test]
fn the_fast_engine_passes_every_trap() {
    testkit::traps::run(Fast::default);
}

#[test]
fn the_fast_engine_answers_as_the_model() {
    let seed = seed(SEED);
    let report = run(Model::default(), Fast::default(), seed, 420_000, &Area::ALL).unwrap();
    report.coverage.assert_whole();
}

/// Minutes: `cargo test --release -p bench -- --ignored`.
#[test]
#[ignore = "hands out 2^31 commands"]
fn the_fast_engine_forgets_after_2_31_hand_outs() {
    testkit::traps::long::trap_14_passed_ends_after_2_31(&mut Fast::default());
}

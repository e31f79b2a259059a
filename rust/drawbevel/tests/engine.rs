//! The proved library against the model, call by call.

use difftest::{Area, run, seed};
use drawbevel::Drawbevel;
use model::Model;

const SEED: u64 = 48_000_001;

#[test]
fn the_proved_library_passes_every_trap() {
    testkit::traps::run(Drawbevel::default);
}

#[test]
fn the_proved_library_answers_as_the_model() {
    let report = run(
        Model::default(),
        Drawbevel::default(),
        seed(SEED),
        420_000,
        &Area::ALL,
    )
    .unwrap();
    assert!(report.calls >= 200_000);
    report.coverage.assert_whole();
}

/// Minutes: `cargo test --release -p drawbevel -- --ignored`.
#[test]
#[ignore = "hands out 2^31 commands"]
fn the_proved_library_forgets_after_2_31_hand_outs() {
    testkit::traps::long::trap_14_passed_ends_after_2_31(&mut Drawbevel::default());
}

//! The model at every boundary of document 01's rules.

#[test]
fn the_model_passes_every_trap() {
    testkit::traps::run(model::Model::default);
}

#[test]
fn the_traps_find_every_fault() {
    use testkit::{Broken, Fault};
    let silent = std::panic::take_hook();
    std::panic::set_hook(Box::new(|_| {}));
    let found = |fault| {
        !testkit::traps::failures(|| Broken::new(model::Model::default(), fault)).is_empty()
    };
    let missed: Vec<_> = Fault::ALL
        .into_iter()
        .filter(|&fault| !found(fault))
        .collect();
    let sound = !found(Fault::None);
    std::panic::set_hook(silent);
    assert!(missed.is_empty(), "not found: {missed:?}");
    assert!(sound, "the wrapper itself fails");
}

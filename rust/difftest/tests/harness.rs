//! The harness itself: it is clean where engines agree, it finds every fault, and it isn't content with a run that
//! left something out.

use difftest::{Area, run, seed};
use model::Model;
use testkit::{Broken, Fault};

const CALLS: usize = 360_000;
const SEED: u64 = 20_261_115;

fn broken(fault: Fault) -> Broken<Model> {
    Broken::new(Model::default(), fault)
}

#[test]
fn two_right_engines_agree_and_everything_is_reached() {
    let report = run(
        Model::default(),
        broken(Fault::None),
        seed(SEED),
        CALLS,
        &Area::ALL,
    )
    .unwrap();
    assert!(report.calls >= 200_000);
    report.coverage.assert_whole();
}

#[test]
fn every_fault_is_found() {
    let seed = seed(SEED);
    let found = |fault| run(Model::default(), broken(fault), seed, CALLS, &Area::ALL).is_err();
    let missed: Vec<_> = Fault::ALL
        .into_iter()
        .filter(|fault| !Fault::UNSCRIPTED.contains(fault))
        .filter(|&fault| !found(fault))
        .collect();
    assert!(missed.is_empty(), "not found: {missed:?}");
}

#[test]
fn a_difference_is_shown_as_a_script() {
    // The second is seen in a task's record first.
    for fault in [Fault::FullWindowLooksEmpty, Fault::Type3KeepsBurst] {
        let difference = run(Model::default(), broken(fault), SEED, CALLS, &Area::ALL).unwrap_err();
        let play = |engine: Broken<Model>| {
            let mut answers = Vec::new();
            script::play(engine, &difference.script[..], &mut answers).unwrap();
            answers
        };
        assert_ne!(play(broken(Fault::None)), play(broken(fault)));
    }
}

#[test]
fn what_is_missing_is_named_where_an_area_is_left_out() {
    for (left_out, mark) in [
        (Area::Headers, "read: task-management"),
        (Area::Logins, "login: gathered and judged"),
        (Area::Sessions, "window: 64 held without a gap"),
        (Area::Tasks, "data-out: F one byte early, FIELD"),
    ] {
        let areas: Vec<_> = Area::ALL
            .into_iter()
            .filter(|&area| area != left_out)
            .collect();
        let report = run(Model::default(), Model::default(), SEED, CALLS, &areas).unwrap();
        assert!(
            report.coverage.missing().iter().any(|each| each == mark),
            "{left_out:?}"
        );
    }
}

/// Two engines with the same hollow answers agree on everything; only what they never reach gives them away.
#[test]
fn hollow_engines_that_agree_are_given_away() {
    for (fault, mark) in [
        (Fault::OfferAlwaysBeyond, "offer: kept"),
        (Fault::TakeAlwaysNothing, "take: out"),
        (Fault::LoginAlwaysRefused, "login: answer, T set"),
        (Fault::VoidIsNothing, "take: void"),
        (Fault::HolderAlwaysFree, "holder: held"),
        (Fault::EmptyDataOut, "data-out: empty, F clear"),
        (Fault::FOneEarly, "data-out: F one byte early, FIELD"),
        (Fault::R2tOneFewer, "r2t: the eighth open"),
    ] {
        let report = run(broken(fault), broken(fault), SEED, CALLS, &Area::ALL).unwrap();
        assert!(
            report.coverage.missing().iter().any(|each| each == mark),
            "{fault:?}"
        );
    }
}

#[test]
#[should_panic(expected = "not reached")]
fn the_coverage_assertion_fails_where_little_was_played() {
    let report = run(Model::default(), Model::default(), SEED, 3_000, &Area::ALL).unwrap();
    report.coverage.assert_whole();
}

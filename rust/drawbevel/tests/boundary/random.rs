//! A seeded run of sends and writes of any words, over sessions with open, closed and full connections. After each call the answer,
//! every lent byte and every array are what document 01 says.

mod fault;
mod generate;
mod marks;
mod pair;

use crate::coverage::Coverage;
use difftest::seed;
use fault::Fault;
use generate::{connection, lent, task, words};
use marks::Call;
use pair::{Checked, Pair, is_ping};
use testkit::Rng;

const SEED: u64 = 17_000_003;
/// Sends and writes of a run.
const CALLS: usize = 200_000;
/// Sends and writes on one session.
const STRETCH: usize = 250;

/// One send or write, with what was seen of it.
fn step(pair: &mut Pair, rng: &mut Rng, coverage: &mut Coverage) -> Checked<()> {
    let (words, lent) = (words(rng), lent(rng));
    let (call, answer) = if rng.one_in(4) {
        let numbers = [rng.u32(), rng.u32(), rng.u32()];
        (Call::Write, pair.write(&words, lent, numbers)?)
    } else {
        let connection = connection(rng);
        let task = task(rng, &words);
        let at_full = marks::at_full(&words).filter(|_| pair.is_full(connection));
        let answer = pair.send(connection, rng.u32(), &task, &words, lent)?;
        if let Some((mark, said)) = at_full
            && said == answer
        {
            coverage.saw(mark);
        }
        (Call::Send, answer)
    };
    marks::saw(coverage, call, &words, lent, answer);
    Ok(())
}

/// A whole run: what it reached, or the first call that was answered otherwise.
fn run(seed: u64, calls: usize, fault: Fault) -> Checked<Coverage> {
    let mut rng = Rng::new(seed);
    let mut coverage = Coverage::default();
    for _ in 0..calls.div_ceil(STRETCH) {
        let mut pair = Pair::fresh(&mut rng, fault);
        for _ in 0..STRETCH {
            if rng.one_in(12) {
                pair.travel(&mut rng)?;
            }
            step(&mut pair, &mut rng, &mut coverage)?;
        }
        pair.same_ledgers(2 * STRETCH as u32)?;
    }
    Ok(coverage)
}

#[test]
fn sends_and_writes_of_any_words_are_answered_as_the_rules_say() {
    match run(seed(SEED), CALLS, Fault::None) {
        Ok(coverage) => coverage.assert_seen(marks::required()),
        Err(difference) => panic!("{difference}"),
    }
}

#[test]
fn the_run_finds_every_fault() {
    let is_missed = |fault: &Fault| run(SEED, CALLS, *fault).is_ok();
    let missed: Vec<_> = Fault::ALL.into_iter().filter(is_missed).collect();
    assert!(missed.is_empty(), "not found: {missed:?}");
}

#[test]
#[should_panic(expected = "not reached")]
fn a_run_that_reached_nothing_does_not_pass() {
    Coverage::default().assert_seen(marks::required());
}

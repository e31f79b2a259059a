//! `difftest [SEED [CALLS]]`: the model against itself, and what was reached. A tool for those who change the calls'
//! generators; the tests run the engines that matter.

use difftest::{Area, run};
use model::Model;

fn main() {
    let mut arguments = std::env::args()
        .skip(1)
        .map(|word| word.parse::<u64>().expect("a number"));
    let seed = arguments.next().unwrap_or(1);
    let calls = arguments.next().unwrap_or(360_000) as usize;
    println!("seed {seed}");
    let report =
        run(Model::default(), Model::default(), seed, calls, &Area::ALL).expect("no difference");
    for (mark, count) in report.coverage.seen() {
        println!("{count:9} {mark}");
    }
    println!(
        "{} calls; missing: {:#?}",
        report.calls,
        report.coverage.missing()
    );
}

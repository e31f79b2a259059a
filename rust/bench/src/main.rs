//! `cargo run --release -p bench`: nanoseconds per call of every engine, side by side in one run, the median of several
//! rounds, with ratios to the hand-optimised one, which the compiler may make a part of the loop that calls it; the calls with a record also beside it
//! behind calls; then what a long history and a long transfer cost.
//!
//! `-- --before PROGRAM`: the library beside an older one, with which PROGRAM, another build of this benchmark, is linked
//! (`DRAWBEVEL_STATICLIB=OLDER/libcapi.a cargo build --release -p bench --target-dir OTHER`); the two take turns.
//! `-- --column`: one round of the library's times, a line each; this is what the other build is asked for.

mod cases;
mod data;
mod history;
mod table;
mod timing;
mod transfer;

use bench::{Fast, sessions};
use calls::Engine;
use drawbevel::Drawbevel;
use model::Model;

const ROUNDS: usize = 9;

fn main() {
    let words: Vec<String> = std::env::args().skip(1).collect();
    match words.iter().map(String::as_str).collect::<Vec<_>>()[..] {
        [] => beside_others(),
        ["--column"] => table::print_round(&all::<Drawbevel, sessions::Drawbevel>()),
        ["--before", program] => beside_older(program),
        _ => {
            eprintln!("bench: no words, --column, or --before PROGRAM");
            std::process::exit(2)
        }
    }
}

/// The library and an older one.
fn beside_older(program: &str) {
    println!("median of {ROUNDS} rounds, the libraries in turn");
    let mut columns = [
        table::Column::of_other("before", program.into()),
        table::Column::new("now", all::<Drawbevel, sessions::Drawbevel>()),
    ];
    for _ in 0..ROUNDS {
        columns.iter_mut().for_each(table::Column::measure);
    }
    table::print(&columns);
}

/// Every engine.
fn beside_others() {
    println!(
        "median of {ROUNDS} rounds, engines in turn; lent outputs are not cleared between calls"
    );
    let mut columns = [
        table::Column::new("hand-optimised", all::<Fast, sessions::Fast>()),
        table::Column::new("Drawbevel", all::<Drawbevel, sessions::Drawbevel>()),
        table::Column::new("model", all::<Model, sessions::Modelled>()),
    ];
    let mut called = [
        table::Column::new("called", data::all::<sessions::Called>()),
        table::Column::new("Drawbevel", data::all::<sessions::Drawbevel>()),
    ];
    for _ in 0..ROUNDS {
        for column in columns.iter_mut().chain(&mut called) {
            column.measure();
        }
    }
    table::print(&columns);
    println!("\nthe hand-optimised one behind calls, as a library is");
    table::print(&called);
    println!();
    history::print(&[
        ("hand-optimised", history::times::<sessions::Fast>()),
        ("Drawbevel", history::times::<sessions::Drawbevel>()),
        ("model", history::times::<sessions::Modelled>()),
    ]);
    println!();
    transfer::print(&[
        ("hand-optimised", transfer::times::<sessions::Fast>()),
        ("called", transfer::times::<sessions::Called>()),
        ("Drawbevel", transfer::times::<sessions::Drawbevel>()),
        ("model", transfer::times::<sessions::Modelled>()),
    ]);
}

/// The calls without a record, then those with one.
fn all<E: Engine + Default, S: sessions::Session>() -> Vec<cases::Case> {
    let mut all = cases::all::<E>();
    all.extend(data::all::<S>());
    all
}

//! The table: a row for each case, a column for each engine, and the ratios to the first.

use crate::cases::Case;
use crate::timing::median;
use std::path::PathBuf;
use std::process::Command;

/// A round: the name and the time of each row.
type Round = Vec<(String, f64)>;

/// Who measures a column.
enum Source {
    Here(Vec<Case>),
    /// Another build of this program, asked for `--column` round by round.
    Other(PathBuf),
}

/// An engine and what was measured.
pub struct Column {
    name: &'static str,
    source: Source,
    rounds: Vec<Round>,
}

impl Column {
    pub fn new(name: &'static str, cases: Vec<Case>) -> Self {
        Column::of(name, Source::Here(cases))
    }

    /// The column of the library that this build of the benchmark is linked with.
    pub fn of_other(name: &'static str, program: PathBuf) -> Self {
        Column::of(name, Source::Other(program))
    }

    fn of(name: &'static str, source: Source) -> Self {
        let rounds = Vec::new();
        Column {
            name,
            source,
            rounds,
        }
    }

    /// One more round.
    pub fn measure(&mut self) {
        let round = match &self.source {
            Source::Here(cases) => cases
                .iter()
                .map(|(name, case)| (name.to_string(), case()))
                .collect(),
            Source::Other(program) => round_of(program),
        };
        self.rounds.push(round);
    }

    /// The median of a row, if it was measured.
    fn time(&self, row: &str) -> Option<f64> {
        let times: Vec<f64> = self
            .rounds
            .iter()
            .flatten()
            .filter(|(name, _)| name == row)
            .map(|(_, time)| *time)
            .collect();
        (!times.is_empty()).then(|| median(&times))
    }
}

/// One round of another build.
fn round_of(program: &PathBuf) -> Round {
    let output = Command::new(program)
        .arg("--column")
        .output()
        .unwrap_or_else(|error| panic!("cannot run {}: {error}", program.display()));
    assert!(output.status.success(), "{} failed", program.display());
    let text = String::from_utf8(output.stdout).expect("text");
    text.lines()
        .map(|line| {
            let (name, time) = line.split_once('\t').expect("a name, a tab, a time");
            (name.to_string(), time.parse().expect("a time"))
        })
        .collect()
}

/// Print a round of these cases, a line each, for another build.
pub fn print_round(cases: &[Case]) {
    for (name, case) in cases {
        println!("{name}\t{}", case());
    }
}

/// Print the medians of the last column's rows, with ratios to the first column.
pub fn print(columns: &[Column]) {
    let mut head = format!("{:24}", "ns");
    for (place, column) in columns.iter().enumerate() {
        head += &format!("{:>16}", column.name);
        if place > 0 {
            head += &format!("{:>9}", "ratio");
        }
    }
    println!("{head}");
    let rows = &columns[columns.len() - 1].rounds[0];
    for (row, _) in rows {
        let mut line = format!("{row:24}");
        let base = columns[0].time(row);
        for (place, column) in columns.iter().enumerate() {
            let time = column.time(row);
            line += &shown(time, 16, 1);
            if place > 0 {
                let ratio = time.zip(base).map(|(time, base)| time / base);
                line += &shown(ratio, 9, 2);
            }
        }
        println!("{line}");
    }
}

/// A number, or a dash where there is none.
fn shown(number: Option<f64>, width: usize, digits: usize) -> String {
    match number {
        Some(number) => format!("{number:width$.digits$}"),
        None => format!("{:>width$}", "-"),
    }
}

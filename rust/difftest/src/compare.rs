//! Two engines side by side.

use crate::coverage::Coverage;
use crate::generate::{Area, Generator};
use calls::{Engine, Task};
use script::{Call, Played, Player, answer_line, call_line};
use std::fmt;
use testkit::Rng;

/// What a clean run did.
#[derive(Debug)]
pub struct Report {
    /// How many calls were played on each engine.
    pub calls: usize,
    /// What they reached.
    pub coverage: Coverage,
}

/// The first call that two engines answered differently, with the calls before it that matter.
pub struct Difference {
    /// The seed of the run.
    pub seed: u64,
    /// The script that shows it: play it on both engines.
    pub script: Vec<u8>,
    /// What the first engine answered, and the other.
    pub answers: [String; 2],
}

impl fmt::Debug for Difference {
    fn fmt(&self, f: &mut fmt::Formatter<'_>) -> fmt::Result {
        writeln!(
            f,
            "seed {}; this script is answered differently:",
            self.seed
        )?;
        writeln!(f, "{}", String::from_utf8_lossy(&self.script))?;
        writeln!(f, "one says   {}", self.answers[0])?;
        write!(f, "other says {}", self.answers[1])
    }
}

/// Play `calls` calls of these areas on both engines. What is generated follows the first engine's answers.
pub fn run<A: Engine, B: Engine>(
    one: A,
    other: B,
    seed: u64,
    calls: usize,
    areas: &[Area],
) -> Result<Report, Box<Difference>> {
    let mut rng = Rng::new(seed);
    let (mut one, mut other) = (Player::new(one), Player::new(other));
    let mut coverage = Coverage::default();
    let mut played = 0;
    for &area in areas.iter().cycle() {
        if played >= calls {
            break;
        }
        let mut generator = Generator::new(area, &mut rng);
        let mut script = Vec::new();
        for _ in 0..area.stretch() {
            let call = generator.call(&mut rng);
            script.extend(call_line(&call));
            script.push(b'\n');
            let before = record_of(&call, &one).cloned();
            let answer = one.play(&call);
            let against = other.play(&call);
            if answer != against || one.gather() != other.gather() {
                return Err(Box::new(Difference {
                    seed,
                    script,
                    answers: [shown(&answer), shown(&against)],
                }));
            }
            if record_of(&call, &one) != record_of(&call, &other) {
                return Err(Box::new(told_by_record(seed, script, &call, one, other)));
            }
            generator.saw(&call, &answer.answer, one.tasks());
            let records = before.as_ref().zip(record_of(&call, &one));
            coverage.saw(&call, &answer, records);
            played += 1;
        }
    }
    Ok(Report {
        calls: played,
        coverage,
    })
}

/// The record that a call is given, as it stands now.
fn record_of<'p, E: Engine>(call: &Call, player: &'p Player<E>) -> Option<&'p Task> {
    call.task().map(|n| &player.tasks()[usize::from(n)])
}

/// The difference of two records after a call that was answered the same: a line more shows it.
fn told_by_record<A: Engine, B: Engine>(
    seed: u64,
    mut script: Vec<u8>,
    call: &Call,
    mut one: Player<A>,
    mut other: Player<B>,
) -> Difference {
    let task = call.task().expect("a call on a record");
    let question = Call::Record { task };
    script.extend(call_line(&question));
    script.push(b'\n');
    let answers = [one.play(&question), other.play(&question)];
    Difference {
        seed,
        script,
        answers: answers.each_ref().map(shown),
    }
}

fn shown(played: &Played) -> String {
    let touched = if played.touched { " TOUCHED" } else { "" };
    format!("{}{touched}", answer_line(&played.answer))
}

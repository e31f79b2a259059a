//! The data calls on records of any words: each gets the answer that the rules have for the record which the words are, all of what is
//! lent is then as it should be, and a refusal leaves every word.

use crate::coverage::Coverage;
use crate::expected::{Book, record};
use crate::raw::{Answer, Lent, Session, Task};
use crate::stand::*;
use calls::{Came, DataInPdu, DataSnack, Engine, Refusal, Run, TaskGiven};
use difftest::seed;
use testkit::{Bytes, Rng, pdu};

const SEED: u64 = 17_000_009;
const CALLS: usize = 300_000;
const RUN: u32 = 43;
const ACKNOWLEDGED: u32 = 44;
const ITT: u32 = 0x1011_1213;
const TAG: u32 = 0x1415_1617;
const NO_TAG: u32 = 0xffff_ffff;
const END: u64 = 1 << 32;

const GIVEN: TaskGiven = TaskGiven {
    itt: ITT,
    lun: 0x0809_0a0b_0c0d_0e0f,
    tag: TAG,
    came: 0x1819_1a1b,
    max_burst: 0x1c1d_1e1f,
    max_r2t: 8,
};

/// A record in every word of which no call wrote.
const ODD: Task = Task {
    numbers: [0xdead_beef; 12],
    wide: [0xdead_beef_dead_beef; 4],
    tags: [0xdead_beef; 8],
    ends: [0xdead_beef_dead_beef; 8],
};

#[test]
fn a_made_record_has_every_number_and_leaves_the_ring() {
    for max_r2t in 1..=8 {
        let mut task = ODD;
        let given = TaskGiven { max_r2t, ..GIVEN };
        assert_eq!(task.make(given), DONE.into());
        let came = given.came.into();
        let wanted = Task {
            numbers: [
                ITT,
                TAG,
                given.max_burst,
                max_r2t.into(),
                0,
                0,
                0,
                0,
                0,
                0,
                0,
                0,
            ],
            wide: [given.lun, 0, came, came],
            ..ODD
        };
        assert_eq!(task, wanted);
    }
}

#[test]
fn a_max_outstanding_r2t_of_0_or_above_8_is_field_however_wide() {
    for max_r2t in [0, 9, 10, 255, 256, 257, 0x108, 0x8001, 0xffff] {
        let mut task = ODD;
        assert_eq!(task.make(TaskGiven { max_r2t, ..GIVEN }), FIELD.into());
        assert_eq!(task, ODD, "{max_r2t:#x}");
    }
}

#[test]
fn a_record_is_made_of_any_numbers() {
    for word in [0, 1, 0x8000_0000, u32::MAX] {
        let given = TaskGiven {
            itt: word,
            lun: u64::from(word) << 32 | u64::from(word),
            tag: word,
            came: word,
            max_burst: word,
            max_r2t: 1,
        };
        let (mut task, model) = (Task::ZERO, model::Model::default());
        assert_eq!(task.make(given), DONE.into());
        assert_eq!(Ok(record(&task)), model.task(given));
    }
}

/// A session with connections 0 and 1 open, on both sides.
fn begun(rng: &mut Rng) -> (Session, Book) {
    let (first, stat_sn, level) = (rng.u32(), rng.u32(), rng.pick(&[0, 1, 1, 2, 255]));
    let (mut s, mut book) = (
        Session::fresh(first, stat_sn, level),
        Book::fresh(first, stat_sn, level),
    );
    assert_eq!(s.open(1, 5) as u32, DONE);
    book.model.open(1, 5).unwrap();
    for place in 0..rng.below(4) as u32 {
        let command = pdu::scsi_command(first.wrapping_add(place));
        assert_eq!(s.offer(0, 1, &command.0) as u32, 33);
        book.model.offer(0, 1, &command.0).unwrap();
    }
    (s, book)
}

/// A word at a boundary of the rules, or any.
fn word(rng: &mut Rng) -> u32 {
    match rng.below(4) {
        0 => rng.below(12) as u32,
        1 => rng.pick(&[512, 8192, 8193, 0x100, 0x101, 0x108, 262_144]),
        2 => u32::MAX - rng.below(3) as u32,
        _ => rng.u32(),
    }
}

fn wide(rng: &mut Rng) -> u64 {
    match rng.below(4) {
        0 => rng.below(10_000),
        1 => END - rng.below(10_000),
        2 => END + rng.below(3),
        _ => rng.number(),
    }
}

/// A record: of words that calls write, of some that they don't, or of any.
fn task(rng: &mut Rng) -> Task {
    let mut task = ODD;
    task.tags.fill_with(|| word(rng));
    task.ends.fill_with(|| wide(rng));
    if rng.one_in(3) {
        task.numbers.fill_with(|| word(rng));
        task.wide.fill_with(|| wide(rng));
        return task;
    }
    let (acknowledged, more) = (rng.below(20) as u32, rng.below(20) as u32);
    let (came, burst) = (rng.below(10_000), rng.below(8192) as u32);
    task.numbers = [
        ITT,
        rng.pick(&[TAG, TAG, NO_TAG]),
        rng.pick(&[8192, 8192, 262_144]),
        1 + rng.below(8) as u32,
        acknowledged + more,
        acknowledged,
        rng.pick(&[0, 1]),
        rng.pick(&[0, 0, 0x55]),
        burst,
        rng.below(3) as u32,
        rng.below(8) as u32,
        rng.below(9) as u32,
    ];
    task.wide = [rng.number(), rng.below(100_000), came + 8192, came];
    let oldest = task.numbers[10] as usize;
    task.ends[oldest] = came + rng.below(6);
    for _ in 0..rng.below(3) {
        match rng.below(4) {
            0 => task.wide[1 + rng.index(3)] = wide(rng),
            _ => task.numbers[rng.index(12)] = word(rng),
        }
    }
    task
}

/// A Data-Out that is mostly the one due.
fn data_out(rng: &mut Rng, task: &Task) -> Bytes {
    let n = &task.numbers;
    let oldest = n[10] as usize % 8;
    let to_the_end = task.ends[oldest].wrapping_sub(task.wide[3]);
    let count = match rng.below(4) {
        0 => rng.below(6),
        _ => to_the_end.min(8192),
    };
    let is_final = (count == to_the_end) ^ rng.one_in(10);
    let almost = |rng: &mut Rng, due: u32| if rng.one_in(15) { word(rng) } else { due };
    Bytes::new(0x05, if is_final { 0x80 } else { 0 })
        .itt(almost(rng, n[0]))
        .ttt(almost(rng, task.tags[oldest]))
        .field(36, 4, almost(rng, n[9]).into())
        .field(40, 4, almost(rng, task.wide[3] as u32).into())
        .data(&vec![7; count as usize])
}

/// A SNACK that is mostly the task's.
fn snack(rng: &mut Rng, task: &Task) -> Bytes {
    let n = &task.numbers;
    let kind = rng.pick(&[0, 0, 0, 1, 2, 2, 3, 3]);
    let near = |rng: &mut Rng, to: u32| to.wrapping_add(rng.below(5) as u32).wrapping_sub(2);
    let beg_run = match rng.below(5) {
        0 => 0,
        1 => near(rng, n[4]),
        2 => near(rng, n[5]),
        3 => word(rng),
        _ => n[5].wrapping_add(rng.below(20) as u32),
    };
    let run_length = match rng.below(4) {
        0 | 1 => 0,
        2 => near(rng, n[4].wrapping_sub(beg_run)),
        _ => rng.below(8) as u32,
    };
    let (beg_run, run_length) = if kind == 3 && !rng.one_in(4) {
        (0, 0)
    } else {
        (beg_run, run_length)
    };
    let snack = pdu::snack(kind, beg_run, run_length);
    let mut tag = |due| if rng.one_in(10) { 0x77 } else { due };
    match kind {
        0 => snack.itt(tag(n[0])),
        2 => snack.ttt(tag(n[1])),
        3 => snack.itt(tag(n[0])).ttt(0x66),
        _ => snack,
    }
}

/// A PDU that the call is refused for, or the one given.
fn spoilt(rng: &mut Rng, good: Bytes) -> Bytes {
    match rng.below(24) {
        0 => Bytes::new(0x1f, 0x80),
        1 => good.resized(47),
        2 => good.field(5, 3, 8193),
        3 => pdu::nop_out(1),
        4 => good.ahs(1),
        5 => pdu::data_out(1, 2),
        6 => pdu::snack(0, 0, 0),
        _ => good,
    }
}

/// The four words of an answer.
fn answer(said: Result<(u32, [u32; 3]), Refusal>) -> Answer {
    match said {
        Ok((number, [a, b, c])) => [number, a, b, c],
        Err(refusal) => [refusal.number().into(), 0, 0, 0],
    }
}

fn packed(said: Result<(), Refusal>) -> u64 {
    said.map_or_else(|refusal| refusal.number().into(), |()| DONE.into())
}

/// A call's name, its answer, and what it should be, as four words.
type Said = (&'static str, Answer, Answer);

fn one(word: u64) -> Answer {
    [word as u32, (word >> 32) as u32, 0, 0]
}

/// One data call on both sides, with the record after it.
fn call(rng: &mut Rng, s: &Session, book: &mut Book, task: &mut Task) -> Said {
    let connection = rng.pick(&[0, 0, 0, 0, 1, 1, 2, 4, 0x100, u32::MAX]);
    let lent = rng.pick(&[0, 47, 48, 48, 48, 48, 48, 64]);
    let (mut out, mut wanted) = (Lent::new(lent), Lent::new(lent));
    let (mut after, model) = (record(task), &mut book.model);
    // How many are open: the rules' record shows no more than nine.
    let open = task.numbers[11];
    let said = match rng.below(4) {
        0 => {
            let pdu = DataInPdu {
                final_bit: rng.one_in(2),
                acknowledge: rng.one_in(2),
                data_segment_length: rng.pick(&[0, 1, 512, 8192, 8193, 1 << 24, u32::MAX]),
            };
            let due = model.data_in(connection, &mut after, wanted.part(), pdu);
            let said = s.data_in(connection, task, pdu, &mut out);
            ("data-in", one(said), one(packed(due)))
        }
        1 => {
            let tag = rng.pick(&[0, TAG, TAG, 0xffff_fffe, NO_TAG]);
            let length = rng.pick(&[0, 1, 512, 8192, 8193, u32::MAX]);
            let due = model.r2t(connection, &mut after, wanted.part(), tag, length);
            let said = s.r2t(connection, task, tag, length, &mut out);
            ("r2t", one(said), one(packed(due)))
        }
        2 => {
            let pdu = data_out(rng, task);
            let is_final = pdu.0[1] & 0x80 != 0;
            let pdu = spoilt(rng, pdu);
            let due = model.data_out(connection, &mut after, &pdu.0);
            let due = due.map(|Came { offset, count, .. }| {
                (DONE, [offset, count, open - u32::from(is_final)])
            });
            let said = s.data_out(connection, task, &pdu.0);
            ("data-out", said, answer(due))
        }
        _ => {
            let (pdu, offset) = (snack(rng, task), word(rng));
            let pdu = spoilt(rng, pdu);
            let due = model.data_snack(connection, &mut after, offset, &pdu.0);
            let due = due.map(|due| match due {
                DataSnack::Run(Run { first, count }) => (RUN, [first, count, 0]),
                DataSnack::Acknowledged(count) => (ACKNOWLEDGED, [count, 0, 0]),
            });
            let said = s.data_snack(connection, task, offset, &pdu.0);
            ("data-snack", said, answer(due))
        }
    };
    assert_eq!(out, wanted, "{said:x?}");
    let open_now = task.numbers[11];
    if open > 9 {
        // One more or less of so many doesn't show in the rules' record.
        assert!(open_now == open || open_now == open - 1, "{said:x?}");
        after.open = record(task).open;
    }
    assert_eq!(record(task), after, "{said:x?}");
    said
}

#[test]
fn data_calls_on_any_words_are_answered_as_the_rules_say() {
    let mut rng = Rng::new(seed(SEED));
    let mut coverage = Coverage::default();
    let (mut s, mut book) = begun(&mut rng);
    for _ in 0..CALLS {
        if rng.one_in(500) {
            (s, book) = begun(&mut rng);
        }
        let mut task = task(&mut rng);
        for _ in 0..rng.below(4) + 1 {
            let (before, stands) = (task, s.clone());
            let (name, said, due) = call(&mut rng, &s, &mut book, &mut task);
            assert_eq!(said, due, "{name} on {before:x?}");
            if said[0] < DONE {
                assert_eq!(task, before, "{name} was refused with {}", said[0]);
            }
            assert!(s == stands, "{name} changed the session");
            coverage.saw(format!("{name}: {}", said[0]));
        }
    }
    let required: [(&str, &[u32]); 4] = [
        ("data-in", &[1, 3, 5, 7, 8, DONE]),
        ("r2t", &[1, 3, 7, 8, DONE]),
        ("data-out", &[2, 3, 4, 5, 7, 8, DONE]),
        ("data-snack", &[2, 3, 4, 5, 7, 8, 12, RUN, ACKNOWLEDGED]),
    ];
    let marks = required.into_iter().flat_map(|(name, answers)| {
        let marks = answers.iter();
        marks.map(move |answer| format!("{name}: {answer}"))
    });
    coverage.assert_seen(marks);
}

/// The open R2Ts wander through the ring, and each word of it is where the rules have it.
#[test]
fn the_ring_goes_round() {
    let s = Session::fresh(1, 1, 1);
    let mut task = ODD;
    let given = TaskGiven {
        came: 0,
        max_burst: 8,
        ..GIVEN
    };
    assert_eq!(task.make(given), DONE.into());
    let (mut asked, mut came) = (0, 0);
    for round in 0..40 {
        for _ in 0..rounds(round) {
            let mut out = Lent::new(HEADER);
            assert_eq!(s.r2t(0, &mut task, asked, 8, &mut out), DONE.into());
            asked += 8;
        }
        for _ in 0..rounds(round) {
            let pdu = Bytes::new(0x05, 0x80).itt(ITT).ttt(came);
            let pdu = pdu.field(40, 4, came.into()).data(&[7; 8]);
            came += 8;
            let open = (asked - came) / 8;
            let said = s.data_out(0, &mut task, &pdu.0);
            assert_eq!(said, [DONE, came - 8, 8, open]);
        }
    }
    assert_eq!((task.wide[2], task.wide[3]), (asked.into(), asked.into()));
}

/// 1 to 8.
fn rounds(round: u32) -> u32 {
    1 + round * 3 % 8
}

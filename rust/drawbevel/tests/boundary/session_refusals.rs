//! A refusal of a session's call leaves every array and every lent byte as they were, also where the words are ones that no call
//! writes: a flag of 7, a level of nine bits.

use crate::coverage::Coverage;
use crate::kinds::{KINDS, NOP_IN};
use crate::raw::{Lent, ResponseWords, Session, Task};
use crate::stand::*;
use calls::DataInPdu;
use difftest::seed;
use testkit::{Bytes, Rng, pdu};

const SEED: u64 = 17_000_005;
const CALLS: usize = 150_000;
/// The Initiator Task Tag and the Target Transfer Tag of the records.
const ITT: u32 = 0x10;
const TAG: u32 = 0x21;
const NAMES: [&str; 12] = [
    "offer",
    "take",
    "logout",
    "open",
    "send",
    "acknowledge",
    "snack",
    "resend",
    "data-in",
    "r2t",
    "data-out",
    "data-snack",
];

/// Plays a call of this name with these arguments, and gives its answer's number.
fn play(name: &str, s: &mut Session, a: &Arguments, task: &mut Task, out: &mut Lent) -> u32 {
    let (connection, number) = (a.connection, a.number);
    let pdu = DataInPdu {
        final_bit: number & 1 != 0,
        acknowledge: number & 2 != 0,
        data_segment_length: number,
    };
    match name {
        "offer" => s.offer(connection, number, &a.pdu) as u32,
        "take" => s.take(out)[0],
        "logout" => s.logout(connection, number as u8)[0],
        "open" => s.open(connection, number) as u32,
        "send" => s.send(connection, number, task, &a.words, out) as u32,
        "acknowledge" => s.acknowledge(connection, number) as u32,
        "snack" => s.snack(connection, &a.pdu)[0],
        "resend" => s.resend(connection, number, task, out) as u32,
        "data-in" => s.data_in(connection, task, pdu, out) as u32,
        "r2t" => s.r2t(connection, task, number, number, out) as u32,
        "data-out" => s.data_out(connection, task, &a.pdu)[0],
        "data-snack" => s.data_snack(connection, task, number, &a.pdu)[0],
        other => unreachable!("no call has the name {other}"),
    }
}

/// What a call is given; each takes of it what it needs.
#[derive(Clone, Debug)]
struct Arguments {
    connection: u32,
    /// A ticket, a reason, a first StatSN, an ExpStatSN, a StatSN, a length, a tag or an offset.
    number: u32,
    pdu: Vec<u8>,
    words: ResponseWords,
    task: Task,
    lent: usize,
}

impl Arguments {
    fn new(connection: u32, lent: usize) -> Self {
        Arguments {
            connection,
            number: 0,
            pdu: pdu::nop_out(7).0,
            words: KINDS[2].good,
            task: Task::ZERO,
            lent,
        }
    }
}

/// Plays a call. Where it is refused, nothing has changed.
fn checked(name: &str, s: &mut Session, a: &Arguments) -> u32 {
    let (before, mut out, mut task) = (s.clone(), Lent::new(a.lent), a.task);
    let answer = play(name, s, a, &mut task, &mut out);
    if name.starts_with("data") || name == "r2t" {
        assert!(*s == before, "{name} changed the session: {a:x?}");
    }
    if answer < DONE {
        assert_eq!(task, a.task, "{name} refused with {answer}: {a:x?}");
        assert_eq!(
            out,
            Lent::new(a.lent),
            "{name} refused with {answer}: {a:x?}"
        );
        let Session { numbers, maps, .. } = &before;
        assert_eq!(s.numbers, *numbers, "{name} refused with {answer}: {a:x?}");
        assert_eq!(s.maps, *maps, "{name} refused with {answer}: {a:x?}");
        assert!(*s == before, "{name} refused with {answer}: {a:x?}");
    }
    answer
}

/// Sessions with one word that no call writes.
pub fn odd_sessions() -> Vec<Session> {
    let mut all = vec![session()];
    for word in [2, 7, 0x100, 0x101, 0x1_0001, u32::MAX] {
        for at in 0..15 {
            let mut s = session();
            s.numbers[at] = word;
            all.push(s);
        }
        let mut s = session();
        s.numbers = [word; 15];
        s.maps = [u64::MAX; 6];
        all.push(s);
    }
    all
}

#[test]
fn a_short_buffer_leaves_odd_words() {
    for mut s in odd_sessions() {
        for name in ["take", "send", "resend", "data-in", "r2t"] {
            for lent in [0, 47] {
                let answer = checked(name, &mut s, &Arguments::new(OPEN, lent));
                assert_eq!(answer, BUFFER, "{name}");
            }
        }
    }
}

#[test]
fn no_connection_leaves_odd_words() {
    for mut s in odd_sessions() {
        for name in NAMES.into_iter().filter(|&name| name != "take") {
            for connection in NO_CONNECTIONS {
                let answer = checked(name, &mut s, &Arguments::new(connection, HEADER));
                assert_eq!(answer, NOCONN, "{name}");
            }
        }
    }
}

/// Whether an odd word is an open connection isn't said; what is refused then is.
#[test]
fn what_cannot_be_read_or_written_leaves_odd_words() {
    for mut s in odd_sessions() {
        for connection in 0..4 {
            let mut a = Arguments::new(connection, HEADER);
            a.number = 3;
            a.pdu = Bytes::new(0x1f, 0x80).0;
            a.words = NOP_IN.with("ITT", 0x1_ffff_ffff);
            for (name, number) in [
                ("offer", 2),
                ("snack", 2),
                ("logout", 3),
                ("send", 3),
                ("data-out", 2),
                ("data-snack", 2),
                ("data-in", 3),
                ("r2t", 3),
            ] {
                let answer = checked(name, &mut s, &a);
                assert!([CLOSED, number].contains(&answer), "{name}: {answer}");
            }
        }
    }
}

#[test]
fn an_open_connection_of_word_2_and_a_first_word_of_0x101_are_left_by_every_refusal() {
    let mut odd = session();
    (odd.numbers[0], odd.numbers[3]) = (0x101, 2);
    for connection in [0, 1, 2, 3, 4] {
        let mut a = Arguments::new(connection, 47);
        // No reason of a logout, and no StatSN that is held.
        a.number = 0x4000_0003;
        a.pdu = Bytes::new(0x1f, 0x80).0;
        for name in NAMES {
            let answer = checked(name, &mut odd.clone(), &a);
            // Of these only an opening can be granted.
            assert!(answer < DONE || name == "open", "{name}: {answer}");
        }
    }
}

/// A word that a call might write, or none does.
fn odd(rng: &mut Rng) -> u64 {
    match rng.below(4) {
        0 => rng.pick(&[0, 1, 2, 3, 4, 7, 31, 32, 33, 63, 64, 65]),
        1 => rng.pick(&[0x100, 0x101, 0x120, 0x1_0001, 0x1_0000_0001]),
        2 => rng.u32().into(),
        _ => rng.number(),
    }
}

/// A session in use, some words or all of which are replaced.
fn odd_session(rng: &mut Rng) -> Session {
    let mut s = match rng.below(4) {
        0 => Session::fresh(rng.u32(), rng.u32(), rng.pick(&[0, 1, 2, 255])),
        _ => session(),
    };
    match rng.below(4) {
        0 => {}
        1 | 2 => {
            for _ in 0..rng.below(4) + 1 {
                s.numbers[rng.index(15)] = odd(rng) as u32;
                if rng.one_in(3) {
                    s.maps[rng.index(6)] = odd(rng);
                }
            }
        }
        _ => {
            s.numbers.fill_with(|| odd(rng) as u32);
            s.maps.fill_with(|| odd(rng));
        }
    }
    s
}

fn arguments(rng: &mut Rng) -> Arguments {
    let (ours, theirs) = (rng.u32(), rng.below(400) as u32);
    let words = rng.pick(&KINDS).good;
    let pdu = match rng.below(10) {
        0 => Bytes::new(0x1f, 0x80),
        1 => pdu::nop_out(theirs).resized(47),
        2 => pdu::nop_out(theirs).resized(52),
        3 => pdu::nop_out(theirs).field(5, 3, 8193),
        4 => pdu::scsi_command(theirs).byte(1, 0x07),
        5 => pdu::login(0x87, b""),
        6 => pdu::data_out(theirs, ours),
        7 | 8 => {
            let kind = rng.pick(&[0, 1, 1, 1, 2, 3]);
            let snack = pdu::snack(kind, theirs, rng.below(40) as u32);
            // Of these a data SNACK is the task's.
            match kind {
                0 | 3 => snack.itt(ITT),
                2 => snack.ttt(TAG),
                _ => snack,
            }
        }
        _ => pdu::nop_out(theirs),
    };
    let mut a = Arguments::new(rng.pick(&[0, 0, 1, 1, 2, 3, 4, 0x100]), 0);
    a.number = rng.pick(&[ours, theirs, 3, 0x101]);
    a.pdu = pdu.0;
    a.words = words;
    let place = 1 + rng.index(9);
    if rng.one_in(2) {
        a.words[place] = odd(rng);
    }
    a.lent = rng.pick(&[0, 47, 48, 48, 48, 64]);
    a.task.numbers.fill_with(|| odd(rng) as u32);
    a.task.wide.fill_with(|| odd(rng));
    a.task.tags.fill_with(|| odd(rng) as u32);
    a.task.ends.fill_with(|| odd(rng));
    (a.task.numbers[0], a.task.numbers[1]) = (ITT, TAG);
    a
}

/// The refusals that each call has.
fn refusals(name: &str) -> &'static [u32] {
    match name {
        "offer" => &[2, 3, 4, 5, 7, 8],
        "take" => &[1],
        "logout" => &[3, 7, 8],
        "open" => &[7, 9],
        "send" => &[1, 3, 5, 7, 8, 10],
        "acknowledge" => &[7, 8, 11],
        "snack" | "data-snack" => &[2, 3, 4, 5, 7, 8, 12],
        "resend" => &[1, 7, 8, 12],
        "data-in" => &[1, 3, 5, 7, 8],
        "r2t" => &[1, 3, 7, 8],
        _ => &[2, 3, 4, 5, 7, 8],
    }
}

#[test]
fn every_refusal_of_every_call_leaves_whatever_words_there_are() {
    let mut rng = Rng::new(seed(SEED));
    let mut coverage = Coverage::default();
    for _ in 0..CALLS {
        let mut s = odd_session(&mut rng);
        let name = rng.pick(&NAMES);
        let answer = checked(name, &mut s, &arguments(&mut rng));
        coverage.saw(format!("{name}: {answer}"));
    }
    let required = NAMES.into_iter().flat_map(|name| {
        let numbers = refusals(name).iter();
        numbers.map(move |number| format!("{name}: {number}"))
    });
    coverage.assert_seen(required);
}

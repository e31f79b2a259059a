//! A refusal of a login request leaves the login's arrays and both areas as they were, whatever the words; but number 6 ends the
//! login.

use crate::coverage::Coverage;
use crate::raw::{Lent, Login, Request};
use crate::stand::{BUFFER, CLOSED, FIELD, OK};
use difftest::seed;
use testkit::{Bytes, Rng, pdu};

const SEED: u64 = 17_000_007;
const REQUESTS: usize = 60_000;
const NAME: &[u8] = b"iqn.2026-11.example:drawbevel";
const AREA: usize = 8192;
const LOGIN: u32 = 6;

/// Areas of a login call.
#[derive(Clone, Debug, PartialEq)]
struct Areas {
    gather: Lent,
    text: Lent,
}

impl Areas {
    fn new(gather: usize, text: usize) -> Self {
        Areas {
            gather: Lent::new(gather),
            text: Lent::new(text),
        }
    }
}

fn good_request() -> Vec<u8> {
    let names = [
        "InitiatorName=iqn.2026-11.example:i",
        "TargetName=iqn.2026-11.example:drawbevel",
    ];
    pdu::login(0x04, &pdu::block(&names)).0
}

/// Makes a request. Where it is refused, nothing has changed; with number 6, no lent byte, and the login is over.
fn checked(login: &mut Login, pdu: &[u8], new: u16, areas: &mut Areas) -> u32 {
    let (before, lent) = (login.clone(), areas.clone());
    let request = Request {
        pdu,
        live: 5,
        new,
        name: NAME,
    };
    let answer = login.request(request, &mut areas.gather, &mut areas.text)[0] as u32;
    if answer != OK {
        assert!(*areas == lent, "refused with {answer}: an area changed");
    }
    if answer == LOGIN {
        assert_eq!(login.values, before.values, "a status changed parameters");
        assert_eq!(login.seen, before.seen, "a status changed what was seen");
        let ended = login.clone();
        let again = login.request(request, &mut areas.gather, &mut areas.text)[0] as u32;
        assert_eq!(again, CLOSED, "the login goes on after a status");
        assert_eq!(*login, ended, "refused with 8");
    } else if answer != OK {
        assert_eq!(*login, before, "refused with {answer}");
    }
    answer
}

/// A login in use.
fn login() -> Login {
    let mut login = Login::fresh();
    let mut areas = Areas::new(AREA, AREA);
    assert_eq!(checked(&mut login, &good_request(), 9, &mut areas), OK);
    login
}

/// Logins with words that no call writes.
fn odd_logins() -> Vec<Login> {
    let mut all = vec![Login::fresh(), login()];
    for word in [2, 7, 0x100, 0x101, 0x1_0001, 1 << 48, u64::MAX] {
        for at in 0..8 {
            for mut odd in [Login::fresh(), login()] {
                odd.numbers[at] = word;
                all.push(odd);
            }
        }
        let mut odd = login();
        odd.values = [word as u32; 12];
        all.push(odd);
    }
    all
}

#[test]
fn flags_of_7_and_a_stage_of_nine_bits_are_left_by_a_short_buffer() {
    let mut odd = login();
    odd.numbers[..3].fill(7);
    odd.numbers[3] = 0x101;
    let mut areas = Areas::new(AREA - 1, AREA);
    assert_eq!(checked(&mut odd, &good_request(), 9, &mut areas), BUFFER);
    assert_eq!(odd.numbers[..4], [7, 7, 7, 0x101]);
}

#[test]
fn a_short_gather_area_or_text_output_leaves_odd_words() {
    for mut odd in odd_logins() {
        for (gather, text) in [
            (AREA - 1, AREA),
            (AREA, AREA - 1),
            (0, AREA),
            (AREA, 0),
            (0, 0),
        ] {
            let mut areas = Areas::new(gather, text);
            assert_eq!(checked(&mut odd, &good_request(), 9, &mut areas), BUFFER);
        }
    }
}

/// Whether an odd word is a login that is over isn't said; what is refused then is.
#[test]
fn what_cannot_be_read_leaves_odd_words() {
    let cases = [
        (Bytes::new(0x1f, 0x80), 9, 2),
        (pdu::nop_out(1), 9, FIELD),
        (Bytes(good_request()), 0, FIELD),
        (pdu::login(0, b"").resized(47), 9, 4),
        (pdu::login(0, b"").field(5, 3, 8193), 9, 5),
    ];
    for mut odd in odd_logins() {
        for (pdu, new, number) in &cases {
            let mut areas = Areas::new(AREA, AREA);
            let answer = checked(&mut odd, pdu.as_ref(), *new, &mut areas);
            assert!([CLOSED, *number].contains(&answer), "{answer}");
        }
    }
}

fn odd(rng: &mut Rng) -> u64 {
    match rng.below(3) {
        0 => rng.pick(&[0, 1, 2, 3, 4, 7, 8191, 8192, 8193]),
        1 => rng.pick(&[0x100, 0x101, 0x1_0001, 0x1_0000_0001, 1 << 48]),
        _ => rng.number(),
    }
}

fn odd_login(rng: &mut Rng) -> Login {
    let mut odd_one = if rng.one_in(2) {
        login()
    } else {
        Login::fresh()
    };
    for _ in 0..rng.below(4) {
        odd_one.numbers[rng.index(8)] = odd(rng);
        odd_one.values[rng.index(12)] = odd(rng) as u32;
        odd_one.seen[rng.index(28)] ^= true;
    }
    if rng.one_in(4) {
        odd_one.numbers.fill_with(|| odd(rng));
    }
    odd_one
}

fn request(rng: &mut Rng) -> Bytes {
    let flags = rng.pick(&[0x00, 0x04, 0x04, 0x40, 0x44, 0x81, 0x87, 0xc4, 0x08]);
    match rng.below(10) {
        0 => Bytes::new(0x1f, 0x80),
        1 => pdu::login(flags, b"").resized(rng.pick(&[0, 47, 52])),
        2 => pdu::login(flags, b"").field(5, 3, 8193),
        3 => pdu::login(flags, b"").byte(0, 0x03),
        4 => pdu::nop_out(1),
        5 => pdu::login(flags, b"").field(14, 2, rng.below(7)),
        6 => pdu::login(
            flags,
            &pdu::block(&["MaxBurstLength=512", "HeaderDigest=None"]),
        ),
        7 => pdu::login(
            flags,
            &pdu::block(&["InitiatorName=i", "TargetName=another"]),
        ),
        8 => pdu::login(flags, b"no pair"),
        _ => Bytes(good_request()).byte(1, flags),
    }
}

#[test]
fn every_refusal_of_a_login_leaves_whatever_words_there_are() {
    let mut rng = Rng::new(seed(SEED));
    let mut coverage = Coverage::default();
    for _ in 0..REQUESTS {
        let mut login = odd_login(&mut rng);
        let lengths = [0, AREA - 1, AREA, AREA, AREA, AREA, AREA, AREA + 8];
        let mut areas = Areas::new(rng.pick(&lengths), rng.pick(&lengths));
        let new = rng.pick(&[0, 9, 9, 9, 0xffff]);
        let answer = checked(&mut login, request(&mut rng).as_ref(), new, &mut areas);
        coverage.saw(format!("login: {answer}"));
    }
    coverage.assert_seen([0, 1, 2, 3, 4, 5, 6, 8].map(|n| format!("login: {n}")));
}

//! Lines that no careful person writes, on the library and on the model: one answer line each, the same ones, and never
//! a byte touched.

use calls::Engine;
use drawbevel::Drawbevel;
use model::Model;
use script::hex;
use testkit::{Rng, pdu};

const WORDS: [&str; 44] = [
    "session",
    "offer",
    "take",
    "logout",
    "open",
    "send",
    "ack",
    "snack",
    "resend",
    "window",
    "next",
    "holder",
    "length",
    "read",
    "write",
    "login-begin",
    "login",
    "params",
    "0",
    "1",
    "2",
    "0x1",
    "48",
    "47",
    "65535",
    "8192",
    "-",
    "00",
    "nop-in",
    "scsi-response",
    "data-in",
    "r2t",
    "task",
    "data-out",
    "data-snack",
    "record",
    "0 0 0 0",
    "15",
    "16",
    "reject",
    "4294967295",
    "0xffffffff",
    "#",
    "\u{e9}",
];

/// Mostly a connection that is there.
fn connection(rng: &mut Rng) -> String {
    rng.pick(&["0", "0", "0", "3", "4", "4294967296"]).into()
}

/// Mostly one of the sixteen records, of which the first are good for something.
fn record_number(rng: &mut Rng) -> String {
    rng.pick(&["0", "0", "1", "15", "16", "256"]).into()
}

/// A record shown, or set by words of which some fit nothing.
fn record(rng: &mut Rng) -> Vec<String> {
    let mut words = vec!["record".into(), record_number(rng)];
    if rng.one_in(4) {
        return words;
    }
    let good = "0 0 7 512 2 5 1 1 100 10 0 20 5 1 2 1 10 2 20";
    words.extend(good.split(' ').map(String::from));
    for _ in 0..rng.index(3) {
        let at = 2 + rng.index(words.len() - 2);
        let edges = [
            "0",
            "1",
            "2",
            "8",
            "9",
            "4294967295",
            "4294967296",
            "0xffffffffffffffff",
        ];
        words[at] = rng.pick(&edges).into();
    }
    words.truncate(words.len() - rng.index(8) / 6);
    words
}

/// A line of words that mostly fit no form, or a form with numbers that mostly fit no session.
fn line(rng: &mut Rng) -> Vec<u8> {
    let number = |rng: &mut Rng| {
        rng.pick(&[
            "0",
            "1",
            "3",
            "4",
            "48",
            "0xffffffff",
            "4294967296",
            "-",
            "0x",
        ])
    };
    let words = match rng.below(20) {
        // A logout comes soon: without these all is refused.
        18 => vec![
            rng.pick(&["session 1 1 1", "session 1 1 2", "session 1 1 0"])
                .into(),
        ],
        19 => vec!["open".into(), rng.pick(&["0 1", "0 1", "3 7"]).into()],
        11 => {
            let numbers = (0..6).map(|_| rng.pick(&["0", "1", "8", "9", "0x15", "0xffffffff"]));
            let numbers: Vec<_> = numbers.collect();
            vec!["task".into(), record_number(rng), numbers.join(" ")]
        }
        12 => vec![
            "data-in".into(),
            connection(rng),
            record_number(rng),
            rng.pick(&["48", "47", "49", "65536"]).into(),
            rng.pick(&["0 0", "1 0", "0 1", "1 1", "2 0"]).into(),
            rng.pick(&["0", "1", "512", "8192", "8193", "4294967295"])
                .into(),
        ],
        13 => vec![
            "r2t".into(),
            connection(rng),
            record_number(rng),
            "48".into(),
            number(rng).into(),
            rng.pick(&["0", "1", "512", "262144", "4294967295"]).into(),
        ],
        14 => {
            let (data_sn, offset) = (rng.below(2) as u32, rng.pick(&[0, 5, 5, u32::MAX]));
            let data = rng.pick(&[&b""[..], b"x", b"12345", &[7; 512]]);
            let flags = rng.pick(&[0, 0x80]);
            let pdu = pdu::data_out(data_sn, offset).itt(rng.below(2) as u32);
            let pdu = pdu.ttt(rng.below(3) as u32).byte(1, flags).data(data);
            vec![
                "data-out".into(),
                connection(rng),
                record_number(rng),
                hex(&pdu.0),
            ]
        }
        15 => {
            let kind = rng.below(4) as u8;
            let pdu = pdu::snack(kind, rng.below(3) as u32, rng.below(3) as u32);
            let pdu = match kind {
                0 | 3 => pdu.itt(rng.pick(&[0, 0, 1])),
                _ => pdu.ttt(rng.pick(&[7, 7, pdu::NO_TAG])),
            };
            vec![
                "data-snack".into(),
                connection(rng),
                record_number(rng),
                rng.pick(&["0", "512", "0xffffffff", "4294967296"]).into(),
                hex(&pdu.0),
            ]
        }
        16 => record(rng),
        17 => {
            let start = rng.pick(&["send 0 1 48", "resend 0 1 48"]);
            let end = rng.pick(&["", "reject 1", "scsi-response 0 0 0 0 0 0 0 0"]);
            let words = [start.into(), "task".into(), record_number(rng), end.into()];
            words.into_iter().filter(|word| !word.is_empty()).collect()
        }
        0 => vec!["take".into(), number(rng).into()],
        1 => vec!["logout".into(), number(rng).into(), number(rng).into()],
        2 => {
            let bytes = pdu::nop_out(rng.below(4) as u32).0;
            vec!["offer".into(), number(rng).into(), "7".into(), hex(&bytes)]
        }
        3 => vec![
            "send".into(),
            number(rng).into(),
            "1".into(),
            number(rng).into(),
            "reject 1".into(),
        ],
        4 => {
            let length = rng.index(60);
            let bytes = rng.bytes(length);
            vec![
                "login".into(),
                "0".into(),
                "7".into(),
                "8192".into(),
                "4294967295".into(),
                hex(&bytes),
            ]
        }
        5 => {
            let question = rng.pick(&["next", "holder"]);
            vec![question.into(), number(rng).into()]
        }
        6 => {
            let length = rng.index(60);
            vec!["length".into(), hex(&rng.bytes(length))]
        }
        7 => {
            // The one takes nine numbers at most, the others eight and six.
            let kind = rng.pick(&["scsi-response", "data-in", "r2t"]);
            let start = rng.pick(&["write 48 1 2 3", "send 0 1 48"]);
            let numbers =
                (0..5 + rng.index(6)).map(|_| rng.pick(&["0", "0", "1", "0x2000"]).into());
            [start.into(), kind.into()]
                .into_iter()
                .chain(numbers)
                .collect()
        }
        _ => (0..rng.index(9))
            .map(|_| rng.pick(&WORDS).to_owned())
            .collect::<Vec<String>>(),
    };
    let mut line = words.join(" ").into_bytes();
    if rng.one_in(12) {
        line.extend(rng.bytes(3).into_iter().filter(|&byte| byte != b'\n'));
    }
    line
}

fn answers<E: Engine>(engine: E, lines: &[u8]) -> Vec<u8> {
    let mut output = Vec::new();
    script::play(engine, lines, &mut output).unwrap();
    output
}

#[test]
fn every_line_has_one_answer_and_both_engines_give_the_same() {
    let mut rng = Rng::new(7_143);
    let lines: Vec<Vec<u8>> = (0..100_000).map(|_| line(&mut rng)).collect();
    let script = [lines.join(&b'\n'), b"\n".to_vec()].concat();
    let said = answers(Drawbevel::default(), &script);
    assert_eq!(said, answers(Model::default(), &script));
    assert_eq!(
        said.iter().filter(|&&byte| byte == b'\n').count(),
        lines.len()
    );
    assert!(!said.windows(8).any(|w| w == b" TOUCHED"));
    // Not all of it was refused.
    let said = String::from_utf8_lossy(&said);
    let starts = [
        "task",
        "data-in 25",
        "r2t 31",
        "came 0x",
        "run 0x",
        "acknowledged ",
        "record 0 0 ",
        "record",
    ];
    for start in starts {
        let count = said.lines().filter(|line| line.starts_with(start)).count();
        assert!(count >= 3, "{start}: {count}");
    }
}

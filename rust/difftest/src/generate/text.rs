//! Text blocks: every key with values at and around its boundaries, and blocks whose form is broken.

use testkit::Rng;

const TARGET: &str = "iqn.2026-11.example:drawbevel";

const COUNTS: &[&str] = &[
    "0", "1", "2", "3", "4", "5", "65535", "65536", "0x4", "0X0005", "01", "",
];
const BYTES: &[&str] = &[
    "511",
    "512",
    "513",
    "8192",
    "65535",
    "65536",
    "65537",
    "262143",
    "262144",
    "262145",
    "16777215",
    "16777216",
    "0x400",
    "0xffffff",
    "0x1000000",
    "4294967808",
    "18446744073709552128",
    "x",
    "0x",
];
const SECONDS: &[&str] = &[
    "0",
    "0x0",
    "1",
    "2",
    "3",
    "19",
    "20",
    "21",
    "3599",
    "3600",
    "3601",
    "00",
    "4294967296",
    "4294967298",
    "18446744073709551615",
    "18446744073709551616",
    "18446744073709551618",
    "0x10000000000000002",
    " 1",
    "1 ",
];
const LEVELS: &[&str] = &["0", "1", "2", "3", "0x1", "-1", "256", "4294967297"];
const BOOLEANS: &[&str] = &["Yes", "No", "Yes", "No", "yes", "", "Yes,No", "YES", "No "];
const DIGESTS: &[&str] = &[
    "None",
    "CRC32C",
    "CRC32C,None",
    "None,CRC32C",
    "none",
    "",
    ",None",
    "CRC32C, None",
    "XNone",
];
const REPORTS: &[&str] = &[
    "RFC3720",
    "FastAbort",
    "FastAbort,RFC3720",
    "RFC3720,ResponseFence",
    "None",
];
const METHODS: &[&str] = &["None", "None", "CHAP,None", "None,CHAP", "CHAP", "none", ""];
const TYPES: &[&str] = &[
    "Normal",
    "Normal",
    "Normal",
    "Normal",
    "Normal",
    "Normal",
    "Discovery",
    "normal",
    "",
];
const ANY: &[&str] = &["", "1", "Yes", "a=b", "=", "None"];

/// The operational keys with their values.
const OPERATIONAL: &[(&str, &[&str])] = &[
    ("MaxConnections", COUNTS),
    ("MaxOutstandingR2T", COUNTS),
    ("InitialR2T", BOOLEANS),
    ("DataPDUInOrder", BOOLEANS),
    ("DataSequenceInOrder", BOOLEANS),
    ("ImmediateData", BOOLEANS),
    ("MaxRecvDataSegmentLength", BYTES),
    ("MaxBurstLength", BYTES),
    ("FirstBurstLength", BYTES),
    ("DefaultTime2Wait", SECONDS),
    ("DefaultTime2Retain", SECONDS),
    ("ErrorRecoveryLevel", LEVELS),
    ("HeaderDigest", DIGESTS),
    ("DataDigest", DIGESTS),
    ("TaskReporting", REPORTS),
];

/// The keys of either stage, and unknown ones.
const EITHER: &[(&str, &[&str])] = &[
    ("SessionType", TYPES),
    ("InitiatorAlias", ANY),
    ("IFMarker", BOOLEANS),
    ("OFMarker", BOOLEANS),
    ("IFMarkInt", COUNTS),
    ("OFMarkInt", COUNTS),
    ("X-foo", ANY),
    ("X#bar", ANY),
    ("CHAP_A", ANY),
    ("MaxBurstLengthX", BYTES),
    ("Maxburstlength", BYTES),
    ("Z.-+@_9", ANY),
];

/// The keys that are refused wherever they stand.
const REFUSED: &[&str] = &[
    "TargetAlias",
    "TargetAddress",
    "TargetPortalGroupTag",
    "SendTargets",
];

/// The pairs of one login are chosen so that a key mostly comes once.
#[derive(Default)]
pub struct Chooser {
    used: Vec<&'static str>,
}

impl Chooser {
    /// Some pairs for a stage, each with its zero byte. `leading` is a login at TSIH 0.
    pub fn pairs(&mut self, rng: &mut Rng, stage: u8, leading: bool) -> Vec<u8> {
        let count = match rng.below(6) {
            0 => 0,
            1 => rng.index(20),
            _ => rng.index(6),
        };
        let mut text = Vec::new();
        for _ in 0..count {
            if let Some((name, value)) = self.pair(rng, stage, leading) {
                text.extend(format!("{name}={value}\0").into_bytes());
            }
        }
        text
    }

    fn pair(
        &mut self,
        rng: &mut Rng,
        stage: u8,
        leading: bool,
    ) -> Option<(&'static str, &'static str)> {
        let (name, values) = match rng.below(100) {
            0 => (rng.pick(REFUSED), ANY),
            1..=2 => ("AuthMethod", METHODS),
            3..=4 => rng.pick(OPERATIONAL),
            5..=24 if stage == 0 => ("AuthMethod", METHODS),
            5..=64 if stage == 1 => self.operational(rng, leading),
            _ => rng.pick(EITHER),
        };
        let unknown = EITHER[6..].iter().any(|(key, _)| *key == name);
        if self.used.contains(&name) && !unknown && !rng.one_in(60) {
            return None;
        }
        // A wrong stage or a key for leading logins only is wanted now and then, not mostly.
        let misplaced = OPERATIONAL.iter().any(|(key, _)| *key == name) && stage == 0;
        let misplaced = misplaced || (name == "AuthMethod" && stage == 1);
        if misplaced && !rng.one_in(4) {
            return None;
        }
        self.used.push(name);
        Some((name, rng.pick(values)))
    }

    fn operational(&self, rng: &mut Rng, leading: bool) -> (&'static str, &'static [&'static str]) {
        if leading || rng.one_in(20) {
            return rng.pick(OPERATIONAL);
        }
        rng.pick(&[
            ("MaxRecvDataSegmentLength", BYTES),
            ("HeaderDigest", DIGESTS),
            ("DataDigest", DIGESTS),
        ])
    }
}

/// Both names, mostly right.
pub fn names(rng: &mut Rng, target: &str) -> Vec<u8> {
    let long = "n".repeat(rng.pick(&[1, 222, 223]));
    let initiator = match rng.below(60) {
        0 => String::new(),
        1 => "n".repeat(224),
        2 => long,
        _ => "iqn.2026-11.example:station".into(),
    };
    let wrong = [
        "iqn.other",
        "",
        "IQN.2026-11.EXAMPLE:DRAWBEVEL",
        "iqn.2026-11.example:drawbeve",
    ];
    let target = match rng.below(40) {
        0 => rng.pick(&wrong).to_owned(),
        1 => "t".repeat(rng.pick(&[223, 224, 255])),
        _ => target.to_owned(),
    };
    let mut pairs = vec![
        format!("InitiatorName={initiator}\0"),
        format!("TargetName={target}\0"),
    ];
    match rng.below(40) {
        0 => drop(pairs.pop()),
        1 => drop(pairs.remove(0)),
        2..=9 => pairs.reverse(),
        10 => pairs.clear(),
        _ => {}
    }
    pairs.concat().into_bytes()
}

/// Break the form of a block, or fill it up to a limit.
pub fn perhaps_misshapen(rng: &mut Rng, mut text: Vec<u8>) -> Vec<u8> {
    match rng.below(120) {
        0 => text.push(0),
        1 => text.extend_from_slice(b"A=1"),
        2 => text.extend_from_slice(b"novalue\0"),
        3 => text.extend_from_slice(b"lower=1\0"),
        4 => text.extend_from_slice(b"X-#=1\0"),
        5 => text.extend(format!("{}=1\0", "N".repeat(rng.pick(&[63, 64]))).into_bytes()),
        6 => text.extend(format!("Xv={}\0", "v".repeat(rng.pick(&[255, 256]))).into_bytes()),
        7 => text.extend(b"Xa=\0".repeat(rng.pick(&[60, 61, 62, 63, 64, 65]))),
        8 if !text.is_empty() => {
            let at = rng.index(text.len());
            text[at] = rng.number() as u8;
        }
        9 => text = rng.bytes(20),
        10 => text.extend_from_slice(b"X#=\0Y#=\0"),
        11 => text.extend_from_slice(b"X#=\0Xb=\xff\x01\0"),
        12..=14 => text = filled(text, rng.pick(&[8191, 8192, 8193, 8200])),
        _ => {}
    }
    text
}

/// Unknown keys up to exactly this length.
pub fn filled(mut text: Vec<u8>, length: usize) -> Vec<u8> {
    while length >= text.len() + 4 {
        let room = length - text.len() - 4;
        // A rest of one to three bytes couldn't be filled.
        let value = if room > 255 && room - 255 < 4 {
            200
        } else {
            room.min(255)
        };
        text.extend_from_slice(b"Xf=");
        text.extend(std::iter::repeat_n(b'f', value));
        text.push(0);
    }
    text
}

/// The name that the target mostly has.
pub fn target() -> &'static str {
    TARGET
}

//! Traps 36 to 45: the login's requests, gathering and the form of blocks.

use super::{FILL, checks};
use crate::pdu::{self, Bytes, block};
use calls::{Engine, LoginAnswer, Refusal, TEXT_BYTES};

checks![
    trap_36_order_of_refusals,
    trap_36_a_refusal_leaves_the_gathered_bytes,
    trap_40_gathered_pieces,
    trap_40_cut_anywhere,
    trap_40_empty_pieces,
    trap_41_the_limit_of_the_joined_text,
    trap_42_the_form_comes_first,
    trap_42_sixty_five_pairs,
    trap_43_missing_names_come_after_the_pairs,
    trap_44_names_of_keys,
    trap_45_zero_bytes,
    a_refusal_touches_no_byte,
    a_joined_block_that_is_refused_touches_no_byte,
    gathered_bytes_are_read_as_the_area_holds_them,
    after_judging_none_counts_as_gathered,
];

/// The target's name in these checks.
pub(super) const TARGET: &str = "iqn.2026-11.example:drawbevel";
pub(super) const OPERATIONAL: u8 = 0x04;
pub(super) const SECURITY: u8 = 0x00;
/// The C bit.
const MORE: u8 = 0x40;

/// A login with its lent areas; checks at each request that no byte changed that mustn't.
pub(super) struct Talk<'a> {
    pub engine: &'a mut dyn Engine,
    pub gather: Vec<u8>,
    pub live: u16,
    pub tsih: u16,
}

pub(super) type Said = Result<(LoginAnswer, Vec<u8>), Refusal>;

impl<'a> Talk<'a> {
    pub fn new(engine: &'a mut dyn Engine) -> Self {
        engine.begin_login(TARGET.as_bytes());
        Talk {
            engine,
            gather: vec![FILL; TEXT_BYTES],
            live: 0,
            tsih: 0,
        }
    }

    /// A login to a live session.
    pub fn live(engine: &'a mut dyn Engine) -> Self {
        let mut talk = Talk::new(engine);
        (talk.live, talk.tsih) = (9, 9);
        talk
    }

    /// Ask with these flags and this text.
    pub fn ask(&mut self, flags: u8, text: &[u8]) -> Said {
        self.ask_pdu(&pdu::login(flags, text).field(14, 2, self.tsih.into()))
    }

    pub fn ask_pdu(&mut self, bytes: &Bytes) -> Said {
        let mut text = vec![FILL; TEXT_BYTES + 9];
        let before = self.gather.clone();
        let said = self
            .engine
            .login(self.live, 7, &mut self.gather, &mut text, &bytes.0);
        let length = said.as_ref().map_or(0, |answer| answer.text_length);
        assert!(text[length..].iter().all(|&byte| byte == FILL));
        if said.is_err() {
            assert_eq!(self.gather, before, "a refusal touches no byte");
        }
        said.map(|answer| (answer, text[..length].to_vec()))
    }

    /// The text answered to a block in the stage of these flags.
    pub fn text(&mut self, flags: u8, pairs: &[&str]) -> Vec<u8> {
        self.ask(flags, &block(pairs)).unwrap().1
    }
}

/// Both names, then these pairs.
pub(super) fn names_and(pairs: &[&str]) -> Vec<u8> {
    let names = block(&["InitiatorName=iqn.2026-11.example:station"]);
    let target = format!("TargetName={TARGET}\0");
    [names, target.into_bytes(), block(pairs)].concat()
}

pub(super) fn status(said: Said) -> u16 {
    match said {
        Err(Refusal::Login(status)) => status,
        other => panic!("no status: {other:?}"),
    }
}

/// TargetPortalGroupTag and these answers.
pub(super) fn first(pairs: &[&str]) -> Vec<u8> {
    [block(&["TargetPortalGroupTag=1"]), block(pairs)].concat()
}

fn trap_36_order_of_refusals(e: &mut dyn Engine) {
    e.begin_login(TARGET.as_bytes());
    let (mut gather, mut text) = ([FILL; TEXT_BYTES], [FILL; TEXT_BYTES]);
    let end = pdu::login(0x87, &names_and(&[]));
    let mut ask = |e: &mut dyn Engine, new, short: (usize, usize), bytes: &[u8]| {
        let (g, t) = (TEXT_BYTES - short.0, TEXT_BYTES - short.1);
        let answer = e.login(0, new, &mut gather[..g], &mut text[..t], bytes);
        answer.map(|answer| answer.tsih)
    };
    assert_eq!(ask(e, 7, (1, 0), &end.0), Err(Refusal::Buffer));
    assert_eq!(ask(e, 7, (0, 1), &end.0), Err(Refusal::Buffer));
    assert_eq!(ask(e, 0, (0, 0), &[0; 47]), Err(Refusal::Length));
    assert_eq!(ask(e, 0, (0, 0), &end.0), Err(Refusal::Field));
    assert_eq!(ask(e, 7, (0, 0), &pdu::nop_out(1).0), Err(Refusal::Field));
    let data = pdu::data_out(0, 0);
    assert_eq!(ask(e, 7, (0, 0), &data.0), Err(Refusal::Field));
    let version = end.clone().byte(3, 1);
    assert_eq!(ask(e, 0, (0, 0), &version.0), Err(Refusal::Field));
    // None of these ended the login.
    assert_eq!(ask(e, 7, (0, 0), &end.0), Ok(7));
    assert_eq!(ask(e, 7, (0, 0), &[]), Err(Refusal::Closed));
    assert_eq!(ask(e, 7, (1, 0), &[]), Err(Refusal::Buffer));
}

fn trap_36_a_refusal_leaves_the_gathered_bytes(e: &mut dyn Engine) {
    let mut talk = Talk::new(e);
    let whole = names_and(&["MaxConnections=2"]);
    talk.ask(OPERATIONAL | MORE, &whole[..20]).unwrap();
    let long = pdu::login(OPERATIONAL, &[]).field(5, 3, 8193);
    assert_eq!(talk.ask_pdu(&long), Err(Refusal::TooLong));
    assert_eq!(talk.ask_pdu(&pdu::nop_out(1)), Err(Refusal::Field));
    let mut text = [FILL; TEXT_BYTES];
    let rest = pdu::login(OPERATIONAL, &whole[20..]);
    let short = &mut [FILL; TEXT_BYTES - 1];
    let refused = talk.engine.login(0, 7, short, &mut text, &rest.0);
    assert_eq!(refused, Err(Refusal::Buffer));
    let (_, text) = talk.ask_pdu(&rest).unwrap();
    assert_eq!(text, first(&["MaxConnections=2"]));
}

fn trap_40_gathered_pieces(e: &mut dyn Engine) {
    let mut talk = Talk::new(e);
    let whole = names_and(&["MaxConnections=2"]);
    let (answer, text) = talk.ask(OPERATIONAL | MORE, &whole[..9]).unwrap();
    assert_eq!(text, b"");
    let shown = (answer.stage, answer.transit, answer.csg, answer.nsg);
    assert_eq!(shown, (1, false, 1, 0));
    assert_eq!(talk.gather[..9], whole[..9]);
    assert!(talk.gather[9..].iter().all(|&byte| byte == FILL));
    let (answer, text) = talk.ask(OPERATIONAL | 0x83, &whole[9..]).unwrap();
    assert_eq!(text, first(&["MaxConnections=2"]));
    assert_eq!((answer.stage, answer.tsih), (3, 7));
    assert_eq!(talk.gather[..whole.len()], whole);
    assert!(talk.gather[whole.len()..].iter().all(|&byte| byte == FILL));
    // C fixes the stage.
    let mut talk = Talk::new(e);
    talk.ask(SECURITY | MORE, b"").unwrap();
    assert_eq!(status(talk.ask(OPERATIONAL, &whole)), 0x0200);
}

fn trap_40_cut_anywhere(e: &mut dyn Engine) {
    let whole = names_and(&["X-foo=1", "MaxBurstLength=0x400"]);
    let wanted = first(&["X-foo=NotUnderstood", "MaxBurstLength=1024"]);
    for cut in 0..=whole.len() {
        let mut talk = Talk::new(e);
        talk.ask(OPERATIONAL | MORE, &whole[..cut]).unwrap();
        let (_, text) = talk.ask(OPERATIONAL, &whole[cut..]).unwrap();
        assert_eq!(text, wanted, "cut at {cut}");
        let joined = if cut == 0 { &[][..] } else { &whole };
        assert!(talk.gather.starts_with(joined), "cut at {cut}");
    }
}

fn trap_40_empty_pieces(e: &mut dyn Engine) {
    let mut talk = Talk::new(e);
    for _ in 0..3 {
        assert_eq!(talk.ask(OPERATIONAL | MORE, b"").unwrap().1, b"");
    }
    // Nothing gathered: the request's own data are judged, and the area stays.
    let text = talk.ask(OPERATIONAL, &names_and(&[])).unwrap().1;
    assert_eq!(text, first(&[]));
    assert!(talk.gather.iter().all(|&byte| byte == FILL));
    // And an empty block lacks the names.
    let mut talk = Talk::new(e);
    talk.ask(OPERATIONAL | MORE, b"").unwrap();
    assert_eq!(status(talk.ask(OPERATIONAL, b"")), 0x0207);
}

/// Both names and unknown keys, to exactly this length.
fn block_of(length: usize) -> Vec<u8> {
    let mut text = names_and(&[]);
    while text.len() < length {
        let value = (length - text.len() - 4).min(255);
        // Leave no rest too short for a pair of its own.
        let value = if length - text.len() - 4 - value < 4 && value == 255 {
            250
        } else {
            value
        };
        text.extend_from_slice(b"Xa=");
        text.extend(std::iter::repeat_n(b'v', value));
        text.push(0);
    }
    assert_eq!(text.len(), length);
    text
}

fn trap_41_the_limit_of_the_joined_text(e: &mut dyn Engine) {
    let whole = block_of(8192);
    let mut talk = Talk::new(e);
    talk.ask(OPERATIONAL | MORE, &whole[..8000]).unwrap();
    assert!(talk.ask(OPERATIONAL, &whole[8000..]).is_ok());
    assert_eq!(talk.gather, whole);

    let mut talk = Talk::new(e);
    talk.ask(OPERATIONAL | MORE, &whole).unwrap();
    assert!(talk.ask(OPERATIONAL, b"").is_ok());

    for last in [OPERATIONAL, OPERATIONAL | MORE] {
        let mut talk = Talk::new(e);
        talk.ask(OPERATIONAL | MORE, &whole).unwrap();
        assert_eq!(status(talk.ask(last, b"\0")), 0x0200);
        assert_eq!(talk.ask(OPERATIONAL, b""), Err(Refusal::Closed));
    }
    let mut talk = Talk::new(e);
    assert!(talk.ask(OPERATIONAL, &whole).is_ok());
}

fn trap_42_the_form_comes_first(e: &mut dyn Engine) {
    let other = |last| [&block(&["TargetName=iqn.other"])[..], last].concat();
    assert_eq!(status(Talk::new(e).ask(OPERATIONAL, &other(b""))), 0x0203);
    assert_eq!(status(Talk::new(e).ask(OPERATIONAL, &other(b"A"))), 0x0200);
    assert_eq!(
        status(Talk::new(e).ask(OPERATIONAL, &other(b"a=\0"))),
        0x0200
    );
}

fn trap_42_sixty_five_pairs(e: &mut dyn Engine) {
    let with = |more: usize| [names_and(&[]), b"Xa=\0".repeat(more)].concat();
    let (_, text) = Talk::new(e).ask(OPERATIONAL, &with(62)).unwrap();
    assert_eq!(text, first(&["Xa=NotUnderstood"; 62]));
    assert_eq!(status(Talk::new(e).ask(OPERATIONAL, &with(63))), 0x0200);
}

fn trap_43_missing_names_come_after_the_pairs(e: &mut dyn Engine) {
    let mut refused = |pairs: &[&str]| status(Talk::new(e).ask(OPERATIONAL, &block(pairs)));
    let ours = &format!("TargetName={TARGET}")[..];
    let station = "InitiatorName=iqn.a";
    assert_eq!(refused(&[]), 0x0207);
    assert_eq!(refused(&[ours]), 0x0207);
    assert_eq!(refused(&[station]), 0x0207);
    assert_eq!(refused(&[station, "MaxConnections=1"]), 0x0207);
    assert_eq!(refused(&["TargetName=iqn.b"]), 0x0203);
    assert_eq!(refused(&["SessionType=Discovery"]), 0x0209);
    assert_eq!(
        refused(&["SessionType=Discovery", "TargetName=iqn.b"]),
        0x0209
    );
    assert_eq!(
        refused(&["TargetName=iqn.b", "SessionType=Discovery"]),
        0x0203
    );
    // Only the first judged block must have them.
    let mut talk = Talk::new(e);
    talk.ask(SECURITY, &names_and(&[])).unwrap();
    assert_eq!(talk.text(SECURITY, &[]), b"");
}

fn trap_44_names_of_keys(e: &mut dyn Engine) {
    let long = format!("{}=1", "N".repeat(63));
    for good in ["X#=1", "X#a=1", "A=1", "Zz9.-+@_=1", &long] {
        let said = Talk::new(e).ask(OPERATIONAL, &names_and(&[good]));
        let name = &good[..good.len() - 1];
        assert_eq!(said.unwrap().1, first(&[&format!("{name}NotUnderstood")]));
    }
    let longer = format!("{}=1", "N".repeat(64));
    for bad in [
        "X-#=1",
        "XX#=1",
        "Y#=1",
        "maxConnections=1",
        "=1",
        "A",
        "A b=1",
        &longer,
    ] {
        let said = Talk::new(e).ask(OPERATIONAL, &names_and(&[bad]));
        assert_eq!(status(said), 0x0200, "{bad}");
    }
}

fn trap_45_zero_bytes(e: &mut dyn Engine) {
    let names = names_and(&[]);
    for tail in [&b"\0"[..], b"\0\0", b"A=1", b"A=1\0\0"] {
        let said = Talk::new(e).ask(OPERATIONAL, &[&names[..], tail].concat());
        assert_eq!(status(said), 0x0200);
    }
    assert_eq!(status(Talk::new(e).ask(OPERATIONAL, b"\0")), 0x0200);
}

fn a_refusal_touches_no_byte(e: &mut dyn Engine) {
    // `Talk` checks the bytes; here an earlier pair has an answer already.
    let said = Talk::new(e).ask(
        OPERATIONAL,
        &names_and(&["MaxConnections=2", "SendTargets=All"]),
    );
    assert_eq!(status(said), 0x0200);
    assert_eq!(
        e.parameters().max_connections,
        1,
        "a refused block settles nothing"
    );
}

fn a_joined_block_that_is_refused_touches_no_byte(e: &mut dyn Engine) {
    let mut talk = Talk::new(e);
    talk.ask(OPERATIONAL | MORE, &names_and(&["MaxConnections=2"]))
        .unwrap();
    let said = talk.ask(OPERATIONAL, &block(&["SessionType=Discovery"]));
    assert_eq!(status(said), 0x0209);
}

fn gathered_bytes_are_read_as_the_area_holds_them(e: &mut dyn Engine) {
    let mut talk = Talk::new(e);
    let whole = names_and(&["MaxConnections=2"]);
    talk.ask(OPERATIONAL | MORE, &whole).unwrap();
    let last = whole.len() - 2;
    talk.gather[last] = b'3';
    let (_, text) = talk.ask(OPERATIONAL, b"").unwrap();
    assert_eq!(text, first(&["MaxConnections=3"]));
}

fn after_judging_none_counts_as_gathered(e: &mut dyn Engine) {
    let mut talk = Talk::new(e);
    talk.ask(OPERATIONAL | MORE, &names_and(&[])).unwrap();
    talk.ask(OPERATIONAL, &block(&["MaxConnections=2"]))
        .unwrap();
    let held = talk.gather.clone();
    // The next block is judged alone, and the next piece stands at the area's beginning.
    let text = talk.text(OPERATIONAL, &["ImmediateData=No"]);
    assert_eq!(text, block(&["ImmediateData=No"]));
    assert_eq!(talk.gather, held);
    talk.ask(OPERATIONAL | MORE, b"Xa").unwrap();
    assert_eq!(talk.gather[..2], *b"Xa");
    assert_eq!(talk.gather[2..], held[2..]);
    assert_eq!(
        talk.ask(OPERATIONAL, b"=\0").unwrap().1,
        block(&["Xa=NotUnderstood"])
    );
}

//! Logins: whole dialogues over both stages, with text gathered from pieces cut anywhere, and each rule broken.

use super::damage;
use super::text::{self, Chooser};
use script::{Answer, Call};
use testkit::pdu::{data_out, nop_out};
use testkit::{Bytes, Rng};

/// The calls of logins, one after the other.
#[derive(Default)]
pub struct Logins {
    waiting: Vec<Call>,
    dialogue: Option<Dialogue>,
}

/// One login.
struct Dialogue {
    chooser: Chooser,
    target: String,
    live: u16,
    tsih: u16,
    isid: u64,
    cid: u16,
    stage: u8,
    first: bool,
    over: bool,
    /// Requests still to come.
    left: u64,
}

impl Logins {
    pub fn call(&mut self, rng: &mut Rng) -> Call {
        if let Some(call) = self.waiting.pop() {
            return call;
        }
        if rng.one_in(8) {
            return Call::Params;
        }
        let Some(dialogue) = &mut self.dialogue else {
            let dialogue = Dialogue::new(rng);
            let name = dialogue.target.clone().into_bytes();
            self.dialogue = Some(dialogue);
            return Call::LoginBegin { name };
        };
        if dialogue.left == 0 || (dialogue.over && !rng.one_in(3)) {
            self.dialogue = None;
            return Call::Params;
        }
        dialogue.left -= 1;
        // The calls are taken from the end.
        self.waiting = dialogue.requests(rng);
        self.waiting.reverse();
        self.waiting.pop().unwrap_or(Call::Params)
    }

    pub fn saw(&mut self, call: &Call, answer: &Answer) {
        let Some(dialogue) = &mut self.dialogue else {
            return;
        };
        match (call, answer) {
            (Call::Login { .. }, Answer::Login(answer, text)) => {
                dialogue.stage = answer.stage;
                dialogue.first &= text.is_empty();
                dialogue.over = answer.stage == 3;
            }
            (Call::Login { .. }, Answer::Refused(calls::Refusal::Login(_))) => {
                dialogue.over = true;
                // Of the rest of a block that was refused in the middle one request is enough.
                self.waiting.truncate(1);
            }
            _ => {}
        }
    }
}

impl Dialogue {
    fn new(rng: &mut Rng) -> Self {
        let live = rng.pick(&[0, 0, 9, 0xffff]);
        let tsih = if rng.one_in(3) { live } else { 0 };
        let target = match rng.below(12) {
            0 => "t".repeat(223),
            1 => "t".into(),
            _ => text::target().to_owned(),
        };
        Dialogue {
            chooser: Chooser::default(),
            target,
            live,
            tsih: if rng.one_in(40) {
                rng.number() as u16
            } else {
                tsih
            },
            isid: rng.below(1 << 48),
            cid: rng.number() as u16,
            stage: if rng.one_in(40) {
                rng.pick(&[2, 3])
            } else {
                rng.below(2) as u8
            },
            first: true,
            over: false,
            left: 1 + rng.below(6),
        }
    }

    /// One block, in one request or in several.
    fn requests(&mut self, rng: &mut Rng) -> Vec<Call> {
        let mut block = Vec::new();
        if self.first {
            block = text::names(rng, &self.target);
        }
        block.extend(self.chooser.pairs(rng, self.stage, self.tsih == 0));
        let block = text::perhaps_misshapen(rng, block);
        let mut calls = Vec::new();
        let mut rest = &block[..];
        if rng.one_in(3) {
            for _ in 0..1 + rng.below(4) {
                let cut = if rng.one_in(4) {
                    rest.len()
                } else {
                    rng.index(rest.len() + 1)
                };
                let (piece, later) = rest.split_at(cut);
                calls.push(self.request(rng, 0x40, piece));
                rest = later;
            }
        }
        calls.push(self.request(rng, 0, rest));
        calls
    }

    fn request(&self, rng: &mut Rng, more: u8, piece: &[u8]) -> Call {
        let csg = if rng.one_in(60) {
            rng.below(4) as u8
        } else {
            self.stage & 3
        };
        let transit = more == 0 && rng.one_in(2) || rng.one_in(150);
        let nsg = match (self.stage, rng.below(12)) {
            (_, 0) => rng.below(4) as u8,
            (0, 1..=7) => 1,
            _ => 3,
        };
        let flags = more | (csg << 2) | nsg | if transit { 0x80 } else { 0 };
        let rarely = |rng: &mut Rng| rng.one_in(120);
        let isid = if rarely(rng) {
            self.isid ^ 1
        } else {
            self.isid
        };
        let tsih = if rarely(rng) {
            rng.pick(&[0, 9, 10])
        } else {
            self.tsih
        };
        let cid = if rarely(rng) {
            self.cid ^ 0x100
        } else {
            self.cid
        };
        let version = if rarely(rng) { rng.pick(&[1, 255]) } else { 0 };
        let head = Bytes::new(0x43, flags | rng.pick(&[0, 0, 0, 0x30]));
        let head = head.byte(2, rng.number() as u8).byte(3, version);
        let head = head
            .field(8, 6, isid)
            .field(14, 2, tsih.into())
            .itt(rng.u32());
        let head = head.field(20, 2, cid.into()).cmd_sn(rng.u32());
        let pdu = head.field(28, 4, rng.u32().into()).data(piece);
        let pdu = match rng.below(200) {
            0 => nop_out(1),
            1 => data_out(0, 0),
            _ => pdu,
        };
        let lent = |rng: &mut Rng| rng.pick(&[8192, 8192, 8192, 8193, 9000]);
        Call::Login {
            live: if rarely(rng) {
                rng.number() as u16
            } else {
                self.live
            },
            new: if rarely(rng) {
                0
            } else {
                1 + rng.below(65_535) as u16
            },
            gather: if rarely(rng) {
                rng.pick(&[0, 8191, 65_535])
            } else {
                lent(rng)
            },
            text: if rarely(rng) {
                rng.pick(&[0, 8191, 65_535])
            } else {
                lent(rng)
            },
            pdu: damage::perhaps(rng, pdu, 60).0,
        }
    }
}

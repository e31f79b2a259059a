//! What a login reached, seen from its calls and answers alone.

use calls::Refusal;
use script::{Answer, Call};

/// What is known of the login of the moment.
#[derive(Debug, Default)]
pub struct View {
    gathered: usize,
    pieces: usize,
    judged: usize,
    cut: bool,
    security: bool,
}

impl View {
    pub fn saw(&mut self, call: &Call, answer: &Answer, marks: &mut Vec<String>) {
        match (call, answer) {
            (Call::LoginBegin { .. }, _) => *self = View::default(),
            (Call::Login { new, pdu, .. }, _) if pdu.len() >= 48 => {
                self.request(*new, pdu, answer, marks);
            }
            (_, Answer::Params(p)) => {
                if p.max_burst_length != 262_144 || p.max_connections != 1 {
                    marks.push("params: settled".into());
                }
                if p.max_recv_data_segment_length != 8192 {
                    marks.push("params: declared".into());
                }
            }
            _ => {}
        }
    }

    fn request(&mut self, new: u16, pdu: &[u8], answer: &Answer, marks: &mut Vec<String>) {
        let mut mark = |text: &str| marks.push(text.into());
        let length = pdu.len() - 48;
        match answer {
            Answer::Login(answer, text) => {
                for pair in text.split(|&byte| byte == 0) {
                    key(pair, &mut mark);
                }
                self.answered(pdu, answer.stage, &mut mark);
            }
            Answer::Refused(Refusal::Login(status)) => {
                if pdu[1] & 0xc0 == 0xc0 && *status == 0x0200 {
                    mark("login: C and T");
                }
                if self.gathered + length > 8192 + 3 && *status == 0x0200 {
                    mark("login: joined above 8,192 bytes refused");
                }
            }
            Answer::Refused(refusal) => {
                if self.gathered > 0 && *refusal != Refusal::Closed {
                    mark("login: refused while gathered, not ended");
                }
                if *refusal == Refusal::Field && new == 0 {
                    mark("login: new handle 0");
                }
                if *refusal == Refusal::Field && pdu[0] & 0x3f != 3 {
                    mark("login: no Login");
                }
            }
            _ => {}
        }
    }

    /// A request that wasn't refused.
    fn answered(&mut self, pdu: &[u8], stage: u8, mark: &mut impl FnMut(&str)) {
        let length = usize::from(pdu[6]) << 8 | usize::from(pdu[7]);
        let data = &pdu[48..48 + length];
        let more = pdu[1] & 0x40 != 0;
        self.security |= pdu[1] & 0x0c == 0;
        if more {
            self.gathered += length;
            self.pieces += 1;
            self.cut |= data.last().is_some_and(|&byte| byte != 0);
            if data.is_empty() {
                mark("login: an empty piece");
            }
            return;
        }
        if self.gathered > 0 {
            mark("login: gathered and judged");
            if self.pieces >= 3 {
                mark("login: three pieces gathered");
            }
            if self.cut {
                mark("login: cut inside a pair");
            }
            if self.gathered + length == 8192 {
                mark("login: joined to 8,192 bytes");
            }
        }
        if self.judged > 0 {
            mark("login: second block judged");
        }
        if stage == 3 {
            let leading = pdu[14..16] == [0, 0];
            let text = if leading { "leading" } else { "not leading" };
            mark(&format!("login: {text} to full feature"));
            if self.security && pdu[1] & 0x0c == 0x04 {
                mark("login: both stages to full feature");
            }
        }
        (self.gathered, self.pieces, self.cut) = (0, 0, false);
        self.judged += 1;
    }
}

/// An answered pair.
fn key(pair: &[u8], mark: &mut impl FnMut(&str)) {
    let text = String::from_utf8_lossy(pair);
    match text.split_once('=') {
        Some((_, "Reject" | "NotUnderstood")) => mark(&format!("key {text}")),
        Some((name, _)) => mark(&format!("key {name} accepted")),
        None => {}
    }
}

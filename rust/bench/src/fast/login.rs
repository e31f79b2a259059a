//! The login: state by value, no heap in a request.

use super::keys::{Key, LEADING_ONLY, OPERATIONAL, Rule, TABLE, key_of};
use super::read::read;
use super::text::{Pair, Said, Writer, cut, number};
use calls::{LoginAnswer, Parameters, Refusal, Request, TEXT_BYTES};

const FULL_FEATURE: u8 = 3;
const REJECT: Said = Said::Word(b"Reject");
const BOTH_NAMES: u32 = 1 << Key::InitiatorName as u32 | 1 << Key::TargetName as u32;

/// What is settled; copied before a block is judged.
#[derive(Clone, Copy)]
struct Settled {
    values: [u32; 12],
    /// The known keys that came, as bits.
    came: u32,
}

#[derive(Clone)]
pub struct Login {
    target_name: Vec<u8>,
    over: bool,
    /// The stage, from the first request on.
    stage: Option<u8>,
    identity: (u64, u16, u16),
    gathered: usize,
    judged: bool,
    settled: Settled,
}

impl Login {
    pub fn fresh(target_name: &[u8]) -> Self {
        Login {
            target_name: target_name.to_vec(),
            over: false,
            stage: None,
            identity: (0, 0, 0),
            gathered: 0,
            judged: false,
            settled: Settled {
                values: TABLE.map(|row| row.3),
                came: 0,
            },
        }
    }

    pub fn request(
        &mut self,
        live: u16,
        new: u16,
        gather: &mut [u8],
        text: &mut [u8],
        input: &[u8],
    ) -> Result<LoginAnswer, Refusal> {
        if gather.len() < TEXT_BYTES || text.len() < TEXT_BYTES {
            return Err(Refusal::Buffer);
        }
        if self.over {
            return Err(Refusal::Closed);
        }
        let pdu = read(input)?;
        let Request::Login(request) = pdu.request else {
            return Err(Refusal::Field);
        };
        if new == 0 {
            return Err(Refusal::Field);
        }
        let data = &input[pdu.data.offset..pdu.data.offset + pdu.data.length];
        let answered = self.step(live, new, gather, text, request, data);
        answered.map_err(|status| {
            self.over = true;
            Refusal::Login(status)
        })
    }

    fn step(
        &mut self,
        live: u16,
        new: u16,
        gather: &mut [u8],
        text: &mut [u8],
        request: calls::Login,
        data: &[u8],
    ) -> Result<LoginAnswer, u16> {
        let identity = (request.isid, request.tsih, request.cid);
        self.check(live, request, identity, data.len())?;
        let end = self.gathered + data.len();
        let mut text_length = 0;
        if request.continues {
            gather[self.gathered..end].copy_from_slice(data);
            self.gathered = end;
        } else {
            text_length = self.judge_joined(gather, text, request, data)?;
            self.gathered = 0;
        }
        let stage = if request.transit {
            request.nsg
        } else {
            request.csg
        };
        self.identity = identity;
        self.stage = Some(stage);
        self.over = stage == FULL_FEATURE;
        let leading = request.tsih == 0 && self.over;
        Ok(LoginAnswer {
            stage,
            transit: request.transit,
            csg: request.csg,
            nsg: if request.transit { request.nsg } else { 0 },
            tsih: if leading { new } else { request.tsih },
            text_length,
        })
    }

    fn check(
        &self,
        live: u16,
        request: calls::Login,
        identity: (u64, u16, u16),
        length: usize,
    ) -> Result<(), u16> {
        if request.version_min > 0 {
            return Err(0x0205);
        }
        if request.tsih != 0 && request.tsih != live {
            return Err(0x020a);
        }
        let stage_fits = match self.stage {
            Some(stage) => identity == self.identity && request.csg == stage,
            None => request.csg <= 1,
        };
        let both = request.continues && request.transit;
        // 0 to 1 or 3, 1 to 3: upwards, and never to 2.
        let step = !request.transit || (request.csg < request.nsg && request.nsg != 2);
        if !stage_fits || both || !step || self.gathered + length > TEXT_BYTES {
            return Err(0x0200);
        }
        Ok(())
    }

    /// Judge the request's own data, or the gathered bytes with them joined. A refusal puts the area back.
    fn judge_joined(
        &mut self,
        gather: &mut [u8],
        text: &mut [u8],
        request: calls::Login,
        data: &[u8],
    ) -> Result<usize, u16> {
        if self.gathered == 0 {
            return self.judge(data, text, request);
        }
        let mut before = [0; TEXT_BYTES];
        let (start, end) = (self.gathered, self.gathered + data.len());
        before[..data.len()].copy_from_slice(&gather[start..end]);
        gather[start..end].copy_from_slice(data);
        let judged = self.judge(&gather[..end], text, request);
        if judged.is_err() {
            gather[start..end].copy_from_slice(&before[..data.len()]);
        }
        judged
    }

    fn judge(
        &mut self,
        block: &[u8],
        text: &mut [u8],
        request: calls::Login,
    ) -> Result<usize, u16> {
        let mut pairs = [Pair::default(); 64];
        let count = cut(block, &mut pairs).ok_or(0x0200u16)?;
        let mut said = [Said::Nothing; 64];
        let mut settled = self.settled;
        for (pair, said) in pairs[..count].iter().zip(&mut said) {
            let name = &block[pair.start as usize..pair.equals as usize];
            let value = &block[pair.equals as usize + 1..pair.end as usize];
            *said = self.judge_pair(&mut settled, name, value, request)?;
        }
        if !self.judged && settled.came & BOTH_NAMES != BOTH_NAMES {
            return Err(0x0207);
        }
        let mut writer = Writer { text, length: 0 };
        if !self.judged {
            writer.pair(b"TargetPortalGroupTag=", Said::Word(b"1"));
        }
        for (pair, said) in pairs[..count].iter().zip(said) {
            writer.pair(&block[pair.start as usize..=pair.equals as usize], said);
        }
        self.settled = settled;
        self.judged = true;
        Ok(writer.length)
    }

    fn judge_pair(
        &self,
        settled: &mut Settled,
        name: &[u8],
        value: &[u8],
        request: calls::Login,
    ) -> Result<Said, u16> {
        let Some(key) = key_of(name) else {
            return Ok(Said::Word(b"NotUnderstood"));
        };
        let bit = 1 << key as u32;
        let wrong_stage = match request.csg {
            0 => OPERATIONAL & bit != 0,
            _ => key == Key::AuthMethod,
        };
        let not_leading = request.tsih != 0 && LEADING_ONLY & bit != 0;
        if wrong_stage || not_leading || settled.came & bit != 0 || key == Key::Refused {
            return Err(0x0200);
        }
        settled.came |= bit;
        match key {
            Key::HeaderDigest | Key::DataDigest => Ok(choose(value, b"None")),
            Key::TaskReporting => Ok(choose(value, b"RFC3720")),
            Key::AuthMethod => match choose(value, b"None") {
                Said::Word(b"None") => Ok(Said::Word(b"None")),
                _ => Err(0x0201),
            },
            Key::InitiatorName | Key::TargetName if value.is_empty() || value.len() > 223 => {
                Err(0x0200)
            }
            Key::TargetName if value != self.target_name => Err(0x0203),
            Key::InitiatorName | Key::TargetName | Key::InitiatorAlias => Ok(Said::Nothing),
            Key::SessionType => match value {
                b"Normal" => Ok(Said::Nothing),
                b"Discovery" => Err(0x0209),
                _ => Err(0x0200),
            },
            Key::IFMarker | Key::OFMarker | Key::IFMarkInt | Key::OFMarkInt => Ok(REJECT),
            _ => Ok(settle(
                &mut settled.values[key as usize],
                TABLE[key as usize],
                value,
            )),
        }
    }

    pub fn parameters(&self) -> Parameters {
        let v = &self.settled.values;
        Parameters {
            max_connections: v[0],
            max_outstanding_r2t: v[1],
            initial_r2t: v[2] == 1,
            data_pdu_in_order: v[3] == 1,
            data_sequence_in_order: v[4] == 1,
            immediate_data: v[5] == 1,
            max_recv_data_segment_length: v[6],
            max_burst_length: v[7],
            first_burst_length: v[8],
            default_time2wait: v[9],
            default_time2retain: v[10],
            error_recovery_level: v[11],
        }
    }
}

fn settle(value_in_force: &mut u32, row: (Rule, u32, u32, u32, u32), value: &[u8]) -> Said {
    let (rule, least, greatest, _, ours) = row;
    let boolean = matches!(rule, Rule::Or | Rule::And);
    let offer = match value {
        b"Yes" if boolean => Some(1),
        b"No" if boolean => Some(0),
        _ if boolean => None,
        _ => number(value),
    };
    let Some(offer) = offer.filter(|&n| u64::from(least) <= n && n <= u64::from(greatest)) else {
        return REJECT;
    };
    let offer = offer as u32;
    *value_in_force = match rule {
        Rule::Least | Rule::And => offer.min(ours),
        Rule::Greatest | Rule::Or => offer.max(ours),
        Rule::Declared => offer,
    };
    match rule {
        Rule::Declared => Said::Nothing,
        Rule::Or | Rule::And if *value_in_force == 1 => Said::Word(b"Yes"),
        Rule::Or | Rule::And => Said::Word(b"No"),
        _ => Said::Number(*value_in_force),
    }
}

fn choose(list: &[u8], ours: &'static [u8]) -> Said {
    if list.split(|&byte| byte == b',').any(|item| item == ours) {
        Said::Word(ours)
    } else {
        REJECT
    }
}

//! The judging of a block, pair by pair, left to right.

use crate::block::{Pair, pairs_of};
use crate::keys::{Key, Row, Rule, TABLE, is_leading_only, key_of, stage_of};
use crate::value::{boolean, list_has, number};
use calls::Parameters;
use std::collections::{BTreeMap, BTreeSet};

/// The status of most refusals.
pub const INITIATOR_ERROR: u16 = 0x0200;
const AUTHENTICATION_FAILURE: u16 = 0x0201;
const NOT_FOUND: u16 = 0x0203;
const MISSING_PARAMETER: u16 = 0x0207;
const SESSION_TYPE_NOT_SUPPORTED: u16 = 0x0209;

const LONGEST_ISCSI_NAME: usize = 223;

/// What a block is judged with, besides its pairs.
pub struct Circumstances<'a> {
    pub stage: u8,
    pub tsih: u16,
    pub target_name: &'a [u8],
}

/// What a login has negotiated so far.
#[derive(Clone, Debug, Default)]
pub struct Negotiation {
    /// The known keys that came, whatever was answered.
    came: BTreeSet<Vec<u8>>,
    /// The settled values, by key; for a key that isn't here the standard value is in force.
    settled: BTreeMap<&'static str, u32>,
    /// Whether a block was judged.
    judged: bool,
}

impl Negotiation {
    /// Judge a block. A refusal is a status; then nothing is to be kept of this negotiation.
    pub fn judge(&mut self, block: &[u8], with: &Circumstances) -> Result<Vec<u8>, u16> {
        let pairs = pairs_of(block).ok_or(INITIATOR_ERROR)?;
        let mut text = Vec::new();
        if !self.judged {
            text.extend_from_slice(b"TargetPortalGroupTag=1\0");
        }
        for pair in pairs {
            if let Some(answer) = self.judge_pair(pair, with)? {
                text.extend_from_slice(pair.name);
                text.push(b'=');
                text.extend_from_slice(answer.as_bytes());
                text.push(0);
            }
        }
        let both_names = self.has_come(b"InitiatorName") && self.has_come(b"TargetName");
        if !self.judged && !both_names {
            return Err(MISSING_PARAMETER);
        }
        self.judged = true;
        Ok(text)
    }

    fn has_come(&self, name: &[u8]) -> bool {
        self.came.contains(name)
    }

    /// The answer to one pair, none for a good declaration.
    fn judge_pair(&mut self, pair: Pair, with: &Circumstances) -> Result<Option<String>, u16> {
        let key = key_of(pair.name);
        if key == Key::Unknown {
            return Ok(Some("NotUnderstood".into()));
        }
        let wrong_stage = stage_of(key).is_some_and(|stage| stage != with.stage);
        let not_leading = is_leading_only(key) && with.tsih != 0;
        let twice = !self.came.insert(pair.name.to_vec());
        if wrong_stage || not_leading || twice {
            return Err(INITIATOR_ERROR);
        }
        match key {
            Key::Settled(row) => Ok(self.settle(row, pair.value)),
            Key::Digest => Ok(Some(chosen(pair.value, "None"))),
            Key::TaskReporting => Ok(Some(chosen(pair.value, "RFC3720"))),
            Key::AuthMethod if list_has(pair.value, b"None") => Ok(Some("None".into())),
            Key::AuthMethod => Err(AUTHENTICATION_FAILURE),
            Key::InitiatorName | Key::TargetName if !is_name_length(pair.value) => {
                Err(INITIATOR_ERROR)
            }
            Key::TargetName if pair.value != with.target_name => Err(NOT_FOUND),
            Key::InitiatorName | Key::TargetName | Key::InitiatorAlias => Ok(None),
            Key::SessionType => match pair.value {
                b"Normal" => Ok(None),
                b"Discovery" => Err(SESSION_TYPE_NOT_SUPPORTED),
                _ => Err(INITIATOR_ERROR),
            },
            Key::Marker => Ok(Some(REJECT.into())),
            Key::Refused => Err(INITIATOR_ERROR),
            Key::Unknown => unreachable!("answered above"),
        }
    }

    /// Settle a key of the table; a bad or out-of-range value is rejected and changes nothing.
    fn settle(&mut self, row: Row, value: &[u8]) -> Option<String> {
        let Some(offer) = offer_of(row, value) else {
            return Some(REJECT.into());
        };
        let settled = match row.rule {
            Rule::Least | Rule::And => offer.min(row.ours),
            Rule::Greatest | Rule::Or => offer.max(row.ours),
            Rule::Declared => offer,
        };
        self.settled.insert(row.name, settled);
        match row.rule {
            Rule::Declared => None,
            Rule::Or | Rule::And => Some(if settled == 1 { "Yes" } else { "No" }.into()),
            Rule::Least | Rule::Greatest => Some(settled.to_string()),
        }
    }

    /// The value in force of a key of the table.
    fn in_force(&self, name: &str) -> u32 {
        let standard = TABLE
            .iter()
            .find(|row| row.name == name)
            .map(|r| r.standard);
        let settled = self.settled.get(name).copied();
        settled.or(standard).expect("a key of the table")
    }

    pub fn parameters(&self) -> Parameters {
        Parameters {
            max_connections: self.in_force("MaxConnections"),
            max_outstanding_r2t: self.in_force("MaxOutstandingR2T"),
            initial_r2t: self.in_force("InitialR2T") == 1,
            data_pdu_in_order: self.in_force("DataPDUInOrder") == 1,
            data_sequence_in_order: self.in_force("DataSequenceInOrder") == 1,
            immediate_data: self.in_force("ImmediateData") == 1,
            max_recv_data_segment_length: self.in_force("MaxRecvDataSegmentLength"),
            max_burst_length: self.in_force("MaxBurstLength"),
            first_burst_length: self.in_force("FirstBurstLength"),
            default_time2wait: self.in_force("DefaultTime2Wait"),
            default_time2retain: self.in_force("DefaultTime2Retain"),
            error_recovery_level: self.in_force("ErrorRecoveryLevel"),
        }
    }
}

const REJECT: &str = "Reject";

/// The value offered, if it has the key's form and is in its range.
fn offer_of(row: Row, value: &[u8]) -> Option<u32> {
    if row.is_boolean() {
        return boolean(value).map(u32::from);
    }
    let (least, greatest) = row.range;
    let number = number(value)?;
    let in_range = u64::from(least) <= number && number <= u64::from(greatest);
    in_range.then_some(number as u32)
}

/// The one choice of ours if the list has it.
fn chosen(list: &[u8], ours: &str) -> String {
    if list_has(list, ours.as_bytes()) {
        ours.into()
    } else {
        REJECT.into()
    }
}

fn is_name_length(value: &[u8]) -> bool {
    (1..=LONGEST_ISCSI_NAME).contains(&value.len())
}

//! Faults in the login.

use super::{Broken, Fault};
use crate::pdu::Bytes;
use calls::{Engine, HEADER_BYTES, LoginAnswer, Refusal};

const PORTAL_TAG: &[u8] = b"TargetPortalGroupTag=1\0";

impl<E: Engine + Clone> Broken<E> {
    pub(super) fn login_with_fault(
        &mut self,
        live: u16,
        new: u16,
        gather: &mut [u8],
        text: &mut [u8],
        pdu: &[u8],
    ) -> Result<LoginAnswer, Refusal> {
        let before = self.inner.clone();
        let lent = self
            .is(Fault::LoginAlwaysRefused)
            .then(|| (gather.to_vec(), text.to_vec()));
        let mut shown = self.disguised(pdu);
        if self.is(Fault::TwiceAccepted) {
            shown = without_repeats(&shown);
        }
        if self.is(Fault::NameNotWhole) {
            shown = renamed(&shown, candidate);
        }
        if self.is(Fault::SecondCandidateUnknown) {
            shown = renamed(&shown, without_second);
        }
        let handle = shown
            .get(14..16)
            .map_or(0, |b| u16::from_be_bytes([b[0], b[1]]));
        let live = if self.is(Fault::LiveIgnored) {
            handle
        } else {
            live
        };
        let answer = self.inner.login(live, new, gather, text, &shown);
        if let (Some((gathered, empty)), Ok(_)) = (lent, answer) {
            gather.copy_from_slice(&gathered);
            text.copy_from_slice(&empty);
            return Err(Refusal::Login(0x0200));
        }
        match (self.fault, answer) {
            (Fault::MissingIsInitiatorError, Err(Refusal::Login(0x0207))) => {
                Err(Refusal::Login(0x0200))
            }
            (Fault::GatherTouched, Err(Refusal::Login(_))) => {
                gather[0] ^= 1;
                answer
            }
            (Fault::RefusalDoesNotEnd, Err(Refusal::Login(_))) => {
                self.inner = before;
                answer
            }
            (Fault::FullFeatureGoesOn, Ok(a)) if a.stage == 3 => {
                self.inner = before;
                answer
            }
            (_, Ok(answer)) => Ok(self.answered(answer, new, text)),
            _ => answer,
        }
    }

    /// What the fault makes of a right answer.
    fn answered(&self, mut answer: LoginAnswer, new: u16, text: &mut [u8]) -> LoginAnswer {
        match self.fault {
            Fault::TransitUnasked => answer.transit = true,
            Fault::HandleEarly if answer.tsih == 0 => answer.tsih = new,
            Fault::HandleAlways if answer.stage == 3 => answer.tsih = new,
            Fault::PortalTagMissing if text.starts_with(PORTAL_TAG) => {
                let length = answer.text_length;
                text.copy_within(PORTAL_TAG.len()..length, 0);
                answer.text_length -= PORTAL_TAG.len();
                text[answer.text_length..length].fill(0xee);
            }
            _ => {}
        }
        answer
    }
}

/// The known names that are two of one length and first letter, the first of them first.
const SHARING: [[&[u8]; 2]; 4] = [
    [b"MaxConnections", b"MaxBurstLength"],
    [b"ImmediateData", b"InitiatorName"],
    [b"TaskReporting", b"TargetAddress"],
    [b"SessionType", b"SendTargets"],
];

/// The first known name of this length and letter, where there are two; the name itself where it is the second.
fn candidate(name: &[u8]) -> Vec<u8> {
    let shares = |known: &[u8]| known.len() == name.len() && known.first() == name.first();
    match SHARING.iter().find(|[first, _]| shares(first)) {
        Some([first, second]) if *second != name => first.to_vec(),
        _ => name.to_vec(),
    }
}

/// A name that isn't known for the second of two.
fn without_second(name: &[u8]) -> Vec<u8> {
    match SHARING.iter().any(|[_, second]| *second == name) {
        true => [b"X", &name[1..]].concat(),
        false => name.to_vec(),
    }
}

/// The pairs of a request that ends with one; none of a PDU that isn't such a request.
fn pairs(pdu: &[u8]) -> Option<Vec<&[u8]>> {
    let length = usize::from(*pdu.get(6)?) << 8 | usize::from(*pdu.get(7)?);
    let data = pdu.get(HEADER_BYTES..HEADER_BYTES + length)?;
    let pairs = data.strip_suffix(b"\0")?;
    Some(pairs.split(|&byte| byte == 0).collect())
}

/// The request with these pairs.
fn with_pairs(pdu: &[u8], pairs: &[Vec<u8>]) -> Vec<u8> {
    let data: Vec<u8> = pairs
        .iter()
        .flat_map(|pair| [pair, &b"\0"[..]].concat())
        .collect();
    Bytes(pdu[..HEADER_BYTES].to_vec()).data(&data).0
}

/// The request with other names in its pairs.
fn renamed(pdu: &[u8], rename: fn(&[u8]) -> Vec<u8>) -> Vec<u8> {
    let Some(pairs) = pairs(pdu) else {
        return pdu.to_vec();
    };
    let renamed = pairs.iter().map(|pair| {
        let length = pair.iter().position(|&byte| byte == b'=').unwrap_or(0);
        [&rename(&pair[..length]), &pair[length..]].concat()
    });
    with_pairs(pdu, &renamed.collect::<Vec<_>>())
}

/// The request without pairs whose name stood in it before.
fn without_repeats(pdu: &[u8]) -> Vec<u8> {
    let Some(pairs) = pairs(pdu) else {
        return pdu.to_vec();
    };
    let mut names = Vec::new();
    let mut kept = Vec::new();
    for pair in pairs {
        let name = pair.split(|&byte| byte == b'=').next().unwrap_or_default();
        if !names.contains(&name) || name.starts_with(b"X") {
            names.push(name);
            kept.push(pair.to_vec());
        }
    }
    with_pairs(pdu, &kept)
}

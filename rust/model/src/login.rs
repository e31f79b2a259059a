//! Document 01, "Login": the steps of a login, from its first request to full feature phase or a refusal.

use crate::judge::{Circumstances, INITIATOR_ERROR, Negotiation};
use crate::read::read;
use calls::{LoginAnswer, Parameters, Pdu, Refusal, Request, TEXT_BYTES};

const UNSUPPORTED_VERSION: u16 = 0x0205;
const SESSION_DOES_NOT_EXIST: u16 = 0x020a;
const FULL_FEATURE: u8 = 3;
/// The steps that may be taken by T.
const STEPS: [(u8, u8); 3] = [(0, 1), (0, 3), (1, 3)];
/// The stages where a login may start.
const STARTS: [u8; 2] = [0, 1];

/// What all requests of one login have in common.
#[derive(Clone, Copy, Debug, PartialEq, Eq)]
struct Identity {
    isid: u64,
    tsih: u16,
    cid: u16,
}

/// A login.
#[derive(Clone, Debug)]
pub struct Login {
    target_name: Vec<u8>,
    /// Refused, or in full feature phase.
    over: bool,
    /// The stage and the identity, from the first request on.
    started: Option<(u8, Identity)>,
    /// How many bytes are gathered; the bytes stand in the area that the caller lends.
    gathered: usize,
    negotiation: Negotiation,
}

impl Login {
    pub fn fresh(target_name: &[u8]) -> Self {
        Login {
            target_name: target_name.to_vec(),
            over: false,
            started: None,
            gathered: 0,
            negotiation: Negotiation::default(),
        }
    }

    pub fn parameters(&self) -> Parameters {
        self.negotiation.parameters()
    }

    /// Answer a request. A refusal leaves everything as it was, but a status ends the login.
    pub fn request(
        &mut self,
        live: u16,
        new: u16,
        gather: &mut [u8],
        text: &mut [u8],
        input: &[u8],
    ) -> Result<LoginAnswer, Refusal> {
        if gather.len() < TEXT_BYTES || text.len() < TEXT_BYTES {
            return Err(Refusal::Buffer);
        }
        if self.over {
            return Err(Refusal::Closed);
        }
        let pdu = read(input)?;
        let Request::Login(request) = pdu.request else {
            return Err(Refusal::Field);
        };
        if new == 0 {
            return Err(Refusal::Field);
        }
        let answered = self.step(live, new, gather, text, request, data_of(input, &pdu));
        answered.map_err(|status| {
            self.over = true;
            Refusal::Login(status)
        })
    }

    fn step(
        &mut self,
        live: u16,
        new: u16,
        gather: &mut [u8],
        text: &mut [u8],
        request: calls::Login,
        data: &[u8],
    ) -> Result<LoginAnswer, u16> {
        self.check(live, request, data.len())?;
        let mut joined = gather[..self.gathered].to_vec();
        joined.extend_from_slice(data);
        let mut answer = Vec::new();
        if !request.continues {
            let with = Circumstances {
                stage: request.csg,
                tsih: request.tsih,
                target_name: &self.target_name,
            };
            let mut negotiation = self.negotiation.clone();
            answer = negotiation.judge(&joined, &with)?;
            self.negotiation = negotiation;
        }
        // From here on nothing refuses.
        let gathering = request.continues || self.gathered > 0;
        if gathering {
            gather[..joined.len()].copy_from_slice(&joined);
        }
        self.gathered = if request.continues { joined.len() } else { 0 };
        text[..answer.len()].copy_from_slice(&answer);

        let stage = if request.transit {
            request.nsg
        } else {
            request.csg
        };
        self.started = Some((stage, identity(request)));
        self.over = stage == FULL_FEATURE;
        Ok(LoginAnswer {
            stage,
            transit: request.transit,
            csg: request.csg,
            nsg: if request.transit { request.nsg } else { 0 },
            tsih: if request.tsih == 0 && stage == FULL_FEATURE {
                new
            } else {
                request.tsih
            },
            text_length: answer.len(),
        })
    }

    /// The checks of a request, in document 01's order.
    fn check(&self, live: u16, request: calls::Login, length: usize) -> Result<(), u16> {
        if request.version_min > 0 {
            return Err(UNSUPPORTED_VERSION);
        }
        if request.tsih != 0 && request.tsih != live {
            return Err(SESSION_DOES_NOT_EXIST);
        }
        if let Some((_, first)) = self.started
            && identity(request) != first
        {
            return Err(INITIATOR_ERROR);
        }
        if request.continues && request.transit {
            return Err(INITIATOR_ERROR);
        }
        let stage_fits = match self.started {
            Some((stage, _)) => request.csg == stage,
            None => STARTS.contains(&request.csg),
        };
        if !stage_fits {
            return Err(INITIATOR_ERROR);
        }
        if request.transit && !STEPS.contains(&(request.csg, request.nsg)) {
            return Err(INITIATOR_ERROR);
        }
        if self.gathered + length > TEXT_BYTES {
            return Err(INITIATOR_ERROR);
        }
        Ok(())
    }
}

fn identity(request: calls::Login) -> Identity {
    Identity {
        isid: request.isid,
        tsih: request.tsih,
        cid: request.cid,
    }
}

fn data_of<'a>(input: &'a [u8], pdu: &Pdu) -> &'a [u8] {
    &input[pdu.data.offset..pdu.data.offset + pdu.data.length]
}

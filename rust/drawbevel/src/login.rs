//! A login: its state between requests; names, handles and areas are lent with each request.

use crate::ffi::LoginParts;
use crate::words::refusal_of;
use calls::{LoginAnswer, Parameters, Refusal};

/// A login. It holds no pointer and may be moved and cloned; a clone goes its own way.
#[derive(Clone)]
pub struct Login {
    parts: LoginParts,
}

impl Default for Login {
    fn default() -> Self {
        Login::new()
    }
}

impl Login {
    /// A login before its first request: every standard value is in force.
    pub fn new() -> Self {
        Login {
            parts: LoginParts::fresh(),
        }
    }

    /// Answer a request to the target of this name. `live` is the live session's handle or 0, `new` the handle for a new
    /// session; `gather` is the same area for the whole login; the answer's text is written to `text`. A refusal with a
    /// status ends the login.
    pub fn request(
        &mut self,
        target_name: &[u8],
        live: u16,
        new: u16,
        gather: &mut [u8],
        text: &mut [u8],
        pdu: &[u8],
    ) -> Result<LoginAnswer, Refusal> {
        let handles = (live, new);
        let answer = self.parts.request(target_name, handles, gather, text, pdu);
        let [number, status, stage, transit, csg, nsg, tsih, length] = answer;
        if number != 0 {
            return Err(refusal_of(number as u32, status as u16));
        }
        Ok(LoginAnswer {
            stage: stage as u8,
            transit: transit != 0,
            csg: csg as u8,
            nsg: nsg as u8,
            tsih: tsih as u16,
            text_length: length as usize,
        })
    }

    /// The parameters in force.
    pub fn parameters(&self) -> Parameters {
        let v = self.parts.values();
        Parameters {
            max_connections: v[0],
            max_outstanding_r2t: v[1],
            initial_r2t: v[2] != 0,
            data_pdu_in_order: v[3] != 0,
            data_sequence_in_order: v[4] != 0,
            immediate_data: v[5] != 0,
            max_recv_data_segment_length: v[6],
            max_burst_length: v[7],
            first_burst_length: v[8],
            default_time2wait: v[9],
            default_time2retain: v[10],
            error_recovery_level: v[11],
        }
    }
}

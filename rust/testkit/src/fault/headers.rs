//! Faults in reading and writing.

use super::{Broken, Fault};
use calls::{Engine, HEADER_BYTES, Numbers, Pdu, Refusal, Request, Response};

impl<E: Engine + Clone> Broken<E> {
    /// The PDU that the inner engine is shown, for faults that every call with a PDU has.
    pub(super) fn disguised(&self, pdu: &[u8]) -> Vec<u8> {
        let mut pdu = pdu.to_vec();
        if pdu.len() < HEADER_BYTES {
            return pdu;
        }
        match (self.fault, pdu[0] & 0x3f) {
            (Fault::FunctionFourBits, 0x02) => pdu[1] &= 0x8f,
            (Fault::ReadIsEnough, 0x01) if pdu[1] & 0xe0 == 0x40 => pdu[1] |= 0x80,
            (Fault::NopOutWithoutTag, 0x00) if pdu[16..20] == [0xff; 4] => pdu[0] |= 0x40,
            (Fault::VersionIgnored, 0x03) => pdu[3] = 0,
            (Fault::ZeroIsAll, 0x10) if pdu[40..44] == [0; 4] => pdu[44..48].fill(0),
            (Fault::AhsAnywhere, opcode) | (Fault::DataOutAhs, opcode @ 0x05) if opcode != 0x01 => {
                let end = HEADER_BYTES + 4 * usize::from(pdu[4]);
                if end <= pdu.len() {
                    pdu.drain(HEADER_BYTES..end);
                    pdu[4] = 0;
                }
            }
            _ => {}
        }
        pdu
    }

    pub(super) fn read_with_fault(&self, bytes: &[u8]) -> Result<Pdu, Refusal> {
        let mut read = self.inner.read(&self.disguised(bytes));
        match (self.fault, &mut read) {
            (Fault::OpcodeBeforeShort, Err(Refusal::Length))
                if bytes.len() < HEADER_BYTES
                    && bytes.first().is_some_and(|byte| byte & 0x3f > 0x10) =>
            {
                return Err(Refusal::Opcode);
            }
            (Fault::LengthBeforeTooLong, Err(Refusal::TooLong)) if bytes.len() == HEADER_BYTES => {
                return Err(Refusal::Length);
            }
            (Fault::PadWordTooMany, Err(Refusal::Length)) if bytes.len() >= 52 => {
                return self.inner.read(&bytes[..bytes.len() - 4]);
            }
            (Fault::LongestRefused, Ok(pdu)) if pdu.data.length == 8192 => {
                return Err(Refusal::TooLong);
            }
            (Fault::SnackShowsCmdSn, Ok(pdu)) if matches!(pdu.request, Request::Snack(_)) => {
                pdu.cmd_sn = super::number(bytes, 24);
            }
            (Fault::LoginShowsLun, Ok(pdu)) if matches!(pdu.request, Request::Login(_)) => {
                pdu.lun = super::number(bytes, 12).into();
            }
            _ => {}
        }
        if let Ok(pdu) = &mut read {
            self.data_out(pdu, bytes)?;
        }
        read
    }

    /// The response that the inner engine is shown.
    pub(super) fn response(&self, response: &Response) -> Response {
        let mut shown = *response;
        if let Response::Login {
            transit, nsg, isid, ..
        } = &mut shown
        {
            if self.is(Fault::NsgDropped) && !*transit {
                *nsg = 0;
            }
            if self.is(Fault::IsidCut) {
                *isid &= (1 << 48) - 1;
            }
        }
        shown
    }

    /// A send's answer, writing's refusals before those of the connection where that is the fault.
    pub(super) fn judged_first(
        &self,
        response: &Response,
        answer: Result<u32, Refusal>,
    ) -> Result<u32, Refusal> {
        let is_of_connection = matches!(answer, Err(Refusal::NoConn | Refusal::Closed));
        if !(self.is(Fault::ResponseBeforeConnection) && is_of_connection) {
            return answer;
        }
        let numbers = Numbers {
            stat_sn: 0,
            exp_cmd_sn: 0,
            max_cmd_sn: 0,
        };
        let written = self.inner.write(&mut [0; HEADER_BYTES], numbers, response);
        written.and(answer)
    }

    /// What the fault does to a header that was written, and to what is lent with a refusal.
    pub(super) fn spoil<T>(&self, out: &mut [u8], answer: &Result<T, Refusal>) {
        match (self.fault, answer) {
            (Fault::BidirectionalBits, Ok(_)) if out[0] == 0x21 => {
                out[1] = out[1] & 0xf9 | (out[1] & 0x06) << 2;
            }
            (Fault::RejectWithoutTag, Ok(_)) if out[0] == 0x3f => out[16..20].fill(0),
            (Fault::WritesAfterHeader, Ok(_)) if out.len() > HEADER_BYTES => out[HEADER_BYTES] = 0,
            (Fault::WritesOnRefusal, Err(_)) if !out.is_empty() => out[0] = 0,
            (_, Ok(_)) => self.spoil_exp_data_sn(out),
            _ => {}
        }
    }

    pub(super) fn write_with_fault(
        &self,
        out: &mut [u8],
        numbers: Numbers,
        response: &Response,
    ) -> Result<(), Refusal> {
        let mut answer = match self.data_written(&self.response(response)) {
            Err(refusal) if out.len() >= HEADER_BYTES => return Err(refusal),
            Err(_) => Err(Refusal::Buffer),
            Ok(shown) => self.inner.write(out, numbers, &shown),
        };
        if answer.is_ok() {
            self.spoil_data(out, numbers, response);
        }
        if self.is(Fault::FieldBeforeTooLong) && answer == Err(Refusal::TooLong) {
            let both = matches!(
                response,
                Response::Scsi {
                    overflow: true,
                    underflow: true,
                    ..
                }
            );
            if both {
                answer = Err(Refusal::Field);
            }
        }
        self.spoil(out, &answer);
        answer
    }
}

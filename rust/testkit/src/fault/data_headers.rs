//! Faults in the headers of data phases.

use super::{Broken, Fault, NO_TAG, is_data, number};
use calls::{DataOut, Engine, Numbers, Offer, Pdu, Refusal, Request, Response, Run};

/// The longest data segment that is written.
const LONGEST: u32 = 8192;

impl<E: Engine + Clone> Broken<E> {
    /// What a Data-Out that was read is shown as.
    pub(super) fn data_out(&self, pdu: &mut Pdu, bytes: &[u8]) -> Result<(), Refusal> {
        let empty = pdu.data.length == 0;
        let Request::DataOut(own) = &mut pdu.request else {
            return Ok(());
        };
        match self.fault {
            Fault::DataOutUnknown => return Err(Refusal::Opcode),
            Fault::DataOutNeedsF if !own.final_bit => return Err(Refusal::Field),
            Fault::DataOutNeedsTag if own.ttt == NO_TAG => return Err(Refusal::Field),
            Fault::DataOutNeedsData if empty => return Err(Refusal::Field),
            Fault::DataOutShowsCmdSn => pdu.cmd_sn = number(bytes, 24),
            Fault::DataOutShowsI => pdu.immediate = bytes[0] & 0x40 != 0,
            Fault::DataOutSwapped => {
                *own = DataOut {
                    data_sn: own.buffer_offset,
                    buffer_offset: own.data_sn,
                    ..*own
                };
            }
            _ => {}
        }
        Ok(())
    }

    /// Whether a PDU is a good Data-Out that was refused for its kind.
    fn is_for_its_kind<T>(&self, answer: &Result<T, Refusal>, pdu: &[u8]) -> bool {
        let is_data_out = |pdu: Pdu| matches!(pdu.request, Request::DataOut(_));
        matches!(answer, Err(Refusal::Field)) && self.inner.read(pdu).is_ok_and(is_data_out)
    }

    /// An offer's answer to a Data-Out.
    pub(super) fn data_out_offered(
        &self,
        pdu: &[u8],
        answer: Result<Offer, Refusal>,
    ) -> Result<Offer, Refusal> {
        if self.is(Fault::DataOutOffered) && self.is_for_its_kind(&answer, pdu) {
            return Ok(Offer::Immediate);
        }
        answer
    }

    /// A SNACK call's answer to a Data-Out.
    pub(super) fn data_out_as_snack(
        &self,
        pdu: &[u8],
        answer: Result<Run, Refusal>,
    ) -> Result<Run, Refusal> {
        if self.is(Fault::DataOutAsSnack) && self.is_for_its_kind(&answer, pdu) {
            return Err(Refusal::Snack);
        }
        answer
    }

    /// The Data-In or the R2T that the inner engine is shown for a write, or FIELD where a rule that isn't writing's is broken.
    pub(super) fn data_written(&self, response: &Response) -> Result<Response, Refusal> {
        let mut shown = *response;
        match (self.fault, &mut shown) {
            (
                Fault::DataInAnyLength,
                Response::DataIn {
                    data_segment_length,
                    ..
                },
            ) if *data_segment_length < 1 << 24 => {
                *data_segment_length = LONGEST.min(*data_segment_length);
            }
            (
                Fault::DataInNeedsTag,
                Response::DataIn {
                    acknowledge: true,
                    ttt: NO_TAG,
                    data_segment_length: 0..=LONGEST,
                    ..
                },
            )
            | (Fault::R2tNeedsTag, Response::R2t { ttt: NO_TAG, .. })
            | (
                Fault::R2tNeedsLength,
                Response::R2t {
                    desired_data_transfer_length: 0,
                    ..
                },
            ) => return Err(Refusal::Field),
            _ => {}
        }
        Ok(shown)
    }

    /// What the fault does to the header of a Data-In or an R2T.
    pub(super) fn spoil_data(&self, out: &mut [u8], numbers: Numbers, response: &Response) {
        let stat_sn = numbers.stat_sn.to_be_bytes();
        let length = match *response {
            Response::DataIn {
                data_segment_length,
                ..
            } => data_segment_length,
            Response::R2t {
                desired_data_transfer_length,
                ..
            } => desired_data_transfer_length,
            _ => return,
        };
        match (self.fault, out[0]) {
            (Fault::DataInStatSn, 0x25) => out[24..28].copy_from_slice(&stat_sn),
            (Fault::DataInAlwaysFinal, 0x25) => out[1] |= 0x80,
            (Fault::DataInWithoutA, 0x25) => out[1] &= 0xbf,
            (Fault::DataInLengthTwice, 0x25) => out[44..48].copy_from_slice(&length.to_be_bytes()),
            (Fault::DataInAnyLength, 0x25) | (Fault::R2tDataLength, 0x31) => {
                out[5..8].copy_from_slice(&length.to_be_bytes()[1..]);
            }
            (Fault::R2tStatSnZero, 0x31) => out[24..28].fill(0),
            _ => {}
        }
    }

    /// What the fault does to the header of a SCSI Response.
    pub(super) fn spoil_exp_data_sn(&self, out: &mut [u8]) {
        match (self.fault, out[0]) {
            (Fault::ExpDataSnLeftOut, 0x21) => out[36..40].fill(0),
            (Fault::ExpDataSnAfterResidual, 0x21) => {
                out.copy_within(36..40, 40);
                out[36..40].fill(0);
            }
            _ => {}
        }
    }

    /// The response that the inner engine is shown for a send: a status in place of what is none.
    pub(super) fn data_to_send(&self, response: Response) -> Response {
        if self.is(Fault::DataSent) && is_data(&response) && self.is_writable(&response) {
            return Response::Reject { reason: 0 };
        }
        response
    }

    /// A send's answer to a Data-In or an R2T, `held` statuses being held.
    pub(super) fn data_sent(
        &self,
        response: &Response,
        held: usize,
        answer: Result<u32, Refusal>,
    ) -> Result<u32, Refusal> {
        match (self.fault, answer) {
            (Fault::DataSentFieldFirst, Err(Refusal::TooLong)) if is_data(response) => {
                Err(Refusal::Field)
            }
            (Fault::DataSentFullFirst, Err(Refusal::Field)) if is_data(response) && held >= 32 => {
                Err(Refusal::Full)
            }
            _ => answer,
        }
    }
}

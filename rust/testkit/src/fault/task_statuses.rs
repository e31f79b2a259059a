//! Faults in statuses that are sent and resent with a task's record.

use super::{Broken, Fault};
use calls::{Engine, HEADER_BYTES, Numbers, Refusal, Response, Task};

/// Opcode of a SCSI Response.
const SCSI_RESPONSE: u8 = 0x21;

impl<E: Engine + Clone> Broken<E> {
    /// The record that the inner engine is shown for a send.
    pub(super) fn record_to_send(&self, task: &Task, response: &Response) -> Task {
        let mut shown = task.clone();
        let Response::Scsi { itt, snack_tag, .. } = *response else {
            return shown;
        };
        match self.fault {
            Fault::StatusAnyItt => shown.itt = itt,
            Fault::StatusAnySnackTag => shown.snack_tag = snack_tag,
            Fault::ExpDataSnOfR2ts => shown.any_data_in = true,
            _ => {}
        }
        shown
    }

    /// A send's answer to a SCSI Response, `held` statuses being held.
    pub(super) fn scsi_sent(
        &self,
        task: &Task,
        response: &Response,
        held: usize,
        answer: Result<u32, Refusal>,
    ) -> Result<u32, Refusal> {
        let Response::Scsi { itt, snack_tag, .. } = *response else {
            return answer;
        };
        let wrong_tags = itt != task.itt || snack_tag != task.snack_tag;
        match (self.fault, answer) {
            (Fault::TagsBeforeTooLong, Err(Refusal::TooLong)) if wrong_tags => Err(Refusal::Field),
            (Fault::TagsAfterFull, Err(Refusal::Field))
                if held >= 32 && wrong_tags && self.is_writable(response) =>
            {
                Err(Refusal::Full)
            }
            _ => answer,
        }
    }

    /// Whether writing refuses nothing in a response.
    pub(super) fn is_writable(&self, response: &Response) -> bool {
        let numbers = Numbers {
            stat_sn: 0,
            exp_cmd_sn: 0,
            max_cmd_sn: 0,
        };
        let mut out = [0; HEADER_BYTES];
        self.inner.write(&mut out, numbers, response).is_ok()
    }

    /// What the fault does to the header of a SCSI Response that was sent.
    pub(super) fn spoil_sent(&self, task: &Task, response: &Response, out: &mut [u8]) {
        let Response::Scsi {
            response: code,
            exp_data_sn,
            ..
        } = *response
        else {
            return;
        };
        let count = match self.fault {
            Fault::ExpDataSnOfFailed if code != 0 && task.any_data_in => task.sent,
            Fault::ExpDataSnStated => exp_data_sn,
            _ => return,
        };
        out[36..40].copy_from_slice(&count.to_be_bytes());
    }

    /// What the fault does to a status that was resent, whose header stood as `stored` when it was sent.
    pub(super) fn spoil_resent(
        &self,
        task: &Task,
        stored: &[u8],
        out: &mut [u8],
    ) -> Result<(), Refusal> {
        let is_scsi = out[0] == SCSI_RESPONSE;
        let count = task.sent.to_be_bytes();
        match self.fault {
            Fault::ResendCountsOthers if !is_scsi => out[36..40].copy_from_slice(&count),
            _ if !is_scsi => {}
            Fault::ResendOldCount => out[36..40].copy_from_slice(&stored[36..40]),
            Fault::ResendOldTag => out[20..24].copy_from_slice(&stored[20..24]),
            Fault::ResendClearsTag if task.snack_tag == 0 => out[20..24].fill(0),
            Fault::ResendJudgesTask if out[16..20] != task.itt.to_be_bytes() => {
                return Err(Refusal::Field);
            }
            Fault::ResendCountOfFailed if task.any_data_in => {
                out[36..40].copy_from_slice(&count);
            }
            _ => {}
        }
        Ok(())
    }
}

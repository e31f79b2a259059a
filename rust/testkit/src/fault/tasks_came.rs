//! Faults in what comes for a task: Data-Out and data SNACK.

use super::{Broken, Fault, NO_TAG, number};
use calls::{Came, DataSnack, Engine, HEADER_BYTES, Refusal, Task};

/// Put a number in four bytes.
fn put(bytes: &mut [u8], at: usize, number: u32) {
    bytes[at..at + 4].copy_from_slice(&number.to_be_bytes());
}

/// Whether these bytes are a whole header of this opcode.
fn is_of(bytes: &[u8], opcode: u8) -> bool {
    bytes.len() >= HEADER_BYTES && bytes[0] & 0x3f == opcode
}

impl<E: Engine + Clone> Broken<E> {
    pub(super) fn data_out_with_fault(
        &mut self,
        connection: u32,
        task: &mut Task,
        pdu: &[u8],
    ) -> Result<Came, Refusal> {
        let connection = self.connection(connection);
        let pdu = self.disguised(pdu);
        let (mut shown, mut bytes) = (task.clone(), pdu.clone());
        if is_of(&pdu, 0x05) {
            self.disguise_data_out(&mut shown, &mut bytes);
        }
        let mut answer = self.inner.data_out(connection, &mut shown, &bytes);
        if answer == Err(Refusal::Field) && is_of(&pdu, 0x05) {
            self.disguise_end(&mut shown, &mut bytes);
            answer = self.inner.data_out(connection, &mut shown, &bytes);
        }
        match answer {
            Ok(came) if self.refuses_data_out(task, &pdu, came) => Err(Refusal::Field),
            Ok(mut came) => {
                let before = std::mem::replace(task, shown);
                let f = pdu[1] & 0x80 != 0;
                match self.fault {
                    Fault::DataSnOverF if f => task.data_sn = before.data_sn.saturating_add(1),
                    Fault::LastDataSnDue if before.data_sn == u32::MAX => task.data_sn = 0,
                    Fault::AnyOffset => came.offset = number(&pdu, 40),
                    Fault::OpenBefore => came.open = before.open.len() as u8,
                    _ => {}
                }
                Ok(came)
            }
            Err(refusal) => {
                if self.is(Fault::RefusedDataOutCounts) && refusal == Refusal::Field {
                    task.data_sn = task.data_sn.saturating_add(1);
                }
                let mut copy = task.clone();
                Err(self.reordered(connection, refusal, |e| e.data_out(0, &mut copy, &pdu)))
            }
        }
    }

    /// The Data-Out that the inner engine is shown, and the record.
    fn disguise_data_out(&self, task: &mut Task, bytes: &mut [u8]) {
        let (tag, data_sn) = (number(bytes, 20), number(bytes, 36));
        let oldest = task.open.first().map_or(0, |r2t| r2t.tag);
        let is_open = task.open.iter().any(|r2t| r2t.tag == tag);
        match self.fault {
            Fault::AnyOpenR2t if is_open => put(bytes, 20, oldest),
            Fault::UnsolicitedTaken if tag == NO_TAG => put(bytes, 20, oldest),
            Fault::AnyItt => put(bytes, 16, task.itt),
            Fault::AnyDataSn => put(bytes, 36, task.data_sn),
            Fault::AnyOffset => put(bytes, 40, task.came as u32),
            Fault::LastDataSnDue if task.data_sn == u32::MAX && data_sn == u32::MAX => {
                task.data_sn = 0;
                put(bytes, 36, 0);
            }
            _ => {}
        }
    }

    /// The end of a refused Data-Out, or of its R2T, that the inner engine is shown.
    fn disguise_end(&self, task: &mut Task, bytes: &mut [u8]) {
        let length = u64::from(number(bytes, 4) & 0x00ff_ffff);
        let (f, end) = (bytes[1] & 0x80 != 0, task.came.saturating_add(length));
        let Some(oldest) = task.open.first_mut() else {
            return;
        };
        match self.fault {
            Fault::FOneEarly if f && end + 1 == oldest.end => oldest.end = end,
            Fault::FAnywhere if f && end < oldest.end => oldest.end = end,
            Fault::PastTheEnd if f && end > oldest.end => oldest.end = end,
            Fault::FMissing if !f && end == oldest.end => bytes[1] |= 0x80,
            _ => {}
        }
    }

    /// Whether a Data-Out that no rule refuses is FIELD.
    fn refuses_data_out(&self, task: &Task, pdu: &[u8], came: Came) -> bool {
        match self.fault {
            Fault::EmptyDataOut => came.count == 0,
            Fault::LunCompared => pdu[8..16] != task.lun.to_be_bytes(),
            _ => false,
        }
    }

    pub(super) fn data_snack_with_fault(
        &mut self,
        connection: u32,
        task: &mut Task,
        offset: u32,
        pdu: &[u8],
    ) -> Result<DataSnack, Refusal> {
        let connection = self.connection(connection);
        let (mut shown, mut bytes) = (task.clone(), pdu.to_vec());
        let kind = is_of(pdu, 0x10).then(|| pdu[1] & 0x0f);
        self.disguise_snack(kind, &mut shown, &mut bytes);
        let mut answer = self
            .inner
            .data_snack(connection, &mut shown, offset, &bytes);
        if answer == Err(Refusal::Snack) && self.seen.level > 0 {
            match (self.fault, kind) {
                (Fault::DataRunClipped, Some(0)) if bytes[40..44] != [0; 4] => {
                    put(&mut bytes, 44, 0);
                }
                (Fault::DataAckClipped, Some(2)) => put(&mut bytes, 40, task.sent),
                _ => {}
            }
            answer = self
                .inner
                .data_snack(connection, &mut shown, offset, &bytes);
        }
        match answer {
            Ok(_) if self.refuses_snack(kind, task, pdu) => Err(Refusal::Snack),
            Ok(said) => {
                let before = std::mem::replace(task, shown);
                self.after_snack(kind, &before, task, pdu, said);
                Ok(said)
            }
            Err(Refusal::Field) => Err(match (self.fault, kind) {
                (Fault::StatusSnackIsSnack, Some(1)) => Refusal::Snack,
                (Fault::LevelBeforeTags, Some(0 | 2 | 3)) if self.seen.level == 0 => Refusal::Snack,
                _ => Refusal::Field,
            }),
            Err(refusal) => {
                let mut copy = task.clone();
                Err(self.reordered(connection, refusal, |e| {
                    e.data_snack(0, &mut copy, offset, pdu)
                }))
            }
        }
    }

    /// The SNACK that the inner engine is shown, and the record.
    fn disguise_snack(&self, kind: Option<u8>, task: &mut Task, bytes: &mut [u8]) {
        match (self.fault, kind) {
            (Fault::DataZeroIsAll, Some(0)) if bytes[40..44] == [0; 4] => put(bytes, 44, 0),
            (Fault::AcknowledgedAgain, Some(0)) => task.acknowledged = 0,
            (Fault::Type3WithRun, Some(3)) => bytes[40..48].fill(0),
            (Fault::DataAckAnyTag, Some(2)) if task.tag != NO_TAG => put(bytes, 20, task.tag),
            (Fault::DataAckWithoutTag, Some(2))
                if task.tag == NO_TAG && number(bytes, 20) == NO_TAG =>
            {
                task.tag = 0;
                put(bytes, 20, 0);
            }
            (Fault::SnackAnyItt, Some(0 | 3)) => put(bytes, 16, task.itt),
            _ => {}
        }
    }

    /// Whether a SNACK that no rule refuses is SNACK.
    fn refuses_snack(&self, kind: Option<u8>, task: &Task, pdu: &[u8]) -> bool {
        let (beg_run, run_length) = (number(pdu, 40), number(pdu, 44));
        match (self.fault, kind) {
            (Fault::OlderDataAckRefused, Some(2)) => beg_run < task.acknowledged,
            (Fault::DataAckOneShort, Some(2)) => beg_run == task.sent,
            (Fault::DataAckRunLength, Some(2)) => run_length != 0,
            _ => false,
        }
    }

    /// What the fault does to the record after a SNACK.
    fn after_snack(
        &self,
        kind: Option<u8>,
        before: &Task,
        task: &mut Task,
        pdu: &[u8],
        said: DataSnack,
    ) {
        match (self.fault, kind) {
            (Fault::AcknowledgedAgain, Some(0)) => task.acknowledged = before.acknowledged,
            (Fault::RunAcknowledges, Some(0)) => {
                if let DataSnack::Run(run) = said {
                    task.acknowledged = run.first;
                }
            }
            (Fault::DataAckGoesBack, Some(2)) => task.acknowledged = number(pdu, 40),
            (Fault::DataAckWithoutTag, Some(2)) => task.tag = before.tag,
            (Fault::Type3KeepsCount, Some(3)) => task.sent = before.sent,
            (Fault::Type3FromZero, Some(3)) => task.sent = 0,
            (Fault::Type3KeepsBurst, Some(3)) => task.burst = before.burst,
            (Fault::Type3KeepsOffset, Some(3)) => task.offset = before.offset,
            (Fault::Type3KeepsTag, Some(3)) if before.snack_tag != 0 => {
                task.snack_tag = before.snack_tag;
            }
            (Fault::Type3ClosesR2ts, Some(3)) => {
                task.open.clear();
                task.asked = task.came;
                task.data_sn = 0;
            }
            (Fault::Type3ForgetsDataIn, Some(3)) => task.any_data_in = false,
            _ => {}
        }
    }
}

//! Faults in a record's making and in what is sent with it: Data-In and R2T.

use super::{Broken, Fault, NO_TAG};
use calls::{DataInPdu, Engine, HEADER_BYTES, OpenR2t, Refusal, Response, Task, TaskGiven};

/// No data lies past this.
const END: u64 = 1 << 32;
/// The count that is never passed.
const MOST: u32 = u32::MAX;

impl<E: Engine + Clone> Broken<E> {
    pub(super) fn task_with_fault(&self, mut given: TaskGiven) -> Result<Task, Refusal> {
        match self.fault {
            Fault::TaskMoreR2ts => given.max_r2t = given.max_r2t.min(8),
            Fault::TaskCutR2ts => given.max_r2t &= 0xff,
            Fault::TaskZeroR2ts => given.max_r2t = given.max_r2t.max(1),
            Fault::TaskForgetsImmediate => given.came = 0,
            _ => {}
        }
        self.inner.task(given)
    }

    /// The inner engine with a fresh session, in which connection 0 is open.
    fn elsewhere(&self) -> E {
        let mut inner = self.inner.clone();
        inner.begin_session(1, 1, self.seen.level);
        inner
    }

    /// A data call's refusal, in another order where that is the fault. `call` is the same call on an open connection.
    pub(super) fn reordered<T>(
        &self,
        connection: u32,
        refusal: Refusal,
        call: impl FnOnce(&mut E) -> Result<T, Refusal>,
    ) -> Refusal {
        match (self.fault, refusal) {
            (Fault::DataConnectionLast, Refusal::NoConn | Refusal::Closed) => {
                call(&mut self.elsewhere()).err().unwrap_or(refusal)
            }
            (Fault::DataBufferLast, Refusal::Buffer) => {
                let next = self.inner.next_stat_sn(connection);
                next.err().unwrap_or(refusal)
            }
            _ => refusal,
        }
    }

    /// Use up a StatSN of a connection, as a status does.
    fn use_up_stat_sn(&mut self, connection: u32, ticket: u32) {
        let (mut out, reject) = ([0; HEADER_BYTES], Response::Reject { reason: 0 });
        let task = Task::fresh_for(0);
        let _ = self
            .inner
            .send(connection, ticket, &task, &mut out, &reject);
    }

    pub(super) fn data_in_with_fault(
        &mut self,
        connection: u32,
        task: &mut Task,
        out: &mut [u8],
        pdu: DataInPdu,
    ) -> Result<(), Refusal> {
        let connection = self.connection(connection);
        let (mut shown, untouched) = (self.shown_for_data_in(task, pdu), out.to_vec());
        let answer = self.inner.data_in(connection, &mut shown, out, pdu);
        let answer = match answer {
            Ok(()) if self.refuses_data_in(task, pdu) => {
                out.copy_from_slice(&untouched);
                Err(Refusal::Field)
            }
            Ok(()) => {
                self.spoil_data_in(connection, task, pdu, out);
                let before = std::mem::replace(task, shown);
                self.after_data_in(&before, task, pdu);
                Ok(())
            }
            Err(Refusal::TooLong)
                if self.is(Fault::DataFieldBeforeTooLong)
                    && (pdu.acknowledge && task.tag == NO_TAG || task.sent == MOST) =>
            {
                Err(Refusal::Field)
            }
            Err(refusal) => {
                if self.is(Fault::RefusedDataInCounts) && refusal == Refusal::Field {
                    task.sent = task.sent.saturating_add(1);
                }
                let mut copy = task.clone();
                let mut lent = out.to_vec();
                Err(self.reordered(connection, refusal, |e| {
                    e.data_in(0, &mut copy, &mut lent, pdu)
                }))
            }
        };
        self.spoil(out, &answer);
        answer
    }

    /// The record that the inner engine is shown for a Data-In.
    fn shown_for_data_in(&self, task: &Task, pdu: DataInPdu) -> Task {
        let mut shown = task.clone();
        let is_empty = pdu.data_segment_length == 0;
        match self.fault {
            Fault::BurstIsPdu => shown.burst = 0,
            Fault::AWithoutTag if pdu.acknowledge && task.tag == NO_TAG => shown.tag = 0,
            Fault::EmptyAtTheEnd if task.offset == END && is_empty => shown.offset = 0,
            Fault::NumbersWrap if task.sent == MOST => shown.sent = 0,
            _ => {}
        }
        shown
    }

    /// Whether a Data-In that no rule refuses is FIELD.
    fn refuses_data_in(&self, task: &Task, pdu: DataInPdu) -> bool {
        let length = pdu.data_segment_length;
        match self.fault {
            Fault::BurstOneShort => length > 0 && task.burst + length == task.max_burst,
            Fault::OffsetsOneShort => task.offset + u64::from(length) == END,
            Fault::NumbersOneShort => task.sent == MOST - 1,
            Fault::EmptyDataIn => length == 0,
            _ => false,
        }
    }

    /// What the fault does to the record after a Data-In.
    fn after_data_in(&self, before: &Task, task: &mut Task, pdu: DataInPdu) {
        let burst = before.burst.saturating_add(pdu.data_segment_length);
        match self.fault {
            Fault::BurstIsTransfer => task.burst = burst,
            Fault::BurstIsPdu if !pdu.final_bit => task.burst = burst,
            Fault::DataSnRestartsAtF if pdu.final_bit => task.sent = 0,
            Fault::AWithoutTag => task.tag = before.tag,
            Fault::EmptyAtTheEnd if before.offset == END => task.offset = END,
            Fault::NumbersWrap if before.sent == MOST => task.sent = 0,
            _ => {}
        }
    }

    /// What the fault does to the header of a Data-In, and to the ledger.
    fn spoil_data_in(&mut self, connection: u32, task: &Task, pdu: DataInPdu, out: &mut [u8]) {
        let a = pdu.acknowledge;
        match self.fault {
            Fault::TagOfALeftOut if a => out[20..24].fill(0xff),
            Fault::LunOfALeftOut if a => out[8..16].fill(0),
            Fault::TagsWithoutA if !a => {
                out[8..16].copy_from_slice(&task.lun.to_be_bytes());
                out[20..24].copy_from_slice(&task.tag.to_be_bytes());
            }
            Fault::AWithoutTag if a && task.tag == NO_TAG => out[20..24].fill(0xff),
            Fault::NumbersWrap if task.sent == MOST => out[36..40].fill(0xff),
            Fault::DataInCarriesStatSn => {
                let next = self.inner.next_stat_sn(connection).unwrap_or(0);
                out[24..28].copy_from_slice(&next.to_be_bytes());
            }
            Fault::DataInStored => self.use_up_stat_sn(connection, 0),
            Fault::DataInOffsetOfBurst => out[40..44].copy_from_slice(&task.burst.to_be_bytes()),
            _ => {}
        }
    }

    pub(super) fn r2t_with_fault(
        &mut self,
        connection: u32,
        task: &mut Task,
        out: &mut [u8],
        tag: u32,
        length: u32,
    ) -> Result<(), Refusal> {
        let connection = self.connection(connection);
        let mut shown = task.clone();
        let (mut shown_tag, mut shown_length) = (tag, length);
        match self.fault {
            Fault::R2tAnyLength => shown.max_burst = u32::MAX,
            Fault::R2tAnyCount => shown.max_r2t = 8,
            Fault::R2tFromCame => shown.asked = task.came,
            Fault::NumbersWrap if task.sent == MOST => shown.sent = 0,
            Fault::R2tOfNothing => shown_length = length.max(1),
            Fault::R2tWithoutTag if tag == NO_TAG => shown_tag = 0,
            _ => {}
        }
        let untouched = out.to_vec();
        let answer = self
            .inner
            .r2t(connection, &mut shown, out, shown_tag, shown_length);
        let answer = match answer {
            Ok(()) if self.refuses_r2t(task, tag, length) => {
                out.copy_from_slice(&untouched);
                Err(Refusal::Field)
            }
            Ok(()) => {
                self.spoil_r2t(connection, task, out, tag, length);
                let before = std::mem::replace(task, shown);
                self.after_r2t(&before, task, tag, length);
                Ok(())
            }
            Err(refusal) => {
                let (mut copy, mut lent) = (task.clone(), out.to_vec());
                Err(self.reordered(connection, refusal, |e| {
                    e.r2t(0, &mut copy, &mut lent, tag, length)
                }))
            }
        };
        self.spoil(out, &answer);
        answer
    }

    /// Whether an R2T that no rule refuses is FIELD.
    fn refuses_r2t(&self, task: &Task, tag: u32, length: u32) -> bool {
        let open = task.open.len();
        match self.fault {
            Fault::R2tOneFewer => open > 0 && open + 1 == task.max_r2t.into(),
            Fault::R2tOffsetsOneShort => task.asked + u64::from(length) == END,
            Fault::R2tLengthOneShort => length == task.max_burst,
            Fault::R2tTagTwice => task.open.iter().any(|r2t| r2t.tag == tag),
            Fault::NumbersOneShort => task.sent == MOST - 1,
            _ => false,
        }
    }

    /// What the fault does to the record after an R2T.
    fn after_r2t(&self, before: &Task, task: &mut Task, tag: u32, length: u32) {
        let end = before.asked + u64::from(length);
        match self.fault {
            Fault::R2tAnyLength => task.max_burst = before.max_burst,
            Fault::R2tAnyCount => task.max_r2t = before.max_r2t,
            Fault::NumbersWrap if before.sent == MOST => task.sent = 0,
            Fault::R2tOfNothing | Fault::R2tWithoutTag => {
                task.asked = end;
                task.open.pop();
                task.open.push(OpenR2t { tag, end });
            }
            Fault::NewestR2tFirst => task.open.rotate_right(1),
            Fault::R2tEndsBurst => task.burst = 0,
            Fault::R2tIsDataIn => task.any_data_in = true,
            _ => {}
        }
    }

    /// What the fault does to the header of an R2T, and to the ledger.
    fn spoil_r2t(&mut self, connection: u32, task: &Task, out: &mut [u8], tag: u32, length: u32) {
        match self.fault {
            Fault::R2tStored => self.use_up_stat_sn(connection, tag),
            Fault::R2tOwnNumbers if task.any_data_in => {
                let open = task.open.len() as u32;
                out[36..40].copy_from_slice(&open.to_be_bytes());
            }
            Fault::NumbersWrap if task.sent == MOST => out[36..40].fill(0xff),
            Fault::R2tOfNothing => out[44..48].copy_from_slice(&length.to_be_bytes()),
            Fault::R2tWithoutTag => out[20..24].copy_from_slice(&tag.to_be_bytes()),
            Fault::R2tLunLeftOut => out[8..16].fill(0),
            _ => {}
        }
    }
}

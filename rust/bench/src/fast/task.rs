//! A task's record: numbers, and the open R2Ts as a ring of 8.

use super::read::{self, be32};
use super::write::{self, Words, put32, two};
use calls::{
    Came, DataInPdu, DataSnack, HEADER_BYTES, Numbers, OpenR2t, Refusal, Response, Run, TaskGiven,
};

const NO_TAG: u32 = 0xffff_ffff;
const END_OF_OFFSETS: u64 = 1 << 32;
const OPEN: usize = 8;

/// A task's record.
#[derive(Clone)]
pub struct Task {
    itt: u32,
    tag: u32,
    lun: u64,
    max_burst: u32,
    max_r2t: u8,
    any_data_in: bool,
    oldest: u8,
    open: u8,
    sent: u32,
    acknowledged: u32,
    offset: u64,
    burst: u32,
    snack_tag: u32,
    asked: u64,
    came: u64,
    data_sn: u32,
    ring: [(u32, u64); OPEN],
}

impl From<&calls::Task> for Task {
    fn from(task: &calls::Task) -> Self {
        let mut ring = [(0, 0); OPEN];
        for (place, r2t) in ring.iter_mut().zip(&task.open) {
            *place = (r2t.tag, r2t.end);
        }
        Task {
            itt: task.itt,
            tag: task.tag,
            lun: task.lun,
            max_burst: task.max_burst,
            max_r2t: task.max_r2t,
            any_data_in: task.any_data_in,
            oldest: 0,
            open: task.open.len() as u8,
            sent: task.sent,
            acknowledged: task.acknowledged,
            offset: task.offset,
            burst: task.burst,
            snack_tag: task.snack_tag,
            asked: task.asked,
            came: task.came,
            data_sn: task.data_sn,
            ring,
        }
    }
}

impl From<&Task> for calls::Task {
    fn from(task: &Task) -> Self {
        let open = (0..task.open).map(|k| {
            let (tag, end) = task.ring[task.place(k)];
            OpenR2t { tag, end }
        });
        calls::Task {
            itt: task.itt,
            lun: task.lun,
            tag: task.tag,
            max_burst: task.max_burst,
            max_r2t: task.max_r2t,
            sent: task.sent,
            acknowledged: task.acknowledged,
            any_data_in: task.any_data_in,
            offset: task.offset,
            burst: task.burst,
            snack_tag: task.snack_tag,
            asked: task.asked,
            came: task.came,
            data_sn: task.data_sn,
            open: open.collect(),
        }
    }
}

impl Task {
    /// A fresh record.
    pub fn make(given: TaskGiven) -> Result<Self, Refusal> {
        if given.max_r2t.wrapping_sub(1) >= OPEN as u16 {
            return Err(Refusal::Field);
        }
        Ok(Task {
            itt: given.itt,
            tag: given.tag,
            lun: given.lun,
            max_burst: given.max_burst,
            max_r2t: given.max_r2t as u8,
            any_data_in: false,
            oldest: 0,
            open: 0,
            sent: 0,
            acknowledged: 0,
            offset: 0,
            burst: 0,
            snack_tag: 0,
            asked: given.came.into(),
            came: given.came.into(),
            data_sn: 0,
            ring: [(0, 0); OPEN],
        })
    }

    /// Where the k-th oldest open R2T lies.
    #[inline]
    fn place(&self, k: u8) -> usize {
        usize::from(self.oldest.wrapping_add(k)) % OPEN
    }

    /// The next Data-In, which goes on the record.
    #[inline]
    pub fn data_in(&mut self, numbers: Numbers, pdu: DataInPdu) -> Result<Words, Refusal> {
        let length = u64::from(pdu.data_segment_length);
        let burst = u64::from(self.burst) + length;
        let end = self.offset.saturating_add(length);
        if burst > self.max_burst.into()
            || self.offset >= END_OF_OFFSETS
            || end > END_OF_OFFSETS
            || self.sent == u32::MAX
            || pdu.acknowledge && self.tag == NO_TAG
        {
            return Err(Refusal::Field);
        }
        let (lun, ttt) = if pdu.acknowledge {
            (self.lun, self.tag)
        } else {
            (0, NO_TAG)
        };
        let tags = two(self.itt, ttt);
        let header = write::data_in(numbers, pdu, lun, tags, self.sent, self.offset as u32);
        self.sent += 1;
        self.any_data_in = true;
        self.offset = end;
        self.burst = if pdu.final_bit { 0 } else { burst as u32 };
        Ok(header)
    }

    /// The next R2T, which goes on the record.
    #[inline]
    pub fn r2t(&mut self, numbers: Numbers, tag: u32, length: u32) -> Result<Words, Refusal> {
        let end = self.asked.saturating_add(length.into());
        if tag == NO_TAG
            || length.wrapping_sub(1) >= self.max_burst
            || end > END_OF_OFFSETS
            || self.open >= self.max_r2t.min(OPEN as u8)
            || self.sent == u32::MAX
        {
            return Err(Refusal::Field);
        }
        let asked = two(self.asked as u32, length);
        let header = write::r2t(numbers, self.lun, two(self.itt, tag), self.sent, asked);
        self.ring[self.place(self.open)] = (tag, end);
        self.open += 1;
        self.sent += 1;
        self.asked = end;
        Ok(header)
    }

    /// A Data-Out, a whole PDU.
    #[inline]
    pub fn data_out(&mut self, pdu: &[u8]) -> Result<Came, Refusal> {
        let (h, count) = read::data_out(pdu)?;
        let (tag, last) = self.ring[self.place(0)];
        let offset = be32(h, 40);
        let final_bit = h[1] & 0x80 != 0;
        let end = self.came.saturating_add(count.into());
        if self.open == 0
            || be32(h, 16) != self.itt
            || be32(h, 20) != tag
            || be32(h, 36) != self.data_sn
            || self.data_sn == u32::MAX
            || u64::from(offset) != self.came
            || end > last
            || final_bit != (end == last)
        {
            return Err(Refusal::Field);
        }
        self.came = end;
        if final_bit {
            self.oldest = self.oldest.wrapping_add(1);
            self.open -= 1;
            self.data_sn = 0;
        } else {
            self.data_sn += 1;
        }
        Ok(Came {
            offset,
            count,
            open: self.open,
        })
    }

    /// A SNACK of type 0, 2 or 3, a whole PDU.
    #[inline]
    pub fn data_snack(&mut self, level: u8, offset: u32, pdu: &[u8]) -> Result<DataSnack, Refusal> {
        let h = read::snack(pdu)?;
        let (kind, ttt, beg_run, run_length) = (h[1] & 0x0f, be32(h, 20), be32(h, 40), be32(h, 44));
        let due = match kind {
            0 | 3 => be32(h, 16) == self.itt,
            2 => ttt == self.tag && self.tag != NO_TAG,
            _ => false,
        };
        if !due {
            return Err(Refusal::Field);
        }
        if level == 0 {
            return Err(Refusal::Snack);
        }
        let all = Run {
            first: self.acknowledged.min(self.sent),
            count: self.sent.saturating_sub(self.acknowledged),
        };
        let nothing_stated = beg_run | run_length == 0;
        match kind {
            0 if nothing_stated => Ok(DataSnack::Run(all)),
            0 => self.run(beg_run, run_length),
            2 if beg_run > self.sent => Err(Refusal::Snack),
            2 => {
                let count = beg_run.saturating_sub(self.acknowledged);
                self.acknowledged += count;
                Ok(DataSnack::Acknowledged(count))
            }
            _ if nothing_stated => {
                self.sent = self.acknowledged;
                self.offset = offset.into();
                self.burst = 0;
                self.snack_tag = ttt;
                Ok(DataSnack::Run(all))
            }
            _ => Err(Refusal::Snack),
        }
    }

    /// A run of numbers sent and not acknowledged.
    #[inline]
    fn run(&self, beg_run: u32, run_length: u32) -> Result<DataSnack, Refusal> {
        if beg_run < self.acknowledged || beg_run >= self.sent {
            return Err(Refusal::Snack);
        }
        let to_the_end = self.sent - beg_run;
        if run_length > to_the_end {
            return Err(Refusal::Snack);
        }
        let count = if run_length == 0 {
            to_the_end
        } else {
            run_length
        };
        Ok(DataSnack::Run(Run {
            first: beg_run,
            count,
        }))
    }

    #[inline]
    fn exp_data_sn(&self, response_code: u8) -> u32 {
        if response_code == 0 && self.any_data_in {
            self.sent
        } else {
            0
        }
    }

    /// The ExpDataSN with which a response goes for this task.
    #[inline]
    pub fn due(&self, response: &Response) -> Result<u32, Refusal> {
        match *response {
            Response::Scsi {
                response,
                itt,
                snack_tag,
                ..
            } if itt == self.itt && snack_tag == self.snack_tag => Ok(self.exp_data_sn(response)),
            Response::Scsi { .. } => Err(Refusal::Field),
            _ => Ok(0),
        }
    }

    /// What a resend renews in a stored SCSI Response.
    #[inline]
    pub fn renew(&self, header: &mut [u8; HEADER_BYTES]) {
        if header[0] == 0x21 {
            put32(header, 36, self.exp_data_sn(header[2]));
            let stored = be32(header, 20);
            let tag = if self.snack_tag != 0 {
                self.snack_tag
            } else {
                stored
            };
            put32(header, 20, tag);
        }
    }
}

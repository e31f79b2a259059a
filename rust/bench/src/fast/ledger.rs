//! A ledger as a ring of 32; a status's slot is its number mod 32.

use super::write::{Words, put, put32};
use calls::{HEADER_BYTES, Refusal, Run};

#[derive(Clone)]
pub struct Ledger {
    pub open: bool,
    next: u32,
    count: u32,
    tickets: [u32; 32],
    headers: [[u8; HEADER_BYTES]; 32],
}

impl Ledger {
    pub fn closed() -> Self {
        Ledger {
            open: false,
            next: 0,
            count: 0,
            tickets: [0; 32],
            headers: [[0; HEADER_BYTES]; 32],
        }
    }

    #[inline]
    pub fn open(&mut self, stat_sn: u32) {
        self.open = true;
        self.next = stat_sn;
        self.count = 0;
    }

    #[inline]
    pub fn next(&self) -> u32 {
        self.next
    }

    #[inline]
    pub fn is_full(&self) -> bool {
        self.count == 32
    }

    #[inline]
    pub fn store(&mut self, header: &Words, ticket: u32) {
        let slot = (self.next & 31) as usize;
        put(&mut self.headers[slot], header);
        self.tickets[slot] = ticket;
        self.next = self.next.wrapping_add(1);
        self.count += 1;
    }

    #[inline]
    fn oldest(&self) -> u32 {
        self.next.wrapping_sub(self.count)
    }

    #[inline]
    pub fn acknowledge(&mut self, exp_stat_sn: u32) -> Result<u32, Refusal> {
        let released = exp_stat_sn.wrapping_sub(self.oldest());
        if released > self.count {
            return Err(Refusal::Stale);
        }
        self.count -= released;
        Ok(released)
    }

    #[inline]
    pub fn run(&self, beg_run: u32, run_length: u32) -> Result<Run, Refusal> {
        let oldest = self.oldest();
        if beg_run | run_length == 0 {
            return Ok(Run {
                first: oldest,
                count: self.count,
            });
        }
        let before = beg_run.wrapping_sub(oldest);
        if before >= self.count || run_length > self.count - before {
            return Err(Refusal::Snack);
        }
        let count = if run_length == 0 {
            self.count - before
        } else {
            run_length
        };
        Ok(Run {
            first: beg_run,
            count,
        })
    }

    #[inline]
    pub fn resend(
        &self,
        stat_sn: u32,
        numbers: (u32, u32),
        out: &mut [u8; HEADER_BYTES],
    ) -> Result<u32, Refusal> {
        if stat_sn.wrapping_sub(self.oldest()) >= self.count {
            return Err(Refusal::Snack);
        }
        let slot = (stat_sn & 31) as usize;
        *out = self.headers[slot];
        put32(out, 28, numbers.0);
        put32(out, 32, numbers.1);
        Ok(self.tickets[slot])
    }
}

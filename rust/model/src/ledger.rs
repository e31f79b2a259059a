//! Document 01, "The status ledger": the statuses of one open connection that aren't acknowledged, oldest first.

use calls::{HEADER_BYTES, Refusal, Run};

/// How many statuses a ledger holds.
const STATUSES: usize = 32;

/// A status that was sent and isn't acknowledged.
#[derive(Clone, Debug)]
struct Status {
    stat_sn: u32,
    header: [u8; HEADER_BYTES],
    ticket: u32,
}

/// The ledger of an open connection.
#[derive(Clone, Debug)]
pub struct Ledger {
    next: u32,
    held: Vec<Status>,
}

impl Ledger {
    pub fn opened(stat_sn: u32) -> Self {
        Ledger {
            next: stat_sn,
            held: Vec::new(),
        }
    }

    /// The next StatSN.
    pub fn next(&self) -> u32 {
        self.next
    }

    pub fn is_full(&self) -> bool {
        self.held.len() == STATUSES
    }

    /// Store the status that was written with the next StatSN, and use that number up.
    pub fn store(&mut self, header: [u8; HEADER_BYTES], ticket: u32) {
        self.held.push(Status {
            stat_sn: self.next,
            header,
            ticket,
        });
        self.next = self.next.wrapping_add(1);
    }

    /// The oldest number held, the next one where none is.
    fn oldest(&self) -> u32 {
        self.held.first().map_or(self.next, |status| status.stat_sn)
    }

    /// Release the statuses before `exp_stat_sn`; the count released.
    pub fn acknowledge(&mut self, exp_stat_sn: u32) -> Result<u32, Refusal> {
        let released = exp_stat_sn.wrapping_sub(self.oldest());
        if released as usize > self.held.len() {
            return Err(Refusal::Stale);
        }
        self.held.drain(..released as usize);
        Ok(released)
    }

    /// The run that a status SNACK asks for, if it is wholly held.
    pub fn run(&self, beg_run: u32, run_length: u32) -> Result<Run, Refusal> {
        if beg_run == 0 && run_length == 0 {
            return Ok(Run {
                first: self.oldest(),
                count: self.held.len() as u32,
            });
        }
        let place = self.held.iter().position(|s| s.stat_sn == beg_run);
        let to_the_end = match place {
            Some(place) => (self.held.len() - place) as u32,
            None => return Err(Refusal::Snack),
        };
        if run_length > to_the_end {
            return Err(Refusal::Snack);
        }
        Ok(Run {
            first: beg_run,
            count: if run_length == 0 {
                to_the_end
            } else {
                run_length
            },
        })
    }

    /// The header and ticket of a held number, as sent.
    pub fn held(&self, stat_sn: u32) -> Option<([u8; HEADER_BYTES], u32)> {
        let status = self.held.iter().find(|s| s.stat_sn == stat_sn)?;
        Some((status.header, status.ticket))
    }
}

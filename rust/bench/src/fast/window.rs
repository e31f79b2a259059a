//! The window as bit maps relative to the next number; a command's slot is its number mod 64.

use calls::{HEADER_BYTES, Holder, LogoutCounts, Offer, Out, Take};

const REMEMBERED: u32 = 1 << 31;

#[derive(Clone)]
pub struct CommandWindow {
    next: u32,
    /// Hand-outs, up to 2^31.
    handed: u32,
    held: u64,
    void: u64,
    origins: [u64; 4],
    tickets: [u32; 64],
    headers: [[u8; HEADER_BYTES]; 64],
}

impl CommandWindow {
    pub fn fresh(first: u32) -> Self {
        CommandWindow {
            next: first,
            handed: 0,
            held: 0,
            void: 0,
            origins: [0; 4],
            tickets: [0; 64],
            headers: [[0; HEADER_BYTES]; 64],
        }
    }

    #[inline]
    pub fn exp_cmd_sn(&self) -> u32 {
        self.next.wrapping_add(self.held.trailing_ones())
    }

    #[inline]
    pub fn max_cmd_sn(&self) -> u32 {
        self.next.wrapping_add(63)
    }

    #[inline]
    pub fn offer(
        &mut self,
        number: u32,
        header: &[u8; HEADER_BYTES],
        ticket: u32,
        origin: usize,
    ) -> Offer {
        let distance = number.wrapping_sub(self.next);
        if distance >= 64 {
            let back = distance.wrapping_neg();
            return if back <= self.handed {
                Offer::Passed
            } else {
                Offer::Beyond
            };
        }
        let bit = 1 << distance;
        if self.held & bit != 0 {
            return Offer::Duplicate;
        }
        self.held |= bit;
        self.origins[origin & 3] |= bit;
        let slot = (number & 63) as usize;
        self.tickets[slot] = ticket;
        self.headers[slot] = *header;
        Offer::Kept
    }

    #[inline]
    pub fn holder(&self, number: u32) -> Holder {
        let distance = number.wrapping_sub(self.next);
        if distance >= 64 || self.held >> distance & 1 == 0 {
            return Holder::Free;
        }
        if self.void >> distance & 1 != 0 {
            return Holder::Void;
        }
        let origin = self.origins.iter().position(|map| map >> distance & 1 != 0);
        Holder::Held {
            ticket: self.tickets[(number & 63) as usize],
            origin: origin.map(|c| c as u8),
        }
    }

    #[inline]
    pub fn take(&mut self, out: &mut [u8; HEADER_BYTES]) -> Take {
        if self.held & 1 == 0 {
            return Take::Nothing;
        }
        let cmd_sn = self.next;
        let slot = (cmd_sn & 63) as usize;
        let taken = if self.void & 1 != 0 {
            Take::Void(cmd_sn)
        } else {
            *out = self.headers[slot];
            let origin = self.origins.iter().position(|map| map & 1 != 0);
            Take::Out(Out {
                cmd_sn,
                ticket: self.tickets[slot],
                origin: origin.map(|c| c as u8),
            })
        };
        self.next = cmd_sn.wrapping_add(1);
        self.handed = (self.handed + 1).min(REMEMBERED);
        self.held >>= 1;
        self.void >>= 1;
        for map in &mut self.origins {
            *map >>= 1;
        }
        taken
    }

    #[inline]
    pub fn logout(&mut self, connection: usize, reason: u8) -> LogoutCounts {
        let gapless = self.held.trailing_ones();
        let before = if gapless == 64 {
            u64::MAX
        } else {
            (1 << gapless) - 1
        };
        let own = if reason == 0 {
            self.held
        } else {
            self.origins[connection & 3]
        };
        let emptied = own & !before;
        let voided = if reason == 2 {
            0
        } else {
            own & before & !self.void
        };
        self.held &= !emptied;
        self.void |= voided;
        for map in &mut self.origins {
            *map &= !emptied;
        }
        if reason == 2 {
            self.origins[connection & 3] = 0;
        }
        LogoutCounts {
            emptied: emptied.count_ones(),
            voided: voided.count_ones(),
        }
    }
}

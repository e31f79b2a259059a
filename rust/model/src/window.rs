//! Document 01, "The command window": held commands by their number, and every number ever handed out.

use calls::{HEADER_BYTES, Holder, LogoutCounts, Offer, Out, Take};
use std::collections::{BTreeMap, HashMap};

/// Places of the window.
const PLACES: u32 = 64;
/// How far back a handed-out number is remembered.
const REMEMBERED: u64 = 1 << 31;

/// A held command.
#[derive(Clone, Debug)]
struct Held {
    header: [u8; HEADER_BYTES],
    ticket: u32,
    origin: Option<u8>,
    void: bool,
}

/// The window.
#[derive(Clone, Debug)]
pub struct CommandWindow {
    first: u32,
    /// How many numbers were handed out, void ones too.
    hand_outs: u64,
    /// For each number that was handed out, which hand-out was its latest, counted from 0.
    handed: HashMap<u32, u64>,
    held: BTreeMap<u32, Held>,
}

impl CommandWindow {
    pub fn fresh(first: u32) -> Self {
        CommandWindow {
            first,
            hand_outs: 0,
            handed: HashMap::new(),
            held: BTreeMap::new(),
        }
    }

    /// R, the next number to hand out.
    fn next(&self) -> u32 {
        self.first.wrapping_add(self.hand_outs as u32)
    }

    /// R plus the count of held numbers without a gap from R.
    pub fn exp_cmd_sn(&self) -> u32 {
        let mut number = self.next();
        while self.held.contains_key(&number) {
            number = number.wrapping_add(1);
        }
        number
    }

    /// R plus 63.
    pub fn max_cmd_sn(&self) -> u32 {
        self.next().wrapping_add(PLACES - 1)
    }

    /// Offer a numbered command.
    pub fn offer(
        &mut self,
        number: u32,
        header: [u8; HEADER_BYTES],
        ticket: u32,
        origin: u8,
    ) -> Offer {
        if number.wrapping_sub(self.next()) >= PLACES {
            return if self.remembers(number) {
                Offer::Passed
            } else {
                Offer::Beyond
            };
        }
        if self.held.contains_key(&number) {
            return Offer::Duplicate;
        }
        let command = Held {
            header,
            ticket,
            origin: Some(origin),
            void: false,
        };
        self.held.insert(number, command);
        Offer::Kept
    }

    /// Whether a number is among the last 2^31 handed out.
    fn remembers(&self, number: u32) -> bool {
        match self.handed.get(&number) {
            Some(&at) => self.hand_outs - at <= REMEMBERED,
            None => false,
        }
    }

    /// Who holds a number.
    pub fn holder(&self, number: u32) -> Holder {
        match self.held.get(&number) {
            None => Holder::Free,
            Some(command) if command.void => Holder::Void,
            Some(command) => Holder::Held {
                ticket: command.ticket,
                origin: command.origin,
            },
        }
    }

    /// Hand out R if it is held. The header comes with a command that isn't void.
    pub fn take(&mut self) -> (Take, Option<[u8; HEADER_BYTES]>) {
        let cmd_sn = self.next();
        let Some(command) = self.held.remove(&cmd_sn) else {
            return (Take::Nothing, None);
        };
        self.handed.insert(cmd_sn, self.hand_outs);
        self.hand_outs += 1;
        if command.void {
            return (Take::Void(cmd_sn), None);
        }
        let out = Out {
            cmd_sn,
            ticket: command.ticket,
            origin: command.origin,
        };
        (Take::Out(out), Some(command.header))
    }

    /// The effect of a logout on the held commands: reason 0 on all of them, 1 and 2 on the connection's own. "Before"
    /// and "after" are meant of the ExpCmdSN before the logout.
    pub fn logout(&mut self, connection: u8, reason: u8) -> LogoutCounts {
        let next = self.next();
        let gapless = self.exp_cmd_sn().wrapping_sub(next);
        let mut counts = LogoutCounts {
            emptied: 0,
            voided: 0,
        };
        self.held.retain(|number, command| {
            let concerned = reason == 0 || command.origin == Some(connection);
            let before = number.wrapping_sub(next) < gapless;
            if !concerned {
                return true;
            }
            if !before {
                counts.emptied += 1;
                return false;
            }
            if reason == 2 {
                command.origin = None;
            } else if !command.void {
                command.void = true;
                counts.voided += 1;
            }
            true
        });
        counts
    }
}

#[cfg(test)]
mod tests {
    use super::*;

    /// A window that handed out `count` numbers from 10 on; only the first few are written down, which is enough for
    /// the questions below.
    fn after(count: u64) -> CommandWindow {
        CommandWindow {
            first: 10,
            hand_outs: count,
            handed: (0..4).map(|at| (10 + at as u32, at)).collect(),
            held: BTreeMap::new(),
        }
    }

    #[test]
    fn trap_14_the_last_2_31_hand_outs_are_passed() {
        let mut all = after(1 << 31);
        assert_eq!(all.offer(10, [0; 48], 1, 0), Offer::Passed);
        assert_eq!(all.offer(9, [0; 48], 1, 0), Offer::Beyond);
        let mut one_more = after((1 << 31) + 1);
        assert_eq!(one_more.offer(10, [0; 48], 1, 0), Offer::Beyond);
        assert_eq!(one_more.offer(11, [0; 48], 1, 0), Offer::Passed);
    }
}

//! Sessions that go deep: windows and ledgers are filled and emptied, connections come and go, numbers wrap.

use super::damage;
use super::headers::lent;
use super::responses::status;
use calls::{Offer, Response};
use script::{Answer, Call};
use std::collections::{BTreeMap, BTreeSet};
use testkit::pdu::{self, NO_TAG};
use testkit::{Bytes, Rng};

/// What the calls of the moment are mostly about.
#[derive(Clone, Copy)]
enum Mood {
    Fill,
    Drain,
    /// Commands come and are handed out one by one.
    Flow,
    Send,
    Recover,
    Connections,
    Anything,
}

const MOODS: [Mood; 11] = [
    Mood::Fill,
    Mood::Fill,
    Mood::Drain,
    Mood::Flow,
    Mood::Flow,
    Mood::Send,
    Mood::Send,
    Mood::Recover,
    Mood::Recover,
    Mood::Connections,
    Mood::Anything,
];

/// The calls on one session, and what is known of it from the answers.
pub struct Sessions {
    begun: bool,
    mood: Mood,
    /// Calls left in this mood.
    left: u64,
    /// Take commands in order, so that no gap is left.
    in_order: bool,
    next: u32,
    handed: u32,
    held: BTreeSet<u32>,
    /// For each open connection its held StatSNs, oldest first, and the next.
    ledgers: BTreeMap<u32, (Vec<u32>, u32)>,
    connection: u32,
    /// The number offered last, whatever became of it.
    offered: u32,
}

impl Sessions {
    pub fn new(rng: &mut Rng) -> Self {
        Sessions {
            begun: false,
            mood: Mood::Anything,
            left: 0,
            in_order: rng.one_in(2),
            next: 0,
            handed: 0,
            held: BTreeSet::new(),
            ledgers: BTreeMap::new(),
            connection: 0,
            offered: 0,
        }
    }

    pub fn call(&mut self, rng: &mut Rng) -> Call {
        if !self.begun {
            self.begun = true;
            return Call::Session {
                first: near_the_wrap(rng),
                stat_sn: near_the_wrap(rng),
                level: rng.pick(&[0, 1, 1, 1, 2, 255]),
            };
        }
        if self.left == 0 {
            self.mood = rng.pick(&MOODS);
            self.left = 5 + rng.below(90);
            self.in_order = rng.one_in(2);
            self.connection = self.open_connection(rng);
        }
        self.left -= 1;
        if rng.one_in(8) {
            return self.question(rng);
        }
        if rng.one_in(12) {
            return self.anything(rng);
        }
        match self.mood {
            Mood::Fill => self.offer(rng),
            Mood::Drain if self.held.is_empty() => self.anything(rng),
            Mood::Drain => Call::Take { lent: lent(rng) },
            Mood::Flow => self.flow(rng),
            Mood::Send => self.send(rng),
            Mood::Recover => self.recover(rng),
            Mood::Connections => self.connections(rng),
            Mood::Anything => self.anything(rng),
        }
    }

    fn question(&self, rng: &mut Rng) -> Call {
        if rng.one_in(3) {
            let connection = match rng.below(8) {
                0 => rng.pick(&[255, 256, 257, 0x1_0000, 0x8000_0000, u32::MAX]),
                1..=2 => self.connection,
                _ => rng.below(6) as u32,
            };
            return Call::Next { connection };
        }
        let far = [63, 64, 65, 127, 128, 1 << 31];
        let held: Vec<_> = self.held.iter().copied().collect();
        let number = match rng.below(12) {
            0 => self.next,
            1 => self.next.wrapping_sub(1),
            2 => self.next.wrapping_add(rng.pick(&far)),
            3 => self.next.wrapping_sub(rng.pick(&far)),
            4 => self.next.wrapping_sub(self.handed),
            5 => rng.u32(),
            6 => self.next.wrapping_add(rng.below(66) as u32),
            7..=8 => self.offered,
            _ if held.is_empty() => self.next,
            _ => rng.pick(&held),
        };
        Call::Holder { number }
    }

    fn flow(&mut self, rng: &mut Rng) -> Call {
        if self.held.contains(&self.next) && !rng.one_in(4) {
            return Call::Take { lent: lent(rng) };
        }
        self.in_order = true;
        self.offer(rng)
    }

    fn anything(&mut self, rng: &mut Rng) -> Call {
        match rng.below(12) {
            0..=2 => self.offer(rng),
            3..=4 => Call::Take { lent: lent(rng) },
            5..=6 => self.send(rng),
            7..=8 => self.recover(rng),
            9 => self.connections(rng),
            _ => Call::Window,
        }
    }

    /// Whether any connection is open.
    pub fn has_open(&self) -> bool {
        !self.ledgers.is_empty()
    }

    /// Whether 32 statuses of a connection aren't acknowledged.
    pub fn is_full(&self, connection: u32) -> bool {
        let ledger = self.ledgers.get(&connection);
        ledger.is_some_and(|(held, _)| held.len() >= 32)
    }

    /// An open connection if there is one.
    pub fn open_connection(&self, rng: &mut Rng) -> u32 {
        let open: Vec<_> = self.ledgers.keys().copied().collect();
        if open.is_empty() { 0 } else { rng.pick(&open) }
    }

    /// Mostly the connection of the moment, else another, else none that exists.
    fn some_connection(&self, rng: &mut Rng) -> u32 {
        match rng.below(40) {
            0 => rng.pick(&[4, 5, 255, 256, 0x8000_0000, u32::MAX]),
            1..=2 => rng.below(4) as u32,
            3..=14 => self.open_connection(rng),
            _ => self.connection,
        }
    }

    fn offer(&mut self, rng: &mut Rng) -> Call {
        let number = self.command_number(rng);
        self.offered = number;
        let connection = if rng.one_in(3) {
            self.open_connection(rng)
        } else {
            self.some_connection(rng)
        };
        Call::Offer {
            connection,
            ticket: rng.u32(),
            pdu: self.command(rng, number).0,
        }
    }

    fn command_number(&self, rng: &mut Rng) -> u32 {
        let mut gap = self.next;
        while self.held.contains(&gap) {
            gap = gap.wrapping_add(1);
        }
        if self.in_order && !rng.one_in(16) {
            return gap;
        }
        let far = [
            64,
            63,
            65,
            0u32.wrapping_sub(1),
            1 << 31,
            (1 << 31) - 1,
            (1 << 31) + 1,
        ];
        match rng.below(20) {
            0 => self.next.wrapping_add(rng.pick(&far)),
            1 => self.next.wrapping_sub(self.handed),
            2 => self.next.wrapping_sub(self.handed).wrapping_sub(1),
            3 => self.next.wrapping_sub(1 + rng.below(80) as u32),
            4 => rng.u32(),
            5..=6 => gap,
            7 => gap.wrapping_add(1),
            8 => self.next,
            _ => self.next.wrapping_add(rng.below(66) as u32),
        }
    }

    /// A command of each kind, with other fields at random; now and then one that isn't offered or is damaged.
    fn command(&self, rng: &mut Rng, number: u32) -> Bytes {
        let mut bytes = match rng.below(24) {
            0 => pdu::login(0x87, b""),
            1 => pdu::snack(1, 0, 0),
            2 => pdu::data_out(rng.below(4) as u32, rng.u32()).cmd_sn(number),
            3..=7 => pdu::nop_out(number),
            8..=11 => pdu::task_management(number, 1 + rng.below(8) as u8),
            12..=13 => pdu::logout(number, rng.below(3) as u8),
            _ => pdu::scsi_command(number).data(&rng.number().to_be_bytes()[..rng.index(8)]),
        };
        for at in [2, 3, 9, 13, 22, 30, 33, 47] {
            // TotalAHSLength, the data length, the tags' own rules and CmdSN stay as they are.
            if bytes.0[0] & 0x3f != 0x10 && !rng.one_in(3) {
                bytes.0[at] = rng.number() as u8;
            }
        }
        if rng.one_in(16) {
            bytes = bytes.immediate();
        }
        damage::perhaps(rng, bytes, 24)
    }

    fn send(&mut self, rng: &mut Rng) -> Call {
        let full = self.is_full(self.connection);
        if full && rng.one_in(3) {
            return self.acknowledge(rng);
        }
        let ping = Response::NopIn {
            data_segment_length: 0,
            lun: 0,
            itt: NO_TAG,
            ttt: rng.u32(),
        };
        Call::Send {
            connection: self.some_connection(rng),
            ticket: rng.u32(),
            lent: lent(rng),
            task: None,
            response: if full && rng.one_in(2) {
                ping
            } else {
                status(rng)
            },
        }
    }

    /// A number in or around a ledger.
    pub fn stat_sn(&self, rng: &mut Rng, connection: u32) -> u32 {
        let Some((held, next)) = self.ledgers.get(&connection) else {
            return rng.u32();
        };
        match rng.below(12) {
            0 => *next,
            1 => next.wrapping_add(1),
            2 => held.first().unwrap_or(next).wrapping_sub(1),
            3 => rng.u32(),
            4 => 0,
            _ if held.is_empty() => *next,
            5 => held[0],
            _ => rng.pick(held),
        }
    }

    pub fn acknowledge(&mut self, rng: &mut Rng) -> Call {
        let connection = self.some_connection(rng);
        Call::Acknowledge {
            connection,
            exp_stat_sn: self.stat_sn(rng, connection),
        }
    }

    fn recover(&mut self, rng: &mut Rng) -> Call {
        let connection = self.some_connection(rng);
        match rng.below(10) {
            0 => self.acknowledge(rng),
            1..=5 => self.snack(rng, connection),
            _ => Call::Resend {
                connection,
                stat_sn: self.stat_sn(rng, connection),
                lent: lent(rng),
                task: None,
            },
        }
    }

    fn snack(&mut self, rng: &mut Rng, connection: u32) -> Call {
        let beg_run = self.stat_sn(rng, connection);
        let to_the_end = self
            .ledgers
            .get(&connection)
            .map_or(0, |(_, next)| next.wrapping_sub(beg_run));
        let run_length = match rng.below(10) {
            0..=2 => 0,
            3 => to_the_end,
            4 => to_the_end.wrapping_add(1),
            5 => rng.u32(),
            _ => rng.below(5) as u32,
        };
        let beg_run = match run_length {
            0 if rng.one_in(2) => 0,
            _ if rng.one_in(6) => 0,
            _ => beg_run,
        };
        let kind = if rng.one_in(12) {
            rng.below(4) as u8
        } else {
            1
        };
        let mut bytes = pdu::snack(kind, beg_run, run_length);
        bytes = bytes.field(28, 4, self.stat_sn(rng, connection).into());
        if rng.one_in(20) {
            bytes = pdu::nop_out(self.next);
        } else if rng.one_in(20) {
            bytes = pdu::data_out(beg_run, rng.u32());
        }
        Call::Snack {
            connection,
            pdu: damage::perhaps(rng, bytes, 16).0,
        }
    }

    fn connections(&mut self, rng: &mut Rng) -> Call {
        if rng.one_in(2) {
            return Call::Open {
                connection: if rng.one_in(8) {
                    self.some_connection(rng)
                } else {
                    rng.below(4) as u32
                },
                stat_sn: near_the_wrap(rng),
            };
        }
        if rng.one_in(2) {
            return self.offer(rng);
        }
        Call::Logout {
            connection: if rng.one_in(4) {
                rng.below(4) as u32
            } else {
                self.some_connection(rng)
            },
            reason: rng.pick(&[0, 1, 1, 1, 2, 2, 2, 3, 255]),
        }
    }

    pub fn saw(&mut self, call: &Call, answer: &Answer) {
        match (call, answer) {
            (Call::Session { first, stat_sn, .. }, _) => {
                self.next = *first;
                self.ledgers = BTreeMap::from([(0, (Vec::new(), *stat_sn))]);
            }
            (Call::Offer { pdu, .. }, Answer::Offered(Offer::Kept)) => {
                let number = u32::from_be_bytes([pdu[24], pdu[25], pdu[26], pdu[27]]);
                self.held.insert(number);
            }
            (_, Answer::Void(_) | Answer::Out(..)) => {
                self.held.remove(&self.next);
                self.next = self.next.wrapping_add(1);
                self.handed += 1;
            }
            (Call::Logout { connection, reason }, Answer::LoggedOut(_)) => match reason {
                0 => self.ledgers.clear(),
                _ => drop(self.ledgers.remove(connection)),
            },
            (
                Call::Open {
                    connection,
                    stat_sn,
                },
                Answer::Opened,
            ) => {
                self.ledgers.insert(*connection, (Vec::new(), *stat_sn));
            }
            (Call::Send { connection, .. }, Answer::Sent(stat_sn, header)) => {
                let ping = header[0] == 0x20 && header[16..20] == [0xff; 4];
                if let (Some((held, next)), false) = (self.ledgers.get_mut(connection), ping) {
                    held.push(*stat_sn);
                    *next = stat_sn.wrapping_add(1);
                }
            }
            (Call::Acknowledge { connection, .. }, Answer::Acknowledged(count)) => {
                if let Some((held, _)) = self.ledgers.get_mut(connection) {
                    held.drain(..(*count as usize).min(held.len()));
                }
            }
            _ => {}
        }
    }
}

/// A first number: often a few before the wrap.
pub fn near_the_wrap(rng: &mut Rng) -> u32 {
    match rng.below(4) {
        0 => rng.u32(),
        1 => rng.below(4) as u32,
        _ => 0u32.wrapping_sub(rng.below(70) as u32),
    }
}

//! Faults in the three questions.

use super::{Broken, Fault};
use calls::{Engine, HEADER_BYTES, Holder, Refusal};

/// A command that was kept, as its latest offer said it.
#[derive(Clone, Copy)]
pub(super) struct Kept {
    pub(super) ticket: u32,
    pub(super) connection: u8,
    /// The ticket with which the number was first kept.
    pub(super) first_ticket: u32,
}

impl Kept {
    fn held(self) -> Holder {
        Holder::Held {
            ticket: self.ticket,
            origin: Some(self.connection),
        }
    }
}

impl<E: Engine + Clone> Broken<E> {
    pub(super) fn length_with_fault(&self, header: &[u8]) -> Result<u32, Refusal> {
        let right = self.inner.length(header);
        if header.len() < HEADER_BYTES {
            let opcode = header.first().map_or(0, |byte| byte & 0x3f);
            return match self.fault {
                Fault::LengthOpcodeFirst if opcode > 0x10 => Err(Refusal::Opcode),
                _ => right,
            };
        }
        let stated = super::number(header, 4) & 0x00ff_ffff;
        let ahs = 4 * u32::from(header[4]);
        let is_command = header[0] & 0x3f == 0x01;
        match (self.fault, right) {
            (Fault::LengthTooLongFirst, Err(Refusal::Opcode)) if stated > 8192 => {
                Err(Refusal::TooLong)
            }
            (Fault::LengthLongestTooLong, Ok(_)) if stated == 8192 => Err(Refusal::TooLong),
            (Fault::LengthWithoutPad, Ok(_)) => Ok(HEADER_BYTES as u32 + ahs + stated),
            (Fault::LengthWithoutAhs, Ok(length)) => Ok(length - ahs),
            (Fault::LengthAhsOfCommandsOnly, Ok(length)) if !is_command => Ok(length - ahs),
            (Fault::LengthOfHeaderOnly, Ok(_)) if header.len() > HEADER_BYTES => {
                Err(Refusal::Length)
            }
            (Fault::LengthOfWholeOnly, Ok(length)) if header.len() != length as usize => {
                Err(Refusal::Length)
            }
            (Fault::LengthJudgesFields, Ok(_)) => match self.inner.read(header) {
                Err(Refusal::Field) => Err(Refusal::Field),
                _ => right,
            },
            _ => right,
        }
    }

    pub(super) fn next_with_fault(&self, connection: u32) -> Result<u32, Refusal> {
        let right = self.inner.next_stat_sn(self.connection(connection));
        match (self.fault, right) {
            (Fault::NextIsLast, Ok(next)) => Ok(next.wrapping_sub(1)),
            (Fault::NextIsOldest, Ok(next)) => {
                Ok(next.wrapping_sub(self.count_of(connection) as u32))
            }
            (Fault::NextCountsPings, Ok(next)) => {
                let pings = self.seen.pings.get(&connection).copied().unwrap_or(0);
                Ok(next.wrapping_add(pings))
            }
            (Fault::NextOfClosed, Err(Refusal::Closed)) => {
                Ok(self.seen.next.get(&connection).copied().unwrap_or(0))
            }
            (Fault::NextGoesOn, Ok(next)) => {
                let old = self.seen.next.get(&connection).copied();
                Ok(old.unwrap_or(next))
            }
            _ => right,
        }
    }

    pub(super) fn holder_with_fault(&self, number: u32) -> Holder {
        if self.is(Fault::HolderAlwaysFree) {
            return Holder::Free;
        }
        let right = self.inner.holder(number);
        let distance = number.wrapping_sub(self.next_cmd_sn());
        let Some(kept) = self.seen.kept.get(&number) else {
            return match self.fault {
                Fault::HolderByPlace if distance >= 64 => self.in_place_of(distance),
                _ => right,
            };
        };
        match (self.fault, right) {
            (Fault::HolderShowsVoid, Holder::Void) => kept.held(),
            (Fault::HolderVoidIsFree, Holder::Void) => Holder::Free,
            (Fault::HolderKeepsHandedOut, Holder::Free) if distance >= 64 => kept.held(),
            (Fault::HolderKeepsEmptied, Holder::Free) if distance < 64 => kept.held(),
            (Fault::HolderByPlace, _) if distance >= 64 => self.in_place_of(distance),
            (Fault::HolderKeepsOrigin, Holder::Held { .. }) => kept.held(),
            (Fault::HolderOldTicket, Holder::Held { origin, .. }) => Holder::Held {
                ticket: kept.first_ticket,
                origin,
            },
            (
                Fault::HolderShowsDuplicate | Fault::DuplicateReplaces,
                Holder::Held { ticket, origin },
            ) => Holder::Held {
                ticket: self.seen.tickets.get(&number).copied().unwrap_or(ticket),
                origin,
            },
            _ => right,
        }
    }

    /// The holder of the number in the window that has the same one of the 64 places.
    fn in_place_of(&self, distance: u32) -> Holder {
        self.inner
            .holder(self.next_cmd_sn().wrapping_add(distance % 64))
    }
}

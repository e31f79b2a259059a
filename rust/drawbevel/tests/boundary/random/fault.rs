//! Mistakes at the boundary, put before the core to show that the run finds each.

use crate::expected::breaches;
use crate::kinds::{SCSI, TASK_MANAGEMENT, Width, kind_of};
use crate::raw::{Lent, ResponseWords, Session, Task};
use crate::stand::record_of;

/// What is wrong.
#[derive(Clone, Copy, Debug, PartialEq, Eq)]
pub enum Fault {
    /// Nothing.
    None,
    /// Words that are no response are FIELD before all else.
    NoKindFirst,
    /// The opcode is the word's lowest byte.
    OpcodeCut,
    /// A field's word is cut to so many bits where it has more.
    Cut(u32),
    /// A data length is cut to 32 bits.
    LengthCut,
    /// A flag is set where its word isn't 0.
    AnyFlagIsSet,
    /// What can't be written is refused after FULL.
    FullFirst,
    /// A refused send changes a number of the session.
    NumberChanges,
    /// A refused send writes a byte.
    ByteChanges,
    /// A send writes the byte after the header.
    ByteAfterHeader,
    /// A NOP-In without a tag uses up its number.
    PingStored,
    /// A Data-In or an R2T is sent as if it were a status.
    DataSent,
    /// A SCSI Response's tags aren't compared with the record's.
    TagsUnseen,
    /// A SCSI Response is sent with the ExpDataSN that it states.
    OwnExpDataSn,
    /// The record's word for "any Data-In sent" counts by its lowest bit.
    AnyDataInCut,
}

impl Fault {
    /// Every fault.
    pub const ALL: [Fault; 18] = [
        Fault::NoKindFirst,
        Fault::OpcodeCut,
        Fault::Cut(1),
        Fault::Cut(2),
        Fault::Cut(8),
        Fault::Cut(16),
        Fault::Cut(32),
        Fault::LengthCut,
        Fault::AnyFlagIsSet,
        Fault::FullFirst,
        Fault::NumberChanges,
        Fault::ByteChanges,
        Fault::ByteAfterHeader,
        Fault::PingStored,
        Fault::DataSent,
        Fault::TagsUnseen,
        Fault::OwnExpDataSn,
        Fault::AnyDataInCut,
    ];

    /// The words that the core is shown.
    pub fn shown(self, words: &ResponseWords) -> ResponseWords {
        let mut shown = *words;
        if self == Fault::OpcodeCut {
            shown[0] &= 0xff;
        }
        let Some(kind) = kind_of(words) else {
            return shown;
        };
        for (word, (_, width)) in shown[1..].iter_mut().zip(kind.fields) {
            match (self, *width) {
                (Fault::Cut(bits), Width::Bits(of)) if of == bits => *word &= width.greatest(),
                (Fault::LengthCut, Width::DataLength) => *word &= 0xffff_ffff,
                (Fault::AnyFlagIsSet, Width::Bits(1)) => *word = u64::from(*word != 0),
                _ => {}
            }
        }
        shown
    }

    /// A send with this fault.
    pub fn send(
        self,
        s: &mut Session,
        connection: u32,
        ticket: u32,
        task: &Task,
        words: &ResponseWords,
        out: &mut Lent,
    ) -> u64 {
        let mut task = *task;
        let of_words = record_of(words);
        match self {
            Fault::TagsUnseen if words[0] == SCSI.opcode => {
                for place in [0, 7] {
                    task.numbers[place] = of_words.numbers[place];
                }
            }
            Fault::AnyDataInCut => task.numbers[6] &= 1,
            _ => {}
        }
        let mut shown = self.shown(words);
        if self == Fault::NoKindFirst && kind_of(words).is_none() {
            return 3;
        }
        if self == Fault::PingStored && super::is_ping(words) {
            shown[3] = 1;
        }
        let is_data = kind_of(words).is_some_and(|kind| !kind.is_status());
        if self == Fault::DataSent && is_data && breaches(words).is_empty() {
            shown = TASK_MANAGEMENT.good;
        }
        let answer = s.send(connection, ticket, &task, &shown, out);
        match (self, answer as u32) {
            (Fault::FullFirst, 3 | 5) => {
                let plain = [0x3f, 1, 0, 0, 0, 0, 0, 0, 0, 0];
                let after = s
                    .clone()
                    .send(connection, ticket, &task, &plain, &mut Lent::new(48));
                return if after == 10 { after } else { answer };
            }
            (Fault::NumberChanges, 1..=12) => s.numbers[14] ^= 1,
            (Fault::ByteChanges, 1..=12) => out.bytes[out.lent / 2] ^= 1,
            (Fault::ByteAfterHeader, 32) => out.bytes[48] ^= 1,
            (Fault::OwnExpDataSn, 32) if words[0] == SCSI.opcode => {
                let own = words[SCSI.place("ExpDataSN")] as u32;
                out.bytes[36..40].copy_from_slice(&own.to_be_bytes());
            }
            _ => {}
        }
        answer
    }
}

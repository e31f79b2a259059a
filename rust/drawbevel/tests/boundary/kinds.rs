//! The eight kinds of response as words: the opcode, then the fields in the order of `drawbevel_response_words`, each with the width
//! that its place in the header has (document 01, "Headers written"; RFC 7143).

use crate::raw::ResponseWords;

/// What a word may be.
#[derive(Clone, Copy, Debug, PartialEq, Eq)]
pub enum Width {
    /// A number of so many bits, a flag of one bit and a stage of two among them.
    Bits(u32),
    /// DataSegmentLength: at most 8,192.
    DataLength,
}

use Width::{Bits, DataLength};

impl Width {
    /// The greatest word that is good here.
    pub fn greatest(self) -> u64 {
        match self {
            Bits(64) => u64::MAX,
            Bits(bits) => (1 << bits) - 1,
            DataLength => 8192,
        }
    }

    /// Whether a word is within the bounds.
    pub fn holds(self, word: u64) -> bool {
        word <= self.greatest()
    }
}

/// A field: its name and what its word may be.
pub type Field = (&'static str, Width);

/// A kind of response.
#[derive(Debug)]
pub struct Kind {
    pub name: &'static str,
    pub opcode: u64,
    /// The field of word 1, of word 2, and so on.
    pub fields: &'static [Field],
    /// The words of a good response of this kind.
    pub good: ResponseWords,
}

impl Kind {
    /// Whether the kind has a data length that the caller states.
    pub fn has_data_length(&self) -> bool {
        self.fields.iter().any(|field| field.1 == DataLength)
    }

    /// Whether a send takes the kind. Data-In and R2T are written alone.
    pub fn is_status(&self) -> bool {
        !matches!(self.opcode, 0x25 | 0x31)
    }

    /// The word's place of a field of this name.
    pub fn place(&self, name: &str) -> usize {
        let found = self.fields.iter().position(|field| field.0 == name);
        1 + found.unwrap_or_else(|| panic!("{} has no {name}", self.name))
    }

    /// The good response with another word in one field's place.
    pub fn with(&self, field: &str, word: u64) -> ResponseWords {
        let mut words = self.good;
        words[self.place(field)] = word;
        words
    }
}

pub const NOP_IN: Kind = Kind {
    name: "NOP-In",
    opcode: 0x20,
    fields: &[
        ("data length", DataLength),
        ("LUN", Bits(64)),
        ("ITT", Bits(32)),
        ("TTT", Bits(32)),
    ],
    good: [0x20, 3, 0x0809_0a0b_0c0d_0e0f, 0x10, 0x11, 0, 0, 0, 0, 0],
};
pub const SCSI: Kind = Kind {
    name: "SCSI Response",
    opcode: 0x21,
    fields: &[
        ("O", Bits(1)),
        ("U", Bits(1)),
        ("response", Bits(8)),
        ("status", Bits(8)),
        ("data length", DataLength),
        ("ITT", Bits(32)),
        ("SNACK tag", Bits(32)),
        ("residual", Bits(32)),
        ("ExpDataSN", Bits(32)),
    ],
    good: [0x21, 0, 0, 1, 2, 5, 0x10, 0x11, 0x12, 0x13],
};
pub const TASK_MANAGEMENT: Kind = Kind {
    name: "Task Management Response",
    opcode: 0x22,
    fields: &[("response", Bits(8)), ("ITT", Bits(32))],
    good: [0x22, 1, 0x10, 0, 0, 0, 0, 0, 0, 0],
};
pub const LOGIN: Kind = Kind {
    name: "Login Response",
    opcode: 0x23,
    fields: &[
        ("T", Bits(1)),
        ("CSG", Bits(2)),
        ("NSG", Bits(2)),
        ("data length", DataLength),
        ("ISID", Bits(48)),
        ("TSIH", Bits(16)),
        ("ITT", Bits(32)),
        ("status class", Bits(8)),
        ("status detail", Bits(8)),
    ],
    good: [0x23, 1, 1, 3, 6, 0x0809_0a0b_0c0d, 0x0e0f, 0x10, 1, 2],
};
pub const DATA_IN: Kind = Kind {
    name: "Data-In",
    opcode: 0x25,
    fields: &[
        ("F", Bits(1)),
        ("A", Bits(1)),
        ("data length", DataLength),
        ("LUN", Bits(64)),
        ("ITT", Bits(32)),
        ("TTT", Bits(32)),
        ("DataSN", Bits(32)),
        ("buffer offset", Bits(32)),
    ],
    good: [
        0x25,
        0,
        1,
        7,
        0x0809_0a0b_0c0d_0e0f,
        0x10,
        0x11,
        0x12,
        0x13,
        0,
    ],
};
pub const LOGOUT: Kind = Kind {
    name: "Logout Response",
    opcode: 0x26,
    fields: &[
        ("response", Bits(8)),
        ("ITT", Bits(32)),
        ("Time2Wait", Bits(16)),
        ("Time2Retain", Bits(16)),
    ],
    good: [0x26, 1, 0x10, 2, 20, 0, 0, 0, 0, 0],
};
pub const R2T: Kind = Kind {
    name: "R2T",
    opcode: 0x31,
    fields: &[
        ("LUN", Bits(64)),
        ("ITT", Bits(32)),
        ("TTT", Bits(32)),
        ("R2TSN", Bits(32)),
        ("buffer offset", Bits(32)),
        ("desired length", Bits(32)),
    ],
    good: [
        0x31,
        0x0809_0a0b_0c0d_0e0f,
        0x10,
        0x11,
        0x12,
        0x13,
        0x14,
        0,
        0,
        0,
    ],
};
pub const REJECT: Kind = Kind {
    name: "Reject",
    opcode: 0x3f,
    fields: &[("reason", Bits(8))],
    good: [0x3f, 4, 0, 0, 0, 0, 0, 0, 0, 0],
};

pub const KINDS: [&Kind; 8] = [
    &NOP_IN,
    &SCSI,
    &TASK_MANAGEMENT,
    &LOGIN,
    &DATA_IN,
    &LOGOUT,
    &R2T,
    &REJECT,
];

/// The kind of these words, by the whole of the opcode word.
pub fn kind_of(words: &ResponseWords) -> Option<&'static Kind> {
    KINDS.into_iter().find(|kind| kind.opcode == words[0])
}

/// Opcode words that name no response: beside the eight, requests, with I, and some of the eight with bits above theirs.
pub const NO_KIND: [u64; 19] = [
    0x00,
    0x03,
    0x05,
    0x1f,
    0x24,
    0x27,
    0x30,
    0x32,
    0x3e,
    0x60,
    0x120,
    0x1_0021,
    0x1_0000_0020,
    0x1_0000_0025,
    0x1_0000_0031,
    0x1_0000_003f,
    1 << 63,
    0x23 << 32,
    u64::MAX,
];

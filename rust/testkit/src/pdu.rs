//! Request PDUs, built byte by byte. Each starts as a good one, and any byte of it can then be set.

use calls::HEADER_BYTES;

/// The tag that stands for none.
pub const NO_TAG: u32 = 0xffff_ffff;

/// The bytes of a PDU.
#[derive(Clone, Debug, PartialEq, Eq)]
pub struct Bytes(pub Vec<u8>);

impl Bytes {
    /// A header of this opcode and byte 1, all else 0.
    pub fn new(opcode: u8, flags: u8) -> Self {
        let mut bytes = vec![0; HEADER_BYTES];
        bytes[0] = opcode;
        bytes[1] = flags;
        Bytes(bytes)
    }

    /// Set one byte.
    pub fn byte(mut self, at: usize, value: u8) -> Self {
        self.0[at] = value;
        self
    }

    /// Set bits of one byte.
    pub fn or(mut self, at: usize, bits: u8) -> Self {
        self.0[at] |= bits;
        self
    }

    /// Set a big-endian field.
    pub fn field(mut self, at: usize, width: usize, value: u64) -> Self {
        self.0[at..at + width].copy_from_slice(&value.to_be_bytes()[8 - width..]);
        self
    }

    /// Set I.
    pub fn immediate(self) -> Self {
        self.or(0, 0x40)
    }

    /// Set CmdSN.
    pub fn cmd_sn(self, number: u32) -> Self {
        self.field(24, 4, number.into())
    }

    /// Set the Initiator Task Tag.
    pub fn itt(self, tag: u32) -> Self {
        self.field(16, 4, tag.into())
    }

    /// Set the four bytes from 20 on (Target Transfer Tag in most kinds).
    pub fn ttt(self, tag: u32) -> Self {
        self.field(20, 4, tag.into())
    }

    /// Put additional header words after the header.
    pub fn ahs(mut self, words: u8) -> Self {
        self.0[4] = words;
        let rest = self.0.split_off(HEADER_BYTES);
        self.0.extend((0..4 * usize::from(words)).map(|i| i as u8));
        self.0.extend(rest);
        self
    }

    /// Put a data segment at the end, with its length in the header and pad bytes that aren't 0.
    pub fn data(mut self, data: &[u8]) -> Self {
        self = self.field(5, 3, data.len() as u64);
        self.0.extend_from_slice(data);
        while !self.0.len().is_multiple_of(4) {
            self.0.push(0x5a);
        }
        self
    }

    /// Lengthen or shorten the whole PDU, the header's word unchanged.
    pub fn resized(mut self, length: usize) -> Self {
        self.0.resize(length, 0);
        self
    }
}

impl AsRef<[u8]> for Bytes {
    fn as_ref(&self) -> &[u8] {
        &self.0
    }
}

/// A NOP-Out with a tag.
pub fn nop_out(cmd_sn: u32) -> Bytes {
    Bytes::new(0x00, 0x80).cmd_sn(cmd_sn).itt(0x10).ttt(NO_TAG)
}

/// A write command, final, attribute 1.
pub fn scsi_command(cmd_sn: u32) -> Bytes {
    Bytes::new(0x01, 0xa1).cmd_sn(cmd_sn).itt(0x11)
}

/// A task management request.
pub fn task_management(cmd_sn: u32, function: u8) -> Bytes {
    Bytes::new(0x02, 0x80 | function).cmd_sn(cmd_sn).itt(0x12)
}

/// A login request with flags in byte 1 (T 0x80, C 0x40, CSG 0x0c, NSG 0x03), ISID 1, TSIH 0, CID 1, and its text.
pub fn login(flags: u8, text: &[u8]) -> Bytes {
    let header = Bytes::new(0x43, flags).field(8, 6, 1).field(20, 2, 1);
    header.itt(0x13).data(text)
}

/// A Data-Out with F, of this DataSN and Buffer Offset.
pub fn data_out(data_sn: u32, buffer_offset: u32) -> Bytes {
    let header = Bytes::new(0x05, 0x80).itt(0x15).ttt(0x16);
    let header = header.field(36, 4, data_sn.into());
    header.field(40, 4, buffer_offset.into())
}

/// A logout request.
pub fn logout(cmd_sn: u32, reason: u8) -> Bytes {
    Bytes::new(0x06, 0x80 | reason).cmd_sn(cmd_sn).itt(0x14)
}

/// A SNACK with tags that fit its type.
pub fn snack(kind: u8, beg_run: u32, run_length: u32) -> Bytes {
    let ttt = if kind == 3 { 7 } else { NO_TAG };
    let header = Bytes::new(0x10, 0x80 | kind).itt(NO_TAG).ttt(ttt);
    let header = header.field(40, 4, beg_run.into());
    header.field(44, 4, run_length.into())
}

/// Pairs as a text block, a zero byte after each.
pub fn block(pairs: &[&str]) -> Vec<u8> {
    let mut text = Vec::new();
    for pair in pairs {
        text.extend_from_slice(pair.as_bytes());
        text.push(0);
    }
    text
}

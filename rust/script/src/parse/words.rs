//! The words of a line, read one after another, each in its width.

use crate::TASKS;
use crate::word::{bytes, number_in, words_of};
use calls::Numbers;

/// The words of a line that are not yet read.
pub struct Words<'a>(std::vec::IntoIter<&'a [u8]>);

impl<'a> Words<'a> {
    /// The words of a line, or none where its spaces are wrong or it holds a tab or a carriage return.
    pub fn of(line: &'a [u8]) -> Option<Self> {
        Some(Words(words_of(line)?.into_iter()))
    }

    pub fn word(&mut self) -> Option<&'a [u8]> {
        self.0.next()
    }

    pub fn are_over(&self) -> bool {
        self.0.as_slice().is_empty()
    }

    fn number(&mut self, bits: u32) -> Option<u64> {
        number_in(self.word()?, bits)
    }

    pub fn bit(&mut self) -> Option<bool> {
        Some(self.number(1)? == 1)
    }

    pub fn u8(&mut self) -> Option<u8> {
        Some(self.number(8)? as u8)
    }

    pub fn u16(&mut self) -> Option<u16> {
        Some(self.number(16)? as u16)
    }

    pub fn u32(&mut self) -> Option<u32> {
        Some(self.number(32)? as u32)
    }

    pub fn u64(&mut self) -> Option<u64> {
        self.number(64)
    }

    /// LENT, 0 to 65,535.
    pub fn lent(&mut self) -> Option<usize> {
        Some(self.number(16)? as usize)
    }

    /// N, which of the records.
    pub fn task(&mut self) -> Option<u8> {
        self.u8().filter(|&n| usize::from(n) < TASKS)
    }

    /// `[task N]`.
    pub fn with_task(&mut self) -> Option<Option<u8>> {
        if self.0.as_slice().first() != Some(&&b"task"[..]) {
            return Some(None);
        }
        self.word()?;
        self.task().map(Some)
    }

    pub fn bytes(&mut self) -> Option<Vec<u8>> {
        bytes(self.word()?)
    }

    pub fn numbers(&mut self) -> Option<Numbers> {
        Some(Numbers {
            stat_sn: self.u32()?,
            exp_cmd_sn: self.u32()?,
            max_cmd_sn: self.u32()?,
        })
    }
}

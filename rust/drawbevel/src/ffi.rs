//! The C functions, each behind a safe one. Nothing checks these declarations against the proved source: keep them in
//! step with `include/drawbevel.h`.
#![allow(unsafe_code)]

mod c;

use c::*;
use calls::{DataInPdu, TaskGiven};
use std::mem::MaybeUninit;

/// Words of a PDU: the opcode, the common fields and the place of the data, and the kind's own fields.
pub struct PduWords {
    common: [u64; 8],
    own: [u64; 9],
}

impl PduWords {
    /// Word `place` of the opcode, the common fields and the place of the data.
    #[inline]
    pub fn common(&self, place: usize) -> u64 {
        alone(&self.common[place])
    }

    /// Word `place` of the kind's own fields.
    #[inline]
    pub fn own(&self, place: usize) -> u64 {
        alone(&self.own[place])
    }
}

/// A word, loaded by itself: one load of two words that were just stored one by one would wait for both stores.
#[inline]
fn alone(word: &u64) -> u64 {
    // SAFETY: a reference to a word.
    unsafe { std::ptr::read_volatile(word) }
}

/// Words of a response: opcode and its fields.
pub type ResponseWords = [u64; 10];
/// A session's answer: a refusal's number or an answer's, and what it carries.
pub type Answer = [u32; 4];

/// An answer of one value at most, as it comes back in a register: what came, and above its 32 bits the value.
#[derive(Clone, Copy)]
pub struct Packed(u64);

impl Packed {
    /// The answer's number, and its value.
    #[inline]
    pub fn parts(self) -> (u32, u32) {
        (self.0 as u32, (self.0 >> 32) as u32)
    }
}

/// What the first word of an answer says from here on; below it is a refusal's number.
pub const DONE: u32 = 32;

/// A login's answer: 0 or a refusal's number, status, stage, T, CSG, NSG, TSIH, length of the text.
pub type LoginWords = [u64; 8];

type Numbers = [u32; 15];
type Maps = [u64; 6];
type Headers = [u8; 3072];
type Tickets = [u32; 64];
type Statuses = [u8; 6144];
type StatusTickets = [u32; 128];
type TaskNumbers = [u32; 12];
type Wide = [u64; 4];
type Tags = [u32; 8];
type Ends = [u64; 8];
type LoginNumbers = [u64; 8];
type Values = [u32; 12];
type Seen = [bool; 28];

/// A session's parts. The proved functions are lent those that they touch.
#[derive(Clone)]
pub struct Parts {
    numbers: Numbers,
    maps: Maps,
    tickets: Tickets,
    status_tickets: StatusTickets,
    headers: Headers,
    statuses: Statuses,
}

/// A task's record: its numbers, and the open R2Ts in a ring.
#[derive(Clone)]
pub struct TaskParts {
    pub numbers: TaskNumbers,
    pub wide: Wide,
    pub tags: Tags,
    pub ends: Ends,
}

/// A login between requests.
#[derive(Clone)]
pub struct LoginParts {
    numbers: LoginNumbers,
    values: Values,
    seen: Seen,
}

/// What `got` makes of the PDU's words where they stand, or `refused` of a refusal's number.
#[inline]
pub fn read<T>(
    input: &[u8],
    got: impl FnOnce(&PduWords) -> T,
    refused: impl FnOnce(u32) -> T,
) -> T {
    let mut pdu = MaybeUninit::<PduWords>::uninit();
    let words = pdu.as_mut_ptr();
    // SAFETY: pointer and length are those of one slice, all of it lives through the call, the two arrays are fields of one
    // struct, and the call reads no word of them and has written all where it answers 0.
    unsafe {
        let (common, own) = (&raw mut (*words).common, &raw mut (*words).own);
        match drawbevel_core_read(input.as_ptr(), input.len(), common, own) {
            0 => got(pdu.assume_init_ref()),
            number => refused(number),
        }
    }
}

/// 0 and the whole length of the PDU that begins with these bytes, or a refusal's number.
#[inline]
pub fn length(input: &[u8]) -> Packed {
    // SAFETY: pointer and length are those of one slice, which lives through the call.
    Packed(unsafe { drawbevel_core_length(input.as_ptr(), input.len()) })
}

/// 0 and the header in the first 48 bytes of `out`, or a refusal's number.
#[inline]
pub fn write(out: &mut [u8], words: &ResponseWords, numbers: [u32; 3]) -> u32 {
    let [stat_sn, exp_cmd_sn, max_cmd_sn] = numbers;
    // SAFETY: as above; `out` is borrowed by nothing else.
    unsafe {
        drawbevel_core_write(
            out.as_mut_ptr(),
            out.len(),
            words,
            stat_sn,
            exp_cmd_sn,
            max_cmd_sn,
        )
    }
}

/// The answer that a call leaves in its four words.
#[inline]
fn answer_of(call: impl FnOnce(&mut Answer)) -> Answer {
    let mut answer = [0; 4];
    call(&mut answer);
    answer
}

// SAFETY of all calls below: every pointer is made from a reference that lives through the call, a pointer and a length
// from one slice, and no two that are written to overlap, since each is a field of its own or another argument.
impl Parts {
    pub fn fresh(first: u32, stat_sn: u32, level: u8) -> Self {
        let mut s = Parts {
            numbers: [0; 15],
            maps: [0; 6],
            tickets: [0; 64],
            status_tickets: [0; 128],
            headers: [0; 3072],
            statuses: [0; 6144],
        };
        unsafe {
            drawbevel_core_fresh(
                &mut s.numbers,
                &mut s.maps,
                &mut s.headers,
                &mut s.tickets,
                &mut s.statuses,
                &mut s.status_tickets,
                first,
                stat_sn,
                level,
            );
        }
        s
    }

    #[inline]
    pub fn offer(&mut self, connection: u32, ticket: u32, pdu: &[u8]) -> Packed {
        Packed(unsafe {
            drawbevel_core_offer(
                &mut self.numbers,
                &mut self.maps,
                &mut self.headers,
                &mut self.tickets,
                connection,
                ticket,
                pdu.as_ptr(),
                pdu.len(),
            )
        })
    }

    #[inline]
    pub fn take(&mut self, out: &mut [u8]) -> Answer {
        answer_of(|answer| unsafe {
            drawbevel_core_take(
                &mut self.numbers,
                &mut self.maps,
                &self.headers,
                &self.tickets,
                out.as_mut_ptr(),
                out.len(),
                answer,
            );
        })
    }

    #[inline]
    pub fn open(&mut self, connection: u32, stat_sn: u32) -> Packed {
        Packed(unsafe {
            drawbevel_core_open(&mut self.numbers, &mut self.maps, connection, stat_sn)
        })
    }

    #[inline]
    pub fn logout(&mut self, connection: u32, reason: u8) -> Answer {
        answer_of(|answer| unsafe {
            drawbevel_core_logout(
                &mut self.numbers,
                &mut self.maps,
                connection,
                reason,
                answer,
            );
        })
    }

    #[inline]
    pub fn acknowledge(&mut self, connection: u32, exp_stat_sn: u32) -> Packed {
        Packed(unsafe {
            drawbevel_core_acknowledge(&mut self.numbers, &mut self.maps, connection, exp_stat_sn)
        })
    }

    #[inline]
    pub fn snack(&self, connection: u32, pdu: &[u8]) -> Answer {
        answer_of(|answer| unsafe {
            drawbevel_core_snack(
                &self.numbers,
                &self.maps,
                connection,
                pdu.as_ptr(),
                pdu.len(),
                answer,
            );
        })
    }

    #[inline]
    pub fn send(
        &mut self,
        connection: u32,
        ticket: u32,
        task: &TaskParts,
        out: &mut [u8],
        words: &ResponseWords,
    ) -> Packed {
        Packed(unsafe {
            drawbevel_core_send(
                &mut self.numbers,
                &mut self.maps,
                &mut self.statuses,
                &mut self.status_tickets,
                &task.numbers,
                &task.wide,
                connection,
                ticket,
                words,
                out.as_mut_ptr(),
                out.len(),
            )
        })
    }

    #[inline]
    pub fn resend(
        &self,
        connection: u32,
        stat_sn: u32,
        task: &TaskParts,
        out: &mut [u8],
    ) -> Packed {
        Packed(unsafe {
            drawbevel_core_resend(
                &self.numbers,
                &self.maps,
                &self.statuses,
                &self.status_tickets,
                &task.numbers,
                &task.wide,
                connection,
                stat_sn,
                out.as_mut_ptr(),
                out.len(),
            )
        })
    }

    #[inline]
    pub fn window(&self) -> Answer {
        answer_of(|answer| unsafe {
            drawbevel_core_window(&self.numbers, &self.maps, answer);
        })
    }

    #[inline]
    pub fn next_stat_sn(&self, connection: u32) -> Packed {
        Packed(unsafe { drawbevel_core_next(&self.numbers, &self.maps, connection) })
    }

    #[inline]
    pub fn holder(&self, number: u32) -> Answer {
        answer_of(|answer| unsafe {
            drawbevel_core_holder(&self.numbers, &self.maps, &self.tickets, number, answer);
        })
    }

    #[inline]
    pub fn data_in(
        &self,
        connection: u32,
        task: &mut TaskParts,
        out: &mut [u8],
        pdu: DataInPdu,
    ) -> Packed {
        Packed(unsafe {
            drawbevel_core_data_in(
                &self.numbers,
                &self.maps,
                &mut task.numbers,
                &mut task.wide,
                connection,
                pdu.final_bit,
                pdu.acknowledge,
                pdu.data_segment_length,
                out.as_mut_ptr(),
                out.len(),
            )
        })
    }

    #[inline]
    pub fn r2t(
        &self,
        connection: u32,
        task: &mut TaskParts,
        out: &mut [u8],
        tag: u32,
        length: u32,
    ) -> Packed {
        Packed(unsafe {
            drawbevel_core_r2t(
                &self.numbers,
                &self.maps,
                &mut task.numbers,
                &mut task.wide,
                &mut task.tags,
                &mut task.ends,
                connection,
                tag,
                length,
                out.as_mut_ptr(),
                out.len(),
            )
        })
    }

    #[inline]
    pub fn data_out(&self, connection: u32, task: &mut TaskParts, pdu: &[u8]) -> Answer {
        answer_of(|answer| unsafe {
            drawbevel_core_data_out(
                &self.numbers,
                &self.maps,
                connection,
                pdu.as_ptr(),
                pdu.len(),
                &mut task.numbers,
                &mut task.wide,
                &task.tags,
                &task.ends,
                answer,
            );
        })
    }

    #[inline]
    pub fn data_snack(
        &self,
        connection: u32,
        task: &mut TaskParts,
        offset: u32,
        pdu: &[u8],
    ) -> Answer {
        answer_of(|answer| unsafe {
            drawbevel_core_data_snack(
                &self.numbers,
                &self.maps,
                connection,
                pdu.as_ptr(),
                pdu.len(),
                &mut task.numbers,
                &mut task.wide,
                offset,
                answer,
            );
        })
    }
}

impl TaskParts {
    /// The record, or a refusal's number.
    pub fn fresh(given: TaskGiven) -> Result<Self, u32> {
        let mut task = TaskParts {
            numbers: [0; 12],
            wide: [0; 4],
            tags: [0; 8],
            ends: [0; 8],
        };
        let answer = Packed(unsafe {
            drawbevel_core_task(
                &mut task.numbers,
                &mut task.wide,
                given.itt,
                given.lun,
                given.tag,
                given.came,
                given.max_burst,
                given.max_r2t,
            )
        });
        match answer.parts() {
            (DONE, _) => Ok(task),
            (number, _) => Err(number),
        }
    }
}

impl LoginParts {
    pub fn fresh() -> Self {
        let mut l = LoginParts {
            numbers: [0; 8],
            values: [0; 12],
            seen: [false; 28],
        };
        unsafe { drawbevel_core_login_fresh(&mut l.numbers, &mut l.values, &mut l.seen) };
        l
    }

    /// The values in force, in the order of the table.
    pub fn values(&self) -> &[u32; 12] {
        &self.values
    }

    /// `handles` are the live session's and the new one.
    pub fn request(
        &mut self,
        target_name: &[u8],
        handles: (u16, u16),
        gather: &mut [u8],
        text: &mut [u8],
        pdu: &[u8],
    ) -> LoginWords {
        let mut answer = [0; 8];
        unsafe {
            drawbevel_core_login(
                &mut self.numbers,
                &mut self.values,
                &mut self.seen,
                pdu.as_ptr(),
                pdu.len(),
                handles.0,
                handles.1,
                target_name.as_ptr(),
                target_name.len(),
                gather.as_mut_ptr(),
                gather.len(),
                text.as_mut_ptr(),
                text.len(),
                &mut answer,
            );
        }
        answer
    }
}

//! The C functions over arrays of any content: everything lent is in sight, so that it can be compared after a call.
#![allow(unsafe_code)]

// The bindings' own declarations, so that both stay in step with the header.
#[path = "../../src/ffi/c.rs"]
mod c;

use c::*;
use calls::{DataInPdu, TaskGiven};

pub type Answer = [u32; 4];
pub type LoginWords = [u64; 8];
pub type ResponseWords = [u64; 10];
type Numbers = [u32; 15];
type Maps = [u64; 6];
type Headers = [u8; 3072];
type Tickets = [u32; 64];
type Statuses = [u8; 6144];
type StatusTickets = [u32; 128];
type TaskNumbers = [u32; 12];
type Wide = [u64; 4];
type Tags = [u32; 8];
type Ends = [u64; 8];
type LoginNumbers = [u64; 8];
type Values = [u32; 12];
type Seen = [bool; 28];

/// All arrays of a session.
#[derive(Clone, Debug, PartialEq)]
pub struct Session {
    pub numbers: Numbers,
    pub maps: Maps,
    pub headers: Headers,
    pub tickets: Tickets,
    pub statuses: Statuses,
    pub status_tickets: StatusTickets,
}

/// All arrays of a task's record.
#[derive(Clone, Copy, Debug, PartialEq)]
pub struct Task {
    pub numbers: TaskNumbers,
    pub wide: Wide,
    pub tags: Tags,
    pub ends: Ends,
}

/// All arrays of a login.
#[derive(Clone, Debug, PartialEq)]
pub struct Login {
    pub numbers: LoginNumbers,
    pub values: Values,
    pub seen: Seen,
}

/// A buffer of which the first bytes are lent. The rest shows what is written past them.
#[derive(Clone, Debug, PartialEq)]
pub struct Lent {
    pub bytes: Vec<u8>,
    pub lent: usize,
}

impl Lent {
    /// Bytes of a pattern that no header has, `lent` of them lent.
    pub fn new(lent: usize) -> Self {
        let bytes = (0..lent + 64).map(|at| 0x91 ^ at as u8).collect();
        Lent { bytes, lent }
    }

    /// The lent bytes.
    pub fn part(&mut self) -> &mut [u8] {
        &mut self.bytes[..self.lent]
    }
}

/// What a login call is given besides the login and its areas.
#[derive(Clone, Copy)]
pub struct Request<'a> {
    pub pdu: &'a [u8],
    pub live: u16,
    pub new: u16,
    pub name: &'a [u8],
}

pub fn read(pdu: &[u8], common: &mut [u64; 8], own: &mut [u64; 9]) -> u32 {
    // SAFETY: as of all calls below.
    unsafe { drawbevel_core_read(pdu.as_ptr(), pdu.len(), common, own) }
}

pub fn length(header: &[u8]) -> u64 {
    // SAFETY: as of all calls below.
    unsafe { drawbevel_core_length(header.as_ptr(), header.len()) }
}

pub fn write(out: &mut Lent, words: &ResponseWords, numbers: [u32; 3]) -> u32 {
    let [stat_sn, exp_cmd_sn, max_cmd_sn] = numbers;
    let (at, lent) = (out.part().as_mut_ptr(), out.lent);
    // SAFETY: as of all calls below.
    unsafe { drawbevel_core_write(at, lent, words, stat_sn, exp_cmd_sn, max_cmd_sn) }
}

/// The four words of an answer. They start as ones that no call answers.
fn answer_of(call: impl FnOnce(&mut Answer)) -> Answer {
    let mut answer = [0xdead_beef; 4];
    call(&mut answer);
    answer
}

// SAFETY of all calls: every pointer is made from a reference that lives through the call, a pointer and a length are of one
// slice, and no two that are written to overlap.
impl Session {
    pub fn fresh(first: u32, stat_sn: u32, level: u8) -> Self {
        let mut s = Session {
            numbers: [0; 15],
            maps: [0; 6],
            headers: [0; 3072],
            tickets: [0; 64],
            statuses: [0; 6144],
            status_tickets: [0; 128],
        };
        let (n, m, h, t) = (&mut s.numbers, &mut s.maps, &mut s.headers, &mut s.tickets);
        let (st, tt) = (&mut s.statuses, &mut s.status_tickets);
        unsafe { drawbevel_core_fresh(n, m, h, t, st, tt, first, stat_sn, level) };
        s
    }

    pub fn offer(&mut self, connection: u32, ticket: u32, pdu: &[u8]) -> u64 {
        let (n, m) = (&mut self.numbers, &mut self.maps);
        let (h, t) = (&mut self.headers, &mut self.tickets);
        unsafe { drawbevel_core_offer(n, m, h, t, connection, ticket, pdu.as_ptr(), pdu.len()) }
    }

    pub fn take(&mut self, out: &mut Lent) -> Answer {
        let (n, m) = (&mut self.numbers, &mut self.maps);
        let (at, lent) = (out.part().as_mut_ptr(), out.lent);
        let (h, t) = (&self.headers, &self.tickets);
        answer_of(|answer| unsafe { drawbevel_core_take(n, m, h, t, at, lent, answer) })
    }

    pub fn open(&mut self, connection: u32, stat_sn: u32) -> u64 {
        unsafe { drawbevel_core_open(&mut self.numbers, &mut self.maps, connection, stat_sn) }
    }

    pub fn logout(&mut self, connection: u32, reason: u8) -> Answer {
        let (n, m) = (&mut self.numbers, &mut self.maps);
        answer_of(|answer| unsafe { drawbevel_core_logout(n, m, connection, reason, answer) })
    }

    pub fn acknowledge(&mut self, connection: u32, exp_stat_sn: u32) -> u64 {
        let (n, m) = (&mut self.numbers, &mut self.maps);
        unsafe { drawbevel_core_acknowledge(n, m, connection, exp_stat_sn) }
    }

    pub fn snack(&self, connection: u32, pdu: &[u8]) -> Answer {
        let (n, m) = (&self.numbers, &self.maps);
        let (at, length) = (pdu.as_ptr(), pdu.len());
        answer_of(|answer| unsafe { drawbevel_core_snack(n, m, connection, at, length, answer) })
    }

    pub fn send(
        &mut self,
        connection: u32,
        ticket: u32,
        task: &Task,
        words: &ResponseWords,
        out: &mut Lent,
    ) -> u64 {
        let (n, m) = (&mut self.numbers, &mut self.maps);
        let (s, t) = (&mut self.statuses, &mut self.status_tickets);
        let (tn, tw) = (&task.numbers, &task.wide);
        let (at, lent) = (out.part().as_mut_ptr(), out.lent);
        unsafe { drawbevel_core_send(n, m, s, t, tn, tw, connection, ticket, words, at, lent) }
    }

    pub fn resend(&self, connection: u32, stat_sn: u32, task: &Task, out: &mut Lent) -> u64 {
        let (n, m) = (&self.numbers, &self.maps);
        let (s, t) = (&self.statuses, &self.status_tickets);
        let (tn, tw) = (&task.numbers, &task.wide);
        let (at, lent) = (out.part().as_mut_ptr(), out.lent);
        unsafe { drawbevel_core_resend(n, m, s, t, tn, tw, connection, stat_sn, at, lent) }
    }

    pub fn data_in(&self, connection: u32, task: &mut Task, pdu: DataInPdu, out: &mut Lent) -> u64 {
        let (n, m) = (&self.numbers, &self.maps);
        let (tn, tw) = (&mut task.numbers, &mut task.wide);
        let (f, a, length) = (pdu.final_bit, pdu.acknowledge, pdu.data_segment_length);
        let (at, lent) = (out.part().as_mut_ptr(), out.lent);
        unsafe { drawbevel_core_data_in(n, m, tn, tw, connection, f, a, length, at, lent) }
    }

    pub fn r2t(
        &self,
        connection: u32,
        task: &mut Task,
        tag: u32,
        length: u32,
        out: &mut Lent,
    ) -> u64 {
        let (n, m) = (&self.numbers, &self.maps);
        let (tn, tw) = (&mut task.numbers, &mut task.wide);
        let (tt, te) = (&mut task.tags, &mut task.ends);
        let (at, lent) = (out.part().as_mut_ptr(), out.lent);
        unsafe { drawbevel_core_r2t(n, m, tn, tw, tt, te, connection, tag, length, at, lent) }
    }

    pub fn data_out(&self, connection: u32, task: &mut Task, pdu: &[u8]) -> Answer {
        let (n, m) = (&self.numbers, &self.maps);
        let (tn, tw) = (&mut task.numbers, &mut task.wide);
        let (tt, te) = (&task.tags, &task.ends);
        let (at, length) = (pdu.as_ptr(), pdu.len());
        answer_of(|answer| unsafe {
            drawbevel_core_data_out(n, m, connection, at, length, tn, tw, tt, te, answer);
        })
    }

    pub fn data_snack(&self, connection: u32, task: &mut Task, offset: u32, pdu: &[u8]) -> Answer {
        let (n, m) = (&self.numbers, &self.maps);
        let (tn, tw) = (&mut task.numbers, &mut task.wide);
        let (at, length) = (pdu.as_ptr(), pdu.len());
        answer_of(|answer| unsafe {
            drawbevel_core_data_snack(n, m, connection, at, length, tn, tw, offset, answer);
        })
    }

    pub fn window(&self) -> Answer {
        let (n, m) = (&self.numbers, &self.maps);
        answer_of(|answer| unsafe { drawbevel_core_window(n, m, answer) })
    }

    pub fn next_stat_sn(&self, connection: u32) -> u64 {
        unsafe { drawbevel_core_next(&self.numbers, &self.maps, connection) }
    }

    pub fn holder(&self, number: u32) -> Answer {
        let (n, m, t) = (&self.numbers, &self.maps, &self.tickets);
        answer_of(|answer| unsafe { drawbevel_core_holder(n, m, t, number, answer) })
    }
}

impl Task {
    /// Every word 0.
    pub const ZERO: Task = Task {
        numbers: [0; 12],
        wide: [0; 4],
        tags: [0; 8],
        ends: [0; 8],
    };

    /// Makes a record where this one stands.
    pub fn make(&mut self, given: TaskGiven) -> u64 {
        unsafe {
            drawbevel_core_task(
                &mut self.numbers,
                &mut self.wide,
                given.itt,
                given.lun,
                given.tag,
                given.came,
                given.max_burst,
                given.max_r2t,
            )
        }
    }
}

impl Login {
    pub fn fresh() -> Self {
        let mut l = Login {
            numbers: [0; 8],
            values: [0; 12],
            seen: [false; 28],
        };
        unsafe { drawbevel_core_login_fresh(&mut l.numbers, &mut l.values, &mut l.seen) };
        l
    }

    pub fn request(&mut self, r: Request, gather: &mut Lent, text: &mut Lent) -> LoginWords {
        let mut answer = [0xdead_beef_dead_beef; 8];
        unsafe {
            drawbevel_core_login(
                &mut self.numbers,
                &mut self.values,
                &mut self.seen,
                r.pdu.as_ptr(),
                r.pdu.len(),
                r.live,
                r.new,
                r.name.as_ptr(),
                r.name.len(),
                gather.part().as_mut_ptr(),
                gather.lent,
                text.part().as_mut_ptr(),
                text.lent,
                &mut answer,
            );
        }
        answer
    }
}

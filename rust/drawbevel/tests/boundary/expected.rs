//! What document 01 says of a send and of a write of any words.

use crate::kinds::{Kind, Width, kind_of};
use crate::raw::{self, ResponseWords};
use calls::{Engine, HEADER_BYTES, Numbers, OpenR2t, Refusal, Response, Task};
use model::Model;

/// A rule of writing that words break.
#[derive(Clone, Copy, Debug, PartialEq, Eq)]
pub enum Breach {
    /// The first word names no response.
    NoKind,
    /// The word of this place is a data length above 8,192.
    TooLong(usize),
    /// The word of this place is too wide for its field.
    TooWide(usize),
    /// O and U.
    BothResiduals,
    /// NSG without T.
    StageWithoutTransit,
}

/// Every rule that the words break. A word that is no field of the kind breaks none.
pub fn breaches(words: &ResponseWords) -> Vec<Breach> {
    let Some(kind) = kind_of(words) else {
        return vec![Breach::NoKind];
    };
    let mut breaches = Vec::new();
    for (place, (_, width)) in (1..).zip(kind.fields) {
        if !width.holds(words[place]) {
            breaches.push(match width {
                Width::DataLength => Breach::TooLong(place),
                Width::Bits(_) => Breach::TooWide(place),
            });
        }
    }
    let is_set = |field| words[kind.place(field)] != 0;
    match kind.opcode {
        0x21 if is_set("O") && is_set("U") => breaches.push(Breach::BothResiduals),
        0x23 if is_set("NSG") && !is_set("T") => breaches.push(Breach::StageWithoutTransit),
        _ => {}
    }
    breaches
}

/// Writing's refusals, TOOLONG before FIELD, or the response that the words are.
pub fn judged(words: &ResponseWords) -> Result<Response, Refusal> {
    let breaches = breaches(words);
    let is_too_long = |breach: &Breach| matches!(breach, Breach::TooLong(_));
    if breaches.iter().any(is_too_long) {
        return Err(Refusal::TooLong);
    }
    match kind_of(words) {
        Some(kind) if breaches.is_empty() => Ok(response_of(kind, words)),
        _ => Err(Refusal::Field),
    }
}

/// The response of words that break no rule: no cast cuts a bit.
fn response_of(kind: &Kind, words: &ResponseWords) -> Response {
    let w = |field: &str| words[kind.place(field)];
    match kind.opcode {
        0x20 => Response::NopIn {
            data_segment_length: w("data length") as u32,
            lun: w("LUN"),
            itt: w("ITT") as u32,
            ttt: w("TTT") as u32,
        },
        0x21 => scsi_response(w),
        0x22 => Response::TaskManagement {
            response: w("response") as u8,
            itt: w("ITT") as u32,
        },
        0x23 => login_response(w),
        0x25 => data_in(w),
        0x26 => Response::Logout {
            response: w("response") as u8,
            itt: w("ITT") as u32,
            time2wait: w("Time2Wait") as u16,
            time2retain: w("Time2Retain") as u16,
        },
        0x31 => Response::R2t {
            lun: w("LUN"),
            itt: w("ITT") as u32,
            ttt: w("TTT") as u32,
            r2t_sn: w("R2TSN") as u32,
            buffer_offset: w("buffer offset") as u32,
            desired_data_transfer_length: w("desired length") as u32,
        },
        _ => Response::Reject {
            reason: w("reason") as u8,
        },
    }
}

fn scsi_response(w: impl Fn(&str) -> u64) -> Response {
    Response::Scsi {
        overflow: w("O") == 1,
        underflow: w("U") == 1,
        response: w("response") as u8,
        status: w("status") as u8,
        data_segment_length: w("data length") as u32,
        itt: w("ITT") as u32,
        snack_tag: w("SNACK tag") as u32,
        residual: w("residual") as u32,
        exp_data_sn: w("ExpDataSN") as u32,
    }
}

fn data_in(w: impl Fn(&str) -> u64) -> Response {
    Response::DataIn {
        final_bit: w("F") == 1,
        acknowledge: w("A") == 1,
        data_segment_length: w("data length") as u32,
        lun: w("LUN"),
        itt: w("ITT") as u32,
        ttt: w("TTT") as u32,
        data_sn: w("DataSN") as u32,
        buffer_offset: w("buffer offset") as u32,
    }
}

fn login_response(w: impl Fn(&str) -> u64) -> Response {
    Response::Login {
        transit: w("T") == 1,
        csg: w("CSG") as u8,
        nsg: w("NSG") as u8,
        data_segment_length: w("data length") as u32,
        isid: w("ISID"),
        tsih: w("TSIH") as u16,
        itt: w("ITT") as u32,
        status_class: w("status class") as u8,
        status_detail: w("status detail") as u8,
    }
}

/// A write into the lent bytes: BUFFER, TOOLONG, FIELD.
pub fn write(out: &mut [u8], words: &ResponseWords, numbers: [u32; 3]) -> Result<(), Refusal> {
    if out.len() < HEADER_BYTES {
        return Err(Refusal::Buffer);
    }
    let response = judged(words)?;
    let [stat_sn, exp_cmd_sn, max_cmd_sn] = numbers;
    let numbers = Numbers {
        stat_sn,
        exp_cmd_sn,
        max_cmd_sn,
    };
    Model::default().write(out, numbers, &response)
}

/// The record that any words are. A place in the ring is a number modulo 8; no rule asks for more than the first of the open R2Ts, and
/// for how many there are up to 9, or for a MaxOutstandingR2T above 255.
pub fn record(task: &raw::Task) -> Task {
    let raw::Task {
        numbers: n,
        wide,
        tags,
        ends,
    } = task;
    let place = |k: u32| (n[10] % 8 + k) as usize % 8;
    let open = (0..n[11].min(9)).map(|k| OpenR2t {
        tag: tags[place(k)],
        end: ends[place(k)],
    });
    Task {
        itt: n[0],
        lun: wide[0],
        tag: n[1],
        max_burst: n[2],
        max_r2t: n[3].min(255) as u8,
        sent: n[4],
        acknowledged: n[5],
        any_data_in: n[6] != 0,
        offset: wide[1],
        burst: n[8],
        snack_tag: n[7],
        asked: wide[2],
        came: wide[3],
        data_sn: n[9],
        open: open.collect(),
    }
}

/// A session as the rules have it: the model, and which connections are open.
pub struct Book {
    pub model: Model,
    pub open: [bool; 4],
}

impl Book {
    pub fn fresh(first: u32, stat_sn: u32, level: u8) -> Self {
        let mut model = Model::default();
        model.begin_session(first, stat_sn, level);
        Book {
            model,
            open: [true, false, false, false],
        }
    }

    /// A send: BUFFER, NOCONN, CLOSED, TOOLONG, FIELD, FULL, in this order; or the StatSN, and the header in the lent bytes. What is no
    /// status is FIELD, and a SCSI Response with other tags than the record's.
    pub fn send(
        &mut self,
        connection: u32,
        ticket: u32,
        task: &raw::Task,
        words: &ResponseWords,
        out: &mut [u8],
    ) -> Result<u32, Refusal> {
        if out.len() < HEADER_BYTES {
            return Err(Refusal::Buffer);
        }
        match self.open.get(connection as usize) {
            None => return Err(Refusal::NoConn),
            Some(false) => return Err(Refusal::Closed),
            Some(true) => {}
        }
        let response = judged(words)?;
        if !kind_of(words).is_some_and(Kind::is_status) {
            return Err(Refusal::Field);
        }
        self.model
            .send(connection, ticket, &record(task), out, &response)
    }
}

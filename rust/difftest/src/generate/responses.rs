//! Responses to write or send, at and around the boundaries of their fields.

use calls::{Response, Task};
use testkit::Rng;

/// One of the eight to write, mostly good.
pub fn response(rng: &mut Rng) -> Response {
    let kind = rng.below(8);
    response_of(rng, kind)
}

/// One of the six to send, mostly good. Its ExpDataSN is 0, as a script's, and so, mostly, is its SNACK tag.
pub fn status(rng: &mut Rng) -> Response {
    let kind = rng.below(6);
    let mut status = response_of(rng, kind);
    if let Response::Scsi {
        snack_tag,
        exp_data_sn,
        ..
    } = &mut status
    {
        *exp_data_sn = 0;
        if !rng.one_in(8) {
            *snack_tag = 0;
        }
    }
    status
}

/// A SCSI Response for a task, mostly with its tags and mostly of a command that was completed.
pub fn scsi_of(rng: &mut Rng, task: &Task) -> Response {
    let other = rng.u32();
    Response::Scsi {
        overflow: rng.one_in(4),
        underflow: rng.one_in(16),
        response: if rng.one_in(3) { rng.number() as u8 } else { 0 },
        status: rng.number() as u8,
        data_segment_length: length(rng),
        itt: if rng.one_in(10) { other } else { task.itt },
        snack_tag: match rng.below(12) {
            0 => other,
            1 => 0,
            _ => task.snack_tag,
        },
        residual: rng.u32(),
        exp_data_sn: 0,
    }
}

fn length(rng: &mut Rng) -> u32 {
    match rng.below(12) {
        0 => 8192,
        1 => 8193,
        2 => rng.u32(),
        3 => 0,
        _ => rng.below(200) as u32,
    }
}

/// An Initiator Task Tag, 0xffffffff now and then.
fn tag(rng: &mut Rng) -> u32 {
    if rng.one_in(3) {
        0xffff_ffff
    } else {
        rng.u32()
    }
}

fn response_of(rng: &mut Rng, kind: u64) -> Response {
    match kind {
        0 => Response::NopIn {
            data_segment_length: length(rng),
            lun: rng.number(),
            itt: tag(rng),
            ttt: tag(rng),
        },
        1 => Response::Scsi {
            overflow: rng.one_in(3),
            underflow: rng.one_in(3),
            response: rng.number() as u8,
            status: rng.number() as u8,
            data_segment_length: length(rng),
            itt: tag(rng),
            snack_tag: rng.u32(),
            residual: rng.u32(),
            exp_data_sn: rng.u32(),
        },
        2 => Response::TaskManagement {
            response: rng.number() as u8,
            itt: tag(rng),
        },
        3 => login_response(rng),
        4 => Response::Logout {
            response: rng.number() as u8,
            itt: tag(rng),
            time2wait: rng.number() as u16,
            time2retain: rng.number() as u16,
        },
        5 => Response::Reject {
            reason: rng.number() as u8,
        },
        6 => Response::DataIn {
            final_bit: rng.one_in(2),
            acknowledge: rng.one_in(2),
            data_segment_length: length(rng),
            lun: rng.number(),
            itt: tag(rng),
            ttt: tag(rng),
            data_sn: rng.u32(),
            buffer_offset: rng.u32(),
        },
        _ => Response::R2t {
            lun: rng.number(),
            itt: tag(rng),
            ttt: tag(rng),
            r2t_sn: rng.u32(),
            buffer_offset: rng.u32(),
            desired_data_transfer_length: rng.u32(),
        },
    }
}

fn login_response(rng: &mut Rng) -> Response {
    let transit = rng.one_in(2);
    let stage = |rng: &mut Rng| match rng.below(12) {
        0 => rng.pick(&[4, 5, 128, 255]),
        _ => rng.below(4) as u8,
    };
    let isid = match rng.below(10) {
        0 => 1 << 48,
        1 => rng.number(),
        2 => (1 << 48) - 1,
        _ => rng.below(1 << 48),
    };
    Response::Login {
        csg: stage(rng),
        transit,
        nsg: if transit || rng.one_in(4) {
            stage(rng)
        } else {
            0
        },
        data_segment_length: length(rng),
        isid,
        tsih: rng.number() as u16,
        itt: tag(rng),
        status_class: rng.number() as u8,
        status_detail: rng.number() as u8,
    }
}

//! Document 01, "Headers written": a response and its numbers in, 48 bytes out.

use crate::fields::put;
use crate::read::MAX_DATA;
use calls::{HEADER_BYTES, Numbers, Refusal, Response};

/// Write a response into the first 48 bytes of the lent output. Refusals in order: buffer, too long, field.
pub fn write(out: &mut [u8], numbers: Numbers, response: &Response) -> Result<(), Refusal> {
    if out.len() < HEADER_BYTES {
        return Err(Refusal::Buffer);
    }
    judge(response)?;
    out[..HEADER_BYTES].copy_from_slice(&header(numbers, response));
    Ok(())
}

/// Writing's refusals that come from the response alone.
pub fn judge(response: &Response) -> Result<(), Refusal> {
    if data_length(response) as usize > MAX_DATA {
        return Err(Refusal::TooLong);
    }
    let good = match *response {
        Response::Scsi {
            overflow,
            underflow,
            ..
        } => !(overflow && underflow),
        Response::Login {
            csg,
            transit,
            nsg,
            isid,
            ..
        } => csg <= 3 && nsg <= 3 && (transit || nsg == 0) && isid < 1 << 48,
        _ => true,
    };
    if good { Ok(()) } else { Err(Refusal::Field) }
}

/// The data length that a response states.
fn data_length(response: &Response) -> u32 {
    match *response {
        Response::NopIn {
            data_segment_length,
            ..
        }
        | Response::Scsi {
            data_segment_length,
            ..
        }
        | Response::Login {
            data_segment_length,
            ..
        }
        | Response::DataIn {
            data_segment_length,
            ..
        } => data_segment_length,
        Response::TaskManagement { .. } | Response::Logout { .. } | Response::R2t { .. } => 0,
        Response::Reject { .. } => 48,
    }
}

/// The 48 bytes; what isn't named is 0.
pub fn header(numbers: Numbers, response: &Response) -> [u8; HEADER_BYTES] {
    let mut h = [0; HEADER_BYTES];
    h[1] = 0x80;
    put(&mut h, 5, 3, data_length(response).into());
    put(&mut h, 24, 4, numbers.stat_sn.into());
    put(&mut h, 28, 4, numbers.exp_cmd_sn.into());
    put(&mut h, 32, 4, numbers.max_cmd_sn.into());
    match *response {
        Response::NopIn { lun, itt, ttt, .. } => {
            h[0] = 0x20;
            put(&mut h, 8, 8, lun);
            put(&mut h, 16, 4, itt.into());
            put(&mut h, 20, 4, ttt.into());
        }
        Response::Scsi {
            overflow,
            underflow,
            response,
            status,
            itt,
            snack_tag,
            residual,
            exp_data_sn,
            ..
        } => {
            h[0] = 0x21;
            h[1] = 0x80 | flag(overflow, 0x04) | flag(underflow, 0x02);
            h[2] = response;
            h[3] = status;
            put(&mut h, 16, 4, itt.into());
            put(&mut h, 20, 4, snack_tag.into());
            put(&mut h, 36, 4, exp_data_sn.into());
            put(&mut h, 44, 4, residual.into());
        }
        Response::TaskManagement { response, itt } => {
            h[0] = 0x22;
            h[2] = response;
            put(&mut h, 16, 4, itt.into());
        }
        Response::Login {
            csg,
            transit,
            nsg,
            isid,
            tsih,
            itt,
            status_class,
            status_detail,
            ..
        } => {
            h[0] = 0x23;
            h[1] = flag(transit, 0x80) | (csg << 2) | nsg;
            put(&mut h, 8, 6, isid);
            put(&mut h, 14, 2, tsih.into());
            put(&mut h, 16, 4, itt.into());
            h[36] = status_class;
            h[37] = status_detail;
        }
        Response::DataIn {
            final_bit,
            acknowledge,
            lun,
            itt,
            ttt,
            data_sn,
            buffer_offset,
            ..
        } => {
            h[0] = 0x25;
            h[1] = flag(final_bit, 0x80) | flag(acknowledge, 0x40);
            put(&mut h, 8, 8, lun);
            put(&mut h, 16, 4, itt.into());
            put(&mut h, 20, 4, ttt.into());
            // Its status goes by the SCSI Response, so it has no StatSN.
            put(&mut h, 24, 4, 0);
            put(&mut h, 36, 4, data_sn.into());
            put(&mut h, 40, 4, buffer_offset.into());
        }
        Response::Logout {
            response,
            itt,
            time2wait,
            time2retain,
        } => {
            h[0] = 0x26;
            h[2] = response;
            put(&mut h, 16, 4, itt.into());
            put(&mut h, 40, 2, time2wait.into());
            put(&mut h, 42, 2, time2retain.into());
        }
        Response::R2t {
            lun,
            itt,
            ttt,
            r2t_sn,
            buffer_offset,
            desired_data_transfer_length,
        } => {
            h[0] = 0x31;
            put(&mut h, 8, 8, lun);
            put(&mut h, 16, 4, itt.into());
            put(&mut h, 20, 4, ttt.into());
            put(&mut h, 36, 4, r2t_sn.into());
            put(&mut h, 40, 4, buffer_offset.into());
            put(&mut h, 44, 4, desired_data_transfer_length.into());
        }
        Response::Reject { reason } => {
            h[0] = 0x3f;
            h[2] = reason;
            put(&mut h, 16, 4, 0xffff_ffff);
        }
    }
    h
}

/// The bit if it is set.
fn flag(set: bool, bit: u8) -> u8 {
    if set { bit } else { 0 }
}

//! Writing by whole words.

use calls::{DataInPdu, HEADER_BYTES, Numbers, Refusal, Response};

pub const MAX_DATA: u32 = 8192;

type Header = [u8; HEADER_BYTES];
/// A header as six big-endian words: so it goes from registers to where it is written.
pub type Words = [u64; HEADER_BYTES / 8];

#[inline]
pub fn put32(h: &mut Header, at: usize, value: u32) {
    h[at..at + 4].copy_from_slice(&value.to_be_bytes());
}

/// Two numbers of 32 bits, one after the other.
#[inline]
pub fn two(high: u32, low: u32) -> u64 {
    u64::from(high) << 32 | u64::from(low)
}

#[inline]
pub fn put(out: &mut Header, words: &Words) {
    let (places, _) = out.as_chunks_mut::<8>();
    for (place, word) in places.iter_mut().zip(words) {
        *place = word.to_be_bytes();
    }
}

#[inline]
pub fn write(out: &mut [u8], numbers: Numbers, response: &Response) -> Result<(), Refusal> {
    let Some(out) = out.first_chunk_mut::<HEADER_BYTES>() else {
        return Err(Refusal::Buffer);
    };
    judge(response)?;
    put(out, &header(numbers, response));
    Ok(())
}

#[inline]
pub fn judge(response: &Response) -> Result<(), Refusal> {
    let (length, good) = match *response {
        Response::NopIn {
            data_segment_length,
            ..
        }
        | Response::DataIn {
            data_segment_length,
            ..
        } => (data_segment_length, true),
        Response::Scsi {
            data_segment_length,
            overflow,
            underflow,
            ..
        } => (data_segment_length, !(overflow & underflow)),
        Response::Login {
            data_segment_length,
            csg,
            nsg,
            transit,
            isid,
            ..
        } => {
            let stages = csg <= 3 && nsg <= 3 && (transit || nsg == 0);
            (data_segment_length, stages && isid >> 48 == 0)
        }
        _ => return Ok(()),
    };
    if length > MAX_DATA {
        return Err(Refusal::TooLong);
    }
    if good { Ok(()) } else { Err(Refusal::Field) }
}

/// The header of a response that was judged good.
#[inline]
pub fn header(numbers: Numbers, response: &Response) -> Words {
    let sns = two(numbers.stat_sn, numbers.exp_cmd_sn);
    let max = numbers.max_cmd_sn;
    match *response {
        Response::NopIn {
            data_segment_length,
            lun,
            itt,
            ttt,
        } => {
            let first = two(0x2080_0000, data_segment_length);
            [first, lun, two(itt, ttt), sns, two(max, 0), 0]
        }
        Response::Scsi {
            overflow,
            underflow,
            response,
            status,
            data_segment_length,
            itt,
            snack_tag,
            residual,
            exp_data_sn,
        } => {
            let flags = 0x80 | u8::from(overflow) << 2 | u8::from(underflow) << 1;
            let first = two(
                u32::from_be_bytes([0x21, flags, response, status]),
                data_segment_length,
            );
            let tags = two(itt, snack_tag);
            [first, 0, tags, sns, two(max, exp_data_sn), residual.into()]
        }
        Response::TaskManagement { response, itt } => {
            let first = two(u32::from_be_bytes([0x22, 0x80, response, 0]), 0);
            [first, 0, two(itt, 0), sns, two(max, 0), 0]
        }
        Response::Login {
            csg,
            transit,
            nsg,
            data_segment_length,
            isid,
            tsih,
            itt,
            status_class,
            status_detail,
        } => {
            let flags = u8::from(transit) << 7 | csg << 2 | nsg;
            let first = two(u32::from_be_bytes([0x23, flags, 0, 0]), data_segment_length);
            let names = isid << 16 | u64::from(tsih);
            let status = u32::from_be_bytes([status_class, status_detail, 0, 0]);
            [first, names, two(itt, 0), sns, two(max, status), 0]
        }
        Response::DataIn {
            final_bit,
            acknowledge,
            data_segment_length,
            lun,
            itt,
            ttt,
            data_sn,
            buffer_offset,
        } => {
            let pdu = DataInPdu {
                final_bit,
                acknowledge,
                data_segment_length,
            };
            data_in(numbers, pdu, lun, two(itt, ttt), data_sn, buffer_offset)
        }
        Response::Logout {
            response,
            itt,
            time2wait,
            time2retain,
        } => {
            let first = two(u32::from_be_bytes([0x26, 0x80, response, 0]), 0);
            let times = u64::from(time2wait) << 48 | u64::from(time2retain) << 32;
            [first, 0, two(itt, 0), sns, two(max, 0), times]
        }
        Response::R2t {
            lun,
            itt,
            ttt,
            r2t_sn,
            buffer_offset,
            desired_data_transfer_length,
        } => {
            let asked = two(buffer_offset, desired_data_transfer_length);
            r2t(numbers, lun, two(itt, ttt), r2t_sn, asked)
        }
        Response::Reject { reason } => {
            let first = two(u32::from_be_bytes([0x3f, 0x80, reason, 0]), 48);
            [first, 0, two(0xffff_ffff, 0), sns, two(max, 0), 0]
        }
    }
}

/// A Data-In, which has no StatSN. `tags` is the ITT and the Target Transfer Tag.
#[inline]
pub fn data_in(
    numbers: Numbers,
    pdu: DataInPdu,
    lun: u64,
    tags: u64,
    data_sn: u32,
    offset: u32,
) -> Words {
    let flags = u32::from(pdu.final_bit) << 23 | u32::from(pdu.acknowledge) << 22;
    [
        two(0x2500_0000 | flags, pdu.data_segment_length),
        lun,
        tags,
        numbers.exp_cmd_sn.into(),
        two(numbers.max_cmd_sn, data_sn),
        two(offset, 0),
    ]
}

/// An R2T. `asked` is the Buffer Offset and the Desired Data Transfer Length.
#[inline]
pub fn r2t(numbers: Numbers, lun: u64, tags: u64, r2t_sn: u32, asked: u64) -> Words {
    [
        two(0x3180_0000, 0),
        lun,
        tags,
        two(numbers.stat_sn, numbers.exp_cmd_sn),
        two(numbers.max_cmd_sn, r2t_sn),
        asked,
    ]
}

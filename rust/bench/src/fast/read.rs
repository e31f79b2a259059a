//! Reading by whole words.

use calls::{
    Data, DataOut, HEADER_BYTES, Login, Logout, NopOut, Pdu, Refusal, Request, ScsiCommand, Snack,
    TaskManagement,
};

const NO_TAG: u32 = 0xffff_ffff;
const MAX_DATA: u32 = 8192;
/// Bit n is set where opcode n is read here.
const OPCODES: u64 =
    1 << 0x00 | 1 << 0x01 | 1 << 0x02 | 1 << 0x03 | 1 << 0x05 | 1 << 0x06 | 1 << 0x10;

type Header = [u8; HEADER_BYTES];

#[inline]
fn be16(h: &Header, at: usize) -> u16 {
    u16::from_be_bytes([h[at], h[at + 1]])
}

#[inline]
pub fn be32(h: &Header, at: usize) -> u32 {
    u32::from_be_bytes([h[at], h[at + 1], h[at + 2], h[at + 3]])
}

#[inline]
fn be64(h: &Header, at: usize) -> u64 {
    u64::from(be32(h, at)) << 32 | u64::from(be32(h, at + 4))
}

/// The header and where its data stand, or the refusals that come before the input's own length counts.
#[inline]
fn stated(input: &[u8]) -> Result<(&Header, Data), Refusal> {
    let Some(h) = input.first_chunk::<HEADER_BYTES>() else {
        return Err(Refusal::Length);
    };
    if OPCODES >> (h[0] & 0x3f) & 1 == 0 {
        return Err(Refusal::Opcode);
    }
    let length = be32(h, 4) & 0x00ff_ffff;
    if length > MAX_DATA {
        return Err(Refusal::TooLong);
    }
    let length = length as usize;
    let offset = HEADER_BYTES + 4 * usize::from(h[4]);
    Ok((h, Data { offset, length }))
}

#[inline]
fn whole(data: Data) -> usize {
    data.offset + ((data.length + 3) & !3)
}

#[inline]
pub fn length(input: &[u8]) -> Result<u32, Refusal> {
    let (_, data) = stated(input)?;
    Ok(whole(data) as u32)
}

/// Reading's refusals but the kind's own rules; the header and where its data stand.
#[inline]
fn frame(input: &[u8]) -> Result<(&Header, Data), Refusal> {
    let (h, data) = stated(input)?;
    if input.len() != whole(data) {
        return Err(Refusal::Length);
    }
    Ok((h, data))
}

#[inline]
pub fn read(input: &[u8]) -> Result<Pdu, Refusal> {
    let (h, data) = frame(input)?;
    let flags = h[1];
    let immediate = h[0] & 0x40 != 0;
    let no_data = data.length == 0;
    // Each kind is judged before its fields are loaded, and made in its place.
    match h[0] & 0x3f {
        0x00 if !(plain(h) && (be32(h, 16) != NO_TAG || immediate)) => Err(Refusal::Field),
        0x00 => Ok(pdu(
            h,
            data,
            be64(h, 8),
            Request::NopOut(NopOut { ttt: be32(h, 20) }),
        )),
        0x01 if flags & 7 > 4 || flags & 0xa0 == 0 => Err(Refusal::Field),
        0x01 => {
            let command = ScsiCommand {
                final_bit: flags & 0x80 != 0,
                read: flags & 0x40 != 0,
                write: flags & 0x20 != 0,
                attribute: flags & 7,
                expected_data_transfer_length: be32(h, 20),
                cdb: [be64(h, 32), be64(h, 40)],
                total_ahs_length: h[4],
            };
            Ok(pdu(h, data, be64(h, 8), Request::ScsiCommand(command)))
        }
        0x02 if !(plain(h) && no_data && (flags & 0x7f).wrapping_sub(1) < 8) => Err(Refusal::Field),
        0x02 => {
            let task = TaskManagement {
                function: flags & 0x7f,
                referenced_task_tag: be32(h, 20),
                ref_cmd_sn: be32(h, 32),
                exp_data_sn: be32(h, 36),
            };
            Ok(pdu(h, data, be64(h, 8), Request::TaskManagement(task)))
        }
        0x03 if !immediate || h[4] != 0 => Err(Refusal::Field),
        0x03 => {
            let login = Login {
                transit: flags & 0x80 != 0,
                continues: flags & 0x40 != 0,
                csg: flags >> 2 & 3,
                nsg: flags & 3,
                version_max: h[2],
                version_min: h[3],
                isid: be64(h, 8) >> 16,
                tsih: be16(h, 14),
                cid: be16(h, 20),
            };
            Ok(pdu(h, data, 0, Request::Login(login)))
        }
        0x05 if h[4] != 0 => Err(Refusal::Field),
        0x05 => {
            let data_out = DataOut {
                final_bit: flags & 0x80 != 0,
                ttt: be32(h, 20),
                data_sn: be32(h, 36),
                buffer_offset: be32(h, 40),
            };
            Ok(without_number(h, data, Request::DataOut(data_out)))
        }
        0x06 if !(plain(h) && no_data && flags & 0x7f <= 2) => Err(Refusal::Field),
        0x06 => {
            let logout = Logout {
                reason: flags & 0x7f,
                cid: be16(h, 20),
            };
            Ok(pdu(h, data, 0, Request::Logout(logout)))
        }
        _ if !good_snack(h) => Err(Refusal::Field),
        _ => {
            let snack = Snack {
                kind: flags & 0x0f,
                ttt: be32(h, 20),
                beg_run: be32(h, 40),
                run_length: be32(h, 44),
            };
            Ok(without_number(h, data, Request::Snack(snack)))
        }
    }
}

/// Byte 1's highest bit is set and there is no AHS.
#[inline]
fn plain(h: &Header) -> bool {
    h[1] & 0x80 != 0 && h[4] == 0
}

#[inline]
fn pdu(h: &Header, data: Data, lun: u64, request: Request) -> Pdu {
    Pdu {
        immediate: h[0] & 0x40 != 0,
        cmd_sn: be32(h, 24),
        lun,
        itt: be32(h, 16),
        exp_stat_sn: be32(h, 28),
        request,
        data,
    }
}

/// A PDU of a kind that has neither I nor CmdSN.
#[inline]
fn without_number(h: &Header, data: Data, request: Request) -> Pdu {
    Pdu {
        immediate: false,
        cmd_sn: 0,
        lun: be64(h, 8),
        itt: be32(h, 16),
        exp_stat_sn: be32(h, 28),
        request,
        data,
    }
}

/// Whether a SNACK's fields are good.
#[inline]
fn good_snack(h: &Header) -> bool {
    let (itt, ttt) = (be32(h, 16), be32(h, 20));
    let tags = match h[1] & 0x0f {
        0 => ttt == NO_TAG,
        1 => itt == NO_TAG && ttt == NO_TAG,
        2 => itt == NO_TAG,
        3 => ttt != 0 && ttt != NO_TAG,
        _ => false,
    };
    plain(h) && tags
}

/// A SNACK's header, where the PDU is one.
#[inline]
pub fn snack(input: &[u8]) -> Result<&Header, Refusal> {
    let (h, _) = frame(input)?;
    if h[0] & 0x3f == 0x10 && good_snack(h) {
        Ok(h)
    } else {
        Err(Refusal::Field)
    }
}

/// A Data-Out's header and the bytes of its data, where the PDU is one.
#[inline]
pub fn data_out(input: &[u8]) -> Result<(&Header, u32), Refusal> {
    let (h, data) = frame(input)?;
    if h[0] & 0x3f == 0x05 && h[4] == 0 {
        Ok((h, data.length as u32))
    } else {
        Err(Refusal::Field)
    }
}

/// What an offer needs of a PDU: whether it is read, of a kind that is offered, and immediate.
#[inline]
pub fn offered(input: &[u8]) -> Result<(&Header, bool), Refusal> {
    let (h, data) = frame(input)?;
    let flags = h[1];
    let immediate = h[0] & 0x40 != 0;
    let plain = flags & 0x80 != 0 && h[4] == 0;
    let good = match h[0] & 0x3f {
        0x00 => plain && (be32(h, 16) != NO_TAG || immediate),
        0x01 => flags & 7 <= 4 && flags & 0xa0 != 0,
        0x02 => plain && data.length == 0 && (flags & 0x7f).wrapping_sub(1) < 8,
        0x06 => plain && data.length == 0 && flags & 0x7f <= 2,
        _ => false,
    };
    if good {
        Ok((h, immediate))
    } else {
        Err(Refusal::Field)
    }
}

//! Document 01, "Headers read": bytes in, common fields and one of seven kinds out.

use crate::fields::{bit, get, get32};
use calls::{
    Data, DataOut, HEADER_BYTES, Login, Logout, NopOut, Pdu, Refusal, Request, ScsiCommand, Snack,
    TaskManagement,
};

const NOP_OUT: u8 = 0x00;
const SCSI_COMMAND: u8 = 0x01;
const TASK_MANAGEMENT: u8 = 0x02;
const LOGIN: u8 = 0x03;
const DATA_OUT: u8 = 0x05;
const LOGOUT: u8 = 0x06;
const SNACK: u8 = 0x10;

/// The largest DataSegmentLength, in and out.
pub const MAX_DATA: usize = 8192;
/// The tag that stands for none.
pub const NO_TAG: u32 = 0xffff_ffff;

/// The whole length of the PDU that begins with these bytes. Refusals in order: under 48 bytes, opcode, too long.
pub fn length(input: &[u8]) -> Result<u32, Refusal> {
    let data = data_of(input)?;
    Ok((data.offset + data.length.next_multiple_of(4)) as u32)
}

/// Read a whole PDU. Refusals in order: under 48 bytes, opcode, too long, length, fields.
pub fn read(input: &[u8]) -> Result<Pdu, Refusal> {
    let data = data_of(input)?;
    if input.len() != data.offset + data.length.next_multiple_of(4) {
        return Err(Refusal::Length);
    }
    let pdu = fields_of(input[0] & 0x3f, input, data);
    if field_rules_hold(&pdu, input) {
        Ok(pdu)
    } else {
        Err(Refusal::Field)
    }
}

/// Where the header puts the data segment.
fn data_of(input: &[u8]) -> Result<Data, Refusal> {
    if input.len() < HEADER_BYTES {
        return Err(Refusal::Length);
    }
    let opcode = input[0] & 0x3f;
    let known = [
        NOP_OUT,
        SCSI_COMMAND,
        TASK_MANAGEMENT,
        LOGIN,
        DATA_OUT,
        LOGOUT,
        SNACK,
    ];
    if !known.contains(&opcode) {
        return Err(Refusal::Opcode);
    }
    let length = get(input, 5, 3) as usize;
    if length > MAX_DATA {
        return Err(Refusal::TooLong);
    }
    let offset = HEADER_BYTES + 4 * usize::from(input[4]);
    Ok(Data { offset, length })
}

/// The fields where RFC 7143 puts them; a common field that the kind hasn't got is 0.
fn fields_of(opcode: u8, input: &[u8], data: Data) -> Pdu {
    let has_lun = opcode != LOGIN && opcode != LOGOUT;
    let has_cmd_sn = opcode != DATA_OUT && opcode != SNACK;
    Pdu {
        immediate: has_cmd_sn && bit(input[0], 0x40),
        cmd_sn: if has_cmd_sn { get32(input, 24) } else { 0 },
        lun: if has_lun { get(input, 8, 8) } else { 0 },
        itt: get32(input, 16),
        exp_stat_sn: get32(input, 28),
        request: request_of(opcode, input),
        data,
    }
}

fn request_of(opcode: u8, input: &[u8]) -> Request {
    let flags = input[1];
    match opcode {
        NOP_OUT => Request::NopOut(NopOut {
            ttt: get32(input, 20),
        }),
        SCSI_COMMAND => Request::ScsiCommand(ScsiCommand {
            final_bit: bit(flags, 0x80),
            read: bit(flags, 0x40),
            write: bit(flags, 0x20),
            attribute: flags & 0x07,
            expected_data_transfer_length: get32(input, 20),
            cdb: [get(input, 32, 8), get(input, 40, 8)],
            total_ahs_length: input[4],
        }),
        TASK_MANAGEMENT => Request::TaskManagement(TaskManagement {
            function: flags & 0x7f,
            referenced_task_tag: get32(input, 20),
            ref_cmd_sn: get32(input, 32),
            exp_data_sn: get32(input, 36),
        }),
        LOGIN => Request::Login(Login {
            transit: bit(flags, 0x80),
            continues: bit(flags, 0x40),
            csg: (flags & 0x0c) >> 2,
            nsg: flags & 0x03,
            version_max: input[2],
            version_min: input[3],
            isid: get(input, 8, 6),
            tsih: get(input, 14, 2) as u16,
            cid: get(input, 20, 2) as u16,
        }),
        DATA_OUT => Request::DataOut(DataOut {
            final_bit: bit(flags, 0x80),
            ttt: get32(input, 20),
            data_sn: get32(input, 36),
            buffer_offset: get32(input, 40),
        }),
        LOGOUT => Request::Logout(Logout {
            reason: flags & 0x7f,
            cid: get(input, 20, 2) as u16,
        }),
        _ => Request::Snack(Snack {
            kind: flags & 0x0f,
            ttt: get32(input, 20),
            beg_run: get32(input, 40),
            run_length: get32(input, 44),
        }),
    }
}

/// Whether every field rule holds.
fn field_rules_hold(pdu: &Pdu, input: &[u8]) -> bool {
    let highest_bit = bit(input[1], 0x80);
    let no_ahs = input[4] == 0;
    let no_data = pdu.data.length == 0;
    match pdu.request {
        Request::NopOut(_) => highest_bit && no_ahs && (pdu.itt != NO_TAG || pdu.immediate),
        Request::ScsiCommand(c) => c.attribute <= 4 && (c.final_bit || c.write),
        Request::TaskManagement(t) => {
            highest_bit && no_ahs && no_data && (1..=8).contains(&t.function)
        }
        Request::Login(_) => no_ahs && pdu.immediate,
        Request::DataOut(_) => no_ahs,
        Request::Logout(l) => highest_bit && no_ahs && no_data && l.reason <= 2,
        Request::Snack(s) => highest_bit && no_ahs && snack_tags_fit(s, pdu.itt),
    }
}

fn snack_tags_fit(snack: Snack, itt: u32) -> bool {
    match snack.kind {
        0 => snack.ttt == NO_TAG,
        1 => itt == NO_TAG && snack.ttt == NO_TAG,
        2 => itt == NO_TAG,
        3 => snack.ttt != 0 && snack.ttt != NO_TAG,
        _ => false,
    }
}

//! PDUs, responses and refusals as the words that cross the boundary.

use crate::ffi::{PduWords, ResponseWords};
use calls::{
    Data, DataOut, Login, Logout, NopOut, Pdu, Refusal, Request, Response, ScsiCommand, Snack,
    TaskManagement,
};

/// The refusal of a number, with the status of number 6.
#[inline]
pub fn refusal_of(number: u32, status: u16) -> Refusal {
    match number {
        1 => Refusal::Buffer,
        2 => Refusal::Opcode,
        3 => Refusal::Field,
        4 => Refusal::Length,
        5 => Refusal::TooLong,
        6 => Refusal::Login(status),
        7 => Refusal::NoConn,
        8 => Refusal::Closed,
        9 => Refusal::Open,
        10 => Refusal::Full,
        11 => Refusal::Stale,
        12 => Refusal::Snack,
        other => unreachable!("no refusal has the number {other}"),
    }
}

/// A PDU: its common fields, and the request.
#[inline]
fn pdu(w: &PduWords, request: Request) -> Result<Pdu, Refusal> {
    Ok(Pdu {
        immediate: w.common(1) & 1 != 0,
        cmd_sn: w.common(2) as u32,
        lun: w.common(3),
        itt: w.common(4) as u32,
        exp_stat_sn: w.common(5) as u32,
        request,
        data: Data {
            offset: w.common(6) as usize,
            length: w.common(7) as usize,
        },
    })
}

/// The PDU of its words. Each kind's is made whole in its arm, so that its fields go straight to their places.
#[inline]
pub fn pdu_of(w: &PduWords) -> Result<Pdu, Refusal> {
    let own = |place| w.own(place);
    match w.common(0) {
        0x00 => pdu(w, Request::NopOut(NopOut { ttt: own(0) as u32 })),
        0x01 => {
            let command = ScsiCommand {
                final_bit: own(0) & 1 != 0,
                read: own(1) & 1 != 0,
                write: own(2) & 1 != 0,
                attribute: own(3) as u8,
                total_ahs_length: own(4) as u8,
                expected_data_transfer_length: own(5) as u32,
                cdb: [own(6), own(7)],
            };
            pdu(w, Request::ScsiCommand(command))
        }
        0x02 => {
            let task = TaskManagement {
                function: own(0) as u8,
                referenced_task_tag: own(1) as u32,
                ref_cmd_sn: own(2) as u32,
                exp_data_sn: own(3) as u32,
            };
            pdu(w, Request::TaskManagement(task))
        }
        0x03 => {
            let login = Login {
                transit: own(0) & 1 != 0,
                continues: own(1) & 1 != 0,
                csg: own(2) as u8,
                nsg: own(3) as u8,
                version_max: own(4) as u8,
                version_min: own(5) as u8,
                isid: own(6),
                tsih: own(7) as u16,
                cid: own(8) as u16,
            };
            pdu(w, Request::Login(login))
        }
        0x05 => {
            let data_out = DataOut {
                final_bit: own(0) & 1 != 0,
                ttt: own(1) as u32,
                data_sn: own(2) as u32,
                buffer_offset: own(3) as u32,
            };
            pdu(w, Request::DataOut(data_out))
        }
        0x06 => {
            let logout = Logout {
                reason: own(0) as u8,
                cid: own(1) as u16,
            };
            pdu(w, Request::Logout(logout))
        }
        _ => {
            let snack = Snack {
                kind: own(0) as u8,
                ttt: own(1) as u32,
                beg_run: own(2) as u32,
                run_length: own(3) as u32,
            };
            pdu(w, Request::Snack(snack))
        }
    }
}

/// The words of a response.
#[inline]
pub fn words_of(response: &Response) -> ResponseWords {
    match *response {
        Response::NopIn {
            data_segment_length,
            lun,
            itt,
            ttt,
        } => {
            let length = data_segment_length.into();
            [0x20, length, lun, itt.into(), ttt.into(), 0, 0, 0, 0, 0]
        }
        Response::Scsi {
            overflow,
            underflow,
            response,
            status,
            data_segment_length,
            itt,
            snack_tag,
            residual,
            exp_data_sn,
        } => [
            0x21,
            overflow.into(),
            underflow.into(),
            response.into(),
            status.into(),
            data_segment_length.into(),
            itt.into(),
            snack_tag.into(),
            residual.into(),
            exp_data_sn.into(),
        ],
        Response::TaskManagement { response, itt } => {
            [0x22, response.into(), itt.into(), 0, 0, 0, 0, 0, 0, 0]
        }
        Response::Login {
            csg,
            transit,
            nsg,
            data_segment_length,
            isid,
            tsih,
            itt,
            status_class,
            status_detail,
        } => [
            0x23,
            transit.into(),
            csg.into(),
            nsg.into(),
            data_segment_length.into(),
            isid,
            tsih.into(),
            itt.into(),
            status_class.into(),
            status_detail.into(),
        ],
        Response::DataIn {
            final_bit,
            acknowledge,
            data_segment_length,
            lun,
            itt,
            ttt,
            data_sn,
            buffer_offset,
        } => [
            0x25,
            final_bit.into(),
            acknowledge.into(),
            data_segment_length.into(),
            lun,
            itt.into(),
            ttt.into(),
            data_sn.into(),
            buffer_offset.into(),
            0,
        ],
        Response::Logout {
            response,
            itt,
            time2wait,
            time2retain,
        } => {
            let (wait, retain) = (time2wait.into(), time2retain.into());
            [
                0x26,
                response.into(),
                itt.into(),
                wait,
                retain,
                0,
                0,
                0,
                0,
                0,
            ]
        }
        Response::R2t {
            lun,
            itt,
            ttt,
            r2t_sn,
            buffer_offset,
            desired_data_transfer_length,
        } => {
            let length = desired_data_transfer_length.into();
            let (sn, offset) = (r2t_sn.into(), buffer_offset.into());
            [
                0x31,
                lun,
                itt.into(),
                ttt.into(),
                sn,
                offset,
                length,
                0,
                0,
                0,
            ]
        }
        Response::Reject { reason } => [0x3f, reason.into(), 0, 0, 0, 0, 0, 0, 0, 0],
    }
}

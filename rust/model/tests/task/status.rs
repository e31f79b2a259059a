//! Statuses sent and sent again with a record.

use crate::{Case, FILL, GIVEN, ITT, LUN, at_level, case, header, number, scsi};
use calls::{Engine, HEADER_BYTES, Refusal, Response};
use testkit::pdu::{self, NO_TAG};

#[test]
fn exp_data_sn_is_the_count_sent() {
    let mut c = case();
    assert_eq!(c.exp_data_sn(0), 0);
    // R2Ts alone don't count: no Data-In was ever sent.
    c.r2t(1, 1).unwrap();
    c.r2t(2, 1).unwrap();
    assert_eq!(c.exp_data_sn(0), 0);
    c.data_in(true, 0).unwrap();
    assert_eq!(c.exp_data_sn(0), 3);
    c.r2t(3, 1).unwrap();
    assert_eq!(c.exp_data_sn(0), 4);
    for code in [1, 2, 0x7f, 0x80, 0xff] {
        assert_eq!(c.exp_data_sn(code), 0);
    }
    // Acknowledging takes nothing away; a type 3 does, and "ever sent" stays.
    assert_eq!(c.data_ack(3), Ok(3));
    assert_eq!(c.exp_data_sn(0), 4);
    assert_eq!(c.send_anew(5, 0), Ok((3, 1)));
    assert_eq!(c.exp_data_sn(0), 3);
    c.r2t(3, 1).unwrap();
    assert_eq!(c.exp_data_sn(0), 4);
}

#[test]
fn a_scsi_response_has_the_records_tags() {
    let mut c = case();
    let wanted = header(&[
        (0, &[0x21, 0x80, 0, 2, 0, 0, 0, 3]),
        (16, &[0x10, 0x11, 0x12, 0x13]),
        (24, &[0, 0, 0, 0x18, 0, 0, 0, 0x20, 0, 0, 0, 0x5f]),
    ]);
    for (itt, snack_tag) in [(ITT + 1, 0), (NO_TAG, 0), (ITT, 1), (ITT, NO_TAG)] {
        assert_eq!(c.status(0, itt, snack_tag), Err(Refusal::Field));
    }
    assert_eq!(c.status(0, ITT, 0), Ok(wanted));
    c.data_in(true, 1).unwrap();
    c.send_anew(0x55, 0).unwrap();
    for snack_tag in [0, 0x54] {
        assert_eq!(c.status(0, ITT, snack_tag), Err(Refusal::Field));
        assert_eq!(c.status(1, ITT, snack_tag), Err(Refusal::Field));
    }
    let sent = c.status(0, ITT, 0x55).unwrap();
    assert_eq!((number(&sent, 20), number(&sent, 24)), (0x55, 0x19));
}

#[test]
fn order_of_refusals_of_a_send_with_a_record() {
    let mut c = case();
    let both = |data_segment_length| Response::Scsi {
        overflow: true,
        underflow: true,
        response: 0,
        status: 0,
        data_segment_length,
        itt: ITT + 1,
        snack_tag: 0,
        residual: 0,
        exp_data_sn: 0,
    };
    let task = c.task.clone();
    let model = &mut c.model;
    let short = model.send(4, 1, &task, &mut [0; 47], &both(8193));
    assert_eq!(short, Err(Refusal::Buffer));
    let mut out = [FILL; HEADER_BYTES];
    let mut send = |connection, response: &Response| {
        let answer = model.send(connection, 1, &task, &mut out, response);
        if answer.is_err() {
            assert_eq!(out, [FILL; HEADER_BYTES]);
        }
        out = [FILL; HEADER_BYTES];
        answer
    };
    assert_eq!(send(4, &both(8193)), Err(Refusal::NoConn));
    assert_eq!(send(1, &both(8193)), Err(Refusal::Closed));
    assert_eq!(send(0, &both(8193)), Err(Refusal::TooLong));
    assert_eq!(send(0, &both(8192)), Err(Refusal::Field));
    // Other responses don't look at the record.
    let other = Response::TaskManagement {
        response: 0,
        itt: ITT + 1,
    };
    let ping = Response::NopIn {
        data_segment_length: 0,
        lun: 0,
        itt: NO_TAG,
        ttt: 1,
    };
    for at in 0..32 {
        assert_eq!(send(0, &other), Ok(0x18 + at));
        assert_eq!(send(0, &ping), Ok(0x19 + at));
    }
    // FULL comes last, and never for the NOP-In that isn't stored.
    assert_eq!(send(0, &other), Err(Refusal::Full));
    assert_eq!(send(0, &scsi(0, ITT, 0)), Err(Refusal::Full));
    assert_eq!(send(0, &scsi(0, ITT + 1, 0)), Err(Refusal::Field));
    assert_eq!(send(0, &scsi(0, ITT, 1)), Err(Refusal::Field));
    let r2t = Response::R2t {
        lun: LUN,
        itt: ITT,
        ttt: 1,
        r2t_sn: 0,
        buffer_offset: 0,
        desired_data_transfer_length: 1,
    };
    assert_eq!(send(0, &r2t), Err(Refusal::Field));
    assert_eq!(send(0, &ping), Ok(0x38));
}

#[test]
fn a_resend_takes_exp_data_sn_and_a_later_tag_from_the_record() {
    let mut c = case();
    c.data_in(true, 1).unwrap();
    let sent = c.status(0, ITT, 0).unwrap();
    let failed = c.status(1, ITT, 0).unwrap();
    assert_eq!((number(&sent, 36), number(&failed, 36)), (1, 0));
    let resend = |c: &mut Case, stat_sn| {
        let mut out = [FILL; HEADER_BYTES];
        let answer = c.model.resend(0, stat_sn, &c.task, &mut out);
        assert_eq!(answer, Ok(7), "the ticket");
        out
    };
    assert_eq!(resend(&mut c, 0x18), sent);
    // Two more sent: their count, for the response code that was stored.
    c.data_in(true, 1).unwrap();
    c.r2t(1, 1).unwrap();
    let mut wanted = sent;
    wanted[39] = 3;
    assert_eq!(resend(&mut c, 0x18), wanted);
    assert_eq!(resend(&mut c, 0x19), failed);
    // A type 3: its tag, and the count gone back. The window's numbers are those of now.
    c.send_anew(0x0a0b_0c0d, 0).unwrap();
    c.data_in(true, 1).unwrap();
    c.model.offer(0, 1, &pdu::scsi_command(0x20).0).unwrap();
    for (stat_sn, first, count) in [(0x18, sent, 1), (0x19, failed, 0)] {
        let mut wanted = first;
        wanted[20..24].copy_from_slice(&[0x0a, 0x0b, 0x0c, 0x0d]);
        wanted[31] = 0x21;
        wanted[39] = count;
        assert_eq!(resend(&mut c, stat_sn), wanted);
    }
    // What was stored is as it was sent: a record without a type 3 leaves the stored tag.
    let tagged = c.status(0, ITT, 0x0a0b_0c0d).unwrap();
    c.task.snack_tag = 0;
    assert_eq!(resend(&mut c, 0x1a), tagged);
    // Any record at all: never FIELD.
    c.task.itt = !ITT;
    c.task.snack_tag = 0x77;
    c.task.sent = u32::MAX;
    let again = resend(&mut c, 0x1a);
    assert_eq!((number(&again, 16), number(&again, 20)), (ITT, 0x77));
    assert_eq!(number(&again, 36), u32::MAX);
    c.task.any_data_in = false;
    assert_eq!(number(&resend(&mut c, 0x1a), 36), 0);
}

#[test]
fn a_resend_of_another_status_does_not_look_at_the_record() {
    let mut c = case();
    c.data_in(true, 1).unwrap();
    c.send_anew(0x55, 0).unwrap();
    c.data_in(true, 1).unwrap();
    let others = [
        Response::NopIn {
            data_segment_length: 1,
            lun: 2,
            itt: ITT,
            ttt: 4,
        },
        Response::TaskManagement {
            response: 0,
            itt: ITT,
        },
        Response::Login {
            csg: 1,
            transit: false,
            nsg: 0,
            data_segment_length: 1,
            isid: 2,
            tsih: 3,
            itt: ITT,
            status_class: 4,
            status_detail: 5,
        },
        Response::Logout {
            response: 0,
            itt: ITT,
            time2wait: 1,
            time2retain: 2,
        },
        Response::Reject { reason: 9 },
    ];
    for response in others {
        let (mut sent, mut again) = ([FILL; HEADER_BYTES], [FILL; HEADER_BYTES]);
        let send = c.model.send(0, 7, &c.task, &mut sent, &response);
        let resend = c
            .model
            .resend(0, send.unwrap(), &c.task, &mut again)
            .unwrap();
        assert_eq!((resend, again), (7, sent));
    }
}

#[test]
fn order_of_refusals_of_a_resend_with_a_record() {
    for level in [0, 1] {
        let mut c = at_level(level, GIVEN);
        c.status(0, ITT, 0).unwrap();
        let mut out = [FILL; HEADER_BYTES];
        let Case { model, task } = &mut c;
        let mut resend = |connection, stat_sn, length: usize| {
            model.resend(connection, stat_sn, task, &mut out[..length])
        };
        assert_eq!(resend(4, 0x19, 47), Err(Refusal::Buffer));
        assert_eq!(resend(4, 0x19, 48), Err(Refusal::NoConn));
        assert_eq!(resend(1, 0x19, 48), Err(Refusal::Closed));
        assert_eq!(resend(0, 0x19, 48), Err(Refusal::Snack));
        assert_eq!(resend(0, 0x17, 48), Err(Refusal::Snack));
        let held = resend(0, 0x18, 48);
        assert_eq!(held.is_ok(), level == 1);
    }
}

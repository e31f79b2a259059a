//! Statuses sent and resent with a task's record.

use super::super::{FILL, checks};
use super::*;

checks![
    exp_data_sn_is_the_count_sent,
    exp_data_sn_is_0_where_nothing_is_expected,
    a_stated_exp_data_sn_is_not_looked_at,
    a_scsi_response_has_the_records_tags,
    a_send_with_a_record_refuses_in_order,
    tags_are_field_before_full,
    other_responses_go_with_any_record,
    a_resend_takes_its_count_and_a_later_tag_from_the_record,
    a_resend_is_never_field,
    a_resend_of_another_status_leaves_it,
    a_resend_with_a_record_refuses_in_order,
];

/// ExpDataSN of a SCSI Response sent now.
fn exp_data_sn(c: &mut Case, code: u8) -> u32 {
    let sent = c.status(code, ITT, c.task.snack_tag).unwrap();
    number(&sent, 36)
}

fn exp_data_sn_is_the_count_sent(e: &mut dyn Engine) {
    let mut c = case(e);
    c.data_in(false, 1).unwrap();
    assert_eq!(exp_data_sn(&mut c, 0), 1);
    c.r2t(1, 1).unwrap();
    c.r2t(2, 1).unwrap();
    c.data_in(true, 0).unwrap();
    assert_eq!(exp_data_sn(&mut c, 0), 4);
    // Data-Out doesn't count, and acknowledging takes nothing away.
    c.came(&data_out_of(1, 0, 0, 1, true)).unwrap();
    assert_eq!(c.data_ack(3), Ok(3));
    assert_eq!(exp_data_sn(&mut c, 0), 4);
    // A type 3 does; what is sent after it counts on.
    assert_eq!(c.send_anew(5, 0), Ok((3, 1)));
    assert_eq!(exp_data_sn(&mut c, 0), 3);
    c.r2t(3, 1).unwrap();
    assert_eq!(exp_data_sn(&mut c, 0), 4);
    // A refused Data-In doesn't.
    c.data_in(true, 513).unwrap_err();
    assert_eq!(exp_data_sn(&mut c, 0), 4);
    let mut c = with(e, |t| (t.sent, t.any_data_in) = (u32::MAX, true));
    assert_eq!(exp_data_sn(&mut c, 0), u32::MAX);
}

fn exp_data_sn_is_0_where_nothing_is_expected(e: &mut dyn Engine) {
    let mut c = case(e);
    assert_eq!(exp_data_sn(&mut c, 0), 0);
    // R2Ts alone: no Data-In was ever sent.
    c.r2t(1, 1).unwrap();
    c.r2t(2, 1).unwrap();
    assert_eq!(exp_data_sn(&mut c, 0), 0);
    c.data_in(true, 1).unwrap();
    assert_eq!(exp_data_sn(&mut c, 0), 3);
    // A response other than Command Completed at Target.
    for code in [1, 2, 0x80, 0xff] {
        assert_eq!(exp_data_sn(&mut c, code), 0, "{code:#x}");
    }
    // Ever sent stays ever sent, also where a type 3 takes the Data-In back.
    assert_eq!(c.send_anew(5, 0), Ok((0, 3)));
    assert_eq!(exp_data_sn(&mut c, 0), 0);
    c.r2t(3, 1).unwrap();
    assert_eq!(exp_data_sn(&mut c, 0), 1);
}

fn a_stated_exp_data_sn_is_not_looked_at(e: &mut dyn Engine) {
    let mut c = case(e);
    c.data_in(true, 1).unwrap();
    for stated in [0, 1, 2, u32::MAX] {
        let mut response = scsi(0, ITT, 0);
        if let Response::Scsi { exp_data_sn, .. } = &mut response {
            *exp_data_sn = stated;
        }
        let mut out = [FILL; HEADER_BYTES];
        let answer = c.e.send(0, 7, &c.task, &mut out, &response);
        assert!(answer.is_ok());
        assert_eq!(number(&out, 36), 1, "{stated}");
    }
}

fn a_scsi_response_has_the_records_tags(e: &mut dyn Engine) {
    let mut c = case(e);
    let wanted = header(&[
        (0, &[0x21, 0x80, 0, 2, 0, 0, 0, 3]),
        (16, &[0x10, 0x11, 0x12, 0x13]),
        (24, &[0, 0, 0, 0x18, 0, 0, 0, 0x20, 0, 0, 0, 0x5f]),
    ]);
    for code in [0, 1] {
        for (itt, snack_tag) in [
            (ITT + 1, 0),
            (NO_TAG, 0),
            (ITT, 1),
            (ITT, NO_TAG),
            (ITT, TAG),
        ] {
            assert_eq!(c.status(code, itt, snack_tag), Err(Refusal::Field));
        }
    }
    assert_eq!(c.e.next_stat_sn(0), Ok(STAT_SN));
    assert_eq!(c.status(0, ITT, 0), Ok(wanted));
    c.data_in(true, 1).unwrap();
    c.send_anew(0x55, 0).unwrap();
    for snack_tag in [0, 0x54, NO_TAG] {
        assert_eq!(c.status(0, ITT, snack_tag), Err(Refusal::Field));
        assert_eq!(c.status(1, ITT, snack_tag), Err(Refusal::Field));
    }
    assert_eq!(c.status(0, ITT + 1, 0x55), Err(Refusal::Field));
    let sent = c.status(0, ITT, 0x55).unwrap();
    assert_eq!((number(&sent, 20), number(&sent, 24)), (0x55, STAT_SN + 1));
    // The latest type 3 counts.
    c.send_anew(0x56, 0).unwrap();
    assert_eq!(c.status(0, ITT, 0x55), Err(Refusal::Field));
    assert!(c.status(0, ITT, 0x56).is_ok());
}

/// A SCSI Response with everything wrong but, perhaps, its length.
fn both(data_segment_length: u32) -> Response {
    Response::Scsi {
        overflow: true,
        underflow: true,
        response: 0,
        status: 0,
        data_segment_length,
        itt: ITT + 1,
        snack_tag: 1,
        residual: 0,
        exp_data_sn: 0,
    }
}

/// BUFFER, NOCONN, CLOSED, TOOLONG, FIELD.
fn a_send_with_a_record_refuses_in_order(e: &mut dyn Engine) {
    let c = case(e);
    let mut short = [FILL; 47];
    let answer = c.e.send(4, 1, &c.task, &mut short, &both(8193));
    assert_eq!(answer, Err(Refusal::Buffer));
    let mut out = [FILL; HEADER_BYTES];
    let other = scsi(0, ITT + 1, 0);
    for (connection, response, refusal) in [
        (4, both(8193), Refusal::NoConn),
        (1, both(8193), Refusal::Closed),
        (1, other, Refusal::Closed),
        (0, both(8193), Refusal::TooLong),
        (0, both(8192), Refusal::Field),
        (0, other, Refusal::Field),
    ] {
        let answer = c.e.send(connection, 1, &c.task, &mut out, &response);
        assert_eq!(answer, Err(refusal), "{connection} {response:?}");
    }
    // TOOLONG alone with wrong tags.
    let mut long = other;
    if let Response::Scsi {
        data_segment_length,
        ..
    } = &mut long
    {
        *data_segment_length = 8193;
    }
    let answer = c.e.send(0, 1, &c.task, &mut out, &long);
    assert_eq!(answer, Err(Refusal::TooLong));
    assert_eq!((short, out), ([FILL; 47], [FILL; HEADER_BYTES]));
}

fn tags_are_field_before_full(e: &mut dyn Engine) {
    let mut c = case(e);
    for at in 0..32 {
        let sent = c.status(0, ITT, 0).unwrap();
        assert_eq!(number(&sent, 24), STAT_SN + at);
    }
    assert_eq!(c.status(0, ITT, 0), Err(Refusal::Full));
    assert_eq!(c.status(0, ITT + 1, 0), Err(Refusal::Field));
    assert_eq!(c.status(0, ITT, 1), Err(Refusal::Field));
    assert_eq!(c.e.acknowledge(0, STAT_SN + 1), Ok(1));
    assert_eq!(c.status(0, ITT, 1), Err(Refusal::Field));
    assert!(c.status(0, ITT, 0).is_ok());
}

/// A status of each kind but SCSI Response, with bytes where that has its tags and its count.
fn others() -> [Response; 5] {
    [
        Response::NopIn {
            data_segment_length: 1,
            lun: 2,
            itt: ITT + 1,
            ttt: 0x0102_0304,
        },
        Response::TaskManagement {
            response: 0,
            itt: ITT + 1,
        },
        Response::Login {
            csg: 1,
            transit: false,
            nsg: 0,
            data_segment_length: 1,
            isid: 2,
            tsih: 3,
            itt: ITT + 1,
            status_class: 4,
            status_detail: 5,
        },
        Response::Logout {
            response: 0,
            itt: ITT + 1,
            time2wait: 1,
            time2retain: 2,
        },
        Response::Reject { reason: 9 },
    ]
}

/// A record that says much: a Data-In, a type 3, and numbers sent after it.
fn telling(e: &mut dyn Engine) -> Case<'_> {
    let mut c = case(e);
    c.data_in(true, 1).unwrap();
    c.send_anew(0x0a0b_0c0d, 0).unwrap();
    for _ in 0..3 {
        c.data_in(true, 1).unwrap();
    }
    c
}

fn other_responses_go_with_any_record(e: &mut dyn Engine) {
    let c = telling(e);
    let ping = Response::NopIn {
        data_segment_length: 0,
        lun: 0,
        itt: NO_TAG,
        ttt: 1,
    };
    let (fresh, told) = (Task::fresh_for(0), c.task.clone());
    let mut stat_sn = STAT_SN;
    for response in others() {
        let mut headers = [[FILL; HEADER_BYTES]; 2];
        for (task, out) in [&fresh, &told].into_iter().zip(&mut headers) {
            assert_eq!(c.e.send(0, 1, task, out, &ping), Ok(stat_sn));
            assert_eq!(c.e.send(0, 1, task, out, &response), Ok(stat_sn));
            assert_eq!(number(out, 24), stat_sn);
            out[24..28].fill(0);
            stat_sn += 1;
        }
        assert_eq!(headers[0], headers[1], "{response:?}");
    }
}

fn a_resend_takes_its_count_and_a_later_tag_from_the_record(e: &mut dyn Engine) {
    let mut c = case(e);
    c.data_in(true, 1).unwrap();
    let sent = c.status(0, ITT, 0).unwrap();
    let failed = c.status(1, ITT, 0).unwrap();
    assert_eq!((number(&sent, 36), number(&failed, 36)), (1, 0));
    assert_eq!(c.resend(STAT_SN), Ok(sent));
    // Two more sent: their count, for the response code that was stored.
    c.data_in(true, 1).unwrap();
    c.r2t(1, 1).unwrap();
    let mut wanted = sent;
    wanted[39] = 3;
    assert_eq!(c.resend(STAT_SN), Ok(wanted));
    assert_eq!(c.resend(STAT_SN + 1), Ok(failed));
    // A type 3: its tag, and the count gone back. The window's numbers are those of now.
    c.send_anew(0x0a0b_0c0d, 0).unwrap();
    c.data_in(true, 1).unwrap();
    c.e.offer(0, 1, &scsi_command(CMD_SN).0).unwrap();
    for (stat_sn, first, count) in [(STAT_SN, sent, 1), (STAT_SN + 1, failed, 0)] {
        let mut wanted = first;
        wanted[20..24].copy_from_slice(&[0x0a, 0x0b, 0x0c, 0x0d]);
        wanted[31] = 0x21;
        wanted[39] = count;
        assert_eq!(c.resend(stat_sn), Ok(wanted));
    }
    // What was stored stays: with a record without a type 3 the stored tag, and no count of a task without Data-In.
    let tagged = c.status(0, ITT, 0x0a0b_0c0d).unwrap();
    c.task.snack_tag = 0;
    assert_eq!(c.resend(STAT_SN + 2), Ok(tagged));
    c.task = Task::fresh_for(ITT);
    let mut wanted = tagged;
    wanted[36..40].fill(0);
    assert_eq!(c.resend(STAT_SN + 2), Ok(wanted));
}

fn a_resend_is_never_field(e: &mut dyn Engine) {
    let mut c = case(e);
    let sent = c.status(0, ITT, 0).unwrap();
    for (itt, snack_tag, count) in [(!ITT, 0x77, u32::MAX), (0, NO_TAG, 5), (ITT, 1, 0)] {
        c.task.itt = itt;
        c.task.snack_tag = snack_tag;
        c.task.sent = count;
        for any in [false, true] {
            c.task.any_data_in = any;
            let mut wanted = sent;
            wanted[20..24].copy_from_slice(&snack_tag.to_be_bytes());
            let count = if any { count } else { 0 };
            wanted[36..40].copy_from_slice(&count.to_be_bytes());
            assert_eq!(c.resend(STAT_SN), Ok(wanted));
        }
    }
    let mut out = [FILL; HEADER_BYTES];
    assert_eq!(c.e.resend(0, STAT_SN, &c.task, &mut out), Ok(7));
}

fn a_resend_of_another_status_leaves_it(e: &mut dyn Engine) {
    let c = telling(e);
    for response in others() {
        let (mut sent, mut again) = ([FILL; HEADER_BYTES], [FILL; HEADER_BYTES]);
        let stat_sn = c.e.send(0, 7, &c.task, &mut sent, &response).unwrap();
        let ticket = c.e.resend(0, stat_sn, &c.task, &mut again);
        assert_eq!((ticket, again), (Ok(7), sent), "{response:?}");
    }
}

/// BUFFER, NOCONN, CLOSED, SNACK.
fn a_resend_with_a_record_refuses_in_order(e: &mut dyn Engine) {
    for level in [0, 1] {
        let mut c = at_level(e, level, GIVEN);
        c.status(0, ITT, 0).unwrap();
        let mut out = [FILL; HEADER_BYTES];
        let Case { e, task } = &mut c;
        let mut resend = |connection, stat_sn, length: usize| {
            e.resend(connection, stat_sn, task, &mut out[..length])
        };
        assert_eq!(resend(4, STAT_SN + 1, 47), Err(Refusal::Buffer));
        assert_eq!(resend(4, STAT_SN + 1, 48), Err(Refusal::NoConn));
        assert_eq!(resend(1, STAT_SN + 1, 48), Err(Refusal::Closed));
        assert_eq!(resend(0, STAT_SN + 1, 48), Err(Refusal::Snack));
        assert_eq!(resend(0, STAT_SN - 1, 48), Err(Refusal::Snack));
        assert_eq!(resend(0, STAT_SN, 48).is_ok(), level == 1);
    }
}

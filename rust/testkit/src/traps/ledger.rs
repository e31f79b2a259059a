//! Traps 26 to 35: the status ledger.

use super::{FILL, NO_TASK, checks, plain, send};
use crate::pdu::*;
use calls::{Engine, HEADER_BYTES, Refusal, Response, Run, Task};

checks![
    trap_26_runs,
    trap_27_runs_are_not_clipped,
    trap_28_all_of_none,
    trap_29_the_nop_in_that_is_not_stored,
    trap_30_full,
    trap_31_acknowledging,
    trap_32_a_resend_carries_the_numbers_of_now,
    trap_33_a_snack_acknowledges_nothing,
    trap_34_level_0,
    trap_35_a_reopened_connection,
    order_of_refusals,
    a_send_looks_at_its_connection_before_its_response,
    snack_kinds,
    the_stat_sn_wraps,
    later_bytes_stay,
];

/// A session at a level whose connection 0 holds these many statuses from `first` on, tickets 100 and up.
fn holding(e: &mut dyn Engine, level: u8, first: u32, count: u32) {
    e.begin_session(1, first, level);
    for i in 0..count {
        assert_eq!(send(e, 0, 100 + i), first.wrapping_add(i));
    }
}

fn run(e: &mut dyn Engine, beg_run: u32, run_length: u32) -> Result<(u32, u32), Refusal> {
    let answer = e.snack(0, &snack(1, beg_run, run_length).0);
    answer.map(|Run { first, count }| (first, count))
}

fn resend(e: &mut dyn Engine, stat_sn: u32) -> Result<u32, Refusal> {
    let mut out = [FILL; HEADER_BYTES];
    let answer = e.resend(0, stat_sn, &NO_TASK, &mut out);
    match answer {
        Ok(_) => assert_eq!(out[24..28], stat_sn.to_be_bytes()),
        Err(_) => assert_eq!(out, [FILL; HEADER_BYTES]),
    }
    answer
}

fn trap_26_runs(e: &mut dyn Engine) {
    holding(e, 1, 0xffff_fffe, 4);
    assert_eq!(run(e, 0, 0), Ok((0xffff_fffe, 4)));
    assert_eq!(run(e, 0, 1), Ok((0, 1)));
    assert_eq!(run(e, 0, 2), Ok((0, 2)));
    assert_eq!(run(e, 0, 3), Err(Refusal::Snack));
    assert_eq!(run(e, 1, 0), Ok((1, 1)));
    assert_eq!(run(e, 0xffff_fffe, 0), Ok((0xffff_fffe, 4)));
    assert_eq!(run(e, 2, 0), Err(Refusal::Snack));
    assert_eq!(run(e, 0xffff_fffd, 0), Err(Refusal::Snack));
    holding(e, 1, 5, 2);
    assert_eq!(run(e, 0, 1), Err(Refusal::Snack));
    assert_eq!(run(e, 0, 0), Ok((5, 2)));
}

fn trap_27_runs_are_not_clipped(e: &mut dyn Engine) {
    holding(e, 1, 10, 3);
    assert_eq!(run(e, 11, 2), Ok((11, 2)));
    for length in [3, 4, 0x8000_0000, u32::MAX - 1, u32::MAX] {
        assert_eq!(run(e, 11, length), Err(Refusal::Snack), "{length}");
    }
    assert_eq!(run(e, 12, u32::MAX), Err(Refusal::Snack));
    assert_eq!(run(e, 9, 2), Err(Refusal::Snack));
}

fn trap_28_all_of_none(e: &mut dyn Engine) {
    holding(e, 1, 77, 0);
    assert_eq!(run(e, 0, 0), Ok((77, 0)));
    assert_eq!(run(e, 77, 0), Err(Refusal::Snack));
    holding(e, 1, 0, 0);
    assert_eq!(run(e, 0, 0), Ok((0, 0)));
    assert_eq!(run(e, 0, 1), Err(Refusal::Snack));
}

fn nop_in(itt: u32, ttt: u32, data_segment_length: u32) -> Response {
    Response::NopIn {
        data_segment_length,
        lun: 0,
        itt,
        ttt,
    }
}

fn trap_29_the_nop_in_that_is_not_stored(e: &mut dyn Engine) {
    holding(e, 1, 10, 0);
    let mut out = [FILL; HEADER_BYTES];
    let ping = nop_in(NO_TAG, 5, 0);
    for _ in 0..2 {
        assert_eq!(e.send(0, 1, &NO_TASK, &mut out, &ping), Ok(10));
        assert_eq!(out[24..28], 10u32.to_be_bytes());
    }
    assert_eq!(resend(e, 10), Err(Refusal::Snack));
    assert_eq!(run(e, 0, 0), Ok((10, 0)));
    // Another tag, or another response with that tag, is an ordinary status.
    assert_eq!(
        e.send(0, 1, &NO_TASK, &mut out, &nop_in(4, NO_TAG, 0)),
        Ok(10)
    );
    assert_eq!(e.send(0, 1, &NO_TASK, &mut out, &plain(NO_TAG)), Ok(11));
    assert_eq!(run(e, 0, 0), Ok((10, 2)));
    for ticket in 0..30 {
        send(e, 0, ticket);
    }
    assert_eq!(
        e.send(0, 1, &NO_TASK, &mut out, &plain(1)),
        Err(Refusal::Full)
    );
    assert_eq!(e.send(0, 1, &NO_TASK, &mut out, &ping), Ok(42));
    // It isn't FULL, but the refusals before that are its own too.
    let long = nop_in(NO_TAG, 5, 8193);
    assert_eq!(
        e.send(0, 1, &NO_TASK, &mut out, &long),
        Err(Refusal::TooLong)
    );
    assert_eq!(
        e.send(1, 1, &NO_TASK, &mut out, &ping),
        Err(Refusal::Closed)
    );
    assert_eq!(
        e.send(4, 1, &NO_TASK, &mut out, &ping),
        Err(Refusal::NoConn)
    );
    assert_eq!(
        e.send(4, 1, &NO_TASK, &mut out[..47], &ping),
        Err(Refusal::Buffer)
    );
}

fn trap_30_full(e: &mut dyn Engine) {
    holding(e, 0, 0xffff_fff0, 32);
    let mut out = [FILL; HEADER_BYTES];
    assert_eq!(
        e.send(0, 1, &NO_TASK, &mut out, &plain(1)),
        Err(Refusal::Full)
    );
    assert_eq!(out, [FILL; HEADER_BYTES]);
    // FULL comes after writing's refusals.
    let both = Response::Login {
        csg: 0,
        transit: false,
        nsg: 1,
        data_segment_length: 0,
        isid: 0,
        tsih: 0,
        itt: 0,
        status_class: 0,
        status_detail: 0,
    };
    assert_eq!(e.send(0, 1, &NO_TASK, &mut out, &both), Err(Refusal::Field));
    let long = nop_in(1, 1, 8193);
    assert_eq!(
        e.send(0, 1, &NO_TASK, &mut out, &long),
        Err(Refusal::TooLong)
    );
    assert_eq!(e.acknowledge(0, 0xffff_fff1), Ok(1));
    assert_eq!(send(e, 0, 1), 0x10);
    assert_eq!(
        e.send(0, 1, &NO_TASK, &mut out, &plain(1)),
        Err(Refusal::Full)
    );
}

fn trap_31_acknowledging(e: &mut dyn Engine) {
    holding(e, 1, 10, 3);
    for stale in [9, 14, 0, 10 + (1 << 31)] {
        assert_eq!(e.acknowledge(0, stale), Err(Refusal::Stale), "{stale}");
    }
    assert_eq!(e.acknowledge(0, 10), Ok(0));
    assert_eq!(e.acknowledge(0, 12), Ok(2));
    assert_eq!(e.acknowledge(0, 11), Err(Refusal::Stale));
    assert_eq!(run(e, 0, 0), Ok((12, 1)));
    assert_eq!(e.acknowledge(0, 13), Ok(1));
    assert_eq!(e.acknowledge(0, 13), Ok(0));
    for stale in [12, 14] {
        assert_eq!(e.acknowledge(0, stale), Err(Refusal::Stale));
    }
}

fn trap_32_a_resend_carries_the_numbers_of_now(e: &mut dyn Engine) {
    e.begin_session(20, 5, 2);
    let response = Response::Scsi {
        overflow: true,
        underflow: false,
        response: 1,
        status: 2,
        data_segment_length: 3,
        itt: 4,
        snack_tag: 5,
        residual: 6,
        exp_data_sn: 7,
    };
    let task = Task {
        snack_tag: 5,
        ..Task::fresh_for(4)
    };
    let mut sent = [FILL; HEADER_BYTES];
    assert_eq!(e.send(0, 77, &task, &mut sent, &response), Ok(5));
    assert_eq!(sent[28..36], [0, 0, 0, 20, 0, 0, 0, 83]);
    for later in 1..3 {
        e.offer(0, 1, &scsi_command(19 + later).0).unwrap();
        e.take(&mut [0; 48]).unwrap();
        let mut again = [FILL; HEADER_BYTES];
        assert_eq!(e.resend(0, 5, &task, &mut again), Ok(77));
        let mut wanted = sent;
        wanted[28..32].copy_from_slice(&(20 + later).to_be_bytes());
        wanted[32..36].copy_from_slice(&(83 + later).to_be_bytes());
        assert_eq!(again, wanted);
    }
}

fn trap_33_a_snack_acknowledges_nothing(e: &mut dyn Engine) {
    holding(e, 1, 10, 3);
    for exp_stat_sn in [12, 13, 999] {
        let bytes = snack(1, 10, 0).field(28, 4, exp_stat_sn);
        assert_eq!(
            e.snack(0, &bytes.0),
            Ok(Run {
                first: 10,
                count: 3
            })
        );
    }
    // Nor does an offer.
    let bytes = nop_out(1).field(28, 4, 12);
    e.offer(0, 1, &bytes.0).unwrap();
    assert_eq!(run(e, 0, 0), Ok((10, 3)));
}

fn trap_34_level_0(e: &mut dyn Engine) {
    holding(e, 0, 10, 3);
    assert_eq!(resend(e, 10), Err(Refusal::Snack));
    assert_eq!(run(e, 0, 0), Err(Refusal::Snack));
    // Another kind is FIELD before the level is looked at.
    assert_eq!(e.snack(0, &nop_out(1).0), Err(Refusal::Field));
    assert_eq!(e.acknowledge(0, 12), Ok(2));
    for level in [1, 2, 3, 255] {
        holding(e, level, 10, 3);
        for number in 10..13 {
            assert_eq!(resend(e, number), Ok(90 + number));
        }
        assert_eq!(run(e, 0, 0), Ok((10, 3)));
        assert_eq!(resend(e, 9), Err(Refusal::Snack));
        assert_eq!(resend(e, 13), Err(Refusal::Snack));
    }
}

fn trap_35_a_reopened_connection(e: &mut dyn Engine) {
    holding(e, 1, 10, 3);
    e.open(1, 500).unwrap();
    assert_eq!(send(e, 1, 7), 500);
    e.logout(0, 1).unwrap();
    assert_eq!(e.acknowledge(0, 10), Err(Refusal::Closed));
    assert_eq!(e.open(0, 11), Ok(()));
    assert_eq!(run(e, 0, 0), Ok((11, 0)));
    assert_eq!(resend(e, 11), Err(Refusal::Snack));
    assert_eq!(send(e, 0, 8), 11);
    assert_eq!(resend(e, 11), Ok(8));
    assert_eq!(e.acknowledge(1, 501), Ok(1));
}

fn order_of_refusals(e: &mut dyn Engine) {
    holding(e, 0, 10, 3);
    let (mut short, mut out) = ([FILL; 47], [FILL; 48]);
    assert_eq!(
        e.send(9, 1, &NO_TASK, &mut short, &plain(1)),
        Err(Refusal::Buffer)
    );
    assert_eq!(
        e.send(4, 1, &NO_TASK, &mut out, &plain(1)),
        Err(Refusal::NoConn)
    );
    assert_eq!(
        e.send(3, 1, &NO_TASK, &mut out, &plain(1)),
        Err(Refusal::Closed)
    );
    assert_eq!(e.acknowledge(4, 0), Err(Refusal::NoConn));
    assert_eq!(e.acknowledge(3, 0), Err(Refusal::Closed));
    assert_eq!(e.resend(4, 10, &NO_TASK, &mut short), Err(Refusal::Buffer));
    assert_eq!(e.resend(4, 10, &NO_TASK, &mut out), Err(Refusal::NoConn));
    assert_eq!(e.resend(3, 10, &NO_TASK, &mut out), Err(Refusal::Closed));
    assert_eq!(e.snack(4, &[]), Err(Refusal::NoConn));
    assert_eq!(e.snack(3, &[]), Err(Refusal::Closed));
    assert_eq!(e.snack(0, &[]), Err(Refusal::Length));
    assert_eq!(e.snack(0, &snack(4, 0, 0).0), Err(Refusal::Field));
    assert_eq!((short, out), ([FILL; 47], [FILL; 48]));
}

fn a_send_looks_at_its_connection_before_its_response(e: &mut dyn Engine) {
    holding(e, 0, 10, 32);
    let both = |data_segment_length| Response::Scsi {
        overflow: true,
        underflow: true,
        response: 0,
        status: 0,
        data_segment_length,
        itt: 1,
        snack_tag: 0,
        residual: 0,
        exp_data_sn: 0,
    };
    for (length, refusal) in [(8192, Refusal::Field), (8193, Refusal::TooLong)] {
        let (mut short, mut out) = ([FILL; 47], [FILL; 48]);
        let (response, task) = (both(length), Task::fresh_for(1));
        assert_eq!(
            e.send(4, 1, &task, &mut short, &response),
            Err(Refusal::Buffer)
        );
        assert_eq!(
            e.send(4, 1, &task, &mut out, &response),
            Err(Refusal::NoConn)
        );
        assert_eq!(
            e.send(3, 1, &task, &mut out, &response),
            Err(Refusal::Closed)
        );
        // Connection 0 is full, which comes last.
        assert_eq!(e.send(0, 1, &task, &mut out, &response), Err(refusal));
        assert_eq!((short, out), ([FILL; 47], [FILL; 48]));
    }
}

fn snack_kinds(e: &mut dyn Engine) {
    holding(e, 1, 10, 3);
    for kind in [0, 2, 3] {
        assert_eq!(e.snack(0, &snack(kind, 0, 0).0), Err(Refusal::Snack));
        assert_eq!(e.snack(0, &snack(kind, 10, 1).0), Err(Refusal::Snack));
    }
    for bytes in [
        scsi_command(1),
        login(0, b""),
        data_out(1, 2),
        logout(1, 0),
        task_management(1, 1),
    ] {
        assert_eq!(e.snack(0, &bytes.0), Err(Refusal::Field));
    }
    let with_data = snack(1, 11, 2).data(b"abc");
    assert_eq!(
        e.snack(0, &with_data.0),
        Ok(Run {
            first: 11,
            count: 2
        })
    );
}

fn the_stat_sn_wraps(e: &mut dyn Engine) {
    holding(e, 1, 0xffff_fff0, 32);
    assert_eq!(run(e, 0xffff_fff0, 32), Ok((0xffff_fff0, 32)));
    assert_eq!(run(e, 0xffff_ffff, 17), Ok((0xffff_ffff, 17)));
    assert_eq!(run(e, 0xffff_ffff, 18), Err(Refusal::Snack));
    assert_eq!(resend(e, 0), Ok(116));
    assert_eq!(e.acknowledge(0, 0), Ok(16));
    assert_eq!(resend(e, 0xffff_ffff), Err(Refusal::Snack));
    assert_eq!(e.acknowledge(0, 0xffff_ffff), Err(Refusal::Stale));
    assert_eq!(e.acknowledge(0, 0x10), Ok(16));
}

fn later_bytes_stay(e: &mut dyn Engine) {
    holding(e, 1, 10, 1);
    let mut out = [FILL; 60];
    assert_eq!(e.resend(0, 10, &NO_TASK, &mut out), Ok(100));
    assert_eq!(out[48..], [FILL; 12]);
    let mut out = [FILL; 60];
    assert_eq!(e.send(0, 1, &NO_TASK, &mut out, &plain(1)), Ok(11));
    assert_eq!(out[48..], [FILL; 12]);
}

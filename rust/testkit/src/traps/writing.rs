//! Traps 11 to 13: writing.

use super::{FILL, checks};
use calls::{Engine, HEADER_BYTES, Numbers, Refusal, Response};

checks![
    trap_11_scsi_response,
    trap_12_reject_login_and_logout,
    nop_in_and_task_response,
    trap_13_order_of_refusals,
    trap_13_login_fields_are_not_cut,
    longest_data_length,
    later_bytes_stay,
];

pub(super) const NUMBERS: Numbers = Numbers {
    stat_sn: 0x1819_1a1b,
    exp_cmd_sn: 0x1c1d_1e1f,
    max_cmd_sn: 0x2021_2223,
};

pub(super) fn written(e: &dyn Engine, response: Response) -> Result<[u8; HEADER_BYTES], Refusal> {
    let mut out = [FILL; HEADER_BYTES];
    let answer = e.write(&mut out, NUMBERS, &response);
    if answer.is_err() {
        assert_eq!(out, [FILL; HEADER_BYTES], "a refusal writes nothing");
    }
    answer.map(|()| out)
}

/// A header with the numbers in their places, and these bytes besides; all else 0.
pub(super) fn header(places: &[(usize, &[u8])]) -> [u8; HEADER_BYTES] {
    let mut h = [0; HEADER_BYTES];
    let numbers: Vec<u8> = (24..36).collect();
    h[24..36].copy_from_slice(&numbers);
    for (at, bytes) in places {
        h[*at..*at + bytes.len()].copy_from_slice(bytes);
    }
    h
}

fn scsi(overflow: bool, underflow: bool, data_segment_length: u32) -> Response {
    Response::Scsi {
        overflow,
        underflow,
        response: 0x11,
        status: 0x22,
        data_segment_length,
        itt: 0x1011_1213,
        snack_tag: 0x1415_1617,
        residual: 0x2c2d_2e2f,
        exp_data_sn: 0x2425_2627,
    }
}

fn login(csg: u8, transit: bool, nsg: u8, isid: u64) -> Response {
    Response::Login {
        csg,
        transit,
        nsg,
        data_segment_length: 0x0102,
        isid,
        tsih: 0x0e0f,
        itt: 0x1011_1213,
        status_class: 0x24,
        status_detail: 0x25,
    }
}

fn trap_11_scsi_response(e: &mut dyn Engine) {
    for (o, u, flags) in [
        (false, false, 0x80),
        (true, false, 0x84),
        (false, true, 0x82),
    ] {
        let wanted = header(&[
            (0, &[0x21, flags, 0x11, 0x22, 0, 0, 0x20, 0]),
            (16, &[0x10, 0x11, 0x12, 0x13, 0x14, 0x15, 0x16, 0x17]),
            (36, &[0x24, 0x25, 0x26, 0x27]),
            (44, &[0x2c, 0x2d, 0x2e, 0x2f]),
        ]);
        assert_eq!(written(e, scsi(o, u, 8192)), Ok(wanted));
    }
    assert_eq!(written(e, scsi(true, true, 0)), Err(Refusal::Field));
}

fn trap_12_reject_login_and_logout(e: &mut dyn Engine) {
    let reject = header(&[(0, &[0x3f, 0x80, 9, 0, 0, 0, 0, 48]), (16, &[0xff; 4])]);
    assert_eq!(written(e, Response::Reject { reason: 9 }), Ok(reject));

    let isid = 0x0809_0a0b_0c0d;
    let tail: [(usize, &[u8]); 3] = [
        (8, &[8, 9, 10, 11, 12, 13, 14, 15]),
        (16, &[0x10, 0x11, 0x12, 0x13]),
        (36, &[0x24, 0x25]),
    ];
    let with = |flags| {
        let start = [0x23, flags, 0, 0, 0, 0, 1, 2];
        header(&[(0, &start), tail[0], tail[1], tail[2]])
    };
    assert_eq!(written(e, login(1, true, 3, isid)), Ok(with(0x87)));
    assert_eq!(written(e, login(1, false, 0, isid)), Ok(with(0x04)));
    // Any CSG and, with T, any NSG of two bits.
    assert_eq!(written(e, login(3, true, 2, isid)), Ok(with(0x8e)));

    let response = Response::Logout {
        response: 3,
        itt: 0x1011_1213,
        time2wait: 0x2829,
        time2retain: 0x2a2b,
    };
    let wanted = header(&[
        (0, &[0x26, 0x80, 3]),
        (16, &[0x10, 0x11, 0x12, 0x13]),
        (40, &[0x28, 0x29, 0x2a, 0x2b]),
    ]);
    assert_eq!(written(e, response), Ok(wanted));
}

fn nop_in_and_task_response(e: &mut dyn Engine) {
    let response = Response::NopIn {
        data_segment_length: 3,
        lun: 0x0809_0a0b_0c0d_0e0f,
        itt: 0x1011_1213,
        ttt: 0x1415_1617,
    };
    let run: Vec<u8> = (8..24).collect();
    let wanted = header(&[(0, &[0x20, 0x80, 0, 0, 0, 0, 0, 3]), (8, &run)]);
    assert_eq!(written(e, response), Ok(wanted));

    let response = Response::TaskManagement {
        response: 5,
        itt: 0x1011_1213,
    };
    let wanted = header(&[(0, &[0x22, 0x80, 5]), (16, &run[8..12])]);
    assert_eq!(written(e, response), Ok(wanted));
}

fn trap_13_order_of_refusals(e: &mut dyn Engine) {
    assert_eq!(written(e, scsi(true, true, 8193)), Err(Refusal::TooLong));
    let mut short = [FILL; HEADER_BYTES - 1];
    for response in [scsi(true, true, 8193), scsi(false, false, 0)] {
        let answer = e.write(&mut short, NUMBERS, &response);
        assert_eq!(answer, Err(Refusal::Buffer));
        assert_eq!(short, [FILL; HEADER_BYTES - 1]);
    }
}

fn trap_13_login_fields_are_not_cut(e: &mut dyn Engine) {
    let bad = [
        login(0, false, 1, 0),
        login(4, false, 0, 0),
        login(0, true, 4, 0),
        login(0, true, 255, 0),
        login(0, false, 0, 1 << 48),
        login(0, true, 1, u64::MAX),
    ];
    for response in bad {
        assert_eq!(written(e, response), Err(Refusal::Field), "{response:?}");
    }
    assert!(written(e, login(0, true, 1, (1 << 48) - 1)).is_ok());
}

fn longest_data_length(e: &mut dyn Engine) {
    let nop = |data_segment_length| Response::NopIn {
        data_segment_length,
        lun: 0,
        itt: 0,
        ttt: 0,
    };
    assert!(written(e, nop(8192)).is_ok());
    for long in [8193, 1 << 24, (1 << 24) + 1, u32::MAX] {
        assert_eq!(written(e, nop(long)), Err(Refusal::TooLong));
    }
}

fn later_bytes_stay(e: &mut dyn Engine) {
    let mut out = [FILL; 60];
    let response = Response::Reject { reason: 1 };
    assert_eq!(e.write(&mut out, NUMBERS, &response), Ok(()));
    assert_eq!(out[48..], [FILL; 12]);
}

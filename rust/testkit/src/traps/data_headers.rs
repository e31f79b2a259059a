//! The headers of data phases: Data-Out as it is read, Data-In and R2T as they are written and not sent, ExpDataSN.

use super::writing::{NUMBERS, header, written};
use super::{FILL, NO_TASK, checks, send};
use crate::pdu::*;
use calls::{Engine, HEADER_BYTES, Pdu, Refusal, Request, Response};

checks![
    data_out_has_f_and_no_other_flag,
    data_out_has_no_field_rule_but_no_ahs,
    data_out_refuses_in_order,
    data_in_has_f_and_a_alone,
    data_in_has_no_stat_sn,
    data_in_has_no_rule_but_its_length,
    r2t_has_its_fields_and_no_data,
    r2t_has_no_rule,
    exp_data_sn_stands_at_36,
    a_short_buffer_comes_first,
    data_in_and_r2t_are_not_sent,
    a_sent_data_in_is_too_long_before_field_before_full,
    a_sent_data_in_looks_at_its_connection_first,
];

fn good(e: &dyn Engine, bytes: &Bytes) -> Pdu {
    e.read(&bytes.0).expect("read")
}

fn data_out_has_f_and_no_other_flag(e: &mut dyn Engine) {
    for flags in 0..=255u8 {
        let pdu = good(e, &data_out(3, 4).byte(1, flags));
        let Request::DataOut(read) = pdu.request else {
            panic!("{pdu:?}");
        };
        let shown = (read.final_bit, read.ttt, read.data_sn, read.buffer_offset);
        assert_eq!(shown, (flags & 0x80 != 0, 0x16, 3, 4), "{flags:#x}");
    }
}

fn data_out_has_no_field_rule_but_no_ahs(e: &mut dyn Engine) {
    let numbers = [0, 1, 0x8000_0000, NO_TAG];
    for tag in numbers {
        for number in numbers {
            let bytes = data_out(number, tag).itt(tag).ttt(number);
            for bytes in [bytes.clone(), bytes.clone().byte(1, 0)] {
                // Empty or not, and the end may pass 2^32.
                for length in [0, 1, 8192] {
                    let whole = bytes.clone().data(&vec![7; length]);
                    assert_eq!(good(e, &whole).data.length, length);
                }
                let ahs = bytes.ahs(1);
                assert_eq!(e.read(&ahs.0), Err(Refusal::Field));
            }
        }
    }
}

fn data_out_refuses_in_order(e: &mut dyn Engine) {
    let wrong = data_out(1, 2).ahs(1);
    assert_eq!(e.read(&wrong.0[..47]), Err(Refusal::Length));
    let long = wrong.clone().field(5, 3, 8193);
    assert_eq!(e.read(&long.0), Err(Refusal::TooLong));
    assert_eq!(e.read(&wrong.clone().resized(56).0), Err(Refusal::Length));
    assert_eq!(e.read(&wrong.0), Err(Refusal::Field));
}

fn data_in(flags: (bool, bool), data_segment_length: u32, ttt: u32) -> Response {
    Response::DataIn {
        final_bit: flags.0,
        acknowledge: flags.1,
        data_segment_length,
        lun: 0x0809_0a0b_0c0d_0e0f,
        itt: 0x1011_1213,
        ttt,
        data_sn: 0x2425_2627,
        buffer_offset: 0x2829_2a2b,
    }
}

fn r2t(ttt: u32, buffer_offset: u32, desired_data_transfer_length: u32) -> Response {
    Response::R2t {
        lun: 0x0809_0a0b_0c0d_0e0f,
        itt: 0x1011_1213,
        ttt,
        r2t_sn: 0x2425_2627,
        buffer_offset,
        desired_data_transfer_length,
    }
}

fn data_in_has_f_and_a_alone(e: &mut dyn Engine) {
    let (tags, numbers): (Vec<u8>, Vec<u8>) = ((8..24).collect(), (36..44).collect());
    for (f, a, byte) in [
        (false, false, 0x00),
        (true, false, 0x80),
        (false, true, 0x40),
        (true, true, 0xc0),
    ] {
        // Bytes 44 to 47 are 0, as those of StatSN are.
        let wanted = header(&[
            (0, &[0x25, byte, 0, 0, 0, 0, 0x20, 0]),
            (8, &tags),
            (24, &[0; 4]),
            (36, &numbers),
        ]);
        let response = data_in((f, a), 8192, 0x1415_1617);
        assert_eq!(written(e, response), Ok(wanted));
    }
}

fn data_in_has_no_stat_sn(e: &mut dyn Engine) {
    let response = data_in((true, false), 0, NO_TAG);
    for stat_sn in [0, 1, 0x8000_0000, u32::MAX] {
        let mut numbers = NUMBERS;
        numbers.stat_sn = stat_sn;
        let mut out = [FILL; HEADER_BYTES];
        assert_eq!(e.write(&mut out, numbers, &response), Ok(()));
        assert_eq!(out[24..28], [0; 4], "{stat_sn:#x}");
    }
}

fn data_in_has_no_rule_but_its_length(e: &mut dyn Engine) {
    for ttt in [0, NO_TAG] {
        for a in [false, true] {
            for length in [0, 1, 8192] {
                assert!(written(e, data_in((false, a), length, ttt)).is_ok());
            }
            for long in [8193, 1 << 24, (1 << 24) + 1, u32::MAX] {
                let response = data_in((true, a), long, ttt);
                assert_eq!(written(e, response), Err(Refusal::TooLong));
            }
        }
    }
}

fn r2t_has_its_fields_and_no_data(e: &mut dyn Engine) {
    let (tags, numbers): (Vec<u8>, Vec<u8>) = ((8..24).collect(), (36..48).collect());
    let wanted = header(&[(0, &[0x31, 0x80]), (8, &tags), (36, &numbers)]);
    let response = r2t(0x1415_1617, 0x2829_2a2b, 0x2c2d_2e2f);
    assert_eq!(written(e, response), Ok(wanted));
}

/// A tag that stands for none, a length of 0 and an end above 2^32 aren't looked at in writing.
fn r2t_has_no_rule(e: &mut dyn Engine) {
    for ttt in [0, 1, NO_TAG] {
        for offset in [0, 8192, u32::MAX] {
            for length in [0, 1, 8193, 1 << 24, u32::MAX] {
                let out = written(e, r2t(ttt, offset, length)).unwrap();
                assert_eq!(out[5..8], [0; 3]);
                assert_eq!(out[44..48], length.to_be_bytes());
            }
        }
    }
}

fn exp_data_sn_stands_at_36(e: &mut dyn Engine) {
    for number in [0, 1, 0x2425_2627, u32::MAX] {
        let response = Response::Scsi {
            overflow: false,
            underflow: false,
            response: 0,
            status: 0,
            data_segment_length: 0,
            itt: 0x1011_1213,
            snack_tag: 0,
            residual: 0,
            exp_data_sn: number,
        };
        let wanted = header(&[
            (0, &[0x21, 0x80]),
            (16, &[0x10, 0x11, 0x12, 0x13]),
            (36, &number.to_be_bytes()),
        ]);
        assert_eq!(written(e, response), Ok(wanted));
    }
}

fn a_short_buffer_comes_first(e: &mut dyn Engine) {
    let mut short = [FILL; HEADER_BYTES - 1];
    for response in [data_in((true, true), 8193, 1), r2t(1, 2, 3)] {
        let answer = e.write(&mut short, NUMBERS, &response);
        assert_eq!(answer, Err(Refusal::Buffer));
        assert_eq!(
            e.send(9, 1, &NO_TASK, &mut short, &response),
            Err(Refusal::Buffer)
        );
    }
    assert_eq!(short, [FILL; HEADER_BYTES - 1]);
}

/// Each is written, and sent it is FIELD: it uses up no StatSN and isn't kept.
fn data_in_and_r2t_are_not_sent(e: &mut dyn Engine) {
    e.begin_session(1, 10, 1);
    assert_eq!(send(e, 0, 5), 10);
    for response in [
        data_in((true, false), 0, NO_TAG),
        data_in((true, true), 8192, 5),
        r2t(5, 0, 512),
    ] {
        assert!(written(e, response).is_ok());
        let mut out = [FILL; HEADER_BYTES];
        assert_eq!(
            e.send(0, 6, &NO_TASK, &mut out, &response),
            Err(Refusal::Field)
        );
        assert_eq!(out, [FILL; HEADER_BYTES]);
        assert_eq!(e.next_stat_sn(0), Ok(11));
        assert_eq!(e.resend(0, 11, &NO_TASK, &mut out), Err(Refusal::Snack));
    }
    assert_eq!(e.acknowledge(0, 11), Ok(1));
}

fn a_sent_data_in_is_too_long_before_field_before_full(e: &mut dyn Engine) {
    e.begin_session(1, 10, 1);
    let mut out = [FILL; HEADER_BYTES];
    let long = data_in((true, false), 8193, NO_TAG);
    for held in [0, 32] {
        for ticket in 0..held {
            send(e, 0, ticket);
        }
        assert_eq!(
            e.send(0, 1, &NO_TASK, &mut out, &long),
            Err(Refusal::TooLong)
        );
        for response in [data_in((true, false), 8192, NO_TAG), r2t(5, 0, 512)] {
            assert_eq!(
                e.send(0, 1, &NO_TASK, &mut out, &response),
                Err(Refusal::Field)
            );
        }
    }
    assert_eq!(out, [FILL; HEADER_BYTES]);
}

fn a_sent_data_in_looks_at_its_connection_first(e: &mut dyn Engine) {
    e.begin_session(1, 10, 1);
    let mut out = [FILL; HEADER_BYTES];
    for response in [data_in((true, false), 8193, NO_TAG), r2t(5, 0, 512)] {
        assert_eq!(
            e.send(4, 1, &NO_TASK, &mut out, &response),
            Err(Refusal::NoConn)
        );
        assert_eq!(
            e.send(3, 1, &NO_TASK, &mut out, &response),
            Err(Refusal::Closed)
        );
    }
    assert_eq!(out, [FILL; HEADER_BYTES]);
}

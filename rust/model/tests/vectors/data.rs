//! The headers of data phases: Data-Out read; Data-In, R2T and ExpDataSN written.

use crate::header::{pdu_of, shown};
use calls::{Engine, HEADER_BYTES, Numbers, Refusal, Response, Task};
use model::Model;

/// What a line's PDU is read as, on one line.
fn read(line: &str) -> String {
    let (pdu, mut out) = (pdu_of(line), String::new());
    match Model::default().read(&pdu) {
        Ok(p) => shown(&mut out, &p, &pdu),
        Err(refusal) => out = format!("refused {}", refusal.number()),
    }
    out.trim_end().replace("\n   ", ";")
}

/// A Data-Out's bytes from 8 on, with bytes where RFC 7143 has reserved ones: LUN; ITT, TTT; reserved, ExpStatSN;
/// reserved, DataSN; Buffer Offset, reserved.
const REST: &str =
    "0102030405060708 1112131421222324 3132333441424344 4546474851525354 6162636471727374";

/// A Data-Out of these first eight bytes and this much after the header.
fn data_out(first: &str, more: &str) -> String {
    format!("{first}{}{more}", REST.replace(' ', ""))
}

/// What is shown of it between `i` and `data`.
fn fields(f: u8) -> String {
    format!(
        "data-out i=0 cmdsn=0x00000000 lun=0x0102030405060708 itt=0x11121314 expstatsn=0x41424344 \
         f={f} ttt=0x21222324 datasn=0x51525354 offset=0x61626364"
    )
}

#[test]
fn data_out_is_read() {
    let vectors = [
        // F set and clear; the bits beside it and beside the opcode are ignored.
        ("0580000000000000", "", 1, " data=48+0"),
        ("0500000000000000", "", 0, " data=48+0"),
        ("c5ffffff00000000", "", 1, " data=48+0"),
        ("c57fffff00000000", "", 0, " data=48+0"),
        // Data, with pad and without; the longest.
        (
            "0500000000000005",
            "+8",
            0,
            " data=48+5; data starts 61, ends 61",
        ),
        (
            "0580000000000004",
            "+4",
            1,
            " data=48+4; data starts 61, ends 61",
        ),
        (
            "0580000000002000",
            "+8192",
            1,
            " data=48+8192; data starts 61, ends 61",
        ),
    ];
    for (first, more, f, data) in vectors {
        let wanted = fields(f) + data;
        assert_eq!(read(&data_out(first, more)), wanted, "{first}{more}");
    }
}

#[test]
fn data_out_is_refused() {
    let vectors = [
        // No AHS, of any length; a wrong length comes first, and too long before that.
        ("0580000001000000", "+4", "refused 3"),
        ("05800000ff000004", "+1024", "refused 3"),
        ("0580000001000000", "", "refused 4"),
        ("0580000001000000", "+8", "refused 4"),
        ("0580000000000005", "+5", "refused 4"),
        ("0580000000000000", "+4", "refused 4"),
        ("0580000000002001", "", "refused 5"),
        ("0580000001002001", "+8200", "refused 5"),
        ("0580000000010000", "", "refused 5"),
        // Its neighbours are no requests.
        ("0480000000000000", "", "refused 2"),
        ("0780000000000000", "", "refused 2"),
    ];
    for (first, more, refused) in vectors {
        assert_eq!(read(&data_out(first, more)), refused, "{first}{more}");
    }
    let whole = pdu_of(&data_out("0580000000000000", ""));
    assert_eq!(
        Model::default().read(&whole[..47]),
        Err(Refusal::Length),
        "under 48 bytes"
    );
    assert_eq!(Model::default().length(&whole), Ok(48));
}

#[test]
fn an_offered_data_out_is_field() {
    let mut model = Model::default();
    for first in ["0580000000000000", "4500000000000000"] {
        let pdu = pdu_of(&data_out(first, ""));
        assert_eq!(model.offer(0, 1, &pdu), Err(Refusal::Field));
    }
    // Reading's refusals come first, and NOCONN and CLOSED before those.
    let short = pdu_of(&data_out("0580000000000005", ""));
    assert_eq!(model.offer(0, 1, &short), Err(Refusal::Length));
    assert_eq!(model.offer(3, 1, &short), Err(Refusal::Closed));
    assert_eq!(model.offer(4, 1, &short), Err(Refusal::NoConn));
}

const NUMBERS: Numbers = Numbers {
    stat_sn: 0x3132_3334,
    exp_cmd_sn: 0x4142_4344,
    max_cmd_sn: 0x4546_4748,
};

fn data_in(final_bit: bool, acknowledge: bool, data_segment_length: u32) -> Response {
    Response::DataIn {
        final_bit,
        acknowledge,
        data_segment_length,
        lun: 0x0102_0304_0506_0708,
        itt: 0x1112_1314,
        ttt: 0x2122_2324,
        data_sn: 0x5152_5354,
        buffer_offset: 0x6162_6364,
    }
}

const R2T: Response = Response::R2t {
    lun: 0x0102_0304_0506_0708,
    itt: 0x1112_1314,
    ttt: 0x2122_2324,
    r2t_sn: 0x5152_5354,
    buffer_offset: 0x6162_6364,
    desired_data_transfer_length: 0x7172_7374,
};

fn scsi(overflow: bool, underflow: bool, data_segment_length: u32) -> Response {
    Response::Scsi {
        overflow,
        underflow,
        response: 0x01,
        status: 0x02,
        data_segment_length,
        itt: 0x1112_1314,
        snack_tag: 0x2122_2324,
        residual: 0x7172_7374,
        exp_data_sn: 0x5152_5354,
    }
}

#[test]
fn data_in_r2t_and_exp_data_sn_are_written() {
    // LUN; ITT, TTT; StatSN 0, ExpCmdSN; MaxCmdSN, DataSN; Buffer Offset, nothing.
    let in_rest =
        "0102030405060708 1112131421222324 0000000041424344 4546474851525354 6162636400000000";
    // The same with StatSN, R2TSN and the Desired Data Transfer Length.
    let r2t_rest =
        "0102030405060708 1112131421222324 3132333441424344 4546474851525354 6162636471727374";
    // No LUN; SNACK tag; ExpDataSN; the bidirectional residual, which isn't named, and the residual.
    let scsi_rest =
        "0000000000000000 1112131421222324 3132333441424344 4546474851525354 0000000071727374";
    let vectors = [
        (data_in(false, false, 0), "2500000000000000", in_rest),
        (data_in(true, false, 1), "2580000000000001", in_rest),
        (data_in(false, true, 0x1234), "2540000000001234", in_rest),
        (data_in(true, true, 8192), "25c0000000002000", in_rest),
        (R2T, "3180000000000000", r2t_rest),
        (scsi(true, false, 8192), "2184010200002000", scsi_rest),
    ];
    for (response, first, rest) in vectors {
        let mut out = [0xee; HEADER_BYTES + 1];
        let answer = Model::default().write(&mut out, NUMBERS, &response);
        assert_eq!(answer, Ok(()));
        let wanted = pdu_of(&format!("{first}{}ee", rest.replace(' ', "")));
        assert_eq!(out[..], wanted, "{response:?}");
    }
}

#[test]
fn writing_refuses_a_long_data_in_and_no_r2t() {
    let model = Model::default();
    let mut out = [0xee; HEADER_BYTES];
    for length in [8193, 0x1_0000, 1 << 24, u32::MAX] {
        let answer = model.write(&mut out, NUMBERS, &data_in(true, true, length));
        assert_eq!(answer, Err(Refusal::TooLong));
    }
    for response in [data_in(true, true, 8193), R2T] {
        let answer = model.write(&mut out[..47], NUMBERS, &response);
        assert_eq!(answer, Err(Refusal::Buffer));
    }
    assert_eq!(out, [0xee; HEADER_BYTES]);
    // No rule binds tags, numbers and offsets here.
    let widest = Response::R2t {
        lun: u64::MAX,
        itt: u32::MAX,
        ttt: u32::MAX,
        r2t_sn: u32::MAX,
        buffer_offset: u32::MAX,
        desired_data_transfer_length: 0,
    };
    assert_eq!(model.write(&mut out, NUMBERS, &widest), Ok(()));
}

#[test]
fn a_sent_data_in_or_r2t_is_field_before_full() {
    let mut model = Model::default();
    model.begin_session(1, 10, 1);
    // The record with the SCSI Response's tags.
    let task = Task {
        snack_tag: 0x2122_2324,
        ..Task::fresh_for(0x1112_1314)
    };
    let mut out = [0xee; HEADER_BYTES];
    for full in [false, true] {
        let mut send = |response: &Response| model.send(0, 1, &task, &mut out, response);
        assert_eq!(send(&data_in(true, false, 8192)), Err(Refusal::Field));
        assert_eq!(send(&data_in(true, false, 8193)), Err(Refusal::TooLong));
        assert_eq!(send(&R2T), Err(Refusal::Field));
        if full {
            assert_eq!(send(&scsi(false, true, 0)), Err(Refusal::Full));
        } else {
            let held = (0..32).map(|_| send(&scsi(false, true, 0)));
            assert!(
                held.eq((10..42).map(Ok)),
                "none of the refused used a number up"
            );
        }
    }
    let mut out = [0xee; HEADER_BYTES];
    assert_eq!(
        model.send(1, 1, &task, &mut out, &R2T),
        Err(Refusal::Closed)
    );
    assert_eq!(
        model.send(4, 1, &task, &mut out, &R2T),
        Err(Refusal::NoConn)
    );
    assert_eq!(out, [0xee; HEADER_BYTES]);
    assert_eq!(model.next_stat_sn(0), Ok(42));
}

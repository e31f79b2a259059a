//! What the header has beyond the calls of an engine: its sizes, the names of answers, Login Responses made for the caller, and fields that
//! hold more than their place in the header.

use crate::data_checks;
use crate::shim::Library;
use calls::{Engine, HEADER_BYTES, Numbers, Refusal, Task};
use testkit::pdu;

/// A check: it panics where the header is wrong.
pub type Check = fn(&Library);

/// Every check, by name.
pub const ALL: &[(&str, Check)] = &[
    ("sizes", sizes),
    ("keys are numbered as in the table", keys),
    ("fresh sets every member", fresh),
    ("refusals are the numbers 1 to 12", refusals),
    ("names of answers", names),
    ("Login Response that accepts", accepted),
    ("Login Response that refuses", refused),
    ("values too wide", too_wide),
    ("kinds too wide", kinds),
    ("records made", data_checks::made),
    ("data calls as the model's", data_checks::as_the_model),
];

fn sizes(library: &Library) {
    assert_eq!(library.sizes(), [48, 9260, 8192, 4, 4]);
}

/// Four of them are 1 whatever is offered, so that no login would show one in another's place.
fn keys(library: &Library) {
    assert_eq!(library.keys(), [0, 1, 2, 3, 4, 5, 6, 7, 8, 9, 10, 11]);
}

fn fresh(library: &Library) {
    assert!(library.begins_whole());
}

fn refusals(library: &Library) {
    for number in (0..=64).chain([256 + 1, u32::MAX]) {
        let wanted = (1..=12).contains(&number);
        assert_eq!(library.is_refusal(number), wanted, "{number}");
    }
}

fn names(library: &Library) {
    const FIRST: [&str; 13] = [
        "OK", "BUFFER", "OPCODE", "FIELD", "LENGTH", "TOOLONG", "LOGIN", "NOCONN", "CLOSED",
        "OPEN", "FULL", "STALE", "SNACK",
    ];
    const FROM_32: [&str; 13] = [
        "DONE",
        "KEPT",
        "DUPLICATE",
        "PASSED",
        "BEYOND",
        "IMMEDIATE",
        "NOTHING",
        "VOID",
        "COMMAND",
        "FREE",
        "HELD",
        "RUN",
        "ACKNOWLEDGED",
    ];
    for number in (0..=64u32).chain([256, u32::MAX]) {
        let wanted = match number {
            0..=12 => FIRST[number as usize],
            32..=44 => FROM_32[number as usize - 32],
            _ => "?",
        };
        assert_eq!(library.answer_name(number), wanted, "{number}");
    }
}

/// A Login Request in which no two fields are equal, nor equal to what it is answered.
fn login_request() -> Vec<u8> {
    pdu::login(0x87, &pdu::block(&["TargetName=a", "InitiatorName=b"]))
        .field(8, 6, 0x0809_0a0b_0c0d)
        .field(14, 2, 0x0e0f)
        .itt(0x1011_1213)
        .0
}

fn accepted(library: &Library) {
    for (answered, stages) in [
        ([1, 0, 1, 0, 0x0102, 8192], [0, 1, 0]),
        ([3, 1, 0, 3, 0xfffe, 31], [1, 0, 3]),
    ] {
        let [transit, csg, nsg] = stages;
        let [.., tsih, length] = answered;
        let fields = library.login_accepted(&login_request(), &answered);
        let isid = 0x0809_0a0b_0c0d;
        let wanted = [
            0x23,
            transit,
            csg,
            nsg,
            length,
            isid,
            tsih,
            0x1011_1213,
            0,
            0,
        ];
        assert_eq!(fields, wanted);
    }
}

fn refused(library: &Library) {
    let isid = 0x0809_0a0b_0c0d;
    let of_login = [0x23, 0, 1, 0, 0, isid, 0x0e0f, 0x1011_1213, 2, 0x0b];
    assert_eq!(library.login_refused(&login_request(), 0x020b), of_login);
    let of_another = [0x23, 0, 0, 0, 0, 0, 0, 0x10, 0xff, 0x01];
    assert_eq!(
        library.login_refused(&pdu::nop_out(7).0, 0xff01),
        of_another
    );
    let of_none = [0x23, 0, 0, 0, 0, 0, 0, 0, 2, 0];
    assert_eq!(library.login_refused(&[0x43; 47], 0x0200), of_none);
}

/// The widths of each kind's fields, in the order of RFC 7143's pictures; 0 stands for DataSegmentLength.
const KINDS: [(u64, &[u32]); 8] = [
    (0x20, &[0, 64, 32, 32]),
    (0x21, &[1, 1, 8, 8, 0, 32, 32, 32, 32]),
    (0x22, &[8, 32]),
    (0x23, &[1, 2, 2, 0, 48, 16, 32, 8, 8]),
    (0x25, &[1, 1, 0, 64, 32, 32, 32, 32]),
    (0x26, &[8, 32, 16, 16]),
    (0x31, &[64, 32, 32, 32, 32, 32]),
    (0x3f, &[8]),
];

/// A response through `write` and through `send`: both take it, or both refuse it and leave every byte and number. A Data-In or an R2T that
/// `write` takes is FIELD to `send`.
fn both(library: &Library, opcode: u64, fields: &[u64; 9], wanted: Result<(), Refusal>) {
    let mut engine = library.engine();
    let numbers = Numbers {
        stat_sn: 1,
        exp_cmd_sn: 2,
        max_cmd_sn: 3,
    };
    let fresh = [0x91; HEADER_BYTES];
    let (mut written, mut sent) = (fresh, fresh);
    let wrote = engine.write_fields(&mut written, numbers, opcode, fields);
    // The record of a SCSI Response has its tags.
    let task = Task {
        snack_tag: fields[6] as u32,
        ..Task::fresh_for(fields[5] as u32)
    };
    let said = engine.send_fields(0, 9, &task, &mut sent, opcode, fields);
    assert_eq!(wrote, wanted, "{opcode:#x} {fields:x?}");
    let is_status = !matches!(opcode, 0x25 | 0x31);
    let of_send = match wanted {
        Ok(()) if !is_status => Err(Refusal::Field),
        _ => wanted,
    };
    assert_eq!(said.map(|_| ()), of_send, "{opcode:#x} {fields:x?}");
    if wanted.is_err() {
        assert_eq!(written, fresh);
    }
    if of_send.is_err() {
        assert_eq!(sent, fresh);
        assert_eq!(engine.next_stat_sn(0), Ok(1));
    }
}

fn too_wide(library: &Library) {
    for (opcode, widths) in KINDS {
        // T, without which an NSG is refused for another reason.
        let good = if opcode == 0x23 {
            [1, 0, 0, 0, 0, 0, 0, 0, 0]
        } else {
            [0; 9]
        };
        for (place, &bits) in widths.iter().enumerate() {
            let with = |word| {
                let mut fields = good;
                fields[place] = word;
                fields
            };
            let (greatest, refusal) = match bits {
                0 => (8192, Refusal::TooLong),
                64 => (u64::MAX, Refusal::Field),
                _ => ((1 << bits) - 1, Refusal::Field),
            };
            both(library, opcode, &with(greatest), Ok(()));
            for above in [greatest.wrapping_add(1), greatest | 1 << 32, 1 << 63] {
                if above > greatest {
                    both(library, opcode, &with(above), Err(refusal));
                }
            }
        }
    }
}

fn kinds(library: &Library) {
    for (opcode, _) in KINDS {
        both(library, opcode, &[0; 9], Ok(()));
        for above in [0x40, 1 << 8, 1 << 16, 1 << 32, 1 << 63] {
            both(library, opcode + above, &[0; 9], Err(Refusal::Field));
        }
    }
    for opcode in [0x00, 0x05, 0x24, 0x30, 0x32] {
        both(library, opcode, &[0; 9], Err(Refusal::Field));
    }
}

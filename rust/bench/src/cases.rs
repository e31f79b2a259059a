//! The calls that are timed.

use crate::timing::nanoseconds;
use calls::{Engine, HEADER_BYTES, Holder, Numbers, Refusal, Response, TEXT_BYTES, Task};
use std::hint::black_box;
use testkit::Bytes;
use testkit::pdu;
use testkit::traps::LIBISCSI;

/// Something to time: its name, and how to time it on a fresh engine.
pub type Case = (&'static str, fn() -> f64);

/// Every case, in the table's order.
pub fn all<E: Engine + Default>() -> Vec<Case> {
    vec![
        ("read NOP-Out", || read::<E>(pdu::nop_out(1).data(b"ping"))),
        ("read SCSI Command", || {
            read::<E>(pdu::scsi_command(1).data(&[7; 512]))
        }),
        ("read Task Management", || {
            read::<E>(pdu::task_management(1, 1))
        }),
        ("read Login", || read::<E>(pdu::login(0x87, &[b'a'; 400]))),
        ("read Data-Out", || {
            read::<E>(pdu::data_out(3, 1536).data(&[7; 512]))
        }),
        ("read Logout", || read::<E>(pdu::logout(1, 1))),
        ("read SNACK", || read::<E>(pdu::snack(1, 5, 6))),
        ("length of NOP-Out", || {
            length::<E>(pdu::nop_out(1).data(b"ping"))
        }),
        ("length of SCSI Command", || {
            length::<E>(pdu::scsi_command(1).ahs(2).data(&[7; 512]))
        }),
        ("write NOP-In", || write::<E>(NOP_IN)),
        ("write SCSI Response", || write::<E>(SCSI)),
        ("write Login Response", || write::<E>(LOGIN)),
        ("write Data-In", || write::<E>(DATA_IN)),
        ("write R2T", || write::<E>(R2T)),
        ("offer + take", offer_take::<E>),
        ("offer 32 + take 32", offer_take_many::<E>),
        ("snack", snack::<E>),
        ("next StatSN", next::<E>),
        ("holder, held", || holder::<E>(9)),
        ("holder, void", || holder::<E>(0)),
        ("holder, free", || holder::<E>(40)),
        ("open + logout", open_logout::<E>),
        ("login of 19 keys", login::<E>),
        ("23 pairs, known", block_of_known::<E>),
        ("64 pairs, known, twice", known_twice::<E>),
        ("64 pairs, unknown", block_of_unknown::<E>),
        ("64 pairs, mixed", block_of_both::<E>),
    ]
}

const NOP_IN: Response = Response::NopIn {
    data_segment_length: 4,
    lun: 0,
    itt: 0x10,
    ttt: 0xffff_ffff,
};
pub const SCSI: Response = Response::Scsi {
    overflow: false,
    underflow: true,
    response: 0,
    status: 2,
    data_segment_length: 20,
    itt: 0x11,
    snack_tag: 0,
    residual: 512,
    exp_data_sn: 4,
};
const LOGIN: Response = Response::Login {
    csg: 1,
    transit: true,
    nsg: 3,
    data_segment_length: 300,
    isid: 0x0002_3d00_0001,
    tsih: 7,
    itt: 0x13,
    status_class: 0,
    status_detail: 0,
};

const DATA_IN: Response = Response::DataIn {
    final_bit: true,
    acknowledge: true,
    data_segment_length: 8192,
    lun: 1 << 48,
    itt: 0x11,
    ttt: 0x21,
    data_sn: 3,
    buffer_offset: 24_576,
};
const R2T: Response = Response::R2t {
    lun: 1 << 48,
    itt: 0x11,
    ttt: 0x21,
    r2t_sn: 3,
    buffer_offset: 65_536,
    desired_data_transfer_length: 262_144,
};

fn read<E: Engine + Default>(bytes: Bytes) -> f64 {
    let engine = E::default();
    nanoseconds(|| {
        let _ = black_box(engine.read(black_box(&bytes.0)));
    })
}

/// Of the header alone, as it is asked while the rest is still to come.
fn length<E: Engine + Default>(bytes: Bytes) -> f64 {
    let engine = E::default();
    let header = &bytes.0[..HEADER_BYTES];
    assert_eq!(engine.length(header), Ok(bytes.0.len() as u32));
    nanoseconds(|| {
        let _ = black_box(engine.length(black_box(header)));
    })
}

fn write<E: Engine + Default>(response: Response) -> f64 {
    let engine = E::default();
    let mut out = [0; HEADER_BYTES];
    let numbers = Numbers {
        stat_sn: 1,
        exp_cmd_sn: 2,
        max_cmd_sn: 3,
    };
    nanoseconds(|| {
        let _ = black_box(engine.write(&mut out, black_box(numbers), black_box(&response)));
        black_box(&out);
    })
}

/// A session of level 1 that holds 16 statuses on connection 0 and has handed out a few commands.
fn session<E: Engine + Default>() -> E {
    let mut engine = E::default();
    engine.begin_session(0xffff_fff0, 1, 1);
    let task = Task::fresh_for(0x11);
    let mut out = [0; HEADER_BYTES];
    for ticket in 0..16 {
        engine.send(0, ticket, &task, &mut out, &SCSI).unwrap();
    }
    engine
}

/// The connection of most calls. No caller knows it when it is compiled, so it is hidden from the optimiser.
pub fn connection() -> u32 {
    black_box(0)
}

/// The next command, its number in place.
fn numbered(bytes: &mut Bytes, number: u32) {
    bytes.0[24..28].copy_from_slice(&number.to_be_bytes());
}

fn offer_take<E: Engine + Default>() -> f64 {
    let mut engine = session::<E>();
    let mut bytes = pdu::scsi_command(0);
    let mut out = [0; HEADER_BYTES];
    let mut number = 0xffff_fff0u32;
    nanoseconds(|| {
        numbered(&mut bytes, number);
        let _ = black_box(engine.offer(connection(), number, black_box(&bytes.0)));
        let _ = black_box(engine.take(&mut out));
        black_box(&out);
        number = number.wrapping_add(1);
    })
}

fn offer_take_many<E: Engine + Default>() -> f64 {
    let mut engine = session::<E>();
    let mut bytes = pdu::scsi_command(0);
    let mut out = [0; HEADER_BYTES];
    let mut number = 0xffff_fff0u32;
    nanoseconds(|| {
        for d in (0..32).rev() {
            numbered(&mut bytes, number.wrapping_add(d));
            let _ = black_box(engine.offer(connection(), d, black_box(&bytes.0)));
        }
        for _ in 0..32 {
            let _ = black_box(engine.take(&mut out));
        }
        number = number.wrapping_add(32);
    })
}

fn snack<E: Engine + Default>() -> f64 {
    let mut engine = session::<E>();
    let bytes = pdu::snack(1, 4, 9);
    nanoseconds(|| {
        let _ = black_box(engine.snack(connection(), black_box(&bytes.0)));
    })
}

fn next<E: Engine + Default>() -> f64 {
    let engine = session::<E>();
    assert_eq!(engine.next_stat_sn(connection()), Ok(17));
    nanoseconds(|| {
        let _ = black_box(engine.next_stat_sn(connection()));
    })
}

/// Who holds the number in this place of the window: 32 are held, the even places void.
fn holder<E: Engine + Default>(place: u32) -> f64 {
    let mut engine = session::<E>();
    let first = 0xffff_fff0u32;
    engine.open(1, 1).unwrap();
    for d in 0..32 {
        let bytes = pdu::scsi_command(first.wrapping_add(d));
        engine.offer(u32::from(d % 2 == 0), d, &bytes.0).unwrap();
    }
    engine.logout(1, 1).unwrap();
    let number = first.wrapping_add(place);
    let wanted = match place {
        32.. => Holder::Free,
        even if even % 2 == 0 => Holder::Void,
        ticket => Holder::Held {
            ticket,
            origin: Some(0),
        },
    };
    assert_eq!(engine.holder(number), wanted);
    nanoseconds(|| {
        black_box(engine.holder(black_box(number)));
    })
}

/// A connection opens, loses a command after a gap, and is logged out, while 32 commands of another are held.
fn open_logout<E: Engine + Default>() -> f64 {
    let mut engine = session::<E>();
    for d in 0..32 {
        let bytes = pdu::scsi_command(0xffff_fff0u32.wrapping_add(d));
        engine.offer(0, d, &bytes.0).unwrap();
    }
    let lost = pdu::scsi_command(0xffff_fff0u32.wrapping_add(40));
    nanoseconds(|| {
        let other = black_box(1);
        let _ = black_box(engine.open(other, 1));
        let _ = black_box(engine.offer(other, 1, black_box(&lost.0)));
        let _ = black_box(engine.logout(other, black_box(1)));
    })
}

/// The name of the benchmark's target, and the pairs of both names, which a first block has.
const TARGET: &str = "iqn.2026-11.example:drawbevel";
const NAMES: [&str; 2] = [
    "InitiatorName=iqn.2026-11.example:station",
    "TargetName=iqn.2026-11.example:drawbevel",
];

/// Every other known key that one block of the operational stage may have, once each.
const KNOWN: [&str; 21] = [
    "SessionType=Normal",
    "HeaderDigest=CRC32C,None",
    "DataDigest=None",
    "ErrorRecoveryLevel=1",
    "InitialR2T=Yes",
    "ImmediateData=Yes",
    "MaxRecvDataSegmentLength=65536",
    "MaxBurstLength=262144",
    "FirstBurstLength=65536",
    "MaxConnections=4",
    "MaxOutstandingR2T=1",
    "DataPDUInOrder=Yes",
    "DataSequenceInOrder=Yes",
    "DefaultTime2Wait=2",
    "DefaultTime2Retain=20",
    "TaskReporting=RFC3720",
    "InitiatorAlias=station",
    "IFMarker=No",
    "OFMarker=No",
    "IFMarkInt=2048",
    "OFMarkInt=2048",
];

/// Names of RFC 7143's other documents and of vendors, none of them known here.
const UNKNOWN: [&str; 16] = [
    "X-com.example.stationRate=100",
    "RDMAExtensions=Yes",
    "TargetRecvDataSegmentLength=8192",
    "InitiatorRecvDataSegmentLength=8192",
    "MaxOutstandingUnexpectedPDUs=0",
    "MaxAHSLength=256",
    "TaggedBufferForSolicitedDataOnly=No",
    "X#NodeArchitecture=x86",
    "X-org.example.Channel=BHZ",
    "CHAP_A=5",
    "CHAP_N=station",
    "KRB_AP_REQ=0x00",
    "SRP_U=station",
    "X-net.example.gain=1",
    "MaxConnectionz=4",
    "InitialR2X=Yes",
];

/// Unknown pairs, as many as are wanted.
fn unknown(count: usize) -> impl Iterator<Item = &'static str> {
    UNKNOWN.into_iter().cycle().take(count)
}

/// What libiscsi sends, in one request to full feature phase.
fn login<E: Engine + Default>() -> f64 {
    let pairs: Vec<&str> = NAMES.into_iter().chain(LIBISCSI).collect();
    assert_eq!(pairs.len(), 19);
    judged::<E>(&pairs)
}

/// The longest block of known names that is answered.
fn block_of_known<E: Engine + Default>() -> f64 {
    let pairs: Vec<&str> = NAMES.into_iter().chain(KNOWN).collect();
    assert_eq!(pairs.len(), 23);
    judged::<E>(&pairs)
}

/// 64 pairs of known names. A name that comes twice is refused, so the twenty-fourth is.
fn known_twice<E: Engine + Default>() -> f64 {
    let pairs: Vec<&str> = NAMES.into_iter().chain(KNOWN).cycle().take(64).collect();
    let mut engine = E::default();
    let bytes = pdu::login(0x87, &pdu::block(&pairs));
    let (mut gather, mut text) = ([0; TEXT_BYTES], [0; TEXT_BYTES]);
    let mut step = || {
        engine.begin_login(black_box(TARGET.as_bytes()));
        engine.login(0, 7, &mut gather, &mut text, black_box(&bytes.0))
    };
    assert_eq!(step(), Err(Refusal::Login(0x0200)));
    nanoseconds(|| {
        let _ = black_box(step());
    })
}

/// 64 pairs, of which all names but the two that must be there are unknown.
fn block_of_unknown<E: Engine + Default>() -> f64 {
    let pairs: Vec<&str> = NAMES.into_iter().chain(unknown(62)).collect();
    judged::<E>(&pairs)
}

/// 64 pairs: the known names that may stand in one block, each followed by an unknown one or two.
fn block_of_both<E: Engine + Default>() -> f64 {
    let mut others = unknown(41);
    let mut pairs = NAMES.to_vec();
    for known in KNOWN {
        pairs.push(known);
        pairs.extend(others.next());
        pairs.extend(others.next());
    }
    assert_eq!((pairs.len(), others.next()), (64, None));
    judged::<E>(&pairs)
}

/// A login of one request, whose block is answered.
fn judged<E: Engine + Default>(pairs: &[&str]) -> f64 {
    let mut engine = E::default();
    let bytes = pdu::login(0x87, &pdu::block(pairs));
    let (mut gather, mut text) = ([0; TEXT_BYTES], [0; TEXT_BYTES]);
    engine.begin_login(TARGET.as_bytes());
    let answer = engine.login(0, 7, &mut gather, &mut text, &bytes.0);
    assert_eq!(answer.unwrap().stage, 3);
    nanoseconds(|| {
        engine.begin_login(black_box(TARGET.as_bytes()));
        let _ = black_box(engine.login(0, 7, &mut gather, &mut text, black_box(&bytes.0)));
        black_box(&text);
    })
}

//! Traps 46 to 54: the keys of a login.

use super::checks;
use super::login::{OPERATIONAL, SECURITY, TARGET, Talk, first, names_and, status};
use crate::pdu::block;
use calls::{Engine, Parameters};

checks![
    trap_46_settling,
    trap_46_standard_values,
    trap_47_first_burst_length_is_not_bounded,
    trap_48_the_declared_key,
    trap_49_numbers,
    ranges,
    trap_50_before_the_value,
    trap_50_twice,
    trap_51_leading_only,
    trap_52_markers,
    trap_53_lengths_of_names,
    trap_54_whole_names,
    names_beside_known_ones,
    wrong_stage,
    either_stage,
    digests_and_task_reporting,
    auth_method,
    session_type,
    refused_keys,
    first_refusal_decides,
    answers_stand_in_offer_order,
    what_libiscsi_sends,
];

const STANDARD: Parameters = Parameters {
    max_connections: 1,
    max_outstanding_r2t: 1,
    initial_r2t: true,
    data_pdu_in_order: true,
    data_sequence_in_order: true,
    immediate_data: true,
    max_recv_data_segment_length: 8192,
    max_burst_length: 262_144,
    first_burst_length: 65_536,
    default_time2wait: 2,
    default_time2retain: 20,
    error_recovery_level: 0,
};

/// The text answered to pairs after the names, in a leading login's operational stage.
fn text(e: &mut dyn Engine, pairs: &[&str]) -> Vec<u8> {
    let said = Talk::new(e).ask(OPERATIONAL, &names_and(pairs));
    said.unwrap().1
}

/// The status that refuses pairs after the names, in this stage.
fn refused(e: &mut dyn Engine, stage: u8, pairs: &[&str]) -> u16 {
    status(Talk::new(e).ask(stage, &names_and(pairs)))
}

/// Check one pair's answer, the same key with another value.
fn answered(e: &mut dyn Engine, key: &str, value: &str, answer: &str) {
    let said = text(e, &[&format!("{key}={value}")]);
    assert_eq!(said, first(&[&format!("{key}={answer}")]), "{key}={value}");
}

fn trap_46_settling(e: &mut dyn Engine) {
    for (key, value, answer) in [
        ("MaxConnections", "3", "3"),
        ("MaxConnections", "5", "4"),
        ("MaxOutstandingR2T", "5", "1"),
        ("DefaultTime2Wait", "1", "2"),
        ("DefaultTime2Wait", "3", "3"),
        ("DefaultTime2Retain", "19", "19"),
        ("DefaultTime2Retain", "21", "20"),
        ("ErrorRecoveryLevel", "0", "0"),
        ("ErrorRecoveryLevel", "2", "1"),
        ("MaxBurstLength", "262145", "262144"),
        ("MaxBurstLength", "512", "512"),
        ("FirstBurstLength", "65537", "65536"),
        ("FirstBurstLength", "0xffff", "65535"),
        ("InitialR2T", "No", "Yes"),
        ("InitialR2T", "Yes", "Yes"),
        ("DataPDUInOrder", "No", "Yes"),
        ("DataSequenceInOrder", "No", "Yes"),
        ("ImmediateData", "No", "No"),
        ("ImmediateData", "Yes", "Yes"),
        ("ImmediateData", "yes", "Reject"),
        ("InitialR2T", "", "Reject"),
    ] {
        answered(e, key, value, answer);
    }
}

fn trap_46_standard_values(e: &mut dyn Engine) {
    e.begin_login(TARGET.as_bytes());
    assert_eq!(e.parameters(), STANDARD);
    text(
        e,
        &[
            "MaxConnections=9",
            "ErrorRecoveryLevel=2",
            "ImmediateData=No",
            "DefaultTime2Wait=9",
        ],
    );
    let settled = Parameters {
        max_connections: 4,
        error_recovery_level: 1,
        immediate_data: false,
        default_time2wait: 9,
        ..STANDARD
    };
    assert_eq!(e.parameters(), settled);
    // A value answered Reject changes nothing.
    text(
        e,
        &[
            "MaxConnections=0",
            "DefaultTime2Wait=3601",
            "ImmediateData=no",
        ],
    );
    assert_eq!(e.parameters(), STANDARD);
}

fn trap_47_first_burst_length_is_not_bounded(e: &mut dyn Engine) {
    let said = text(e, &["MaxBurstLength=512", "FirstBurstLength=65536"]);
    assert_eq!(
        said,
        first(&["MaxBurstLength=512", "FirstBurstLength=65536"])
    );
    assert_eq!(e.parameters().first_burst_length, 65_536);
}

fn trap_48_the_declared_key(e: &mut dyn Engine) {
    for (value, kept) in [("512", 512), ("8193", 8193), ("16777215", 16_777_215)] {
        let pair = format!("MaxRecvDataSegmentLength={value}");
        assert_eq!(text(e, &[&pair]), first(&[]));
        assert_eq!(e.parameters().max_recv_data_segment_length, kept);
    }
    for value in ["511", "16777216", "", "x"] {
        answered(e, "MaxRecvDataSegmentLength", value, "Reject");
        assert_eq!(e.parameters(), STANDARD);
    }
}

fn trap_49_numbers(e: &mut dyn Engine) {
    for good in ["5", "0x5", "0X5", "0x0005", "0x00000000000000000005"] {
        answered(e, "DefaultTime2Retain", good, "5");
    }
    for good in ["0", "0x0", "0X00"] {
        answered(e, "DefaultTime2Retain", good, "0");
    }
    let bad = [
        "00",
        "01",
        "0x",
        "0X",
        "",
        " 1",
        "1 ",
        "+1",
        "-1",
        "0x1g",
        "1.0",
        "0x 1",
        // 2^32 + 5, 2^64 + 5 and 2^64, in both forms
        "4294967301",
        "0x100000005",
        "18446744073709551621",
        "0x10000000000000005",
        "18446744073709551616",
        "0x10000000000000000",
        "18446744073709551615",
    ];
    for value in bad {
        answered(e, "DefaultTime2Retain", value, "Reject");
    }
}

fn ranges(e: &mut dyn Engine) {
    for (key, least, greatest) in [
        ("MaxConnections", 1, 65_535),
        ("MaxOutstandingR2T", 1, 65_535),
        ("MaxBurstLength", 512, 16_777_215),
        ("FirstBurstLength", 512, 16_777_215),
        ("DefaultTime2Wait", 0, 3_600),
        ("DefaultTime2Retain", 0, 3_600),
        ("ErrorRecoveryLevel", 0, 2),
    ] {
        let reject = first(&[&format!("{key}=Reject")]);
        for value in [least, greatest] {
            assert_ne!(
                text(e, &[&format!("{key}={value}")]),
                reject,
                "{key}={value}"
            );
        }
        for value in [least - 1, greatest + 1] {
            assert_eq!(
                text(e, &[&format!("{key}={value}")]),
                reject,
                "{key}={value}"
            );
        }
    }
}

fn trap_50_before_the_value(e: &mut dyn Engine) {
    assert_eq!(refused(e, OPERATIONAL, &["AuthMethod=CHAP"]), 0x0200);
    assert_eq!(refused(e, OPERATIONAL, &["TargetName=iqn.other"]), 0x0200);
    assert_eq!(refused(e, SECURITY, &["MaxConnections=x"]), 0x0200);
    let twice = ["SessionType=Normal", "SessionType=Discovery"];
    assert_eq!(refused(e, OPERATIONAL, &twice), 0x0200);
}

fn trap_50_twice(e: &mut dyn Engine) {
    for key in [
        "MaxConnections",
        "HeaderDigest",
        "TaskReporting",
        "IFMarker",
        "InitiatorAlias",
    ] {
        for (one, two) in [("1", "1"), ("x", "None"), ("None", "x")] {
            let pairs = [format!("{key}={one}"), format!("{key}={two}")];
            let status = refused(e, OPERATIONAL, &[&pairs[0], &pairs[1]]);
            assert_eq!(status, 0x0200, "{pairs:?}");
        }
    }
    // In a later block, and in the other stage.
    let mut talk = Talk::new(e);
    talk.ask(SECURITY, &names_and(&["InitiatorAlias=a"]))
        .unwrap();
    assert_eq!(
        talk.text(0x81, &["AuthMethod=None"]),
        block(&["AuthMethod=None"])
    );
    let said = talk.ask(OPERATIONAL, &block(&["InitiatorAlias=b"]));
    assert_eq!(status(said), 0x0200);
    // Unknown keys may repeat.
    let said = text(e, &["Xa=1", "Xa=1"]);
    assert_eq!(said, first(&["Xa=NotUnderstood", "Xa=NotUnderstood"]));
}

fn trap_51_leading_only(e: &mut dyn Engine) {
    let table = [
        ("MaxConnections", "1"),
        ("MaxOutstandingR2T", "1"),
        ("InitialR2T", "Yes"),
        ("DataPDUInOrder", "Yes"),
        ("DataSequenceInOrder", "Yes"),
        ("ImmediateData", "Yes"),
        ("MaxBurstLength", "512"),
        ("FirstBurstLength", "512"),
        ("DefaultTime2Wait", "2"),
        ("DefaultTime2Retain", "2"),
        ("ErrorRecoveryLevel", "0"),
        ("TaskReporting", "RFC3720"),
    ];
    for (key, value) in table {
        let pair = format!("{key}={value}");
        assert_eq!(text(e, &[&pair]), first(&[&pair]));
        for value in [value, "bad"] {
            let said = Talk::live(e).ask(OPERATIONAL, &names_and(&[&format!("{key}={value}")]));
            assert_eq!(status(said), 0x0200, "{key}");
        }
    }
    let free = [
        "HeaderDigest=None",
        "DataDigest=x",
        "MaxRecvDataSegmentLength=512",
        "OFMarker=No",
    ];
    let said = Talk::live(e).ask(OPERATIONAL, &names_and(&free));
    let wanted = first(&["HeaderDigest=None", "DataDigest=Reject", "OFMarker=Reject"]);
    assert_eq!(said.unwrap().1, wanted);
}

fn trap_52_markers(e: &mut dyn Engine) {
    for key in ["IFMarker", "OFMarker", "IFMarkInt", "OFMarkInt"] {
        for stage in [SECURITY, OPERATIONAL] {
            let pair = format!("{key}=No");
            let said = Talk::new(e).ask(stage, &names_and(&[&pair]));
            assert_eq!(said.unwrap().1, first(&[&format!("{key}=Reject")]));
            assert_eq!(refused(e, stage, &[&pair, &pair]), 0x0200);
        }
    }
}

fn trap_53_lengths_of_names(e: &mut dyn Engine) {
    for (length, good) in [
        (0, false),
        (1, true),
        (223, true),
        (224, false),
        (255, false),
    ] {
        let name = "n".repeat(length);
        let initiator = format!("InitiatorName={name}");
        let target = format!("TargetName={name}");
        e.begin_login(name.as_bytes());
        let mut talk = Talk {
            engine: e,
            gather: vec![0xee; 8192],
            live: 0,
            tsih: 0,
        };
        let said = talk.ask(OPERATIONAL, &block(&[&initiator, &target]));
        match good {
            true => assert_eq!(said.unwrap().1, first(&[])),
            false => assert_eq!(status(said), 0x0200, "{length}"),
        }
        // A wrong length is 0x0200 before the name is compared.
        let said = Talk::new(e).ask(OPERATIONAL, &block(&[&target]));
        assert_eq!(status(said), if good { 0x0203 } else { 0x0200 });
    }
    let alias = format!("InitiatorAlias={}", "a".repeat(255));
    assert_eq!(text(e, &[&alias, "Xa="]), first(&["Xa=NotUnderstood"]));
    let longer = format!("InitiatorAlias={}", "a".repeat(256));
    assert_eq!(refused(e, OPERATIONAL, &[&longer]), 0x0200);
}

fn trap_54_whole_names(e: &mut dyn Engine) {
    for name in [
        "MaxBurstLengthX",
        "Maxburstlength",
        "MaxBurstLengt",
        "X-MaxBurstLength",
        "CHAP_A",
    ] {
        answered(e, name, "512", "NotUnderstood");
    }
    // TargetName is compared whole and with case.
    for other in [&TARGET[1..], &TARGET.to_uppercase(), &format!("{TARGET}x")] {
        let said = Talk::new(e).ask(OPERATIONAL, &block(&[&format!("TargetName={other}")]));
        assert_eq!(status(said), 0x0203);
    }
}

/// The known names, but the two that every first block has.
const KNOWN: [&str; 26] = [
    "MaxConnections",
    "MaxOutstandingR2T",
    "InitialR2T",
    "DataPDUInOrder",
    "DataSequenceInOrder",
    "ImmediateData",
    "MaxRecvDataSegmentLength",
    "MaxBurstLength",
    "FirstBurstLength",
    "DefaultTime2Wait",
    "DefaultTime2Retain",
    "ErrorRecoveryLevel",
    "HeaderDigest",
    "DataDigest",
    "TaskReporting",
    "AuthMethod",
    "SessionType",
    "InitiatorAlias",
    "IFMarker",
    "OFMarker",
    "IFMarkInt",
    "OFMarkInt",
    "TargetAlias",
    "TargetAddress",
    "TargetPortalGroupTag",
    "SendTargets",
];

/// A name that differs from a known one in one byte, wherever that stands, or is a byte longer or shorter, isn't known.
fn names_beside_known_ones(e: &mut dyn Engine) {
    for known in KNOWN.into_iter().chain(["InitiatorName", "TargetName"]) {
        let mut beside = vec![format!("{known}s"), known[..known.len() - 1].to_string()];
        for place in 0..known.len() {
            let mut name = known.to_string();
            let other = if &known[place..=place] == "Q" {
                "R"
            } else {
                "Q"
            };
            name.replace_range(place..=place, other);
            beside.push(name);
        }
        let offers: Vec<String> = beside.iter().map(|name| format!("{name}=1")).collect();
        let answers: Vec<String> = beside
            .iter()
            .map(|name| format!("{name}=NotUnderstood"))
            .collect();
        let said = text(e, &borrowed(&offers));
        assert_eq!(said, first(&borrowed(&answers)), "{known}");
    }
    // A name that isn't known may come twice; a known one is refused, at its second coming at the latest.
    for known in KNOWN {
        let twice = [&*format!("{known}=None"), &format!("{known}=None")];
        assert_eq!(refused(e, OPERATIONAL, &twice), 0x0200, "{known}");
    }
}

/// Texts as `block` takes them.
fn borrowed(texts: &[String]) -> Vec<&str> {
    texts.iter().map(String::as_str).collect()
}

fn wrong_stage(e: &mut dyn Engine) {
    let operational = [
        "MaxConnections=1",
        "MaxOutstandingR2T=1",
        "InitialR2T=Yes",
        "DataPDUInOrder=Yes",
        "DataSequenceInOrder=Yes",
        "ImmediateData=Yes",
        "MaxRecvDataSegmentLength=512",
        "MaxBurstLength=512",
        "FirstBurstLength=512",
        "DefaultTime2Wait=2",
        "DefaultTime2Retain=2",
        "ErrorRecoveryLevel=0",
        "HeaderDigest=None",
        "DataDigest=None",
        "TaskReporting=RFC3720",
    ];
    for pair in operational {
        assert_eq!(refused(e, SECURITY, &[pair]), 0x0200, "{pair}");
        assert!(Talk::new(e).ask(OPERATIONAL, &names_and(&[pair])).is_ok());
    }
    assert_eq!(refused(e, OPERATIONAL, &["AuthMethod=None"]), 0x0200);
}

fn either_stage(e: &mut dyn Engine) {
    for stage in [SECURITY, OPERATIONAL] {
        let pairs = [
            "SessionType=Normal",
            "InitiatorAlias=",
            "Xa=1",
            "IFMarker=No",
        ];
        let said = Talk::new(e).ask(stage, &names_and(&pairs));
        let wanted = first(&["Xa=NotUnderstood", "IFMarker=Reject"]);
        assert_eq!(said.unwrap().1, wanted);
    }
}

fn digests_and_task_reporting(e: &mut dyn Engine) {
    for key in ["HeaderDigest", "DataDigest"] {
        for list in ["None", "CRC32C,None", "None,CRC32C", ",None", "None,None"] {
            answered(e, key, list, "None");
        }
        for list in [
            "",
            "CRC32C",
            "none",
            "None ",
            "CRC32C, None",
            "XNone",
            "RFC3720",
        ] {
            answered(e, key, list, "Reject");
        }
    }
    answered(e, "TaskReporting", "FastAbort,RFC3720", "RFC3720");
    answered(e, "TaskReporting", "FastAbort,ResponseFence", "Reject");
    answered(e, "TaskReporting", "None", "Reject");
}

fn auth_method(e: &mut dyn Engine) {
    for list in ["None", "CHAP,None"] {
        let said = Talk::new(e).ask(SECURITY, &names_and(&[&format!("AuthMethod={list}")]));
        assert_eq!(said.unwrap().1, first(&["AuthMethod=None"]));
    }
    for list in ["CHAP", "", "none", "CHAP,KRB5"] {
        let pair = format!("AuthMethod={list}");
        assert_eq!(refused(e, SECURITY, &[&pair]), 0x0201);
    }
}

fn session_type(e: &mut dyn Engine) {
    for stage in [SECURITY, OPERATIONAL] {
        assert_eq!(refused(e, stage, &["SessionType=Discovery"]), 0x0209);
        for other in ["SessionType=", "SessionType=normal", "SessionType=Normal "] {
            assert_eq!(refused(e, stage, &[other]), 0x0200);
        }
    }
}

fn refused_keys(e: &mut dyn Engine) {
    for stage in [SECURITY, OPERATIONAL] {
        for key in [
            "TargetAlias",
            "TargetAddress",
            "TargetPortalGroupTag",
            "SendTargets",
        ] {
            assert_eq!(refused(e, stage, &[&format!("{key}=1")]), 0x0200);
            // At the place of the pair: what stands before it decides first.
            let pairs = ["SessionType=Discovery", &format!("{key}=1")];
            assert_eq!(refused(e, stage, &pairs), 0x0209);
        }
    }
}

fn first_refusal_decides(e: &mut dyn Engine) {
    let orders = [
        (["AuthMethod=CHAP", "SessionType=Discovery"], 0x0201),
        (["SessionType=Discovery", "AuthMethod=CHAP"], 0x0209),
        (["AuthMethod=CHAP", "SendTargets=All"], 0x0201),
    ];
    for (pairs, wanted) in orders {
        assert_eq!(refused(e, SECURITY, &pairs), wanted);
    }
}

fn answers_stand_in_offer_order(e: &mut dyn Engine) {
    let said = text(
        e,
        &["FirstBurstLength=0x200", "Xb=1", "MaxConnections=2", "Xa=2"],
    );
    let wanted = [
        "FirstBurstLength=512",
        "Xb=NotUnderstood",
        "MaxConnections=2",
        "Xa=NotUnderstood",
    ];
    assert_eq!(said, first(&wanted));
}

/// The pairs that libiscsi offers after the names.
pub const LIBISCSI: [&str; 17] = [
    "SessionType=Normal",
    "HeaderDigest=None,CRC32C",
    "DataDigest=None",
    "InitialR2T=No",
    "ImmediateData=Yes",
    "MaxBurstLength=262144",
    "FirstBurstLength=262144",
    "DefaultTime2Wait=2",
    "DefaultTime2Retain=0",
    "MaxOutstandingR2T=1",
    "ErrorRecoveryLevel=0",
    "IFMarker=No",
    "OFMarker=No",
    "MaxConnections=1",
    "MaxRecvDataSegmentLength=262144",
    "DataPDUInOrder=Yes",
    "DataSequenceInOrder=Yes",
];

fn what_libiscsi_sends(e: &mut dyn Engine) {
    let said = Talk::new(e).ask(0x87, &names_and(&LIBISCSI)).unwrap();
    assert_eq!((said.0.stage, said.0.tsih), (3, 7));
    let wanted = [
        "HeaderDigest=None",
        "DataDigest=None",
        "InitialR2T=Yes",
        "ImmediateData=Yes",
        "MaxBurstLength=262144",
        "FirstBurstLength=65536",
        "DefaultTime2Wait=2",
        "DefaultTime2Retain=0",
        "MaxOutstandingR2T=1",
        "ErrorRecoveryLevel=0",
        "IFMarker=Reject",
        "OFMarker=Reject",
        "MaxConnections=1",
        "DataPDUInOrder=Yes",
        "DataSequenceInOrder=Yes",
    ];
    assert_eq!(said.1, first(&wanted));
    let settled = Parameters {
        max_recv_data_segment_length: 262_144,
        default_time2retain: 0,
        ..STANDARD
    };
    assert_eq!(e.parameters(), settled);
}

//! The known keys, found by length and first letter, then by comparison of the whole name.

/// A known key. The first twelve are the table's, in its order.
#[derive(Clone, Copy, PartialEq, Eq)]
#[repr(u8)]
pub enum Key {
    MaxConnections,
    MaxOutstandingR2T,
    InitialR2T,
    DataPDUInOrder,
    DataSequenceInOrder,
    ImmediateData,
    MaxRecvDataSegmentLength,
    MaxBurstLength,
    FirstBurstLength,
    DefaultTime2Wait,
    DefaultTime2Retain,
    ErrorRecoveryLevel,
    HeaderDigest,
    DataDigest,
    TaskReporting,
    AuthMethod,
    InitiatorName,
    TargetName,
    SessionType,
    InitiatorAlias,
    IFMarker,
    OFMarker,
    IFMarkInt,
    OFMarkInt,
    Refused,
}

/// The key of a name: length and first letter leave at most two to compare with.
pub fn key_of(name: &[u8]) -> Option<Key> {
    let candidates: &[(&[u8], Key)] = match (name.len(), *name.first()?) {
        (8, b'I') => &[(b"IFMarker", Key::IFMarker)],
        (8, b'O') => &[(b"OFMarker", Key::OFMarker)],
        (9, b'I') => &[(b"IFMarkInt", Key::IFMarkInt)],
        (9, b'O') => &[(b"OFMarkInt", Key::OFMarkInt)],
        (10, b'A') => &[(b"AuthMethod", Key::AuthMethod)],
        (10, b'D') => &[(b"DataDigest", Key::DataDigest)],
        (10, b'I') => &[(b"InitialR2T", Key::InitialR2T)],
        (10, b'T') => &[(b"TargetName", Key::TargetName)],
        (11, b'S') => &[
            (b"SessionType", Key::SessionType),
            (b"SendTargets", Key::Refused),
        ],
        (11, b'T') => &[(b"TargetAlias", Key::Refused)],
        (12, b'H') => &[(b"HeaderDigest", Key::HeaderDigest)],
        (13, b'I') => &[
            (b"ImmediateData", Key::ImmediateData),
            (b"InitiatorName", Key::InitiatorName),
        ],
        (13, b'T') => &[
            (b"TaskReporting", Key::TaskReporting),
            (b"TargetAddress", Key::Refused),
        ],
        (14, b'D') => &[(b"DataPDUInOrder", Key::DataPDUInOrder)],
        (14, b'I') => &[(b"InitiatorAlias", Key::InitiatorAlias)],
        (14, b'M') => &[
            (b"MaxConnections", Key::MaxConnections),
            (b"MaxBurstLength", Key::MaxBurstLength),
        ],
        (16, b'D') => &[(b"DefaultTime2Wait", Key::DefaultTime2Wait)],
        (16, b'F') => &[(b"FirstBurstLength", Key::FirstBurstLength)],
        (17, b'M') => &[(b"MaxOutstandingR2T", Key::MaxOutstandingR2T)],
        (18, b'D') => &[(b"DefaultTime2Retain", Key::DefaultTime2Retain)],
        (18, b'E') => &[(b"ErrorRecoveryLevel", Key::ErrorRecoveryLevel)],
        (19, b'D') => &[(b"DataSequenceInOrder", Key::DataSequenceInOrder)],
        (20, b'T') => &[(b"TargetPortalGroupTag", Key::Refused)],
        (24, b'M') => &[(b"MaxRecvDataSegmentLength", Key::MaxRecvDataSegmentLength)],
        _ => return None,
    };
    let found = candidates.iter().find(|(known, _)| *known == name);
    found.map(|(_, key)| *key)
}

/// How a number of the table is settled.
#[derive(Clone, Copy, PartialEq, Eq)]
pub enum Rule {
    Least,
    Greatest,
    Declared,
    /// A boolean: settled to the greater (or) of Yes 1 and No 0.
    Or,
    /// A boolean: settled to the less (and).
    And,
}

/// Rule, range, standard value and ours of the table's keys.
pub const TABLE: [(Rule, u32, u32, u32, u32); 12] = [
    (Rule::Least, 1, 65_535, 1, 4),
    (Rule::Least, 1, 65_535, 1, 1),
    (Rule::Or, 0, 1, 1, 1),
    (Rule::Or, 0, 1, 1, 1),
    (Rule::Or, 0, 1, 1, 1),
    (Rule::And, 0, 1, 1, 1),
    (Rule::Declared, 512, 16_777_215, 8_192, 8_192),
    (Rule::Least, 512, 16_777_215, 262_144, 262_144),
    (Rule::Least, 512, 16_777_215, 65_536, 65_536),
    (Rule::Greatest, 0, 3_600, 2, 2),
    (Rule::Least, 0, 3_600, 20, 20),
    (Rule::Least, 0, 2, 0, 1),
];

/// The keys for leading logins only, as bits by key.
pub const LEADING_ONLY: u32 =
    0x0fff & !(1 << Key::MaxRecvDataSegmentLength as u32) | 1 << Key::TaskReporting as u32;
/// The keys of the operational stage, as bits by key.
pub const OPERATIONAL: u32 = 0x7fff;

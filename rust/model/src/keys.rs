//! The keys that document 01 names, and the table of the twelve that are settled.

/// How a key of the table is settled.
#[derive(Clone, Copy, Debug, PartialEq, Eq)]
pub enum Rule {
    Least,
    Greatest,
    Or,
    And,
    /// Kept as offered, no answer.
    Declared,
}

/// A row of the table. A boolean has the range 0 to 1, Yes being 1.
#[derive(Clone, Copy, Debug, PartialEq, Eq)]
pub struct Row {
    pub name: &'static str,
    pub rule: Rule,
    pub range: (u32, u32),
    pub standard: u32,
    pub ours: u32,
}

impl Row {
    pub fn is_boolean(&self) -> bool {
        matches!(self.rule, Rule::Or | Rule::And)
    }
}

const fn row(name: &'static str, rule: Rule, range: (u32, u32), standard: u32) -> Row {
    Row {
        name,
        rule,
        range,
        standard,
        ours: standard,
    }
}

const fn with_ours(row: Row, ours: u32) -> Row {
    Row { ours, ..row }
}

const YES_NO: (u32, u32) = (0, 1);
const COUNT: (u32, u32) = (1, 65_535);
const BYTES: (u32, u32) = (512, 16_777_215);
const SECONDS: (u32, u32) = (0, 3_600);

/// The twelve keys. Ours is the standard value but for MaxConnections and ErrorRecoveryLevel.
pub const TABLE: [Row; 12] = [
    with_ours(row("MaxConnections", Rule::Least, COUNT, 1), 4),
    row("MaxOutstandingR2T", Rule::Least, COUNT, 1),
    row("InitialR2T", Rule::Or, YES_NO, 1),
    row("DataPDUInOrder", Rule::Or, YES_NO, 1),
    row("DataSequenceInOrder", Rule::Or, YES_NO, 1),
    row("ImmediateData", Rule::And, YES_NO, 1),
    row("MaxRecvDataSegmentLength", Rule::Declared, BYTES, 8_192),
    row("MaxBurstLength", Rule::Least, BYTES, 262_144),
    row("FirstBurstLength", Rule::Least, BYTES, 65_536),
    row("DefaultTime2Wait", Rule::Greatest, SECONDS, 2),
    row("DefaultTime2Retain", Rule::Least, SECONDS, 20),
    with_ours(row("ErrorRecoveryLevel", Rule::Least, (0, 2), 0), 1),
];

/// What a name stands for.
#[derive(Clone, Copy, Debug, PartialEq, Eq)]
pub enum Key {
    Settled(Row),
    Digest,
    TaskReporting,
    AuthMethod,
    InitiatorName,
    TargetName,
    SessionType,
    InitiatorAlias,
    Marker,
    /// Only a target says this.
    Refused,
    Unknown,
}

/// The key of a name, compared whole and with case.
pub fn key_of(name: &[u8]) -> Key {
    if let Some(row) = TABLE.iter().find(|row| row.name.as_bytes() == name) {
        return Key::Settled(*row);
    }
    match name {
        b"HeaderDigest" | b"DataDigest" => Key::Digest,
        b"TaskReporting" => Key::TaskReporting,
        b"AuthMethod" => Key::AuthMethod,
        b"InitiatorName" => Key::InitiatorName,
        b"TargetName" => Key::TargetName,
        b"SessionType" => Key::SessionType,
        b"InitiatorAlias" => Key::InitiatorAlias,
        b"IFMarker" | b"OFMarker" | b"IFMarkInt" | b"OFMarkInt" => Key::Marker,
        b"TargetAlias" | b"TargetAddress" | b"TargetPortalGroupTag" | b"SendTargets" => {
            Key::Refused
        }
        _ => Key::Unknown,
    }
}

/// The stage a key belongs to, where it may not come in either.
pub fn stage_of(key: Key) -> Option<u8> {
    match key {
        Key::Settled(_) | Key::Digest | Key::TaskReporting => Some(1),
        Key::AuthMethod => Some(0),
        _ => None,
    }
}

/// Whether a key may come in a leading login only.
pub fn is_leading_only(key: Key) -> bool {
    match key {
        Key::Settled(row) => row.rule != Rule::Declared,
        Key::TaskReporting => true,
        _ => false,
    }
}

#[cfg(test)]
mod tests {
    use super::*;

    #[test]
    fn trap_46_ours_and_standard() {
        let values = |name: &str| {
            let row = TABLE.iter().find(|row| row.name == name).unwrap();
            (row.standard, row.ours)
        };
        assert_eq!(values("MaxConnections"), (1, 4));
        assert_eq!(values("MaxOutstandingR2T"), (1, 1));
        assert_eq!(values("ErrorRecoveryLevel"), (0, 1));
        for row in TABLE {
            let different = ["MaxConnections", "ErrorRecoveryLevel"].contains(&row.name);
            assert_eq!(row.standard != row.ours, different, "{}", row.name);
            assert!(row.range.0 <= row.standard && row.standard <= row.range.1);
        }
    }

    #[test]
    fn trap_54_names_are_compared_whole_and_with_case() {
        for name in [
            "MaxBurstLengthX",
            "Maxburstlength",
            "MaxBurstLengt",
            "TARGETNAME",
            "CHAP_A",
        ] {
            assert_eq!(key_of(name.as_bytes()), Key::Unknown, "{name}");
        }
    }

    #[test]
    fn trap_51_what_is_leading_only() {
        let leading = |name: &str| is_leading_only(key_of(name.as_bytes()));
        assert!(leading("TaskReporting") && leading("MaxBurstLength"));
        assert!(!leading("HeaderDigest") && !leading("DataDigest"));
        assert!(!leading("MaxRecvDataSegmentLength") && !leading("InitiatorName"));
    }
}

//! The scripts in `examples/` are answered as it is written beside them, by the library and by the model.

use calls::Engine;
use drawbevel::Drawbevel;
use model::Model;
use std::collections::BTreeSet;
use std::fs;
use std::path::PathBuf;

fn examples() -> PathBuf {
    PathBuf::from(env!("CARGO_MANIFEST_DIR")).join("../../examples")
}

fn names() -> Vec<String> {
    let mut names = Vec::new();
    for entry in fs::read_dir(examples()).unwrap() {
        let name = entry.unwrap().file_name().into_string().unwrap();
        names.extend(name.strip_suffix(".script").map(String::from));
    }
    names
}

fn text(name: &str, kind: &str) -> String {
    let path = examples().join(format!("{name}.{kind}"));
    fs::read_to_string(&path).unwrap_or_else(|error| panic!("{}: {error}", path.display()))
}

#[test]
fn each_example_is_answered_as_expected() {
    let names = names();
    for needed in [
        "lost-segment",
        "who-holds",
        "session-life",
        "refusals",
        "write-and-read",
    ] {
        assert!(
            names.iter().any(|name| name == needed),
            "{needed} is missing"
        );
    }
    for name in names {
        check(
            &name,
            &answers(Drawbevel::default(), &text(&name, "script")),
        );
        check(&name, &answers(Model::default(), &text(&name, "script")));
    }
}

/// The answers of an engine to a script.
fn answers<E: Engine>(engine: E, script: &str) -> String {
    let mut answers = Vec::new();
    script::play(engine, script.as_bytes(), &mut answers).unwrap();
    String::from_utf8(answers).unwrap()
}

fn check(name: &str, answers: &str) {
    let expected = text(name, "expected");
    for (line, (said, wanted)) in answers.lines().zip(expected.lines()).enumerate() {
        assert_eq!(said, wanted, "{name}, line {}", line + 1);
    }
    assert_eq!(answers.len(), expected.len(), "{name}");
    assert!(
        !answers.contains("bad line") && !answers.contains("TOUCHED"),
        "{name}"
    );
}

#[test]
fn the_refusals_show_each_number_once() {
    let expected = text("refusals", "expected");
    let refused: Vec<u8> = expected
        .lines()
        .filter_map(|line| line.strip_prefix("refused "))
        .map(|rest| rest.split(' ').next().unwrap().parse().unwrap())
        .collect();
    assert_eq!(refused, (1..=12).collect::<Vec<_>>());
}

/// The one ticket with which segment 7, the write to block 7, is handed out.
fn ticket_of_segment_7(case: &str) -> u32 {
    let segment = |line: &&str| line.starts_with("out ") && line.contains("2a0000000700");
    let handed: Vec<_> = case.lines().filter(segment).collect();
    assert_eq!(handed.len(), 1, "exactly one copy is handed out");
    u32::from_str_radix(&handed[0][17..25], 16).unwrap()
}

/// In each case of the lost segment the words agree with the tickets that were handed out.
#[test]
fn the_lost_segment_is_kept_by_the_worker_named() {
    let expected = text("lost-segment", "expected");
    let cases: Vec<_> = expected.split("# Case ").skip(1).collect();
    assert_eq!(cases.len(), 4);
    let mut workers = BTreeSet::new();
    for case in cases {
        let said = case
            .lines()
            .find(|line| line.starts_with("# WORKER"))
            .unwrap();
        let worker = &said[9..10];
        let ticket = &said[said.find("0x").unwrap()..][..6];
        let shown = ticket_of_segment_7(case);
        assert_eq!(shown, u32::from_str_radix(&ticket[2..], 16).unwrap());
        assert_eq!(worker, if shown >= 0x1000 { "1" } else { "0" });
        workers.insert(worker);
    }
    assert_eq!(
        workers.len(),
        2,
        "both workers kept it in one case or another"
    );
}

/// In each case the holder named before anything is handed out is the one whose copy is.
#[test]
fn the_holder_named_is_the_worker_whose_copy_is_handed_out() {
    let expected = text("who-holds", "expected");
    let cases: Vec<_> = expected.split("# Case ").skip(1).collect();
    assert_eq!(cases.len(), 4);
    let mut workers = BTreeSet::new();
    for case in cases {
        let (before, after) = case.split_once("# WORKER ").unwrap();
        let mut held = before.lines().filter(|line| line.starts_with("held 0x"));
        let named = u32::from_str_radix(&held.next_back().unwrap()[7..15], 16).unwrap();
        assert!(!before.contains("\nout "), "nothing is handed out yet");
        assert_eq!(named, ticket_of_segment_7(after));
        let worker = &after[..1];
        assert_eq!(worker, if named >= 0x1000 { "1" } else { "0" });
        assert!(after.contains("\nfree\n"), "then nobody holds it");
        workers.insert(worker);
    }
    assert_eq!(
        workers.len(),
        2,
        "both workers hold it in one case or another"
    );
}

/// The number of eight hex digits.
fn hex_number(text: &str) -> u32 {
    u32::from_str_radix(text, 16).unwrap()
}

/// In the write each byte after the immediate data comes once, in order; in the read each is sent once, but for those that
/// a type 3 SNACK had sent anew.
#[test]
fn the_write_and_the_read_are_whole() {
    let expected = text("write-and-read", "expected");
    let (write, read) = expected.split_once("# The read: ").unwrap();
    let mut came = 8192;
    for line in write
        .lines()
        .filter_map(|line| line.strip_prefix("came 0x"))
    {
        assert_eq!(hex_number(&line[..8]), came);
        came += line[9..].split(' ').next().unwrap().parse::<u32>().unwrap();
    }
    assert_eq!(came, 24 * 1024);
    let (before, after) = read.split_once("run 0x00000004 2\n").unwrap();
    for (part, start, end) in [(before, 0, 48 * 1024), (after, 32 * 1024, 64 * 1024)] {
        let mut next = start;
        let headers = part
            .lines()
            .filter_map(|line| line.strip_prefix("data-in "));
        for (data_sn, header) in (u32::from(start > 0) * 4..).zip(headers) {
            let numbers = (hex_number(&header[72..80]), hex_number(&header[80..88]));
            assert_eq!(numbers, (data_sn, next));
            next += hex_number(&header[8..16]);
        }
        assert_eq!(next, end);
    }
    // ExpDataSN of each SCSI Response: no Data-In for the write, twelve for the read.
    for (part, count) in [(write, 0), (read, 12)] {
        let sent = part.lines().find(|line| line.starts_with("sent ")).unwrap();
        assert_eq!(hex_number(&sent[16 + 72..16 + 80]), count);
    }
}

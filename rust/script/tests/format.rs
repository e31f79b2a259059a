//! The call script, to the letter.

use calls::{OpenR2t, Task};
use model::Model;
use script::{Call, call_line, hex, may_be_set, parse};
use testkit::pdu::{self, block};
use testkit::{Broken, Fault, Rng};

/// The answers to a script.
fn answers(script: &[u8]) -> String {
    let mut output = Vec::new();
    script::play(Model::default(), script, &mut output).unwrap();
    String::from_utf8(output).unwrap()
}

/// The last answer line to a script.
fn last(script: &str) -> String {
    answers(script.as_bytes()).lines().last().unwrap().into()
}

fn bad(line: &str) -> bool {
    answers(line.as_bytes()) == "bad line\n"
}

#[test]
fn empty_lines_and_comments_are_copied() {
    let script = "\n# two  spaces, a\ttab and a \r too \n#\n\nwindow\n";
    let wanted =
        "\n# two  spaces, a\ttab and a \r too \n#\n\nexpcmdsn 0x00000001 maxcmdsn 0x00000040\n";
    assert_eq!(answers(script.as_bytes()), wanted);
}

#[test]
fn the_last_line_may_lack_its_line_feed() {
    assert_eq!(answers(b"take 48"), "nothing\n");
    assert_eq!(answers(b"take 48\n"), "nothing\n");
    assert_eq!(answers(b"# end"), "# end\n");
    assert_eq!(answers(b""), "");
}

#[test]
fn wrong_spaces_make_a_bad_line() {
    for line in [
        "take  48",
        " take 48",
        "take 48 ",
        "take\t48",
        "take 48\r",
        " ",
        "\r",
        "take 48\t",
    ] {
        assert!(bad(line), "{line:?}");
    }
}

#[test]
fn what_is_no_form_is_a_bad_line() {
    let lines = [
        "Take 48",
        "take",
        "take 48 48",
        "take x",
        "take -1",
        "take +1",
        "take 0X30",
        "take 65536",
        "session 1 1",
        "session 1 1 256",
        "session 4294967296 1 0",
        "offer 0 1",
        "offer 0 1 0",
        "offer 0 1 0g",
        "offer 0 1 0x00",
        "offer 0 4294967296 -",
        "logout 0 256",
        "open 0",
        "ack 0 0x100000000",
        "snack 0",
        "resend 0 0",
        "window 1",
        "params 1",
        "login-begin",
        "login-begin a b",
        "login 65536 1 0 0 -",
        "login 1 1 4294967296 0 -",
        "login 1 1 0 -",
        "read",
        "read - -",
        "write 48 1 1 1",
        "write 48 1 1 1 reject",
        "write 48 1 1 1 reject 256",
        "send 0 1 48",
        "send 0 1 48 nop-in 1 1 1",
        "send 0 1 48 nop-in 1 0x10000000000000000 1 1",
        "send 0 1 48 scsi-response 2 0 0 0 0 0 0 0",
        "send 0 1 48 login-response 0 2 0 0 0 0 0 0 0",
        "send 0 1 48 login-response 256 0 0 0 0 0 0 0 0",
        "send 0 1 48 logout-response 0 0 65536 0",
        "send 0 1 48 task-response 0",
        "send 0 1 48 Reject 1",
        "send 0 1 48 data-in 1 0 0 0 0 0 0 0",
        "send 0 1 48 r2t 0 0 0 0 0 1",
        "send 0 1 48 scsi-response 0 0 0 0 0 0 0 0 0",
        "write 48 1 1 1 scsi-response 0 0 0 0 0 0 0",
        "write 48 1 1 1 scsi-response 0 0 0 0 0 0 0 0 4294967296",
        "write 48 1 1 1 scsi-response 0 0 0 0 0 0 0 0 0 0",
        "write 48 1 1 1 scsi-response 0 0 0 0 0 0 0 0 -",
        "write 48 1 1 1 data-in",
        "write 48 1 1 1 data-in 1 0 0 0 0 0 0",
        "write 48 1 1 1 data-in 1 0 0 0 0 0 0 0 0",
        "write 48 1 1 1 data-in 2 0 0 0 0 0 0 0",
        "write 48 1 1 1 data-in 1 2 0 0 0 0 0 0",
        "write 48 1 1 1 data-in 1 0 4294967296 0 0 0 0 0",
        "write 48 1 1 1 data-in 1 0 0 0x10000000000000000 0 0 0 0",
        "write 48 1 1 1 data-in 1 0 0 0 4294967296 0 0 0",
        "write 48 1 1 1 data-in 1 0 0 0 0 4294967296 0 0",
        "write 48 1 1 1 data-in 1 0 0 0 0 0 4294967296 0",
        "write 48 1 1 1 data-in 1 0 0 0 0 0 0 4294967296",
        "write 48 1 1 1 r2t 0 0 0 0 0",
        "write 48 1 1 1 r2t 0 0 0 0 0 1 1",
        "write 48 1 1 1 r2t 0x10000000000000000 0 0 0 0 1",
        "write 48 1 1 1 r2t 0 4294967296 0 0 0 1",
        "write 48 1 1 1 r2t 0 0 4294967296 0 0 1",
        "write 48 1 1 1 r2t 0 0 0 4294967296 0 1",
        "write 48 1 1 1 r2t 0 0 0 0 4294967296 1",
        "write 48 1 1 1 r2t 0 0 0 0 0 4294967296",
        "write 48 1 1 1 R2T 0 0 0 0 0 1",
        "data-in 1 0 0 0 0 0 0 0",
        "length",
        "length 0",
        "length 0g",
        "length 0x00",
        "length - -",
        "length 00 1",
        "next",
        "next -",
        "next 4294967296",
        "next 0x100000000",
        "next 0 0",
        "holder",
        "holder none",
        "holder 4294967296",
        "holder 0x100000000",
        "holder 1 1",
        "Holder 1",
        "length-at 1 0 -",
        // The records of tasks.
        "task",
        "task 0 0 0 0 0 0",
        "task 0 0 0 0 0 0 1 1",
        "task 16 0 0 0 0 0 1",
        "task 255 0 0 0 0 0 1",
        "task 256 0 0 0 0 0 1",
        "task 0 4294967296 0 0 0 0 1",
        "task 0 0 0x10000000000000000 0 0 0 1",
        "task 0 0 0 4294967296 0 0 1",
        "task 0 0 0 0 4294967296 0 1",
        "task 0 0 0 0 0 4294967296 1",
        "task 0 0 0 0 0 0 65536",
        "task 0 0 0 - 0 0 1",
        "Task 0 0 0 0 0 0 1",
        "data-in 0 0 48 1 0",
        "data-in 0 0 48 1 0 0 0",
        "data-in 4294967296 0 48 1 0 0",
        "data-in 0 16 48 1 0 0",
        "data-in 0 256 48 1 0 0",
        "data-in 0 0 65536 1 0 0",
        "data-in 0 0 48 2 0 0",
        "data-in 0 0 48 1 2 0",
        "data-in 0 0 48 1 0 4294967296",
        "data-in 0 task 0 48 1 0 0",
        "r2t 0 0 48 0",
        "r2t 0 0 48 0 1 1",
        "r2t 4294967296 0 48 0 1",
        "r2t 0 16 48 0 1",
        "r2t 0 0 65536 0 1",
        "r2t 0 0 48 4294967296 1",
        "r2t 0 0 48 0 4294967296",
        "R2T 0 0 48 0 1",
        "data-out 0 0",
        "data-out 0 -",
        "data-out 4294967296 0 -",
        "data-out 0 16 -",
        "data-out 0 0 0",
        "data-out 0 0 0g",
        "data-out 0 0 - -",
        "data-snack 0 0 0",
        "data-snack 0 0 -",
        "data-snack 4294967296 0 0 -",
        "data-snack 0 16 0 -",
        "data-snack 0 0 4294967296 -",
        "data-snack 0 0 0 0",
        "data-snack 0 0 0 - -",
        "send 0 1 48 task 0",
        "send 0 1 48 task reject 1",
        "send 0 1 48 task 16 reject 1",
        "send 0 1 48 task 256 reject 1",
        "send 0 1 48 task 0 task 0 reject 1",
        "send 0 1 48 task 0 reject 1 1",
        "send 0 1 48 reject 1 task 0",
        "send 0 1 48 0 reject 1",
        "send 0 1 task 0 48 reject 1",
        "send 0 1 48 task 0 data-in 1 0 0 0 0 0 0 0",
        "send 0 1 48 task 0 r2t 0 0 0 0 0 1",
        "send 0 1 48 task 0 scsi-response 0 0 0 0 0 0 0 0 0",
        "write 48 1 1 1 task 0 reject 1",
        "resend 0 0 48 task",
        "resend 0 0 48 task 16",
        "resend 0 0 48 task 0 0",
        "resend 0 0 48 0",
        "resend 0 0 task 0",
        "record",
        "record 16",
        "record 256",
        "record -",
        "record task 0",
        "reject 1",
        "bad line",
        "x",
    ];
    for line in lines {
        assert!(bad(line), "{line:?}");
    }
}

#[test]
fn a_bad_line_comes_before_a_refusal() {
    assert!(bad("offer 9 1 0"));
    assert!(bad("take 0x"));
    assert_eq!(last("offer 9 1 00"), "refused 7");
    assert!(bad("next 9 9"));
    assert_eq!(last("next 9"), "refused 7");
}

#[test]
fn a_bad_line_changes_nothing() {
    let offer = format!("offer 0 7 {}", hex(&pdu::scsi_command(1).0));
    let script = format!("session 1 1 0\n{offer}\nsession 9 9\nsession 9 9 256\nwindow");
    assert_eq!(last(&script), "expcmdsn 0x00000002 maxcmdsn 0x00000040");
}

#[test]
fn numbers_have_leading_zeros_and_hex_in_either_case() {
    assert_eq!(
        last("session 0x00000000000000000aB 01 000\nwindow"),
        last("session 171 1 0\nwindow")
    );
}

#[test]
fn lines_have_up_to_65536_bytes() {
    let line = |length: usize| {
        let mut line = b"read ".to_vec();
        line.resize(length, b'0');
        line
    };
    // An odd count of hex digits is a bad line anyway, so pad the number of a take.
    let number = |length: usize| {
        let mut line = b"take ".to_vec();
        line.resize(length - 2, b'0');
        line.extend_from_slice(b"48");
        line
    };
    assert_eq!(answers(&number(65_536)), "nothing\n");
    assert_eq!(answers(&number(65_537)), "bad line\n");
    assert_eq!(answers(&line(65_535)), "refused 4\n");
    let comment = |length: usize| vec![b'#'; length];
    assert_eq!(answers(&comment(65_536)).len(), 65_537);
    let long = [comment(65_537), b"\nwindow\n".to_vec()].concat();
    assert!(answers(&long).starts_with("bad line\nexpcmdsn"));
    let very_long = [comment(1_000_000), b"\nwindow".to_vec()].concat();
    assert!(answers(&very_long).starts_with("bad line\nexpcmdsn"));
}

#[test]
fn input_that_is_no_text_is_answered() {
    assert_eq!(
        answers(b"\xff\xfe\n\x00\nwindow\xff"),
        "bad line\nbad line\nbad line\n"
    );
    assert_eq!(answers(b"login-begin \xff\xfe"), "login\n");
    let mut output = Vec::new();
    script::play(Model::default(), &b"#\xff\x00\xfe"[..], &mut output).unwrap();
    assert_eq!(output, b"#\xff\x00\xfe\n");
}

#[test]
fn session_answers() {
    let offer = |n: u32| format!("offer 0 {n} {}", hex(&pdu::nop_out(n).0));
    let snack = |b, n| format!("snack 0 {}", hex(&pdu::snack(1, b, n).0));
    let header = hex(&pdu::nop_out(1).0);
    let script = [
        "session 1 0xfffffffe 1".into(),
        offer(1),
        offer(1),
        offer(65),
        offer(2),
        "take 47".into(),
        "take 48".into(),
        offer(1),
        "open 1 5".into(),
        "logout 1 2".into(),
        "logout 0 1".into(),
        "take 48".into(),
        "take 48".into(),
        "window".into(),
        "open 0 7".into(),
        "send 0 0x21 48 reject 1".into(),
        "send 0 3 48 task-response 2 9".into(),
        snack(0, 0),
        "resend 0 7 48".into(),
        "ack 0 9".into(),
        "ack 0 7".into(),
    ];
    let fill = "00".repeat(8);
    let sent = |opcode: &str, reason: &str, length: &str, itt: &str, stat_sn: &str| {
        let start = format!("{opcode}80{reason}0000000{length}{fill}{itt}");
        format!(
            "{start}00000000{stat_sn}0000000300000042{}",
            "00".repeat(12)
        )
    };
    let reject = sent("3f", "01", "030", "ffffffff", "00000007");
    let task = sent("22", "02", "000", "00000009", "00000008");
    let wanted = [
        "session".into(),
        "kept".into(),
        "duplicate".into(),
        "beyond".into(),
        "kept".into(),
        "refused 1".into(),
        format!("out 0x00000001 0x00000001 0 {header}"),
        "passed".into(),
        "opened".into(),
        "emptied 0 voided 0".into(),
        "emptied 0 voided 1".into(),
        "void 0x00000002".into(),
        "nothing".into(),
        "expcmdsn 0x00000003 maxcmdsn 0x00000042".into(),
        "opened".into(),
        format!("sent 0x00000007 {reject}"),
        format!("sent 0x00000008 {task}"),
        "run 0x00000007 2".into(),
        format!("resent 0x00000021 {reject}"),
        "acknowledged 2".into(),
        "refused 11".into(),
    ];
    let said = answers(script.join("\n").as_bytes());
    for (said, wanted) in said.lines().zip(wanted) {
        assert_eq!(said, wanted);
    }
}

#[test]
fn origin_none_is_shown() {
    let offer = format!("offer 1 5 {}", hex(&pdu::nop_out(1).0));
    let said = last(&format!("open 1 1\n{offer}\nlogout 1 2\ntake 48"));
    assert!(
        said.starts_with("out 0x00000001 0x00000005 none "),
        "{said}"
    );
}

#[test]
fn lengths_are_shown_in_decimal() {
    let said = |bytes: &[u8]| last(&format!("length {}", hex(bytes)));
    assert_eq!(said(&pdu::nop_out(1).0), "length 48");
    let longest = pdu::scsi_command(1).ahs(255).data(&[7; 8192]);
    assert_eq!(said(&longest.0), "length 9260");
    assert_eq!(said(&longest.0[..48]), "length 9260");
    assert_eq!(said(&longest.0[..47]), "refused 4");
    assert_eq!(last("length -"), "refused 4");
    assert_eq!(said(&testkit::Bytes::new(0x3f, 0).0), "refused 2");
    assert_eq!(said(&pdu::nop_out(1).field(5, 3, 8193).0), "refused 5");
    // The longest line has room for more than the longest PDU, and what is too much isn't looked at.
    assert_eq!(said(&longest.resized(32_764).0), "length 9260");
}

#[test]
fn the_next_stat_sn_is_shown() {
    assert_eq!(last("next 0"), "next 0x00000001");
    assert_eq!(last("session 1 0xFFFFFFFF 1\nnext 0"), "next 0xffffffff");
    let sent = "session 1 0xffffffff 1\nsend 0 7 48 reject 1\n";
    assert_eq!(last(&format!("{sent}next 0x0")), "next 0x00000000");
    assert_eq!(last("next 1"), "refused 8");
    for connection in ["4", "256", "4294967295", "0xffffffff"] {
        assert_eq!(last(&format!("next {connection}")), "refused 7");
    }
}

#[test]
fn holders_are_shown() {
    let offer = |c: u32, n: u32| format!("offer {c} {n} {}\n", hex(&pdu::nop_out(n).0));
    let script = ["open 1 1\n".into(), offer(0, 1), offer(1, 2)].concat();
    assert_eq!(last(&format!("{script}holder 0x1")), "held 0x00000001 0");
    assert_eq!(last(&format!("{script}holder 2")), "held 0x00000002 1");
    let script = format!("{script}logout 1 2\nlogout 0 1\n");
    assert_eq!(last(&format!("{script}holder 2")), "held 0x00000002 none");
    assert_eq!(last(&format!("{script}holder 1")), "void");
    for number in ["0", "3", "65", "4294967295", "0xFFFFFFFF"] {
        assert_eq!(last(&format!("{script}holder {number}")), "free");
    }
    assert_eq!(last(&format!("{script}take 48\nholder 1")), "free");
}

#[test]
fn kinds_are_shown_with_their_fields() {
    let shown = |bytes: testkit::Bytes| last(&format!("read {}", hex(&bytes.0)));
    let numbered = |bytes: testkit::Bytes| (8..48u8).fold(bytes, |b, at| b.byte(at.into(), at));
    let common = "cmdsn=0x18191a1b lun=0x08090a0b0c0d0e0f itt=0x10111213 expstatsn=0x1c1d1e1f";
    let no_lun = "cmdsn=0x18191a1b lun=0x0000000000000000 itt=0x10111213 expstatsn=0x1c1d1e1f";
    assert_eq!(
        shown(numbered(pdu::nop_out(0)).data(b"abc")),
        format!("nop-out i=0 {common} ttt=0x14151617 data=48+3")
    );
    assert_eq!(
        shown(numbered(pdu::scsi_command(0)).ahs(2)),
        format!(
            "scsi-command i=0 {common} f=1 r=0 w=1 attribute=1 edtl=0x14151617 \
             cdb0=0x2021222324252627 cdb1=0x28292a2b2c2d2e2f ahs=2 data=56+0"
        )
    );
    assert_eq!(
        shown(numbered(pdu::task_management(0, 8)).immediate()),
        format!(
            "task-management i=1 {common} function=8 rtt=0x14151617 refcmdsn=0x20212223 \
             expdatasn=0x24252627 data=48+0"
        )
    );
    assert_eq!(
        shown(numbered(pdu::login(0x87, b"")).byte(2, 9).byte(3, 255)),
        format!(
            "login i=1 {no_lun} t=1 c=0 csg=1 nsg=3 versionmax=9 versionmin=255 \
             isid=0x000008090a0b0c0d tsih=0x0e0f cid=0x1415 data=48+0"
        )
    );
    let no_number = "cmdsn=0x00000000 lun=0x08090a0b0c0d0e0f itt=0x10111213 expstatsn=0x1c1d1e1f";
    let own = "ttt=0x14151617 datasn=0x24252627 offset=0x28292a2b";
    assert_eq!(
        shown(numbered(pdu::data_out(0, 0)).data(b"abcde")),
        format!("data-out i=0 {no_number} f=1 {own} data=48+5")
    );
    assert_eq!(
        shown(numbered(pdu::data_out(0, 0)).byte(0, 0xc5).byte(1, 0x7f)),
        format!("data-out i=0 {no_number} f=0 {own} data=48+0")
    );
    assert_eq!(
        shown(numbered(pdu::logout(0, 2))),
        format!("logout i=0 {no_lun} reason=2 cid=0x1415 data=48+0")
    );
    assert_eq!(
        shown(numbered(pdu::snack(3, 0, 0))),
        format!(
            "snack i=0 {no_number} type=3 ttt=0x14151617 begrun=0x28292a2b \
             runlength=0x2c2d2e2f data=48+0"
        )
    );
}

#[test]
fn writing_is_shown() {
    let said = last("write 50 1 2 3 login-response 1 1 3 0 0x010203040506 0x0708 9 0 0");
    let wanted = "written 238700000000000001020304050607080000000900000000\
                  000000010000000200000003000000000000000000000000";
    assert_eq!(said, wanted);
    assert_eq!(last("write 47 1 2 3 reject 1"), "refused 1");
    assert_eq!(
        last("write 48 1 2 3 login-response 1 0 3 0 0 0 0 0 0"),
        "refused 3"
    );
}

#[test]
fn data_in_and_r2t_are_written() {
    let said = last(
        "write 48 0x18191a1b 0x1c1d1e1f 0x20212223 data-in 0 1 8192 0x08090a0b0c0d0e0f \
         0x10111213 0x14151617 0x24252627 0x28292a2b",
    );
    let wanted = "written 254000000000200008090a0b0c0d0e0f1011121314151617\
                  000000001c1d1e1f202122232425262728292a2b00000000";
    assert_eq!(said, wanted);
    let said = last(
        "write 48 0x18191a1b 0x1c1d1e1f 0x20212223 r2t 0x08090a0b0c0d0e0f \
         0x10111213 0x14151617 0x24252627 0x28292a2b 0x2c2d2e2f",
    );
    let wanted = "written 318000000000000008090a0b0c0d0e0f1011121314151617\
                  18191a1b1c1d1e1f202122232425262728292a2b2c2d2e2f";
    assert_eq!(said, wanted);
    assert_eq!(
        last("write 48 1 2 3 data-in 1 0 8193 0 0 0 0 0"),
        "refused 5"
    );
    assert_eq!(last("write 47 1 2 3 r2t 0 0 0 0 0 0"), "refused 1");
}

#[test]
fn the_exp_data_sn_of_a_scsi_response_may_be_left_out_and_is_not_sent() {
    let response = "scsi-response 0 0 0 2 0 0x10111213 0 0x2c2d2e2f";
    let with = |ninth: &str| last(&format!("write 48 1 2 3 {response}{ninth}"));
    let wanted = |number: &str| {
        let start = "2180000200000000000000000000000010111213000000000000000100000002";
        format!("written {start}00000003{number}000000002c2d2e2f")
    };
    assert_eq!(with(""), wanted("00000000"));
    assert_eq!(with(" 0"), wanted("00000000"));
    assert_eq!(with(" 0x24252627"), wanted("24252627"));
    let sent = last(&format!("send 0 1 48 {response}"));
    assert_eq!(sent[sent.len() - 24..], *"00000000000000002c2d2e2f");
}

/// A record with every number its own, and the words that show it.
const RECORD: &str = "269554195 578437695752307201 336926231 512 8 9 3 1 4294967296 512 85 400 100 7 3 1 101 0 399 \
                      4294967294 400";

#[test]
fn records_are_made_shown_and_set() {
    let fresh = "record 0 0 4294967295 262144 1 0 0 0 0 0 0 0 0 0 0";
    for n in 0..16 {
        assert_eq!(last(&format!("record {n}")), fresh);
    }
    let made = "task 0xf 0x10111213 0x0807060504030201 0x14151617 0x64 512 8";
    assert_eq!(last(made), "task");
    assert_eq!(
        last(&format!("{made}\nrecord 15")),
        "record 269554195 578437695752307201 336926231 512 8 0 0 0 0 0 0 100 100 0 0"
    );
    assert_eq!(last(&format!("{made}\nrecord 14")), fresh, "its own alone");
    // The greatest that each may be.
    assert_eq!(
        last("task 0 0xffffffff 0xffffffffffffffff 0xffffffff 0xffffffff 0xffffffff 1\nrecord 0"),
        "record 4294967295 18446744073709551615 4294967295 4294967295 1 0 0 0 0 0 0 4294967295 \
         4294967295 0 0"
    );
    // A refusal, of any such number of 16 bits, leaves the record.
    for most in ["0", "9", "256", "257", "65535"] {
        let script = format!("{made}\ntask 15 1 1 1 1 1 {most}");
        assert_eq!(last(&script), "refused 3");
        assert_eq!(
            last(&format!("{script}\nrecord 15")),
            last(&format!("{made}\nrecord 15"))
        );
    }
    let set = format!("record 3 {RECORD}");
    assert_eq!(last(&set), "record");
    assert_eq!(
        last(&format!("{set}\nrecord 3")),
        format!("record {RECORD}")
    );
    assert_eq!(last(&format!("{set}\nrecord 2")), fresh);
    // Numbers may be hex here too.
    assert_eq!(
        last("record 3 0 0 0xffffffff 0x40000 1 0 0 0 0 0 0 0 0 0 0\nrecord 3"),
        fresh
    );
}

#[test]
fn records_outlive_a_session_and_a_login() {
    let script = format!("record 3 {RECORD}\nsession 9 9 2\nlogin-begin x\nrecord 3");
    assert_eq!(last(&script), format!("record {RECORD}"));
    // And a data call before the first `session` line.
    let script = "data-in 0 3 48 0 0 5\nsession 9 9 2\ndata-in 0 3 48 0 0 6\nrecord 3";
    assert_eq!(
        last(script),
        "record 0 0 4294967295 262144 1 2 0 1 11 11 0 0 0 0 0"
    );
}

/// The words of a record, one of them another.
fn record_with(changes: &[(usize, &str)]) -> String {
    let mut words: Vec<_> = RECORD.split(' ').collect();
    for (at, word) in changes {
        words[*at] = word;
    }
    format!("record 3 {}", words.join(" "))
}

/// Each rule of a record that is set, at its boundary both ways. The places of the words: ITT 0, LUN 1, TAG 2, MAXBURST 3,
/// MAXR2T 4, SENT 5, ACKED 6, ANYIN 7, INOFFSET 8, INBURST 9, SNACKTAG 10, ASKED 11, CAME 12, DATASN 13, K 14, then
/// TAG and END of each open R2T.
#[test]
fn a_record_that_no_call_makes_is_a_bad_line() {
    let good = [
        record_with(&[]),
        // The greatest of each width.
        record_with(&[(0, "4294967295")]),
        record_with(&[(1, "0xffffffffffffffff")]),
        record_with(&[(2, "4294967295")]),
        record_with(&[(3, "4294967295")]),
        record_with(&[(3, "4294967295"), (9, "4294967295")]),
        record_with(&[(5, "4294967295")]),
        record_with(&[(5, "4294967295"), (6, "4294967295")]),
        record_with(&[(10, "4294967295")]),
        record_with(&[(13, "4294967295")]),
        // MAXR2T: K at least.
        record_with(&[(4, "3")]),
        record_with(&[(6, "9")]),
        record_with(&[(7, "0")]),
        record_with(&[(8, "0")]),
        record_with(&[(11, "4294967296"), (20, "4294967296")]),
        record_with(&[(12, "0")]),
        record_with(&[(15, "0")]),
        record_with(&[(18, "102")]),
        "record 3 0 0 0 0 1 0 0 0 0 0 0 4294967296 4294967296 0 0".into(),
        "record 3 0 0 0 0 1 0 0 0 0 0 0 1 0 4294967295 1 0 1".into(),
        "record 3 0 0 0 0 8 0 0 0 0 0 0 8 0 0 8 0 1 0 2 0 3 0 4 0 5 0 6 0 7 0 8".into(),
    ];
    for line in good {
        assert_eq!(last(&line), "record", "{line}");
    }
    let bad_lines = [
        // One too wide for its place.
        record_with(&[(0, "4294967296")]),
        record_with(&[(1, "0x10000000000000000")]),
        record_with(&[(2, "4294967296")]),
        record_with(&[(3, "4294967296")]),
        record_with(&[(4, "256")]),
        record_with(&[(4, "264")]),
        record_with(&[(5, "4294967296")]),
        record_with(&[(6, "4294967296")]),
        record_with(&[(7, "2")]),
        record_with(&[(8, "0x10000000000000000")]),
        record_with(&[(9, "4294967296")]),
        record_with(&[(10, "4294967296")]),
        record_with(&[(13, "4294967296")]),
        record_with(&[(14, "256")]),
        record_with(&[(14, "259")]),
        record_with(&[(15, "4294967296")]),
        record_with(&[(20, "0x10000000000000190")]),
        // 1 to 8, and K at least.
        record_with(&[(4, "0")]),
        record_with(&[(4, "2")]),
        record_with(&[(4, "9")]),
        record_with(&[(4, "255")]),
        "record 3 0 0 0 0 0 0 0 0 0 0 0 0 0 0 0".into(),
        "record 3 0 0 0 0 9 0 0 0 0 0 0 0 0 0 0".into(),
        "record 3 0 0 0 0 9 0 0 0 0 0 0 9 0 0 9 0 1 0 2 0 3 0 4 0 5 0 6 0 7 0 8 0 9".into(),
        "record 3 0 0 0 0 8 0 0 0 0 0 0 9 0 0 9 0 1 0 2 0 3 0 4 0 5 0 6 0 7 0 8 0 9".into(),
        // Acknowledged and not sent; offsets past 2^32; a burst too long.
        record_with(&[(6, "10")]),
        record_with(&[(5, "2")]),
        record_with(&[(8, "4294967297")]),
        record_with(&[(8, "0xffffffffffffffff")]),
        record_with(&[(9, "513")]),
        record_with(&[(3, "511")]),
        record_with(&[(11, "4294967297"), (20, "4294967297")]),
        "record 3 0 0 0 0 1 0 0 0 0 0 0 4294967297 4294967297 0 0".into(),
        // The ends: above where data came, rising, and the last one where data was asked up to.
        record_with(&[(12, "101")]),
        record_with(&[(12, "400")]),
        record_with(&[(12, "401")]),
        record_with(&[(16, "100")]),
        record_with(&[(18, "101")]),
        record_with(&[(18, "100")]),
        record_with(&[(18, "400")]),
        record_with(&[(18, "401")]),
        record_with(&[(20, "399")]),
        record_with(&[(20, "401")]),
        record_with(&[(11, "399")]),
        record_with(&[(11, "401")]),
        // No open R2T without a tag, the first or the last.
        record_with(&[(15, "0xffffffff")]),
        record_with(&[(19, "4294967295")]),
        // None open: nothing to come, and the first DataSN.
        "record 3 0 0 0 0 1 0 0 0 0 0 0 1 0 0 0".into(),
        "record 3 0 0 0 0 1 0 0 0 0 0 0 0 1 0 0".into(),
        "record 3 0 0 0 0 1 0 0 0 0 0 0 0 0 1 0".into(),
        // A word too few, and one too many.
        "record 3 0".into(),
        "record 3 0 0 0 0 1 0 0 0 0 0 0 0 0 0".into(),
        "record 3 0 0 0 0 1 0 0 0 0 0 0 0 0 0 0 0".into(),
        record_with(&[(14, "2")]),
        record_with(&[(14, "4")]),
        format!("record 3 {}", RECORD.rsplit_once(' ').unwrap().0),
        format!("record 3 {RECORD} 1"),
        format!("record 3 {RECORD} 1 401"),
        format!("record 16 {RECORD}"),
    ];
    for line in bad_lines {
        assert!(bad(&line), "{line}");
        let after = answers(format!("record 3 {RECORD}\n{line}\nrecord 3").as_bytes());
        assert_eq!(after, format!("record\nbad line\nrecord {RECORD}\n"));
    }
}

#[test]
fn data_calls_are_answered() {
    let data_out = |data_sn, offset, flags, data: &[u8]| {
        let pdu = pdu::data_out(data_sn, offset).byte(1, flags);
        format!("data-out 0 1 {}", hex(&pdu.data(data).0))
    };
    let snack = |kind, beg_run, run_length| {
        let tag = if kind == 3 { 0x55 } else { pdu::NO_TAG };
        let pdu = pdu::snack(kind, beg_run, run_length).itt(0x15).ttt(tag);
        format!("data-snack 0 1 4096 {}", hex(&pdu.0))
    };
    let data_ack = pdu::snack(2, 1, 0).ttt(0x14).0;
    let script = [
        "session 0x20 0x18 1".into(),
        "task 1 0x15 0x0807060504030201 0x14 16 512 2".into(),
        "data-in 0 1 48 0 0 512".into(),
        "data-in 0 1 65535 1 1 0".into(),
        "r2t 0 1 48 0x16 10".into(),
        "r2t 0 1 48 0x17 512".into(),
        "r2t 0 1 48 0x18 1".into(),
        data_out(0, 16, 0, b"1234"),
        data_out(1, 20, 0x80, b"567890"),
        snack(0, 0, 0),
        snack(0, 2, 2),
        snack(1, 0, 0),
        format!("data-snack 0 1 4096 {}", hex(&data_ack)),
        format!("data-snack 0 1 4096 {}", hex(&data_ack)),
        snack(3, 0, 0),
        "record 1".into(),
        "data-in 0 1 48 1 0 8193".into(),
        "data-in 0 1 47 1 0 8193".into(),
        "r2t 1 1 48 0x18 1".into(),
        "data-out 4 1 -".into(),
        "data-out 0 1 -".into(),
        "data-snack 0 0 0 05".into(),
    ];
    let (lun, zero) = ("0807060504030201", "0".repeat(16));
    let window = "000000200000005f";
    let wanted = [
        "session".into(),
        "task".into(),
        format!("data-in 2500000000000200{zero}00000015ffffffff00000000{window}{zero}00000000"),
        format!(
            "data-in 25c0000000000000{lun}000000150000001400000000{window}000000010000020000000000"
        ),
        format!(
            "r2t 3180000000000000{lun}000000150000001600000018{window}00000002000000100000000a"
        ),
        format!(
            "r2t 3180000000000000{lun}000000150000001700000018{window}000000030000001a00000200"
        ),
        "refused 3".into(),
        "came 0x00000010 4 open 2".into(),
        "came 0x00000014 6 open 1".into(),
        "run 0x00000000 4".into(),
        "run 0x00000002 2".into(),
        "refused 3".into(),
        "acknowledged 1".into(),
        "acknowledged 0".into(),
        "run 0x00000001 3".into(),
        "record 21 578437695752307201 20 512 2 1 1 1 4096 0 85 538 26 0 1 23 538".into(),
        "refused 5".into(),
        "refused 1".into(),
        "refused 8".into(),
        "refused 7".into(),
        "refused 4".into(),
        "refused 4".into(),
    ];
    let said = answers(script.join("\n").as_bytes());
    assert_eq!(said.lines().count(), wanted.len());
    for (said, wanted) in said.lines().zip(wanted) {
        assert_eq!(said, wanted);
    }
}

/// With `task N` the record's tags and count; without it a fresh record's, with the response's own tag.
#[test]
fn statuses_go_with_a_record() {
    let task = "session 1 1 1\nrecord 5 7 0 0 512 1 9 0 1 0 0 85 0 0 0 0\n";
    let response =
        |code: u8, itt: u32, tag: u32| format!("scsi-response 0 0 {code} 0 0 {itt} {tag} 0");
    let said = |line: &str| last(&format!("{task}{line}"));
    let numbers = |line: &str| {
        let said = said(line);
        let header = said.rsplit_once(' ').unwrap().1.to_owned();
        (header[40..48].to_owned(), header[72..80].to_owned())
    };
    let wanted = |tag: &str, count: &str| (tag.to_owned(), count.to_owned());
    let with = |response: &str| format!("send 0 1 48 task 5 {response}");
    assert_eq!(
        numbers(&with(&response(0, 7, 85))),
        wanted("00000055", "00000009")
    );
    assert_eq!(
        numbers(&with(&response(1, 7, 85))),
        wanted("00000055", "00000000")
    );
    for (itt, tag) in [(6, 85), (7, 0), (7, 84)] {
        assert_eq!(said(&with(&response(0, itt, tag))), "refused 3");
    }
    let without = |response: &str| format!("send 0 1 48 {response}");
    for itt in [0, 7, 0xffff_ffff] {
        let line = without(&response(0, itt, 0));
        assert_eq!(numbers(&line), wanted("00000000", "00000000"));
        assert_eq!(said(&without(&response(0, itt, 1))), "refused 3");
    }
    // Other responses go with any record.
    assert!(said("send 0 1 48 task 5 reject 1").starts_with("sent 0x00000001 "));
    assert!(said("send 0 1 48 task 5 task-response 0 1").starts_with("sent 0x00000001 "));
    // Resent with it, with none, and with a record of another task.
    let sent = format!("{}\n", with(&response(0, 7, 85)));
    for (resend, tag, count) in [
        ("resend 0 1 48 task 5", "00000055", "00000009"),
        ("resend 0 1 48", "00000055", "00000000"),
        (
            "record 0 1 0 0 0 1 4 0 1 0 0 2 0 0 0 0\nresend 0 1 48 task 0",
            "00000002",
            "00000004",
        ),
        ("resend 0 1 48 task 15", "00000055", "00000000"),
    ] {
        assert_eq!(numbers(&format!("{sent}{resend}")), wanted(tag, count));
    }
    // A resend and a send leave the record.
    let after = said(&format!("{sent}resend 0 1 48 task 5\nrecord 5"));
    assert_eq!(after, "record 7 0 0 512 1 9 0 1 0 0 85 0 0 0 0");
}

#[test]
fn a_refused_data_call_leaves_the_record() {
    let refused = [
        "data-in 0 3 47 0 0 0",
        "data-in 0 3 48 0 0 0",
        "data-in 0 3 48 0 0 8193",
        "r2t 0 3 48 0xffffffff 1",
        "r2t 0 3 48 1 513",
        "data-out 0 3 -",
        "data-snack 0 3 0 -",
    ];
    for line in refused {
        let said = answers(format!("record 3 {RECORD}\n{line}\nrecord 3").as_bytes());
        let lines: Vec<_> = said.lines().collect();
        assert!(lines[1].starts_with("refused "), "{line}: {said}");
        assert_eq!(lines[2], format!("record {RECORD}"), "{line}");
    }
}

/// The rules of a record that is set, said again and tried on many.
#[test]
fn a_record_may_be_set_exactly_by_the_rules() {
    let mut rng = Rng::new(3);
    let mut good = 0;
    for _ in 0..100_000 {
        let open = rng.index(4);
        let mut small = || rng.below(5);
        let record = Task {
            max_burst: small() as u32,
            max_r2t: [0, 1, 3, 8, 9][small() as usize],
            sent: small() as u32,
            acknowledged: small() as u32,
            offset: (1 << 32) - 3 + small(),
            burst: small() as u32,
            asked: small(),
            came: small() / 2,
            data_sn: small() as u32 / 4,
            open: (0..open)
                .map(|_| OpenR2t {
                    tag: [0, 0, 0, 7, pdu::NO_TAG][small() as usize],
                    end: small(),
                })
                .collect(),
            ..Task::fresh_for(7)
        };
        let ends = record.open.iter().map(|r2t| r2t.end);
        let ends: Vec<_> = [record.came].into_iter().chain(ends).collect();
        let by_the_rules = (1..=8).contains(&record.max_r2t)
            && open <= record.max_r2t.into()
            && record.acknowledged <= record.sent
            && record.offset <= 1 << 32
            && record.burst <= record.max_burst
            && ends.is_sorted_by(|a, b| a < b)
            && ends[open] == record.asked
            && record.open.iter().all(|r2t| r2t.tag != pdu::NO_TAG)
            && (open > 0 || record.data_sn == 0);
        assert_eq!(may_be_set(&record), by_the_rules, "{record:?}");
        let call = Call::SetRecord { task: 4, record };
        let wanted = by_the_rules.then_some(call.clone());
        assert_eq!(parse(&call_line(&call)), wanted);
        good += u32::from(by_the_rules);
    }
    assert!(good > 500, "{good}");
}

fn names() -> Vec<u8> {
    block(&[
        "InitiatorName=a",
        "TargetName=iqn.2026-11.example:drawbevel",
    ])
}

fn login_line(gather: u32, flags: u8, text: &[u8]) -> String {
    format!(
        "login 0 7 {gather} 8192 {}",
        hex(&pdu::login(flags, text).0)
    )
}

#[test]
fn login_answers() {
    let tag = hex(&block(&["TargetPortalGroupTag=1"]));
    let line = login_line(8192, 0x87, &names());
    assert_eq!(last(&line), format!("answer 3 1 1 3 0x0007 {tag}"));
    assert_eq!(last(&format!("{line}\n{line}")), "refused 8");
    assert_eq!(last(&format!("login-begin b\n{line}")), "refused 6 0x0203");
    assert_eq!(last(&login_line(8191, 0x87, &names())), "refused 1");
    assert_eq!(
        last(&login_line(8192, 0x44, b"A")),
        "answer 1 0 1 0 0x0000 -"
    );
    // The longest lengths that can be stated are lent as far as there is room.
    let most = format!(
        "login 0 7 4294967295 4294967295 {}",
        hex(&pdu::login(0x87, &names()).0)
    );
    assert_eq!(last(&most), format!("answer 3 1 1 3 0x0007 {tag}"));
}

#[test]
fn the_gather_area_is_kept_from_call_to_call() {
    let whole = names();
    let (one, two) = whole.split_at(7);
    let tag = hex(&block(&["TargetPortalGroupTag=1"]));
    let script = [login_line(8192, 0x44, one), login_line(9000, 0x04, two)].join("\n");
    assert_eq!(last(&script), format!("answer 1 0 1 0 0x0000 {tag}"));
    // A fresh login has a fresh area.
    let script = [
        &login_line(8192, 0x44, one),
        "login-begin x",
        &login_line(8192, 0x04, two),
    ]
    .join("\n");
    assert_eq!(last(&script), "refused 6 0x0200");
}

#[test]
fn params_are_shown_in_order() {
    let standard = "params MaxConnections=1 MaxOutstandingR2T=1 InitialR2T=Yes DataPDUInOrder=Yes \
                    DataSequenceInOrder=Yes ImmediateData=Yes MaxRecvDataSegmentLength=8192 \
                    MaxBurstLength=262144 FirstBurstLength=65536 DefaultTime2Wait=2 \
                    DefaultTime2Retain=20 ErrorRecoveryLevel=0";
    assert_eq!(last("params"), standard);
    let text = [
        names(),
        block(&["ImmediateData=No", "MaxRecvDataSegmentLength=0x10000"]),
    ]
    .concat();
    let said = last(&format!("{}\nparams", login_line(8192, 0x04, &text)));
    assert!(
        said.contains("ImmediateData=No MaxRecvDataSegmentLength=65536"),
        "{said}"
    );
}

#[test]
fn the_session_before_the_first_session_line() {
    let script = |start: &str| format!("{start}window\nsend 0 1 48 reject 1\nresend 0 1 48");
    let with = answers(script("session 1 1 0\n").as_bytes());
    let without = answers(script("").as_bytes());
    assert_eq!(with, format!("session\n{without}"));
}

/// An engine that writes where it must not is shown as TOUCHED.
#[test]
fn touched_bytes_are_reported() {
    let touched = |fault, script: &str| {
        let mut output = Vec::new();
        let engine = Broken::new(Model::default(), fault);
        script::play(engine, script.as_bytes(), &mut output).unwrap();
        String::from_utf8(output)
            .unwrap()
            .matches(" TOUCHED\n")
            .count()
    };
    let offer = format!("offer 0 7 {}", hex(&pdu::nop_out(1).0));
    let calls =
        format!("{offer}\ntake 49\nsend 0 1 49 reject 1\nwrite 49 1 1 1 reject 1\nresend 0 1 49");
    assert_eq!(touched(Fault::None, &format!("session 1 1 1\n{calls}")), 0);
    assert_eq!(
        touched(Fault::WritesAfterHeader, &format!("session 1 1 1\n{calls}")),
        4
    );
    let refused =
        "send 4 1 9 reject 1\nwrite 47 1 1 1 reject 1\nresend 0 1 48\nsend 0 1 0 reject 1";
    assert_eq!(touched(Fault::WritesOnRefusal, refused), 3);
    let data = "task 0 0 0 0 0 512 1\ndata-in 0 0 49 0 0 1\nr2t 0 0 49 1 1";
    assert_eq!(touched(Fault::None, data), 0);
    assert_eq!(touched(Fault::WritesAfterHeader, data), 2);
    let refused = "data-in 4 0 9 0 0 1\nr2t 0 0 48 0xffffffff 1\nr2t 0 0 0 1 1";
    assert_eq!(touched(Fault::None, refused), 0);
    assert_eq!(touched(Fault::WritesOnRefusal, refused), 2);
    let void = format!("{offer}\nlogout 0 1\ntake 48");
    assert_eq!(touched(Fault::VoidWrites, &void), 1);
    assert_eq!(
        touched(Fault::GatherTouched, &login_line(8192, 0x87, b"\0")),
        1
    );
    assert_eq!(touched(Fault::None, &login_line(8192, 0x87, b"\0")), 0);
}

/// Every line that is written for a call is read back as that call.
#[test]
fn lines_are_read_back() {
    for line in [
        "session 0xfffffffe 0x1 255",
        "offer 3 0x7 00ff",
        "take 65535",
        "logout 0 2",
        "open 3 0x5",
        "send 0 0x1 48 nop-in 8192 0xffffffffffffffff 0x1 0x2",
        "send 0 0x1 48 scsi-response 1 0 1 2 3 0x4 0x5 0x6",
        "write 48 0x1 0x2 0x3 scsi-response 1 0 1 2 3 0x4 0x5 0x6",
        "write 48 0x1 0x2 0x3 scsi-response 1 0 1 2 3 0x4 0x5 0x6 0x7",
        "write 48 0x1 0x2 0x3 data-in 1 0 8192 0xffffffffffffffff 0x1 0x2 0x3 0x4",
        "write 48 0x1 0x2 0x3 r2t 0xffffffffffffffff 0x1 0x2 0x3 0x4 0x5",
        "send 0 0x1 48 task-response 1 0x2",
        "write 48 0x1 0x2 0x3 login-response 1 1 3 4 0x5 0x6 0x7 8 9",
        "send 0 0x1 48 logout-response 1 0x2 3 4",
        "send 0 0x1 48 reject 255",
        "ack 0 0x9",
        "snack 0 -",
        "resend 0 0x7 48",
        "resend 0 0x7 48 task 15",
        "send 0 0x1 48 task 0 reject 255",
        "send 0 0x1 48 task 15 scsi-response 1 0 1 2 3 0x4 0x5 0x6",
        "task 15 0x1 0xffffffffffffffff 0x2 3 4 65535",
        "data-in 4294967295 15 65535 1 0 4294967295",
        "r2t 3 0 48 0xffffffff 4294967295",
        "data-out 0 9 -",
        "data-out 0 9 05",
        "data-snack 0 9 0xffffffff -",
        "record 0",
        "record 15 1 18446744073709551615 2 512 8 9 3 1 4294967296 512 5 400 100 7 2 1 101 0 400",
        "record 1 0 0 0 0 1 0 0 0 0 0 0 0 0 0 0",
        "window",
        "next 3",
        "next 4294967295",
        "holder 0xfffffffe",
        "length -",
        "length 0102",
        "read 0102",
        "login-begin iqn.x",
        "login 0x9 0x7 8192 8193 43",
        "params",
    ] {
        let call = parse(line.as_bytes()).expect(line);
        assert_eq!(String::from_utf8(call_line(&call)).unwrap(), line);
    }
}

/// Nothing that a script can say makes the tool fail.
#[test]
fn random_lines_are_answered_one_for_one() {
    let mut rng = Rng::new(1);
    let words = [
        "session",
        "offer",
        "take",
        "logout",
        "open",
        "send",
        "ack",
        "snack",
        "resend",
        "window",
        "next",
        "holder",
        "length",
        "read",
        "write",
        "login-begin",
        "login",
        "params",
        "0",
        "1",
        "0x1",
        "48",
        "65535",
        "-",
        "00",
        "430400",
        "nop-in",
        "reject",
        "data-in",
        "r2t",
        "scsi-response",
        "task",
        "data-out",
        "data-snack",
        "record",
        "record 0 0 0 0 1 1",
        "0 0 0",
        "15",
        "16",
        "4294967295",
        "0xffffffff",
        "#",
        "",
        "\u{e9}",
    ];
    let mut script = Vec::new();
    let mut count = 0;
    for _ in 0..5_000 {
        let line: Vec<_> = (0..rng.index(8)).map(|_| rng.pick(&words)).collect();
        script.extend_from_slice(line.join(" ").as_bytes());
        if rng.one_in(10) {
            let noise = rng.bytes(3);
            script.extend(noise.into_iter().filter(|&byte| byte != b'\n'));
        }
        script.push(b'\n');
        count += 1;
    }
    let mut output = Vec::new();
    script::play(Model::default(), &script[..], &mut output).unwrap();
    assert_eq!(output.iter().filter(|&&byte| byte == b'\n').count(), count);
    assert!(!output.windows(8).any(|w| w == b" TOUCHED"));
}

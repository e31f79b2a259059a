//! Traps 1 to 10: reading.

use super::checks;
use crate::pdu::*;
use calls::{Data, Engine, Pdu, Refusal, Request};

checks![
    trap_01_order_of_refusals,
    trap_02_length_is_exact,
    trap_03_the_longest_data_segment,
    trap_04_ahs_in_scsi_command_only,
    trap_05_reserved_bits_of_byte_0,
    trap_06_highest_bit_of_byte_1,
    trap_06_function_and_reason_have_seven_bits,
    trap_07_scsi_command_flags,
    trap_08_snack_tags,
    trap_09_nop_out_without_tag,
    trap_10_fields_of_each_kind,
    no_data_in_task_management_and_logout,
    login_needs_i,
    every_opcode,
];

fn refusal(e: &dyn Engine, bytes: Bytes) -> Refusal {
    e.read(&bytes.0).expect_err("refused")
}

fn good(e: &dyn Engine, bytes: Bytes) -> Pdu {
    e.read(&bytes.0).expect("read")
}

fn is_field(e: &dyn Engine, bytes: Bytes) -> bool {
    match e.read(&bytes.0) {
        Ok(_) => false,
        Err(refusal) => {
            assert_eq!(refusal, Refusal::Field);
            true
        }
    }
}

fn trap_01_order_of_refusals(e: &mut dyn Engine) {
    assert_eq!(e.read(&[]), Err(Refusal::Length));
    let bad_opcode = Bytes::new(0x3f, 0);
    assert_eq!(refusal(e, bad_opcode.clone().resized(47)), Refusal::Length);
    assert_eq!(refusal(e, bad_opcode.clone()), Refusal::Opcode);
    // The opcode comes before the length, and TOOLONG before LENGTH.
    let long = |bytes: Bytes| bytes.field(5, 3, 8193);
    assert_eq!(refusal(e, long(bad_opcode)), Refusal::Opcode);
    assert_eq!(refusal(e, long(nop_out(1))), Refusal::TooLong);
    // LENGTH before FIELD.
    let field = Bytes::new(0x00, 0x00);
    assert_eq!(refusal(e, field.clone().resized(52)), Refusal::Length);
    assert_eq!(refusal(e, field), Refusal::Field);
}

fn trap_02_length_is_exact(e: &mut dyn Engine) {
    for length in 0..=9 {
        let whole = nop_out(1).data(&vec![1; length]);
        let size = whole.0.len();
        assert_eq!(size, 48 + length.next_multiple_of(4));
        let data = good(e, whole.clone()).data;
        assert_eq!(data, Data { offset: 48, length });
        for other in [size - 1, size + 1, size + 4] {
            let refused = refusal(e, whole.clone().resized(other));
            assert_eq!(refused, Refusal::Length);
        }
    }
    // Without its pad, though the data are whole.
    assert_eq!(
        refusal(e, nop_out(1).data(b"abc").resized(51)),
        Refusal::Length
    );
}

fn trap_03_the_longest_data_segment(e: &mut dyn Engine) {
    assert_eq!(good(e, nop_out(1).data(&[7; 8192])).data.length, 8192);
    assert_eq!(refusal(e, nop_out(1).data(&[7; 8193])), Refusal::TooLong);
    // 24 bits: the highest byte counts.
    let high = nop_out(1).byte(5, 1);
    assert_eq!(refusal(e, high), Refusal::TooLong);
    assert_eq!(refusal(e, nop_out(1).field(5, 3, 8192)), Refusal::Length);
}

fn trap_04_ahs_in_scsi_command_only(e: &mut dyn Engine) {
    for words in [1, 2, 255] {
        let pdu = good(e, scsi_command(1).ahs(words).data(b"abcde"));
        let offset = 48 + 4 * usize::from(words);
        assert_eq!(pdu.data, Data { offset, length: 5 });
        let Request::ScsiCommand(command) = pdu.request else {
            panic!("{pdu:?}");
        };
        assert_eq!(command.total_ahs_length, words);
    }
    // An empty data segment lies after the AHS.
    let data = good(e, scsi_command(1).ahs(3)).data;
    assert_eq!(
        data,
        Data {
            offset: 60,
            length: 0
        }
    );
    let others = [
        nop_out(1),
        task_management(1, 1),
        login(0, b""),
        data_out(1, 2),
        logout(1, 0),
        snack(1, 0, 0),
    ];
    for other in others {
        assert!(!is_field(e, other.clone()));
        assert!(is_field(e, other.clone().ahs(1)));
        assert_eq!(refusal(e, other.byte(4, 1)), Refusal::Length);
    }
}

fn trap_05_reserved_bits_of_byte_0(e: &mut dyn Engine) {
    let plain = good(e, scsi_command(5));
    assert_eq!(good(e, scsi_command(5).or(0, 0x80)), plain);
    assert!(!plain.immediate && good(e, scsi_command(5).immediate()).immediate);
    for without in [snack(1, 0, 0), data_out(1, 2)] {
        let read = good(e, without.or(0, 0xc0).cmd_sn(0x0102_0304));
        assert!(!read.immediate);
        assert_eq!(read.cmd_sn, 0);
    }
}

fn trap_06_highest_bit_of_byte_1(e: &mut dyn Engine) {
    let clear = |bytes: Bytes| {
        let byte = bytes.0[1] & 0x7f;
        bytes.byte(1, byte)
    };
    for needed in [
        nop_out(1),
        task_management(1, 1),
        logout(1, 0),
        snack(1, 0, 0),
    ] {
        assert!(!is_field(e, needed.clone()));
        assert!(is_field(e, clear(needed)));
    }
    assert!(!is_field(e, clear(scsi_command(1))));
    assert!(!is_field(e, clear(login(0x80, b""))));
    assert!(!is_field(e, clear(data_out(1, 2))));
}

fn trap_06_function_and_reason_have_seven_bits(e: &mut dyn Engine) {
    for function in 0..=0x7f {
        let broken = is_field(e, task_management(1, function));
        assert_eq!(broken, !(1..=8).contains(&function), "{function}");
        assert_eq!(is_field(e, logout(1, function)), function > 2, "{function}");
    }
    for kind in 0..=0x0f {
        let tags = snack(kind, 0, 0).ttt(if kind == 3 { 1 } else { NO_TAG });
        for high in [0x80, 0x90, 0xf0] {
            assert_eq!(is_field(e, tags.clone().byte(1, high | kind)), kind > 3);
        }
    }
    let Request::Snack(read) = good(e, snack(1, 0, 0).byte(1, 0xf1)).request else {
        panic!("a SNACK");
    };
    assert_eq!(read.kind, 1);
}

fn trap_07_scsi_command_flags(e: &mut dyn Engine) {
    for flags in 0..=255u8 {
        let (f, r, w) = (flags & 0x80 != 0, flags & 0x40 != 0, flags & 0x20 != 0);
        let attribute = flags & 7;
        let broken = attribute > 4 || !(f || w);
        let bytes = scsi_command(1).byte(1, flags);
        assert_eq!(is_field(e, bytes.clone()), broken, "{flags:#x}");
        if !broken {
            let Request::ScsiCommand(read) = good(e, bytes).request else {
                panic!("a command");
            };
            let shown = (read.final_bit, read.read, read.write, read.attribute);
            assert_eq!(shown, (f, r, w, attribute));
        }
    }
}

fn trap_08_snack_tags(e: &mut dyn Engine) {
    for kind in 0..=3u8 {
        for itt in [0, 5, NO_TAG] {
            for ttt in [0, 5, NO_TAG] {
                let broken = (matches!(kind, 1 | 2) && itt != NO_TAG)
                    || (matches!(kind, 0 | 1) && ttt != NO_TAG)
                    || (kind == 3 && (ttt == 0 || ttt == NO_TAG));
                let bytes = snack(kind, 3, 4).itt(itt).ttt(ttt);
                assert_eq!(is_field(e, bytes), broken, "{kind} {itt:#x} {ttt:#x}");
            }
        }
    }
    // SNACKs may carry data, and runs of other types are no matter of reading.
    assert!(!is_field(e, snack(1, 9, 9).data(b"abc")));
}

fn trap_09_nop_out_without_tag(e: &mut dyn Engine) {
    let without = nop_out(1).itt(NO_TAG);
    assert!(is_field(e, without.clone()));
    assert!(!is_field(e, without.clone().immediate()));
    assert_eq!(e.offer(0, 1, &without.0), Err(Refusal::Field));
}

fn trap_10_fields_of_each_kind(e: &mut dyn Engine) {
    // Every byte from 8 on has its own value, so that a field read elsewhere shows.
    let numbered = |bytes: Bytes| (8..48u8).fold(bytes, |b, at| b.byte(at.into(), at));
    let common = |pdu: Pdu| (pdu.lun, pdu.itt, pdu.cmd_sn, pdu.exp_stat_sn);
    let lun = 0x0809_0a0b_0c0d_0e0f;
    let all = (lun, 0x1011_1213, 0x1819_1a1b, 0x1c1d_1e1f);
    let no_lun = (0, all.1, all.2, all.3);

    let nop = good(e, numbered(nop_out(0)));
    assert_eq!(common(nop), all);
    assert!(matches!(nop.request, Request::NopOut(n) if n.ttt == 0x1415_1617));

    let command = good(e, numbered(scsi_command(0)));
    assert_eq!(common(command), all);
    assert!(matches!(command.request, Request::ScsiCommand(c)
        if c.expected_data_transfer_length == 0x1415_1617
            && c.cdb == [0x2021_2223_2425_2627, 0x2829_2a2b_2c2d_2e2f]));

    let task = good(e, numbered(task_management(0, 8)));
    assert_eq!(common(task), all);
    assert!(matches!(task.request, Request::TaskManagement(t)
        if t.function == 8 && t.referenced_task_tag == 0x1415_1617
            && t.ref_cmd_sn == 0x2021_2223 && t.exp_data_sn == 0x2425_2627));

    let bytes = numbered(login(0xb6, b"")).byte(2, 2).byte(3, 3);
    let read = good(e, bytes);
    assert_eq!(common(read), no_lun);
    assert!(matches!(read.request, Request::Login(l)
        if l.transit && !l.continues && l.csg == 1 && l.nsg == 2
            && l.version_max == 2 && l.version_min == 3
            && l.isid == 0x0809_0a0b_0c0d && l.tsih == 0x0e0f && l.cid == 0x1415));

    let data = good(e, numbered(data_out(0, 0)));
    assert_eq!(common(data), (lun, all.1, 0, all.3));
    assert!(matches!(data.request, Request::DataOut(d)
        if d.final_bit && d.ttt == 0x1415_1617
            && d.data_sn == 0x2425_2627 && d.buffer_offset == 0x2829_2a2b));

    let out = good(e, numbered(logout(0, 2)));
    assert_eq!(common(out), no_lun);
    assert!(matches!(out.request, Request::Logout(l) if l.reason == 2 && l.cid == 0x1415));

    let asked = good(e, numbered(snack(3, 0, 0)));
    assert_eq!(common(asked), (lun, all.1, 0, all.3));
    assert!(matches!(asked.request, Request::Snack(s)
        if s.kind == 3 && s.ttt == 0x1415_1617
            && s.beg_run == 0x2829_2a2b && s.run_length == 0x2c2d_2e2f));
}

fn no_data_in_task_management_and_logout(e: &mut dyn Engine) {
    for bytes in [task_management(1, 1), logout(1, 1)] {
        assert!(is_field(e, bytes.data(b"a")));
    }
    for bytes in [
        nop_out(1),
        scsi_command(1),
        login(0, b""),
        data_out(1, 2),
        snack(2, 0, 0),
    ] {
        assert!(!is_field(e, bytes.data(b"a")));
    }
}

fn login_needs_i(e: &mut dyn Engine) {
    assert!(is_field(e, login(0x87, b"").byte(0, 0x03)));
    assert!(!is_field(e, login(0x87, b"").byte(0, 0xc3)));
}

fn every_opcode(e: &mut dyn Engine) {
    for opcode in 0..=0x3f {
        let known = [0x00, 0x01, 0x02, 0x03, 0x05, 0x06, 0x10].contains(&opcode);
        let refused = e.read(&Bytes::new(opcode, 0x80).0) == Err(Refusal::Opcode);
        assert_eq!(refused, !known, "{opcode:#x}");
    }
}

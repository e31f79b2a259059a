//! Words too wide for their place are refused, not cut; the widest that fit are written whole.

use crate::kinds::{DATA_IN, KINDS, LOGIN, LOGOUT, NO_KIND, NOP_IN, R2T, SCSI, Width};
use crate::raw::Lent;
use crate::stand::*;

/// The fields of every kind, by kind and name, that are no data length.
fn each_field(mut check: impl FnMut(&'static crate::kinds::Kind, &'static str, u32)) {
    for kind in KINDS {
        for (name, width) in kind.fields {
            if let Width::Bits(bits) = width {
                check(kind, name, *bits);
            }
        }
    }
}

#[test]
fn data_lengths_above_8192_are_too_long_however_wide() {
    for kind in [&NOP_IN, &SCSI, &LOGIN, &DATA_IN] {
        for length in [
            8193,
            0x1_0000,
            (1 << 24) - 1,
            1 << 24,
            (1 << 24) + 48,
            1 << 32,
            (1 << 32) + 48,
            1 << 63,
            u64::MAX,
        ] {
            refused(&kind.with("data length", length), TOOLONG);
        }
        taken(&kind.with("data length", 8192));
        taken(&kind.with("data length", 0));
    }
}

#[test]
fn an_opcode_word_that_names_no_response_is_field() {
    for kind in KINDS {
        for opcode in NO_KIND {
            let mut words = kind.good;
            words[0] = opcode;
            refused(&words, FIELD);
        }
        for above in [1 << 8, 1 << 16, 1 << 32, 1 << 63] {
            let mut words = kind.good;
            words[0] += above;
            refused(&words, FIELD);
        }
    }
}

#[test]
fn every_field_of_each_kind_refuses_the_first_word_too_wide() {
    each_field(|kind, name, bits| {
        if bits < 64 {
            refused(&kind.with(name, 1 << bits), FIELD);
        }
    });
}

#[test]
fn every_field_of_each_kind_refuses_a_good_word_with_bits_above_its_width() {
    each_field(|kind, name, bits| {
        let good = kind.good[kind.place(name)];
        for above in [8, 16, 24, 32, 48, 63] {
            if bits <= above {
                refused(&kind.with(name, good + (1 << above)), FIELD);
            }
        }
        if bits < 64 {
            refused(&kind.with(name, u64::MAX), FIELD);
        }
    });
}

#[test]
fn every_field_of_each_kind_takes_the_widest_word_that_fits() {
    each_field(|kind, name, bits| taken(&kind.with(name, Width::Bits(bits).greatest())));
}

#[test]
fn a_tsih_of_0x10001_is_field() {
    refused(&LOGIN.with("TSIH", 0x1_0001), FIELD);
}

#[test]
fn times_of_a_logout_above_16_bits_are_field() {
    refused(&LOGOUT.with("Time2Wait", 0x1_0002), FIELD);
    refused(&LOGOUT.with("Time2Retain", 0x1_0014), FIELD);
}

#[test]
fn a_flag_above_1_is_field_and_not_set() {
    for word in [2, 3, 4, 5, 0x80, 0xff, 0x100, 0x101, 1 << 32, (1 << 32) + 1] {
        for field in ["O", "U"] {
            refused(&SCSI.with(field, word), FIELD);
        }
        refused(&LOGIN.with("T", word), FIELD);
        for field in ["F", "A"] {
            refused(&DATA_IN.with(field, word), FIELD);
        }
    }
}

/// What a task's calls refuse isn't writing's: a tag that stands for none, a length of 0, an end above 2^32.
#[test]
fn data_in_and_r2t_have_no_rule_but_their_widths() {
    taken(&DATA_IN.with("TTT", 0xffff_ffff));
    taken(&DATA_IN.with("data length", 0));
    taken(&R2T.with("TTT", 0xffff_ffff));
    taken(&R2T.with("desired length", 0));
    let mut words = R2T.with("desired length", 0xffff_ffff);
    words[R2T.place("buffer offset")] = 0xffff_ffff;
    taken(&words);
}

#[test]
fn csg_and_nsg_above_3_are_field() {
    for word in [4, 5, 7, 0xff, 0x101, (1 << 32) + 1] {
        refused(&LOGIN.with("CSG", word), FIELD);
        refused(&LOGIN.with("NSG", word), FIELD);
    }
}

#[test]
fn an_isid_of_2_48_or_more_is_field() {
    for word in [1 << 48, (1 << 48) + 1, 1 << 63, u64::MAX] {
        refused(&LOGIN.with("ISID", word), FIELD);
    }
}

#[test]
fn both_residual_flags_are_field() {
    let mut words = SCSI.with("O", 1);
    words[SCSI.place("U")] = 1;
    refused(&words, FIELD);
}

#[test]
fn nsg_without_t_is_field() {
    for stage in 1..=3 {
        let mut words = LOGIN.with("NSG", stage);
        words[LOGIN.place("T")] = 0;
        refused(&words, FIELD);
    }
    let mut words = LOGIN.with("NSG", 0);
    words[LOGIN.place("T")] = 0;
    taken(&words);
}

#[test]
fn a_nop_in_with_a_tag_of_33_bits_is_field_and_no_ping() {
    for above in [1, 2, 1 << 31] {
        let words = NOP_IN.with("ITT", (above << 32) + 0xffff_ffff);
        refused(&words, FIELD);
        assert_eq!(sent(FULL_ONE, &words, HEADER), FIELD);
    }
}

#[test]
fn a_nop_in_without_a_tag_uses_up_no_number_and_is_not_stored() {
    let (mut s, mut out) = (session(), Lent::new(HEADER));
    let before = s.clone();
    let untagged = NOP_IN.with("ITT", 0xffff_ffff);
    for connection in [OPEN, FULL_ONE] {
        let next: u64 = if connection == OPEN { 101 } else { 232 };
        let answer = s.send(
            connection,
            TICKET,
            &record_of(&untagged),
            &untagged,
            &mut out,
        );
        assert_eq!(answer, next << 32 | u64::from(DONE));
        assert!(s == before, "it changed the session");
    }
}

/// FIELD is given exactly when a field rule is broken, and these words are no field's.
#[test]
fn a_word_that_is_no_field_of_its_kind_breaks_no_rule() {
    for kind in KINDS {
        for word in [1, 8193, 1 << 32, u64::MAX] {
            let mut words = kind.good;
            words[kind.fields.len() + 1..].fill(word);
            taken(&words);
        }
    }
}

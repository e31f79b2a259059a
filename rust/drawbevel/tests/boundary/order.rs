//! The order of refusals: BUFFER; a send then NOCONN, CLOSED; then TOOLONG, FIELD; a send then FULL.

use crate::kinds::{DATA_IN, KINDS, LOGIN, NO_KIND, NOP_IN, R2T, SCSI, Width};
use crate::raw::ResponseWords;
use crate::stand::*;

/// Words that are no response.
fn no_responses() -> impl Iterator<Item = ResponseWords> {
    NO_KIND.into_iter().map(|opcode| {
        let mut words = SCSI.good;
        words[0] = opcode;
        words
    })
}

/// Of each kind a good response, one with each field too wide and one that is too long; and words that are no response.
fn of_every_sort() -> Vec<ResponseWords> {
    let mut all: Vec<_> = no_responses().collect();
    for kind in KINDS {
        all.push(kind.good);
        for (name, width) in kind.fields {
            if *width != Width::Bits(64) {
                all.push(kind.with(name, width.greatest() + 1));
            }
        }
    }
    all
}

#[test]
fn a_send_of_no_response_into_a_short_buffer_is_buffer() {
    for words in no_responses() {
        for lent in [0, 1, 47] {
            assert_eq!(sent(OPEN, &words, lent), BUFFER, "{words:x?}");
        }
    }
}

#[test]
fn a_send_of_no_response_on_no_connection_is_noconn() {
    for words in no_responses() {
        for connection in NO_CONNECTIONS {
            assert_eq!(sent(connection, &words, HEADER), NOCONN, "{words:x?}");
        }
    }
}

#[test]
fn a_send_of_no_response_on_a_closed_connection_is_closed() {
    for words in no_responses() {
        assert_eq!(sent(SHUT, &words, HEADER), CLOSED, "{words:x?}");
    }
}

#[test]
fn a_send_of_no_response_on_an_open_connection_is_field() {
    for words in no_responses() {
        assert_eq!(sent(OPEN, &words, HEADER), FIELD, "{words:x?}");
        assert_eq!(sent(FULL_ONE, &words, HEADER), FIELD, "{words:x?}");
    }
}

#[test]
fn a_write_of_no_response_into_a_short_buffer_is_buffer() {
    for words in no_responses() {
        for lent in [0, 1, 47] {
            assert_eq!(written(&words, lent), BUFFER, "{words:x?}");
        }
    }
}

#[test]
fn a_write_of_no_response_is_field() {
    for words in no_responses() {
        assert_eq!(written(&words, HEADER), FIELD, "{words:x?}");
    }
}

#[test]
fn a_short_buffer_comes_before_everything() {
    for words in of_every_sort() {
        for connection in [OPEN, FULL_ONE, SHUT, 4] {
            assert_eq!(sent(connection, &words, 47), BUFFER, "{words:x?}");
        }
        assert_eq!(written(&words, 47), BUFFER, "{words:x?}");
    }
}

#[test]
fn no_connection_and_a_closed_one_come_before_what_is_sent() {
    for words in of_every_sort() {
        assert_eq!(sent(4, &words, HEADER), NOCONN, "{words:x?}");
        assert_eq!(sent(SHUT, &words, HEADER), CLOSED, "{words:x?}");
    }
}

#[test]
fn too_long_comes_before_a_field_that_is_too_wide() {
    for kind in [&NOP_IN, &SCSI, &LOGIN, &DATA_IN] {
        for (name, width) in kind.fields {
            if matches!(width, Width::DataLength | Width::Bits(64)) {
                continue;
            }
            let mut words = kind.with(name, width.greatest() + 1);
            for length in [8193, 1 << 24, 1 << 32, u64::MAX] {
                words[kind.place("data length")] = length;
                refused(&words, TOOLONG);
            }
        }
    }
}

#[test]
fn too_long_comes_before_both_residuals_and_before_nsg_without_t() {
    let mut words = SCSI.with("data length", (1 << 32) + 48);
    (words[SCSI.place("O")], words[SCSI.place("U")]) = (1, 1);
    refused(&words, TOOLONG);
    let mut words = LOGIN.with("data length", (1 << 32) + 48);
    words[LOGIN.place("T")] = 0;
    refused(&words, TOOLONG);
}

#[test]
fn what_cannot_be_written_comes_before_full() {
    for kind in KINDS {
        for (name, width) in kind.fields {
            let number = match width {
                Width::Bits(64) => continue,
                Width::Bits(_) => FIELD,
                Width::DataLength => TOOLONG,
            };
            for excess in [1, 1 << 32] {
                let words = kind.with(name, width.greatest() + excess);
                assert_eq!(sent(FULL_ONE, &words, HEADER), number, "{words:x?}");
            }
        }
    }
}

#[test]
fn a_full_ledger_refuses_every_good_status_but_the_nop_in_without_a_tag() {
    for kind in KINDS.into_iter().filter(|kind| kind.is_status()) {
        assert_eq!(sent(FULL_ONE, &kind.good, HEADER), FULL, "{}", kind.name);
    }
    let untagged = NOP_IN.with("ITT", 0xffff_ffff);
    assert_eq!(sent(FULL_ONE, &untagged, HEADER), DONE);
}

#[test]
fn a_send_of_what_is_no_status_is_field_before_full() {
    for words in [DATA_IN.good, R2T.good, DATA_IN.with("ITT", 0xffff_ffff)] {
        for connection in [OPEN, FULL_ONE] {
            assert_eq!(sent(connection, &words, HEADER), FIELD, "{words:x?}");
        }
    }
}

#[test]
fn a_send_of_a_data_in_is_too_long_before_it_is_field() {
    for length in [8193, 1 << 24, 1 << 32, u64::MAX] {
        let words = DATA_IN.with("data length", length);
        for connection in [OPEN, FULL_ONE] {
            assert_eq!(sent(connection, &words, HEADER), TOOLONG, "{words:x?}");
        }
    }
}

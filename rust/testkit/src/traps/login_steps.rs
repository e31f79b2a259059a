//! Traps 37 to 39 and the checks of each login request in their order.

use super::checks;
use super::login::{OPERATIONAL, SECURITY, Said, Talk, names_and, status};
use crate::pdu;
use calls::{Engine, Refusal};

checks![
    trap_37_nsg_without_t,
    trap_38_permitted_steps,
    trap_39_the_handle_answered,
    order_of_the_checks,
    version_min,
    the_live_handle,
    the_identity_of_the_first_request,
    c_and_t,
    full_feature_ends_the_login,
];

const T: u8 = 0x80;

/// Stage, T, CSG, NSG and TSIH of an answer.
fn shown(said: Said) -> (u8, bool, u8, u8, u16) {
    let a = said.unwrap().0;
    (a.stage, a.transit, a.csg, a.nsg, a.tsih)
}

fn trap_37_nsg_without_t(e: &mut dyn Engine) {
    for nsg in 0..4 {
        let mut talk = Talk::new(e);
        let said = talk.ask(SECURITY | nsg, &names_and(&[]));
        assert_eq!(shown(said), (0, false, 0, 0, 0));
        let said = talk.ask(SECURITY | nsg, b"");
        assert_eq!(shown(said), (0, false, 0, 0, 0));
    }
}

fn trap_38_permitted_steps(e: &mut dyn Engine) {
    for csg in 0..4u8 {
        for nsg in 0..4u8 {
            let mut talk = Talk::new(e);
            let said = talk.ask(T | (csg << 2) | nsg, &names_and(&[]));
            if [(0, 1), (0, 3), (1, 3)].contains(&(csg, nsg)) {
                let tsih = if nsg == 3 { 7 } else { 0 };
                assert_eq!(shown(said), (nsg, true, csg, nsg, tsih));
            } else {
                assert_eq!(status(said), 0x0200, "{csg} to {nsg}");
                assert_eq!(talk.ask(SECURITY, b""), Err(Refusal::Closed));
            }
        }
        let said = Talk::new(e).ask(csg << 2, &names_and(&[]));
        match csg {
            0 | 1 => assert_eq!(shown(said), (csg, false, csg, 0, 0)),
            _ => assert_eq!(status(said), 0x0200),
        }
    }
    // After a step the new stage is the one to name.
    let mut talk = Talk::new(e);
    talk.ask(T | 1, &names_and(&[])).unwrap();
    assert_eq!(shown(talk.ask(OPERATIONAL, b"")), (1, false, 1, 0, 0));
    assert_eq!(status(talk.ask(SECURITY, b"")), 0x0200);
}

fn trap_39_the_handle_answered(e: &mut dyn Engine) {
    let mut talk = Talk::new(e);
    assert_eq!(shown(talk.ask(T | 1, &names_and(&[]))).4, 0);
    assert_eq!(shown(talk.ask(T | OPERATIONAL | 3, b"")).4, 7);
    let mut talk = Talk::live(e);
    assert_eq!(shown(talk.ask(T | 1, &names_and(&[]))).4, 9);
    assert_eq!(shown(talk.ask(T | OPERATIONAL | 3, b"")).4, 9);
}

fn order_of_the_checks(e: &mut dyn Engine) {
    let bad = pdu::login(0xcf, b"").field(14, 2, 5).byte(3, 1);
    assert_eq!(status(Talk::new(e).ask_pdu(&bad)), 0x0205);
    assert_eq!(
        status(Talk::new(e).ask_pdu(&bad.clone().byte(3, 0))),
        0x020a
    );
    let version = pdu::login(0xcf, b"").byte(3, 1);
    assert_eq!(status(Talk::new(e).ask_pdu(&version)), 0x0205);
    // Each request is checked, not the first alone; 0x020a comes before the differing TSIH.
    for (bytes, wanted) in [
        (pdu::login(SECURITY, b"").byte(3, 1), 0x0205),
        (pdu::login(SECURITY, b"").field(14, 2, 8), 0x020a),
    ] {
        let mut talk = Talk::new(e);
        talk.ask(SECURITY, &names_and(&[])).unwrap();
        assert_eq!(status(talk.ask_pdu(&bytes)), wanted);
    }
    // The checks come before the text is looked at.
    let text = pdu::block(&["TargetName=iqn.other"]);
    assert_eq!(status(Talk::new(e).ask(T | 2, &text)), 0x0200);
}

fn version_min(e: &mut dyn Engine) {
    for version in [0u8, 1, 255] {
        let bytes = pdu::login(SECURITY, &names_and(&[]))
            .byte(2, 255)
            .byte(3, version);
        let said = Talk::new(e).ask_pdu(&bytes);
        match version {
            0 => assert!(said.is_ok()),
            _ => assert_eq!(status(said), 0x0205),
        }
    }
}

fn the_live_handle(e: &mut dyn Engine) {
    for (live, tsih, good) in [
        (0, 0, true),
        (9, 0, true),
        (9, 9, true),
        (9, 8, false),
        (0, 9, false),
    ] {
        let mut talk = Talk::new(e);
        (talk.live, talk.tsih) = (live, tsih);
        let said = talk.ask(SECURITY, &names_and(&[]));
        match good {
            true => assert!(said.is_ok()),
            false => assert_eq!(status(said), 0x020a),
        }
    }
    // The handle given with each call counts.
    let mut talk = Talk::live(e);
    talk.ask(SECURITY, &names_and(&[])).unwrap();
    talk.live = 8;
    assert_eq!(status(talk.ask(SECURITY, b"")), 0x020a);
}

fn the_identity_of_the_first_request(e: &mut dyn Engine) {
    let start = pdu::login(SECURITY, &names_and(&[])).field(8, 6, 0x0102_0304_0506);
    let start = start.field(20, 2, 0x0708);
    let next = pdu::login(SECURITY, b"").field(8, 6, 0x0102_0304_0506);
    let next = next.field(20, 2, 0x0708);
    for (at, good) in [
        (8, false),
        (13, false),
        (20, false),
        (21, false),
        (22, true),
        (16, true),
        (24, true),
        (28, true),
    ] {
        let mut talk = Talk::new(e);
        talk.ask_pdu(&start).unwrap();
        let said = talk.ask_pdu(&next.clone().byte(at, 0xaa));
        match good {
            true => assert!(said.is_ok()),
            false => assert_eq!(status(said), 0x0200, "byte {at}"),
        }
    }
    // TSIH: 0 first, then the live one.
    let mut talk = Talk::new(e);
    talk.live = 9;
    talk.ask_pdu(&start).unwrap();
    assert_eq!(status(talk.ask_pdu(&next.clone().field(14, 2, 9))), 0x0200);
    // A request with a refusal that isn't 6 is no first request.
    let mut talk = Talk::new(e);
    let other = start.clone().field(8, 6, 5).resized(60);
    assert_eq!(talk.ask_pdu(&other), Err(Refusal::Length));
    assert!(talk.ask_pdu(&start).is_ok());
}

fn c_and_t(e: &mut dyn Engine) {
    assert_eq!(status(Talk::new(e).ask(0xc1, b"")), 0x0200);
    assert!(Talk::new(e).ask(0x41, b"").is_ok());
}

fn full_feature_ends_the_login(e: &mut dyn Engine) {
    let mut talk = Talk::new(e);
    talk.ask(T | 3, &names_and(&[])).unwrap();
    assert_eq!(talk.ask(T | 3, &names_and(&[])), Err(Refusal::Closed));
    // A fresh login starts anew.
    assert!(Talk::new(e).ask(T | 3, &names_and(&[])).is_ok());
}

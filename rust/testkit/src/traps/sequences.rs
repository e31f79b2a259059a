//! Document 01, "Sequences worked through".

use super::login::{OPERATIONAL, Talk, names_and};
use super::{FILL, checks, send};
use crate::pdu::*;
use calls::{Engine, HEADER_BYTES, Offer, Refusal, Run, Take};

checks![the_window, the_ledger, the_second_operational_block];

fn offer(e: &mut dyn Engine, number: u32) -> Offer {
    e.offer(0, number, &scsi_command(number).0).unwrap()
}

fn the_window(e: &mut dyn Engine) {
    e.begin_session(0xffff_fffe, 1, 1);
    assert_eq!(e.window().max_cmd_sn, 0x3d);
    assert_eq!(offer(e, 0x3d), Offer::Kept);
    assert_eq!(offer(e, 0x3e), Offer::Beyond);
    assert_eq!(offer(e, 0), Offer::Kept);
    assert_eq!(e.window().exp_cmd_sn, 0xffff_fffe);
    assert_eq!(offer(e, 0xffff_fffe), Offer::Kept);
    assert_eq!(e.window().exp_cmd_sn, 0xffff_ffff);
    let taken = e.take(&mut [FILL; HEADER_BYTES]).unwrap();
    assert!(matches!(taken, Take::Out(out) if out.cmd_sn == 0xffff_fffe));
    assert_eq!(offer(e, 0xffff_fffe), Offer::Passed);
    assert_eq!(offer(e, 0xffff_fffd), Offer::Beyond);
}

fn the_ledger(e: &mut dyn Engine) {
    e.begin_session(1, 0xffff_fffe, 1);
    for stat_sn in [0xffff_fffe, 0xffff_ffff, 0] {
        assert_eq!(send(e, 0, 1), stat_sn);
    }
    for (run, answer) in [
        ((0, 0), Some((0xffff_fffe, 3))),
        ((0, 1), Some((0, 1))),
        ((0xffff_ffff, 0), Some((0xffff_ffff, 2))),
        ((0xffff_ffff, 3), None),
    ] {
        let wanted = match answer {
            Some((first, count)) => Ok(Run { first, count }),
            None => Err(Refusal::Snack),
        };
        assert_eq!(e.snack(0, &snack(1, run.0, run.1).0), wanted);
    }
}

fn the_second_operational_block(e: &mut dyn Engine) {
    let mut talk = Talk::new(e);
    talk.ask(OPERATIONAL, &names_and(&[])).unwrap();
    let second = block(&["MaxBurstLength=0x400", "X-foo=1"]);
    let (_, text) = talk.ask(OPERATIONAL, &second).unwrap();
    assert_eq!(text, block(&["MaxBurstLength=1024", "X-foo=NotUnderstood"]));
}

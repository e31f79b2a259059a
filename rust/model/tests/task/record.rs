//! A record's making, and records of any value.

use crate::{END, FILL, GIVEN, ITT, LUN, TAG, at_level, case, data_out, data_snack};
use calls::{Engine, HEADER_BYTES, OpenR2t, Refusal, Task, TaskGiven};
use model::Model;
use testkit::Rng;
use testkit::pdu::NO_TAG;

#[test]
fn a_fresh_record() {
    let given = TaskGiven {
        came: u32::MAX,
        max_burst: 0,
        max_r2t: 1,
        ..GIVEN
    };
    let fresh = Task {
        itt: ITT,
        lun: LUN,
        tag: TAG,
        max_burst: 0,
        max_r2t: 1,
        sent: 0,
        acknowledged: 0,
        any_data_in: false,
        offset: 0,
        burst: 0,
        snack_tag: 0,
        asked: 0xffff_ffff,
        came: 0xffff_ffff,
        data_sn: 0,
        open: vec![],
    };
    assert_eq!(Model::default().task(given), Ok(fresh));
}

#[test]
fn a_record_holds_one_to_eight_open_r2ts() {
    let make = |max_r2t| Model::default().task(TaskGiven { max_r2t, ..GIVEN });
    for max_r2t in 1..=8 {
        assert_eq!(make(max_r2t).unwrap().max_r2t, max_r2t as u8);
    }
    // Not cut to eight bits either.
    for max_r2t in [0, 9, 10, 0x100, 0x101, 0x108, 0xffff] {
        assert_eq!(make(max_r2t), Err(Refusal::Field), "{max_r2t}");
    }
}

/// A record of any value, often near a boundary.
fn any_task(rng: &mut Rng) -> Task {
    let wide = [0, 1, END - 1, END, END + 1, u64::MAX - 1, u64::MAX];
    let open = rng.index(12);
    Task {
        itt: rng.pick(&[ITT, NO_TAG]),
        lun: rng.number(),
        tag: rng.pick(&[TAG, NO_TAG]),
        max_burst: rng.u32(),
        max_r2t: rng.pick(&[0, 1, 8, 9, 255]),
        sent: rng.u32(),
        acknowledged: rng.u32(),
        any_data_in: rng.one_in(2),
        offset: rng.pick(&wide),
        burst: rng.u32(),
        snack_tag: rng.u32(),
        asked: rng.pick(&wide),
        came: rng.pick(&wide),
        data_sn: rng.u32(),
        open: (0..open)
            .map(|_| OpenR2t {
                tag: rng.pick(&[1, NO_TAG]),
                end: rng.pick(&wide),
            })
            .collect(),
    }
}

#[test]
fn any_record_gets_an_answer() {
    let mut rng = Rng::new(1);
    let mut answered = [0; 6];
    for _ in 0..200_000 {
        let mut c = case();
        c.task = any_task(&mut rng);
        let before = c.task.clone();
        let which = rng.index(6);
        let good = match which {
            0 => {
                let flags = (rng.one_in(2), rng.one_in(2));
                let length = rng.pick(&[0, 1, 8192, 8193, u32::MAX]);
                c.data_in_on(0, flags, length).is_ok()
            }
            1 => {
                let (tag, length) = (rng.pick(&[1, NO_TAG]), rng.u32());
                c.r2t(tag, length).is_ok()
            }
            2 => {
                let tag = c.task.open.first().map_or(1, |r2t| r2t.tag);
                let (sn, at) = (c.task.data_sn, c.task.came as u32);
                let count = rng.pick(&[0, 1, 2]);
                let pdu = data_out(tag, sn, at, count, rng.one_in(2));
                c.data_out(&pdu.itt(c.task.itt)).is_ok()
            }
            3 => {
                let kind = rng.pick(&[0, 2, 3]);
                let (beg_run, run_length) = (rng.u32(), rng.u32());
                let run = rng.pick(&[(beg_run, run_length), (0, 0), (beg_run, 0)]);
                c.snack(&data_snack(kind, run.0, run.1), rng.u32()).is_ok()
            }
            4 => {
                let snack_tag = c.task.snack_tag;
                c.status(rng.pick(&[0, 1]), ITT, snack_tag).is_ok()
            }
            _ => {
                let tags = (c.task.itt, c.task.snack_tag);
                c.status(0, tags.0, tags.1).unwrap();
                c.task = any_task(&mut rng);
                let mut out = [FILL; HEADER_BYTES];
                c.model.resend(0, 0x18, &c.task, &mut out).unwrap();
                continue;
            }
        };
        answered[which] += u32::from(good);
        assert!(good || c.task == before);
    }
    assert!(answered[..5].iter().all(|&n| n > 50), "{answered:?}");
}

/// What the calls make of a record: the conditions under which a script may set one.
fn assert_sound(t: &Task) {
    assert!((1..=8).contains(&t.max_r2t) && t.open.len() <= t.max_r2t.into());
    assert!(t.acknowledged <= t.sent);
    assert!(t.offset <= END && t.burst <= t.max_burst);
    assert!(t.came <= t.asked && t.asked <= END);
    let ends: Vec<u64> = [t.came]
        .into_iter()
        .chain(t.open.iter().map(|r2t| r2t.end))
        .collect();
    assert!(ends.is_sorted_by(|a, b| a < b), "ends rise strictly");
    assert_eq!(ends.last(), Some(&t.asked));
    assert!(t.open.iter().all(|r2t| r2t.tag != NO_TAG));
    assert!(!t.open.is_empty() || t.data_sn == 0);
}

#[test]
fn a_list_of_calls_leaves_a_sound_record() {
    for seed in 0..300 {
        let mut rng = Rng::new(seed);
        let mut c = at_level(
            1,
            TaskGiven {
                came: rng.pick(&[0, 100, 0xffff_f000]),
                max_burst: rng.pick(&[0, 1, 64, 512]),
                max_r2t: rng.pick(&[1, 2, 8]),
                ..GIVEN
            },
        );
        // What came and was answered, told apart from the record.
        let (mut came, mut sent, mut acknowledged) = (c.task.came, 0, 0);
        for _ in 0..300 {
            let length = rng.pick(&[0, 1, 7, 64, 512]);
            match rng.index(6) {
                0 | 1 => {
                    let f = rng.one_in(3);
                    let offset = c.task.offset as u32;
                    if let Ok(answer) = c.data_in(f, length) {
                        assert_eq!(answer, (sent, offset));
                        sent += 1;
                    }
                }
                2 => {
                    let asked = c.task.asked as u32;
                    if let Ok(answer) = c.r2t(rng.pick(&[1, 2, NO_TAG]), length) {
                        assert_eq!(answer, (sent, asked));
                        sent += 1;
                    }
                }
                3 | 4 => {
                    let Some(&oldest) = c.task.open.first() else {
                        continue;
                    };
                    let left = oldest.end - came;
                    let count = left.min(length.into());
                    let f = (count == left) != rng.one_in(10);
                    let (sn, at) = (c.task.data_sn, came as u32);
                    let pdu = data_out(oldest.tag, sn, at, count as usize, f);
                    let answer = c.data_out(&pdu);
                    assert_eq!(answer.is_ok(), f == (count == left));
                    if let Ok((offset, count, _)) = answer {
                        assert_eq!(u64::from(offset), came);
                        came += u64::from(count);
                    }
                }
                _ if rng.one_in(10) => {
                    let count = sent - acknowledged;
                    let offset = rng.pick(&[0, 100, 0xffff_ff00]);
                    assert_eq!(c.send_anew(9, offset), Ok((acknowledged, count)));
                    sent = acknowledged;
                }
                _ => {
                    let beg_run = rng.below(u64::from(sent) + 2) as u32;
                    let newly = beg_run.saturating_sub(acknowledged);
                    let wanted = if beg_run > sent {
                        Err(Refusal::Snack)
                    } else {
                        acknowledged += newly;
                        Ok(newly)
                    };
                    assert_eq!(c.data_ack(beg_run), wanted);
                }
            }
            assert_sound(&c.task);
            assert_eq!((c.task.sent, c.task.acknowledged), (sent, acknowledged));
            assert_eq!(c.task.came, came);
        }
    }
}

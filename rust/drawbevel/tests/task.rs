//! A record in Rust: its numbers by name, the way to [`calls::Task`] and back, and the session's calls on it.

use calls::{Engine, OpenR2t};
use drawbevel::{
    Came, DataInPdu, DataSnack, Refusal, Response, Run, Session, Task, TaskGiven, TooManyOpen,
};
use model::Model;
use testkit::{Bytes, pdu};

/// A record in which no two numbers are equal.
fn every_number() -> calls::Task {
    let open = (0..8).map(|k| OpenR2t {
        tag: 0x30 + k,
        end: 0x1_0000_0040 + u64::from(k),
    });
    calls::Task {
        itt: 1,
        lun: 0x0203_0405_0607_0809,
        tag: 10,
        max_burst: 11,
        max_r2t: 12,
        sent: 13,
        acknowledged: 14,
        any_data_in: true,
        offset: 0x1_0000_0010,
        burst: 15,
        snack_tag: 16,
        asked: 0x1_0000_0011,
        came: 0x1_0000_0012,
        data_sn: 17,
        open: open.collect(),
    }
}

#[test]
fn a_record_goes_to_words_and_back() {
    let whole = every_number();
    let fresh = calls::Task::fresh_for(7);
    for length in 0..=8 {
        for any_data_in in [false, true] {
            let mut task = whole.clone();
            task.open.truncate(length);
            task.any_data_in = any_data_in;
            let words = Task::try_from(&task).unwrap();
            assert_eq!(calls::Task::from(&words), task);
        }
    }
    let words = Task::try_from(&fresh).unwrap();
    assert_eq!(calls::Task::from(&words), fresh);
    assert_eq!(format!("{words:?}"), format!("{fresh:?}"));
}

#[test]
fn every_number_has_its_name() {
    let task = every_number();
    let words = Task::try_from(&task).unwrap();
    assert_eq!((words.itt(), words.lun()), (task.itt, task.lun));
    assert_eq!((words.tag(), words.max_burst()), (task.tag, task.max_burst));
    assert_eq!((words.max_r2t(), words.sent()), (task.max_r2t, task.sent));
    assert_eq!(words.acknowledged(), task.acknowledged);
    assert_eq!(words.any_data_in(), task.any_data_in);
    assert_eq!((words.offset(), words.burst()), (task.offset, task.burst));
    assert_eq!(words.snack_tag(), task.snack_tag);
    assert_eq!((words.asked(), words.came()), (task.asked, task.came));
    assert_eq!(words.data_sn(), task.data_sn);
    assert_eq!(words.open().len(), 8);
    assert!(words.open().eq(task.open.iter().copied()));
}

#[test]
fn nine_open_r2ts_have_no_words() {
    let mut task = every_number();
    task.open.push(OpenR2t { tag: 1, end: 2 });
    assert_eq!(Task::try_from(&task).unwrap_err(), TooManyOpen);
}

#[test]
fn a_fresh_record_is_the_models() {
    for max_r2t in [0, 1, 8, 9, 0x101, 0xffff] {
        let given = TaskGiven {
            itt: 1,
            lun: 2,
            tag: 3,
            came: 4,
            max_burst: 5,
            max_r2t,
        };
        let made = Task::new(given).map(|task| calls::Task::from(&task));
        assert_eq!(made, Model::default().task(given));
    }
}

/// A write and a read of one task, as a program does it.
#[test]
fn a_session_moves_a_tasks_data() {
    let mut session = Session::new(1, 100, 1);
    let given = TaskGiven {
        itt: 0x10,
        lun: 0,
        tag: 0x21,
        came: 0,
        max_burst: 512,
        max_r2t: 2,
    };
    let mut task = Task::new(given).unwrap();
    let mut out = [0xee; 48];
    for (tag, length) in [(0x31, 512), (0x32, 4)] {
        assert_eq!(session.r2t(0, &mut task, &mut out, tag, length), Ok(()));
    }
    let third = session.r2t(0, &mut task, &mut out, 0x33, 1);
    assert_eq!((third, task.sent()), (Err(Refusal::Field), 2));
    let answer = |ttt, offset: u64, count: usize| {
        let pdu = Bytes::new(0x05, 0x80).itt(0x10).ttt(ttt);
        pdu.field(40, 4, offset).data(&vec![7; count])
    };
    let second = answer(0x32, 512, 4);
    let early = session.data_out(0, &mut task, &second.0);
    assert_eq!((early, task.came()), (Err(Refusal::Field), 0));
    for (pdu, offset, count, open) in [(answer(0x31, 0, 512), 0, 512, 1), (second, 512, 4, 0)] {
        let came = Came {
            offset,
            count,
            open,
        };
        assert_eq!(session.data_out(0, &mut task, &pdu.0), Ok(came));
    }

    let data = DataInPdu {
        final_bit: true,
        acknowledge: true,
        data_segment_length: 512,
    };
    assert_eq!(session.data_in(0, &mut task, &mut out, data), Ok(()));
    assert_eq!((out[0], &out[36..40]), (0x25, &[0, 0, 0, 2][..]));
    let data_ack = pdu::snack(2, 3, 0).ttt(0x21);
    let acknowledged = session.data_snack(0, &mut task, 0, &data_ack.0);
    assert_eq!(acknowledged, Ok(DataSnack::Acknowledged(3)));
    assert_eq!(session.data_in(0, &mut task, &mut out, data), Ok(()));
    let anew = pdu::snack(3, 0, 0).itt(0x10).ttt(0x41);
    let run = Run { first: 3, count: 1 };
    let answer = session.data_snack(0, &mut task, 512, &anew.0);
    assert_eq!(answer, Ok(DataSnack::Run(run)));
    assert_eq!((task.sent(), task.offset()), (3, 512));
    assert_eq!(session.data_in(0, &mut task, &mut out, data), Ok(()));

    let status = |snack_tag| Response::Scsi {
        overflow: false,
        underflow: false,
        response: 0,
        status: 0,
        data_segment_length: 0,
        itt: 0x10,
        snack_tag,
        residual: 0,
        exp_data_sn: 0,
    };
    let untagged = session.send(0, 7, &task, &mut out, &status(0));
    assert_eq!(untagged, Err(Refusal::Field));
    assert_eq!(session.send(0, 7, &task, &mut out, &status(0x41)), Ok(100));
    assert_eq!(out[36..40], [0, 0, 0, 4]);
    let mut again = [0; 48];
    assert_eq!(session.resend(0, 100, &task, &mut again), Ok(7));
    assert_eq!(again, out);
}

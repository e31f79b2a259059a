//! Records of tasks: made, and set to values that the call script lets through.

use calls::{OpenR2t, Task, TaskGiven};
use testkit::Rng;
use testkit::pdu::NO_TAG;

/// The end of all offsets.
pub const END: u64 = 1 << 32;

/// What a record is made from: mostly good.
pub fn given(rng: &mut Rng) -> TaskGiven {
    let before_the_end = u32::MAX - rng.below(3000) as u32;
    TaskGiven {
        itt: itt(rng),
        lun: rng.number(),
        tag: tag(rng),
        came: rng.pick(&[0, 0, 1, 100, 8192, before_the_end, u32::MAX]),
        max_burst: max_burst(rng),
        max_r2t: match rng.below(12) {
            0 => rng.pick(&[0, 9, 10, 0x100, 0x101, 0x108, 0xffff]),
            1..=3 => 1,
            4..=6 => 8,
            _ => 1 + rng.below(8) as u16,
        },
    }
}

/// A record that a script may set: any values, often at a boundary.
pub fn record(rng: &mut Rng) -> Task {
    let max_burst = max_burst(rng);
    let max_r2t = if rng.one_in(2) {
        8
    } else {
        1 + rng.below(8) as u8
    };
    let sent = match rng.below(4) {
        0 => rng.u32(),
        1 => u32::MAX - rng.below(4) as u32,
        _ => rng.below(40) as u32,
    };
    let acknowledged = rng.pick(&[0, 0, sent / 2, sent.saturating_sub(1), sent]);
    let near = END - rng.below(9000);
    let offset = match rng.below(5) {
        0 => END,
        1 => END - 1,
        2 => near,
        3 => rng.below(END),
        _ => 0,
    };
    let burst = rng.pick(&[0, max_burst / 2, max_burst.saturating_sub(1), max_burst]);
    let (came, open) = open_r2ts(rng, max_r2t);
    let first_data_sn = rng.pick(&[0, 0, 1, 5, u32::MAX - 1, u32::MAX]);
    Task {
        itt: itt(rng),
        lun: rng.number(),
        tag: tag(rng),
        max_burst,
        max_r2t,
        sent,
        acknowledged,
        any_data_in: rng.one_in(2),
        offset,
        burst,
        snack_tag: if rng.one_in(2) { 0 } else { rng.u32() },
        asked: open.last().map_or(came, |r2t| r2t.end),
        came,
        data_sn: if open.is_empty() { 0 } else { first_data_sn },
        open,
    }
}

/// Up to where data came, and the open R2Ts after it; often up to 2^32.
fn open_r2ts(rng: &mut Rng, max_r2t: u8) -> (u64, Vec<OpenR2t>) {
    let count = match rng.below(4) {
        0 => 0,
        1 => max_r2t.into(),
        _ => rng.index(usize::from(max_r2t) + 1),
    };
    let lengths: Vec<_> = (0..count)
        .map(|_| match rng.below(6) {
            0 => 1,
            1 => 1 + rng.below(9000),
            _ => 1 + rng.below(60),
        })
        .collect();
    let all: u64 = lengths.iter().sum();
    let came = match rng.below(4) {
        0 => END - all,
        1 => rng.below(END - all),
        _ => rng.below(300),
    };
    let mut end = came;
    let open = lengths.iter().map(|length| {
        end += length;
        OpenR2t {
            tag: transfer_tag(rng),
            end,
        }
    });
    (came, open.collect())
}

/// An R2T's tag, which may be another's too.
pub fn transfer_tag(rng: &mut Rng) -> u32 {
    match rng.below(6) {
        0 => rng.pick(&[0, 0xffff_fffe]),
        1 => rng.number() as u32 >> 1,
        _ => rng.below(30) as u32,
    }
}

fn itt(rng: &mut Rng) -> u32 {
    match rng.below(8) {
        0 => rng.u32(),
        _ => 0x10 + rng.below(8) as u32,
    }
}

fn tag(rng: &mut Rng) -> u32 {
    match rng.below(4) {
        0 => NO_TAG,
        _ => rng.u32(),
    }
}

fn max_burst(rng: &mut Rng) -> u32 {
    match rng.below(10) {
        0 => rng.pick(&[0, 1, u32::MAX]),
        1..=3 => 512,
        4..=5 => 20 + rng.below(200) as u32,
        6 => 8192,
        _ => rng.pick(&[8191, 16_384, 24_577, 262_144]),
    }
}

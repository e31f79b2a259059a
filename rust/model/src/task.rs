//! Request L1, "Data phases": the record of a task, and each data call's rule as a function from the record to its
//! answer and the record after it. Refusals that come before these, of lent outputs, connections, reading and writing,
//! are the session's. Any record value gets an answer, also one that no call gave.

use crate::fields::put;
use crate::read::NO_TAG;
use calls::{
    Came, DataInPdu, DataSnack, HEADER_BYTES, OpenR2t, Pdu, Refusal, Request, Response, Run, Snack,
    Task, TaskGiven,
};

/// How many open R2Ts a record holds.
const MOST_OPEN: usize = 8;
/// No data lies past this: a Buffer Offset has 32 bits.
const END_OF_OFFSETS: u64 = 1 << 32;
/// The count of Data-In and R2T that a task never passes: fewer than 2^32 are sent.
const MOST_SENT: u32 = u32::MAX;
/// The DataSN that no Data-Out has.
const NEVER_DUE: u32 = u32::MAX;
/// The SNACK type that asks for Data-In and R2T again.
const DATA_SNACK: u8 = 0;
/// The SNACK type that acknowledges Data-In and R2T.
const DATA_ACK: u8 = 2;
/// The SNACK type that asks for all unacknowledged Data-In anew.
const R_DATA_SNACK: u8 = 3;
/// Opcode of a SCSI Response.
const SCSI_RESPONSE: u8 = 0x21;

/// The record of a task for which nothing was sent and nothing but the immediate data came.
pub fn make(given: TaskGiven) -> Result<Task, Refusal> {
    if given.max_r2t == 0 || usize::from(given.max_r2t) > MOST_OPEN {
        return Err(Refusal::Field);
    }
    Ok(Task {
        itt: given.itt,
        lun: given.lun,
        tag: given.tag,
        max_burst: given.max_burst,
        max_r2t: given.max_r2t as u8,
        sent: 0,
        acknowledged: 0,
        any_data_in: false,
        offset: 0,
        burst: 0,
        snack_tag: 0,
        asked: given.came.into(),
        came: given.came.into(),
        data_sn: 0,
        open: Vec::new(),
    })
}

/// The next Data-In. LUN and Target Transfer Tag are reserved where A is clear.
pub fn next_data_in(task: &Task, pdu: DataInPdu) -> Response {
    Response::DataIn {
        final_bit: pdu.final_bit,
        acknowledge: pdu.acknowledge,
        data_segment_length: pdu.data_segment_length,
        lun: if pdu.acknowledge { task.lun } else { 0 },
        itt: task.itt,
        ttt: if pdu.acknowledge { task.tag } else { NO_TAG },
        data_sn: task.sent,
        buffer_offset: task.offset as u32,
    }
}

/// Send a Data-In. F ends the burst.
pub fn data_in(task: &Task, pdu: DataInPdu) -> Result<(Response, Task), Refusal> {
    let burst = u64::from(task.burst) + u64::from(pdu.data_segment_length);
    let end = end_of(task.offset, pdu.data_segment_length);
    let burst_too_long = burst > u64::from(task.max_burst);
    let past_the_offsets = task.offset >= END_OF_OFFSETS || end > END_OF_OFFSETS;
    let no_tag_for_a = pdu.acknowledge && task.tag == NO_TAG;
    if burst_too_long || past_the_offsets || task.sent == MOST_SENT || no_tag_for_a {
        return Err(Refusal::Field);
    }
    let after = Task {
        sent: task.sent + 1,
        any_data_in: true,
        offset: end,
        // At most MaxBurstLength, so it fits.
        burst: if pdu.final_bit { 0 } else { burst as u32 },
        ..task.clone()
    };
    Ok((next_data_in(task, pdu), after))
}

/// Send an R2T for the bytes after those asked for.
pub fn r2t(task: &Task, tag: u32, desired: u32) -> Result<(Response, Task), Refusal> {
    let end = end_of(task.asked, desired);
    let bad_length = desired == 0 || desired > task.max_burst;
    let most_open = usize::from(task.max_r2t).min(MOST_OPEN);
    let none_free = task.open.len() >= most_open;
    let past_the_offsets = end > END_OF_OFFSETS;
    if tag == NO_TAG || bad_length || past_the_offsets || none_free || task.sent == MOST_SENT {
        return Err(Refusal::Field);
    }
    let response = Response::R2t {
        lun: task.lun,
        itt: task.itt,
        ttt: tag,
        r2t_sn: task.sent,
        buffer_offset: task.asked as u32,
        desired_data_transfer_length: desired,
    };
    let mut after = task.clone();
    after.sent += 1;
    after.asked = end;
    after.open.push(OpenR2t { tag, end });
    Ok((response, after))
}

/// Take a Data-Out, which answers the oldest open R2T. F ends its burst exactly where that R2T ends.
pub fn data_out(task: &Task, pdu: &Pdu) -> Result<(Came, Task), Refusal> {
    let Request::DataOut(data_out) = pdu.request else {
        return Err(Refusal::Field);
    };
    let Some(oldest) = task.open.first() else {
        return Err(Refusal::Field);
    };
    let tags_are_due = pdu.itt == task.itt && data_out.ttt == oldest.tag;
    let number_is_due = data_out.data_sn == task.data_sn && task.data_sn != NEVER_DUE;
    let offset_is_due = u64::from(data_out.buffer_offset) == task.came;
    // A data segment has 8,192 bytes at most.
    let count = pdu.data.length as u32;
    let end = end_of(task.came, count);
    let ends_well = end <= oldest.end && data_out.final_bit == (end == oldest.end);
    if !(tags_are_due && number_is_due && offset_is_due && ends_well) {
        return Err(Refusal::Field);
    }
    let mut after = task.clone();
    after.came = end;
    if data_out.final_bit {
        after.open.remove(0);
        after.data_sn = 0;
    } else {
        after.data_sn += 1;
    }
    let came = Came {
        offset: data_out.buffer_offset,
        count,
        open: u8::try_from(after.open.len()).unwrap_or(u8::MAX),
    };
    Ok((came, after))
}

/// Take a SNACK of type 0, 2 or 3. Only type 3 uses the offset.
pub fn data_snack(
    task: &Task,
    level: u8,
    offset: u32,
    pdu: &Pdu,
) -> Result<(DataSnack, Task), Refusal> {
    let Request::Snack(snack) = pdu.request else {
        return Err(Refusal::Field);
    };
    let tag_is_due = match snack.kind {
        DATA_SNACK | R_DATA_SNACK => pdu.itt == task.itt,
        DATA_ACK => snack.ttt == task.tag && task.tag != NO_TAG,
        _ => false,
    };
    if !tag_is_due {
        return Err(Refusal::Field);
    }
    if level == 0 {
        return Err(Refusal::Snack);
    }
    match snack.kind {
        DATA_SNACK => Ok((DataSnack::Run(run(task, snack)?), task.clone())),
        DATA_ACK => acknowledge(task, snack.beg_run),
        _ => send_anew(task, snack, offset),
    }
}

/// All numbers sent and not acknowledged; the next number and 0 where there are none.
fn unacknowledged(task: &Task) -> Run {
    Run {
        first: task.acknowledged.min(task.sent),
        count: task.sent.saturating_sub(task.acknowledged),
    }
}

/// The run that a SNACK of type 0 asks for, read as the ledger's.
fn run(task: &Task, snack: Snack) -> Result<Run, Refusal> {
    if snack.beg_run == 0 && snack.run_length == 0 {
        return Ok(unacknowledged(task));
    }
    if snack.beg_run < task.acknowledged || snack.beg_run >= task.sent {
        return Err(Refusal::Snack);
    }
    let to_the_end = task.sent - snack.beg_run;
    if snack.run_length > to_the_end {
        return Err(Refusal::Snack);
    }
    Ok(Run {
        first: snack.beg_run,
        count: if snack.run_length == 0 {
            to_the_end
        } else {
            snack.run_length
        },
    })
}

/// Type 2: those before BegRun are acknowledged; the numbers acknowledged never go back.
fn acknowledge(task: &Task, beg_run: u32) -> Result<(DataSnack, Task), Refusal> {
    if beg_run > task.sent {
        return Err(Refusal::Snack);
    }
    let after = Task {
        acknowledged: beg_run.max(task.acknowledged),
        ..task.clone()
    };
    let newly = after.acknowledged - task.acknowledged;
    Ok((DataSnack::Acknowledged(newly), after))
}

/// Type 3: Data-In and its count go on from the first number that isn't acknowledged, in a new burst at the offset
/// given. Open R2Ts stay open.
fn send_anew(task: &Task, snack: Snack, offset: u32) -> Result<(DataSnack, Task), Refusal> {
    if snack.beg_run != 0 || snack.run_length != 0 {
        return Err(Refusal::Snack);
    }
    let after = Task {
        sent: task.acknowledged,
        offset: offset.into(),
        burst: 0,
        snack_tag: snack.ttt,
        ..task.clone()
    };
    Ok((DataSnack::Run(unacknowledged(task)), after))
}

/// ExpDataSN of a SCSI Response with this response code: the count of Data-In and R2T sent. It is 0 where the command
/// didn't complete at the target, and for a task without any Data-In.
pub fn exp_data_sn(task: &Task, response_code: u8) -> u32 {
    if response_code == 0 && task.any_data_in {
        task.sent
    } else {
        0
    }
}

/// A response as it is sent for this task: a SCSI Response must have the record's tags, and gets its ExpDataSN from it.
pub fn status(task: &Task, response: &Response) -> Result<Response, Refusal> {
    let mut status = *response;
    if let Response::Scsi {
        response,
        itt,
        snack_tag,
        exp_data_sn: count,
        ..
    } = &mut status
    {
        if *itt != task.itt || *snack_tag != task.snack_tag {
            return Err(Refusal::Field);
        }
        *count = exp_data_sn(task, *response);
    }
    Ok(status)
}

/// What a resend renews in the stored header of a SCSI Response: ExpDataSN, and the SNACK tag where a type 3 came. It
/// is never refused, whatever record is given.
pub fn renew(task: &Task, header: &mut [u8; HEADER_BYTES]) {
    if header[0] != SCSI_RESPONSE {
        return;
    }
    let response_code = header[2];
    put(header, 36, 4, exp_data_sn(task, response_code).into());
    if task.snack_tag != 0 {
        put(header, 20, 4, task.snack_tag.into());
    }
}

/// Where data of this length ends. A sum too wide for 64 bits is past every end all the same.
fn end_of(offset: u64, length: u32) -> u64 {
    offset.saturating_add(length.into())
}

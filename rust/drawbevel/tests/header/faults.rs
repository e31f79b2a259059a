//! Faulty headers: `drawbevel.h` with one text replaced by another. Each must compile as the header does, and be found.

use crate::checks;
use crate::shim::Library;
use difftest::{Area, run};
use model::Model;
use std::fs;
use std::panic::{AssertUnwindSafe, catch_unwind};
use std::path::Path;
use testkit::c::Language;
use testkit::traps;

/// A fault: its name, the text that occurs once in the header, and what stands in its place.
pub type Fault = (&'static str, &'static str, &'static str);

/// Every fault.
pub const ALL: &[Fault] = &[
    // ---- two fields, two places
    (
        "Time2Wait and Time2Retain swapped",
        "words[3] = response->of.logout_response.time2wait;
        words[4] = response->of.logout_response.time2retain;",
        "words[4] = response->of.logout_response.time2wait;
        words[3] = response->of.logout_response.time2retain;",
    ),
    (
        "O and U swapped",
        "words[1] = response->of.scsi_response.overflow;
        words[2] = response->of.scsi_response.underflow;",
        "words[2] = response->of.scsi_response.overflow;
        words[1] = response->of.scsi_response.underflow;",
    ),
    (
        "CSG and NSG of a response swapped",
        "words[2] = response->of.login_response.csg;
        words[3] = response->of.login_response.nsg;",
        "words[3] = response->of.login_response.csg;
        words[2] = response->of.login_response.nsg;",
    ),
    (
        "CSG and NSG of a request swapped",
        "pdu->request.login.csg = own[2];
        pdu->request.login.nsg = own[3];",
        "pdu->request.login.csg = own[3];
        pdu->request.login.nsg = own[2];",
    ),
    (
        "CSG and NSG of a login's answer swapped",
        "answer->csg = (uint8_t)a[4];
    answer->nsg = (uint8_t)a[5];",
        "answer->csg = (uint8_t)a[5];
    answer->nsg = (uint8_t)a[4];",
    ),
    (
        "CmdSN and I swapped",
        "pdu->immediate = common[1];
    pdu->cmd_sn = common[2];",
        "pdu->immediate = common[2];
    pdu->cmd_sn = common[1];",
    ),
    (
        "first and count of a run swapped",
        "*first = a[1];
    *count = a[2];",
        "*first = a[2];
    *count = a[1];",
    ),
    (
        "emptied and voided swapped",
        "*emptied = a[1];
    *voided = a[2];",
        "*emptied = a[2];
    *voided = a[1];",
    ),
    (
        "ExpCmdSN and MaxCmdSN asked for swapped",
        "*exp_cmd_sn = a[1];
    *max_cmd_sn = a[2];",
        "*exp_cmd_sn = a[2];
    *max_cmd_sn = a[1];",
    ),
    (
        "ExpCmdSN and MaxCmdSN written swapped",
        "words, stat_sn, exp_cmd_sn, max_cmd_sn);",
        "words, stat_sn, max_cmd_sn, exp_cmd_sn);",
    ),
    (
        "number and ticket of a command swapped",
        "command->number = a[1];
    command->ticket = a[2];",
        "command->number = a[2];
    command->ticket = a[1];",
    ),
    (
        "ticket and origin of a holder swapped",
        "held->ticket = a[1];
    held->origin = a[2];",
        "held->ticket = a[2];
    held->origin = a[1];",
    ),
    (
        "place and length of the data swapped",
        "pdu->data_start = common[6];
    pdu->data_segment_length = common[7];",
        "pdu->data_start = common[7];
    pdu->data_segment_length = common[6];",
    ),
    (
        "halves of the CDB swapped",
        "cdb[0] = own[6];
        pdu->request.scsi_command.cdb[1] = own[7];",
        "cdb[0] = own[7];
        pdu->request.scsi_command.cdb[1] = own[6];",
    ),
    (
        "class and detail of a refused login swapped",
        "status_class = status >> 8;
    response.of.login_response.status_detail = status & 0xff;",
        "status_class = status & 0xff;
    response.of.login_response.status_detail = status >> 8;",
    ),
    (
        "DataSN and offset of a Data-Out swapped",
        "data_out.data_sn = own[2];
        pdu->request.data_out.buffer_offset = own[3];",
        "data_out.data_sn = own[3];
        pdu->request.data_out.buffer_offset = own[2];",
    ),
    (
        "F and A of a Data-In swapped",
        "words[1] = response->of.data_in.is_final;
        words[2] = response->of.data_in.acknowledge;",
        "words[2] = response->of.data_in.is_final;
        words[1] = response->of.data_in.acknowledge;",
    ),
    (
        "DataSN and offset of a Data-In swapped",
        "words[7] = response->of.data_in.data_sn;
        words[8] = response->of.data_in.buffer_offset;",
        "words[8] = response->of.data_in.data_sn;
        words[7] = response->of.data_in.buffer_offset;",
    ),
    (
        "offset and desired length of an R2T swapped",
        "words[5] = response->of.r2t.buffer_offset;
        words[6] = response->of.r2t.desired_data_transfer_length;",
        "words[6] = response->of.r2t.buffer_offset;
        words[5] = response->of.r2t.desired_data_transfer_length;",
    ),
    (
        "residual count and ExpDataSN swapped",
        "words[8] = response->of.scsi_response.residual_count;
        words[9] = response->of.scsi_response.exp_data_sn;",
        "words[9] = response->of.scsi_response.residual_count;
        words[8] = response->of.scsi_response.exp_data_sn;",
    ),
    (
        "offset and count of a Data-Out swapped",
        "came->offset = a[1];
    came->count = a[2];",
        "came->offset = a[2];
    came->count = a[1];",
    ),
    (
        "first and count of a data SNACK's run swapped",
        "*first = is_run ? a[1] : 0;
    *count = is_run ? a[2] : a[1];",
        "*first = is_run ? a[2] : 0;
    *count = a[1];",
    ),
    // ---- arguments
    (
        "F and A of a task's Data-In swapped",
        "connection, is_final,
                                                                   acknowledge, data",
        "connection, acknowledge,
                                                                   is_final, data",
    ),
    (
        "tag and length of a task's R2T swapped",
        "target_transfer_tag, desired_data_transfer_length, out, lent);",
        "desired_data_transfer_length, target_transfer_tag, out, lent);",
    ),
    (
        "immediate length and MaxBurstLength swapped",
        "target_transfer_tag, immediate, max_burst_length,
                                     max_outstanding_r2t);",
        "target_transfer_tag, max_burst_length, immediate,
                                     max_outstanding_r2t);",
    ),
    (
        "the tags of a record swapped",
        "task->wide, initiator_task_tag, lun, target_transfer_tag,",
        "task->wide, target_transfer_tag, lun, initiator_task_tag,",
    ),
    (
        "a wrong array for a record's numbers of 64 bits",
        "task->wide, task->tags, task->ends, a);",
        "task->ends, task->tags, task->ends, a);",
    ),
    (
        "connection and offset of a data SNACK swapped",
        "connection, pdu, length, task->numbers, task->wide, offset, a);",
        "offset, pdu, length, task->numbers, task->wide, connection, a);",
    ),
    (
        "connection and ticket of a send swapped",
        "task->wide, connection, ticket,
",
        "task->wide, ticket, connection,
",
    ),
    (
        "a wrong array for a resend's record",
        "session->status_tickets, task->numbers, task->wide,
                                       connection, stat_sn, out, lent);",
        "session->status_tickets, session->numbers, task->wide,
                                       connection, stat_sn, out, lent);",
    ),
    (
        "connection and ticket of an offer swapped",
        "session->tickets, connection,
                                                                 ticket, pdu, length);",
        "session->tickets, ticket,
                                                                 connection, pdu, length);",
    ),
    (
        "connection and StatSN of an opening swapped",
        "drawbevel_core_open(session->numbers, session->maps, connection, stat_sn);",
        "drawbevel_core_open(session->numbers, session->maps, stat_sn, connection);",
    ),
    (
        "first number and StatSN of a fresh session swapped",
        "session->status_tickets, first,
                         stat_sn, level);",
        "session->status_tickets, stat_sn,
                         first, level);",
    ),
    (
        "live and new handle swapped",
        "pdu, length, live, new_handle, target_name, name_length, gather,",
        "pdu, length, new_handle, live, target_name, name_length, gather,",
    ),
    (
        "gather area and text output swapped",
        "gather, gather_lent, text,
                         text_lent, a);",
        "text, text_lent, gather,
                         gather_lent, a);",
    ),
    (
        "a wrong array for a fresh session's headers",
        "session->headers, session->tickets, session->statuses,",
        "session->statuses, session->tickets, session->statuses,",
    ),
    (
        "a wrong array for a holder's tickets",
        "session->tickets, number, a);",
        "session->status_tickets, number, a);",
    ),
    (
        "a wrong array for a sent header",
        "session->statuses, session->status_tickets, task->numbers, task->wide, connection, ticket,",
        "session->headers, session->status_tickets, task->numbers, task->wide, connection, ticket,",
    ),
    (
        "a wrong array for the tickets of a resend",
        "session->statuses, session->status_tickets, task->numbers, task->wide,
                                       connection, stat_sn,",
        "session->statuses, session->tickets, task->numbers, task->wide,
                                       connection, stat_sn,",
    ),
    // ---- constants
    (
        "STALE and SNACK with each other's number",
        "DRAWBEVEL_STALE = 11,  /* an ExpStatSN outside the ledger */
    DRAWBEVEL_SNACK = 12, ",
        "DRAWBEVEL_STALE = 12,  /* an ExpStatSN outside the ledger */
    DRAWBEVEL_SNACK = 11, ",
    ),
    (
        "KEPT and DUPLICATE with each other's number",
        "DRAWBEVEL_KEPT = 33,      /* the command is held from now on */
    DRAWBEVEL_DUPLICATE = 34,",
        "DRAWBEVEL_KEPT = 34,      /* the command is held from now on */
    DRAWBEVEL_DUPLICATE = 33,",
    ),
    (
        "HELD with another number",
        "DRAWBEVEL_HELD = 42",
        "DRAWBEVEL_HELD = 45",
    ),
    (
        "RUN and ACKNOWLEDGED with each other's number",
        "DRAWBEVEL_RUN = 43,       /* Data-In and R2T of a task are to be sent again */
    DRAWBEVEL_ACKNOWLEDGED = 44 ",
        "DRAWBEVEL_RUN = 44,       /* Data-In and R2T of a task are to be sent again */
    DRAWBEVEL_ACKNOWLEDGED = 43 ",
    ),
    (
        "two keys swapped",
        "DRAWBEVEL_DEFAULT_TIME2WAIT,
    DRAWBEVEL_DEFAULT_TIME2RETAIN,",
        "DRAWBEVEL_DEFAULT_TIME2RETAIN,
    DRAWBEVEL_DEFAULT_TIME2WAIT,",
    ),
    (
        "two keys that are always 1 swapped",
        "DRAWBEVEL_MAX_OUTSTANDING_R2T,
    DRAWBEVEL_INITIAL_R2T,",
        "DRAWBEVEL_INITIAL_R2T,
    DRAWBEVEL_MAX_OUTSTANDING_R2T,",
    ),
    (
        "two flags among the keys swapped",
        "DRAWBEVEL_DATA_SEQUENCE_IN_ORDER,
    DRAWBEVEL_IMMEDIATE_DATA,",
        "DRAWBEVEL_IMMEDIATE_DATA,
    DRAWBEVEL_DATA_SEQUENCE_IN_ORDER,",
    ),
    (
        "opcodes of Task Management and Login swapped",
        "DRAWBEVEL_TASK_MANAGEMENT = 0x02,
    DRAWBEVEL_LOGIN_REQUEST = 0x03,",
        "DRAWBEVEL_TASK_MANAGEMENT = 0x03,
    DRAWBEVEL_LOGIN_REQUEST = 0x02,",
    ),
    (
        "opcodes of two responses swapped",
        "DRAWBEVEL_TASK_MANAGEMENT_RESPONSE = 0x22,
    DRAWBEVEL_LOGIN_RESPONSE = 0x23,",
        "DRAWBEVEL_TASK_MANAGEMENT_RESPONSE = 0x23,
    DRAWBEVEL_LOGIN_RESPONSE = 0x22,",
    ),
    (
        "Data-Out with another's opcode",
        "DRAWBEVEL_DATA_OUT = 0x05,",
        "DRAWBEVEL_DATA_OUT = 0x04,",
    ),
    (
        "Data-In with another's opcode",
        "DRAWBEVEL_DATA_IN = 0x25,",
        "DRAWBEVEL_DATA_IN = 0x24,",
    ),
    (
        "R2T with another's opcode",
        "DRAWBEVEL_R2T = 0x31,",
        "DRAWBEVEL_R2T = 0x32,",
    ),
    (
        "NO_ORIGIN a connection's number",
        "DRAWBEVEL_NO_ORIGIN = 4 ",
        "DRAWBEVEL_NO_ORIGIN = 3 ",
    ),
    (
        "the longest PDU one word short",
        "DRAWBEVEL_PDU_BYTES = 9260,",
        "DRAWBEVEL_PDU_BYTES = 9256,",
    ),
    // ---- left out, shifted, cut
    ("LUN not set", "    pdu->lun = common[3];\n", ""),
    (
        "fields of a SNACK shifted",
        "pdu->request.snack.beg_run = own[2];
        pdu->request.snack.run_length = own[3];",
        "pdu->request.snack.beg_run = own[1];
        pdu->request.snack.run_length = own[2];",
    ),
    (
        "F of a Data-Out not set",
        "        pdu->request.data_out.is_final = own[0];\n",
        "",
    ),
    (
        "ExpDataSN of a SCSI Response not taken",
        "        words[9] = response->of.scsi_response.exp_data_sn;\n",
        "",
    ),
    (
        "data length of a Data-In cut to 32 bits",
        "words[3] = response->of.data_in.data_segment_length;",
        "words[3] = (uint32_t)response->of.data_in.data_segment_length;",
    ),
    (
        "R2TSN of an R2T cut to 32 bits",
        "words[4] = response->of.r2t.r2t_sn;",
        "words[4] = (uint32_t)response->of.r2t.r2t_sn;",
    ),
    (
        "a refused read changes the PDU",
        "        return answer;
    pdu->kind = common[0];",
        "        return pdu->kind = 0, answer;
    pdu->kind = common[0];",
    ),
    (
        "CmdSN cut to a byte",
        "pdu->cmd_sn = common[2];",
        "pdu->cmd_sn = (uint8_t)common[2];",
    ),
    (
        "ISID cut to 48 bits",
        "words[5] = response->of.login_response.isid;",
        "words[5] = response->of.login_response.isid & 0xffffffffffff;",
    ),
    (
        "data length of a NOP-In cut to 32 bits",
        "words[1] = response->of.nop_in.data_segment_length;",
        "words[1] = (uint32_t)response->of.nop_in.data_segment_length;",
    ),
    (
        "kind of a response cut to a byte",
        "words[0] = response->kind;\n    switch (response->kind) {",
        "words[0] = (uint8_t)response->kind;\n    switch (words[0]) {",
    ),
    (
        "reason of a Reject not taken",
        "        words[1] = response->of.reject.reason;\n",
        "",
    ),
    (
        "status of a login refusal left out",
        "answer->status = (uint16_t)a[1];",
        "answer->status = 0;",
    ),
    (
        "TSIH of a login's answer cut to a byte",
        "answer->tsih = (uint16_t)a[6];",
        "answer->tsih = (uint8_t)a[6];",
    ),
    (
        "length of a login's answer cut to a byte",
        "answer->length = (size_t)a[7];",
        "answer->length = (uint8_t)a[7];",
    ),
    (
        "whole length not set",
        "*whole = (uint32_t)(a >> 32);",
        "(void)whole;",
    ),
    (
        "released is the answer's number",
        "*released = (uint32_t)(a >> 32);",
        "*released = (uint32_t)a;",
    ),
    (
        "next StatSN not set where it is refused",
        "connection);
    *stat_sn = (uint32_t)(a >> 32);",
        "connection);
    if (a >> 32)
        *stat_sn = (uint32_t)(a >> 32);",
    ),
    (
        "open R2Ts not said",
        "came->open = a[3];",
        "came->open = 0;",
    ),
    (
        "offset of a data SNACK left out",
        "task->wide, offset, a);
    is_run",
        "task->wide, 0 * offset, a);
    is_run",
    ),
    (
        "the ring of a fresh record not set",
        "task->ends[i] = 0;",
        "task->ends[i] += 0;",
    ),
    (
        "the ring set where a making is refused",
        "i < 8 && (uint32_t)a == DRAWBEVEL_DONE; i++",
        "i < 8; i++",
    ),
    // ---- beyond the calls
    (
        "is_refusal without the last",
        "answer <= DRAWBEVEL_SNACK",
        "answer < DRAWBEVEL_SNACK",
    ),
    (
        "is_refusal without the first",
        "answer >= DRAWBEVEL_BUFFER",
        "answer > DRAWBEVEL_BUFFER",
    ),
    (
        "an answer with another's name",
        "return \"FREE\";",
        "return \"HELD\";",
    ),
    (
        "a number that is no answer has a name",
        "default: return \"?\";",
        "default: return \"OK\";",
    ),
    (
        "a login accepted with the request's TSIH",
        "response.of.login_response.tsih = answer->tsih;",
        "response.of.login_response.tsih = pdu->request.login.tsih;",
    ),
    (
        "a login accepted with the request's CSG",
        "response.of.login_response.csg = answer->csg;",
        "response.of.login_response.csg = pdu->request.login.csg;",
    ),
    (
        "a login refused without its CSG",
        "is_login ? pdu->request.login.csg : 0;",
        "0;",
    ),
    (
        "a login refused with fields of another kind",
        "bool is_login = pdu->kind == DRAWBEVEL_LOGIN_REQUEST;",
        "bool is_login = pdu->kind != DRAWBEVEL_REJECT;",
    ),
];

/// Calls of a differential run that looks for a fault.
const CALLS: usize = 21_000;
const SEED: u64 = 64_000_003;

/// The header with a fault. Its text must occur exactly once.
pub fn faulty(header: &str, (name, from, to): Fault) -> String {
    let count = header.matches(from).count();
    assert_eq!(count, 1, "{name}: in the header {count} times: {from}");
    header.replace(from, to)
}

/// How a header of this text is found to be wrong, or none. It is compiled in a folder of its own.
pub fn finding(header: &str, folder: &Path) -> Option<String> {
    fs::create_dir_all(folder).unwrap();
    fs::write(folder.join("drawbevel.h"), header).unwrap();
    let library = Library::compiled(Language::C, folder, &folder.join("shim.so"));
    let fails = |check: &dyn Fn()| catch_unwind(AssertUnwindSafe(check)).is_err();
    for (name, check) in checks::ALL {
        if fails(&|| check(&library)) {
            return Some(format!("check: {name}"));
        }
    }
    for (name, check) in traps::all() {
        if fails(&|| check(&mut library.engine())) {
            return Some(format!("trap: {name}"));
        }
    }
    let differs = || {
        let engine = library.engine();
        run(Model::default(), engine, SEED, CALLS, &Area::ALL).unwrap();
    };
    fails(&differs).then(|| "differential run".into())
}

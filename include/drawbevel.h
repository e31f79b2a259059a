/* Drawbevel: the target's half of iSCSI (RFC 7143) as a proved core. No sockets, no clocks, no heap: the caller keeps every struct and buffer,
 * and gives bytes and calls. C11 and C++17. The functions named drawbevel_core_ are the proved ones; a program calls the inline ones, which
 * only hand over the parts of a struct.
 *
 * Which call answers what, refusals in the order in which they are looked for (READ: those of drawbevel_read):
 *
 *   drawbevel_length         OK                                           LENGTH (under 48 bytes), OPCODE, TOOLONG
 *   drawbevel_read           OK                                           LENGTH (under 48 bytes), OPCODE, TOOLONG, LENGTH, FIELD
 *   drawbevel_write          OK                                           BUFFER, TOOLONG, FIELD
 *   drawbevel_offer          KEPT, DUPLICATE, PASSED, BEYOND, IMMEDIATE   NOCONN, CLOSED, READ, FIELD (another kind)
 *   drawbevel_take           COMMAND, VOID, NOTHING                       BUFFER
 *   drawbevel_logout         DONE                                         NOCONN, CLOSED, FIELD (a reason above 2)
 *   drawbevel_open           DONE                                         NOCONN, OPEN
 *   drawbevel_send           DONE                                         BUFFER, NOCONN, CLOSED, TOOLONG, FIELD (also Data-In and R2T, and a
 *                                                                         SCSI Response whose tags aren't the record's), FULL
 *   drawbevel_acknowledge    DONE                                         NOCONN, CLOSED, STALE
 *   drawbevel_snack          DONE                                         NOCONN, CLOSED, READ, FIELD (another kind), SNACK
 *   drawbevel_resend         DONE                                         BUFFER, NOCONN, CLOSED, SNACK
 *   drawbevel_next_stat_sn   DONE                                         NOCONN, CLOSED
 *   drawbevel_holder         FREE, VOID, HELD                             none
 *   drawbevel_task_make      DONE                                         FIELD (a MaxOutstandingR2T of 0, or above 8)
 *   drawbevel_task_data_in   DONE                                         BUFFER, NOCONN, CLOSED, TOOLONG, FIELD
 *   drawbevel_task_r2t       DONE                                         BUFFER, NOCONN, CLOSED, FIELD
 *   drawbevel_task_data_out  DONE                                         NOCONN, CLOSED, READ, FIELD (another kind, or not what is due)
 *   drawbevel_task_snack     RUN, ACKNOWLEDGED                            NOCONN, CLOSED, READ, FIELD (another kind, type 1, another tag), SNACK
 *   drawbevel_login_receive  OK                                           BUFFER, CLOSED, READ, FIELD (no Login, or new_handle 0), LOGIN
 *
 * drawbevel_fresh, drawbevel_window and drawbevel_login_fresh are never refused. A refusal changes no session, no login, no record of a task and
 * no lent byte, but LOGIN ends its login. What a call hands out through a pointer is 0 after a refusal, and where its answer has no such value;
 * but drawbevel_read leaves *pdu, and LOGIN comes with its status.
 *
 * Assumed: a pointer is good for the length that goes with it; the areas lent to one call overlap neither one another nor the PDU nor a
 * struct of the call; a session or login is begun by its _fresh, a record by drawbevel_task_make, and each is changed by these
 * functions alone. Calls on different sessions, logins and records may run at the same time, on one only those that take it as const.
 *
 * What a target does at a refusal (sections of RFC 7143). In the full feature phase:
 *
 *   OPCODE           Reject 0x05, command not supported (11.17.1); go on after the PDU, whose length bytes 4 to 7 state for any opcode.
 *                    Text Request (0x04) isn't read here: it is the caller's.
 *   FIELD            Reject 0x09, invalid PDU field, of a Login Request 0x04, protocol error (11.17.1). By 7.7 (format errors) every connection
 *                    of the session is then closed; to go on is the lenient choice. To drawbevel_task_make, _data_in and _r2t, and to
 *                    drawbevel_send: the caller's own fault, nothing is sent.
 *   LENGTH           The bytes given aren't one PDU: framed by drawbevel_length, the stream ended within it. Close the connection.
 *   TOOLONG          Reject 0x04 and close the connection; the RFC leaves it to the target to read past the data and go on.
 *   SNACK            To drawbevel_snack and drawbevel_task_snack: Reject 0x04 for a SNACK of the call's types (1; 0, 2 and 3) at a level above
 *                    0 (11.16: not sent, or acknowledged already), else 0x03, SNACK reject; go on. To drawbevel_resend: nothing is sent, the
 *                    number isn't held.
 *   STALE            Nothing is sent, go on: initiators err here without harm (libiscsi's ExpStatSN is one ahead after an R2T).
 *   FULL             Keep the response until statuses are acknowledged. A NOP-In with ITT 0xffffffff and a TTT is never FULL, and the
 *                    NOP-Out that answers it (11.18) brings an ExpStatSN.
 *   BUFFER, NOCONN, CLOSED, OPEN   The caller's own fault; nothing is sent.
 *
 * A Data-Out has no CmdSN (11.7): to drawbevel_offer it is FIELD. Its task is found by the Initiator Task Tag that drawbevel_read shows, a DataACK's
 * (a SNACK of type 2) by its Target Transfer Tag. A Data-In and an R2T aren't statuses: to drawbevel_send they are FIELD. drawbevel_task_data_in and
 * drawbevel_task_r2t write a task's next ones; drawbevel_write writes any, as one that is sent again, with the numbers of drawbevel_window, an R2T
 * also with that of drawbevel_next_stat_sn, which it doesn't use up (11.8.3).
 *
 * A Reject is sent by drawbevel_send, with the 48 bytes of the refused header as its data (11.17.4). The CmdSN of a rejected command counts
 * as not received (7.3). In the login phase each of these is answered by drawbevel_login_refused and the connection is closed (11.13.5):
 *
 *   LOGIN            The status that came with it.
 *   OPCODE, FIELD    0x020b, invalid during login, where the opcode isn't Login's; else 0x0200, initiator error.
 *   LENGTH, TOOLONG  0x0200. */
#ifndef DRAWBEVEL_H
#define DRAWBEVEL_H

#include <stdbool.h>
#include <stddef.h>
#include <stdint.h>

#ifdef __cplusplus
extern "C" {
#endif

enum drawbevel_answer {
    DRAWBEVEL_OK = 0, /* a header or a login request was read, a header written */

    /* refusals */
    DRAWBEVEL_BUFFER = 1,  /* a lent output is too short */
    DRAWBEVEL_OPCODE = 2,  /* no request that is read here */
    DRAWBEVEL_FIELD = 3,   /* a field rule is broken */
    DRAWBEVEL_LENGTH = 4,  /* not exactly the PDU that the header states */
    DRAWBEVEL_TOOLONG = 5, /* a data segment above 8,192 bytes */
    DRAWBEVEL_LOGIN = 6,   /* a rule of the login phase refuses; a status comes with it */
    DRAWBEVEL_NOCONN = 7,  /* connection number 4 or more */
    DRAWBEVEL_CLOSED = 8,  /* the connection isn't open, or the login is over */
    DRAWBEVEL_OPEN = 9,    /* the connection is open already */
    DRAWBEVEL_FULL = 10,   /* 32 statuses are unacknowledged */
    DRAWBEVEL_STALE = 11,  /* an ExpStatSN outside the ledger */
    DRAWBEVEL_SNACK = 12,  /* a run or number not wholly held, or SNACK isn't served */

    DRAWBEVEL_DONE = 32,
    DRAWBEVEL_KEPT = 33,      /* the command is held from now on */
    DRAWBEVEL_DUPLICATE = 34, /* its number is held already */
    DRAWBEVEL_PASSED = 35,    /* its number was handed out */
    DRAWBEVEL_BEYOND = 36,    /* its number is outside the window and wasn't handed out */
    DRAWBEVEL_IMMEDIATE = 37, /* an immediate command: it isn't held, and is executed at once */
    DRAWBEVEL_NOTHING = 38,   /* the next number isn't held */
    DRAWBEVEL_VOID = 39,      /* the number's command went with a logout */
    DRAWBEVEL_COMMAND = 40,   /* a command is handed out */
    DRAWBEVEL_FREE = 41,      /* the number isn't held */
    DRAWBEVEL_HELD = 42,      /* the number's command is held */
    DRAWBEVEL_RUN = 43,       /* Data-In and R2T of a task are to be sent again */
    DRAWBEVEL_ACKNOWLEDGED = 44 /* Data-In and R2T of a task are acknowledged */
};

/* Whether an answer is a refusal. */
static inline bool drawbevel_is_refusal(uint32_t answer)
{
    return answer >= DRAWBEVEL_BUFFER && answer <= DRAWBEVEL_SNACK;
}

/* An answer's name as above without its prefix, "KEPT"; "?" for a number that is no answer. */
static inline const char *drawbevel_answer_name(uint32_t answer)
{
    switch (answer) {
    case DRAWBEVEL_OK: return "OK";
    case DRAWBEVEL_BUFFER: return "BUFFER";
    case DRAWBEVEL_OPCODE: return "OPCODE";
    case DRAWBEVEL_FIELD: return "FIELD";
    case DRAWBEVEL_LENGTH: return "LENGTH";
    case DRAWBEVEL_TOOLONG: return "TOOLONG";
    case DRAWBEVEL_LOGIN: return "LOGIN";
    case DRAWBEVEL_NOCONN: return "NOCONN";
    case DRAWBEVEL_CLOSED: return "CLOSED";
    case DRAWBEVEL_OPEN: return "OPEN";
    case DRAWBEVEL_FULL: return "FULL";
    case DRAWBEVEL_STALE: return "STALE";
    case DRAWBEVEL_SNACK: return "SNACK";
    case DRAWBEVEL_DONE: return "DONE";
    case DRAWBEVEL_KEPT: return "KEPT";
    case DRAWBEVEL_DUPLICATE: return "DUPLICATE";
    case DRAWBEVEL_PASSED: return "PASSED";
    case DRAWBEVEL_BEYOND: return "BEYOND";
    case DRAWBEVEL_IMMEDIATE: return "IMMEDIATE";
    case DRAWBEVEL_NOTHING: return "NOTHING";
    case DRAWBEVEL_VOID: return "VOID";
    case DRAWBEVEL_COMMAND: return "COMMAND";
    case DRAWBEVEL_FREE: return "FREE";
    case DRAWBEVEL_HELD: return "HELD";
    case DRAWBEVEL_RUN: return "RUN";
    case DRAWBEVEL_ACKNOWLEDGED: return "ACKNOWLEDGED";
    default: return "?";
    }
}

enum {
    DRAWBEVEL_HEADER_BYTES = 48,
    DRAWBEVEL_PDU_BYTES = 9260, /* the longest PDU that is read */
    DRAWBEVEL_TEXT_BYTES = 8192, /* the least gather area and text output of a login */
    DRAWBEVEL_CONNECTIONS = 4,
    DRAWBEVEL_NO_ORIGIN = 4 /* the origin of a command that has none */
};

/* ---- PDUs: a struct for each kind. Every field is 64 bits wide, whatever its width in the header; a flag is 0 or 1. */

enum drawbevel_request_kind {
    DRAWBEVEL_NOP_OUT = 0x00,
    DRAWBEVEL_SCSI_COMMAND = 0x01,
    DRAWBEVEL_TASK_MANAGEMENT = 0x02,
    DRAWBEVEL_LOGIN_REQUEST = 0x03,
    DRAWBEVEL_DATA_OUT = 0x05,
    DRAWBEVEL_LOGOUT_REQUEST = 0x06,
    DRAWBEVEL_SNACK_REQUEST = 0x10
};

struct drawbevel_nop_out {
    uint64_t target_transfer_tag;
};
struct drawbevel_scsi_command {
    uint64_t is_final, is_read, is_write, attribute, total_ahs_length, expected_data_transfer_length;
    uint64_t cdb[2]; /* bytes 32 to 39 and 40 to 47 of the header */
};
struct drawbevel_task_management {
    uint64_t function, referenced_task_tag, ref_cmd_sn, exp_data_sn;
};
struct drawbevel_login_request {
    uint64_t transit, continues, csg, nsg, version_max, version_min, isid, tsih, cid;
};
struct drawbevel_data_out {
    uint64_t is_final, target_transfer_tag, data_sn, buffer_offset;
};
struct drawbevel_logout_request {
    uint64_t reason, cid;
};
struct drawbevel_snack_request {
    uint64_t snack_type, target_transfer_tag, beg_run, run_length;
};

/* A read PDU. A common field that the kind doesn't have is 0. The data segment is input[data_start .. data_start + data_segment_length]. */
struct drawbevel_pdu {
    uint64_t kind; /* enum drawbevel_request_kind, and which member of request is set */
    uint64_t immediate, cmd_sn, lun, initiator_task_tag, exp_stat_sn, data_start, data_segment_length;
    union {
        struct drawbevel_nop_out nop_out;
        struct drawbevel_scsi_command scsi_command;
        struct drawbevel_task_management task_management;
        struct drawbevel_login_request login;
        struct drawbevel_data_out data_out;
        struct drawbevel_logout_request logout;
        struct drawbevel_snack_request snack;
    } request;
};

uint64_t drawbevel_core_length(const uint8_t *input, size_t length);
uint32_t drawbevel_core_read(const uint8_t *input, size_t length, uint64_t *common8, uint64_t *own9);

/* How many bytes to receive: the whole length of the PDU that these bytes begin, of which the first 48 are looked at.
 * At most DRAWBEVEL_PDU_BYTES. */
static inline enum drawbevel_answer drawbevel_length(const uint8_t *input, size_t length, uint32_t *whole)
{
    uint64_t a = drawbevel_core_length(input, length);
    *whole = (uint32_t)(a >> 32);
    return (enum drawbevel_answer)(uint32_t)a;
}

/* Reads a PDU of exactly this length. */
static inline enum drawbevel_answer drawbevel_read(const uint8_t *input, size_t length, struct drawbevel_pdu *pdu)
{
    uint64_t common[8], own[9];
    enum drawbevel_answer answer = (enum drawbevel_answer)drawbevel_core_read(input, length, common, own);
    if (answer != DRAWBEVEL_OK)
        return answer;
    pdu->kind = common[0];
    pdu->immediate = common[1];
    pdu->cmd_sn = common[2];
    pdu->lun = common[3];
    pdu->initiator_task_tag = common[4];
    pdu->exp_stat_sn = common[5];
    pdu->data_start = common[6];
    pdu->data_segment_length = common[7];
    switch (pdu->kind) {
    case DRAWBEVEL_NOP_OUT:
        pdu->request.nop_out.target_transfer_tag = own[0];
        break;
    case DRAWBEVEL_SCSI_COMMAND:
        pdu->request.scsi_command.is_final = own[0];
        pdu->request.scsi_command.is_read = own[1];
        pdu->request.scsi_command.is_write = own[2];
        pdu->request.scsi_command.attribute = own[3];
        pdu->request.scsi_command.total_ahs_length = own[4];
        pdu->request.scsi_command.expected_data_transfer_length = own[5];
        pdu->request.scsi_command.cdb[0] = own[6];
        pdu->request.scsi_command.cdb[1] = own[7];
        break;
    case DRAWBEVEL_TASK_MANAGEMENT:
        pdu->request.task_management.function = own[0];
        pdu->request.task_management.referenced_task_tag = own[1];
        pdu->request.task_management.ref_cmd_sn = own[2];
        pdu->request.task_management.exp_data_sn = own[3];
        break;
    case DRAWBEVEL_LOGIN_REQUEST:
        pdu->request.login.transit = own[0];
        pdu->request.login.continues = own[1];
        pdu->request.login.csg = own[2];
        pdu->request.login.nsg = own[3];
        pdu->request.login.version_max = own[4];
        pdu->request.login.version_min = own[5];
        pdu->request.login.isid = own[6];
        pdu->request.login.tsih = own[7];
        pdu->request.login.cid = own[8];
        break;
    case DRAWBEVEL_DATA_OUT:
        pdu->request.data_out.is_final = own[0];
        pdu->request.data_out.target_transfer_tag = own[1];
        pdu->request.data_out.data_sn = own[2];
        pdu->request.data_out.buffer_offset = own[3];
        break;
    case DRAWBEVEL_LOGOUT_REQUEST:
        pdu->request.logout.reason = own[0];
        pdu->request.logout.cid = own[1];
        break;
    case DRAWBEVEL_SNACK_REQUEST:
        pdu->request.snack.snack_type = own[0];
        pdu->request.snack.target_transfer_tag = own[1];
        pdu->request.snack.beg_run = own[2];
        pdu->request.snack.run_length = own[3];
        break;
    default:
        break;
    }
    return answer;
}

enum drawbevel_response_kind {
    DRAWBEVEL_NOP_IN = 0x20,
    DRAWBEVEL_SCSI_RESPONSE = 0x21,
    DRAWBEVEL_TASK_MANAGEMENT_RESPONSE = 0x22,
    DRAWBEVEL_LOGIN_RESPONSE = 0x23,
    DRAWBEVEL_DATA_IN = 0x25,
    DRAWBEVEL_LOGOUT_RESPONSE = 0x26,
    DRAWBEVEL_R2T = 0x31,
    DRAWBEVEL_REJECT = 0x3f
};

struct drawbevel_nop_in {
    uint64_t data_segment_length, lun, initiator_task_tag, target_transfer_tag;
};
struct drawbevel_scsi_response {
    uint64_t overflow, underflow, response, status, data_segment_length, initiator_task_tag, snack_tag, residual_count, exp_data_sn;
};
struct drawbevel_task_management_response {
    uint64_t response, initiator_task_tag;
};
struct drawbevel_login_response {
    uint64_t transit, csg, nsg, data_segment_length, isid, tsih, initiator_task_tag, status_class, status_detail;
};
struct drawbevel_data_in {
    uint64_t is_final, acknowledge, data_segment_length, lun, initiator_task_tag, target_transfer_tag, data_sn, buffer_offset;
};
struct drawbevel_logout_response {
    uint64_t response, initiator_task_tag, time2wait, time2retain;
};
struct drawbevel_r2t {
    uint64_t lun, initiator_task_tag, target_transfer_tag, r2t_sn, buffer_offset, desired_data_transfer_length;
};
struct drawbevel_reject {
    uint64_t reason;
};

/* A response to write or send. A data length above 8,192 is TOOLONG; FIELD are another kind, a value too wide for its field (a flag of 2, a
 * CSG of 4, an ISID of 2^48), O with U, and an NSG other than 0 with T clear: nothing is cut. A Data-In or an R2T is for drawbevel_write alone:
 * to drawbevel_send it is FIELD, where it isn't TOOLONG. A SCSI Response's exp_data_sn is for drawbevel_write too: drawbevel_send takes it from the
 * task's record. Only the kind's own member of the union is read, and every field of it. */
struct drawbevel_response {
    uint64_t kind; /* enum drawbevel_response_kind */
    union {
        struct drawbevel_nop_in nop_in;
        struct drawbevel_scsi_response scsi_response;
        struct drawbevel_task_management_response task_management_response;
        struct drawbevel_login_response login_response;
        struct drawbevel_data_in data_in;
        struct drawbevel_logout_response logout_response;
        struct drawbevel_r2t r2t;
        struct drawbevel_reject reject;
    } of;
};

/* The response as the core takes it: its kind and its fields. For the functions below. */
static inline void drawbevel_response_words(const struct drawbevel_response *response, uint64_t words[10])
{
    int i;
    for (i = 0; i < 10; i++)
        words[i] = 0;
    words[0] = response->kind;
    switch (response->kind) {
    case DRAWBEVEL_NOP_IN:
        words[1] = response->of.nop_in.data_segment_length;
        words[2] = response->of.nop_in.lun;
        words[3] = response->of.nop_in.initiator_task_tag;
        words[4] = response->of.nop_in.target_transfer_tag;
        break;
    case DRAWBEVEL_SCSI_RESPONSE:
        words[1] = response->of.scsi_response.overflow;
        words[2] = response->of.scsi_response.underflow;
        words[3] = response->of.scsi_response.response;
        words[4] = response->of.scsi_response.status;
        words[5] = response->of.scsi_response.data_segment_length;
        words[6] = response->of.scsi_response.initiator_task_tag;
        words[7] = response->of.scsi_response.snack_tag;
        words[8] = response->of.scsi_response.residual_count;
        words[9] = response->of.scsi_response.exp_data_sn;
        break;
    case DRAWBEVEL_TASK_MANAGEMENT_RESPONSE:
        words[1] = response->of.task_management_response.response;
        words[2] = response->of.task_management_response.initiator_task_tag;
        break;
    case DRAWBEVEL_LOGIN_RESPONSE:
        words[1] = response->of.login_response.transit;
        words[2] = response->of.login_response.csg;
        words[3] = response->of.login_response.nsg;
        words[4] = response->of.login_response.data_segment_length;
        words[5] = response->of.login_response.isid;
        words[6] = response->of.login_response.tsih;
        words[7] = response->of.login_response.initiator_task_tag;
        words[8] = response->of.login_response.status_class;
        words[9] = response->of.login_response.status_detail;
        break;
    case DRAWBEVEL_DATA_IN:
        words[1] = response->of.data_in.is_final;
        words[2] = response->of.data_in.acknowledge;
        words[3] = response->of.data_in.data_segment_length;
        words[4] = response->of.data_in.lun;
        words[5] = response->of.data_in.initiator_task_tag;
        words[6] = response->of.data_in.target_transfer_tag;
        words[7] = response->of.data_in.data_sn;
        words[8] = response->of.data_in.buffer_offset;
        break;
    case DRAWBEVEL_LOGOUT_RESPONSE:
        words[1] = response->of.logout_response.response;
        words[2] = response->of.logout_response.initiator_task_tag;
        words[3] = response->of.logout_response.time2wait;
        words[4] = response->of.logout_response.time2retain;
        break;
    case DRAWBEVEL_R2T:
        words[1] = response->of.r2t.lun;
        words[2] = response->of.r2t.initiator_task_tag;
        words[3] = response->of.r2t.target_transfer_tag;
        words[4] = response->of.r2t.r2t_sn;
        words[5] = response->of.r2t.buffer_offset;
        words[6] = response->of.r2t.desired_data_transfer_length;
        break;
    case DRAWBEVEL_REJECT:
        words[1] = response->of.reject.reason;
        break;
    default:
        break;
    }
}

uint32_t drawbevel_core_write(uint8_t *out, size_t lent, const uint64_t *words10, uint32_t stat_sn, uint32_t exp_cmd_sn, uint32_t max_cmd_sn);

/* Writes a response's header with these numbers into the first 48 bytes of out; later bytes stay. BUFFER: fewer are lent. A Data-In has no
 * status: its StatSN is 0, whatever stat_sn is. */
static inline enum drawbevel_answer drawbevel_write(uint8_t *out, size_t lent, const struct drawbevel_response *response, uint32_t stat_sn,
                                                    uint32_t exp_cmd_sn, uint32_t max_cmd_sn)
{
    uint64_t words[10];
    drawbevel_response_words(response, words);
    return (enum drawbevel_answer)drawbevel_core_write(out, lent, words, stat_sn, exp_cmd_sn, max_cmd_sn);
}

/* ---- a session */

/* The whole of a session: no pointers, so it may be moved and copied. Its members are the core's. */
struct drawbevel_session {
    uint64_t maps[6];
    uint32_t numbers[15];
    uint32_t tickets[64];
    uint32_t status_tickets[128];
    uint8_t headers[3072];
    uint8_t statuses[6144];
};

/* The record of a task's data phases: what was sent, what was asked for and what came. Make one by drawbevel_task_make for each SCSI command when
 * it is taken, or offered as immediate, and keep it until its status is acknowledged. Each call on the task is given it as the last one left it: a
 * call changes it in place, and one that is given an older copy answers for that older state. No pointers, so it may be moved and copied. Its
 * members are the core's; whatever values they have, a call gets an answer. */
struct drawbevel_task {
    uint64_t wide[4];
    uint64_t ends[8];
    uint32_t numbers[12];
    uint32_t tags[8];
};

/* The uint64_t of a call is its answer, and above its 32 bits the one value that it has. */
void drawbevel_core_fresh(uint32_t *numbers15, uint64_t *maps6, uint8_t *headers, uint32_t *tickets, uint8_t *statuses, uint32_t *status_tickets,
                          uint32_t first, uint32_t stat_sn, uint8_t level);
uint64_t drawbevel_core_offer(uint32_t *numbers15, uint64_t *maps6, uint8_t *headers, uint32_t *tickets, uint32_t connection, uint32_t ticket,
                              const uint8_t *pdu, size_t length);
void drawbevel_core_take(uint32_t *numbers15, uint64_t *maps6, const uint8_t *headers, const uint32_t *tickets, uint8_t *out, size_t lent,
                         uint32_t *answer4);
void drawbevel_core_logout(uint32_t *numbers15, uint64_t *maps6, uint32_t connection, uint8_t reason, uint32_t *answer4);
uint64_t drawbevel_core_open(uint32_t *numbers15, uint64_t *maps6, uint32_t connection, uint32_t stat_sn);
uint64_t drawbevel_core_send(uint32_t *numbers15, uint64_t *maps6, uint8_t *statuses, uint32_t *status_tickets, const uint32_t *task12,
                             const uint64_t *wide4, uint32_t connection, uint32_t ticket, const uint64_t *words10, uint8_t *out, size_t lent);
uint64_t drawbevel_core_acknowledge(uint32_t *numbers15, uint64_t *maps6, uint32_t connection, uint32_t exp_stat_sn);
void drawbevel_core_snack(const uint32_t *numbers15, const uint64_t *maps6, uint32_t connection, const uint8_t *pdu, size_t length, uint32_t *answer4);
uint64_t drawbevel_core_resend(const uint32_t *numbers15, const uint64_t *maps6, const uint8_t *statuses, const uint32_t *status_tickets,
                               const uint32_t *task12, const uint64_t *wide4, uint32_t connection, uint32_t stat_sn, uint8_t *out, size_t lent);
void drawbevel_core_window(const uint32_t *numbers15, const uint64_t *maps6, uint32_t *answer4);
uint64_t drawbevel_core_next(const uint32_t *numbers15, const uint64_t *maps6, uint32_t connection);
void drawbevel_core_holder(const uint32_t *numbers15, const uint64_t *maps6, const uint32_t *tickets64, uint32_t number, uint32_t *answer4);
uint64_t drawbevel_core_task(uint32_t *task12, uint64_t *wide4, uint32_t itt, uint64_t lun, uint32_t transfer_tag, uint32_t immediate,
                             uint32_t max_burst_length, uint16_t max_outstanding_r2t);
uint64_t drawbevel_core_data_in(const uint32_t *numbers15, const uint64_t *maps6, uint32_t *task12, uint64_t *wide4, uint32_t connection, bool is_final,
                                bool acknowledge, uint32_t length, uint8_t *out, size_t lent);
uint64_t drawbevel_core_r2t(const uint32_t *numbers15, const uint64_t *maps6, uint32_t *task12, uint64_t *wide4, uint32_t *tags8, uint64_t *ends8,
                            uint32_t connection, uint32_t tag, uint32_t length, uint8_t *out, size_t lent);
void drawbevel_core_data_out(const uint32_t *numbers15, const uint64_t *maps6, uint32_t connection, const uint8_t *pdu, size_t length,
                             uint32_t *task12, uint64_t *wide4, const uint32_t *tags8, const uint64_t *ends8, uint32_t *answer4);
void drawbevel_core_data_snack(const uint32_t *numbers15, const uint64_t *maps6, uint32_t connection, const uint8_t *pdu, size_t length,
                               uint32_t *task12, uint64_t *wide4, uint32_t offset, uint32_t *answer4);

/* A fresh session: its first command number, connection 0's first StatSN and the ErrorRecoveryLevel. Connection 0 is open, nothing is held. */
static inline void drawbevel_fresh(struct drawbevel_session *session, uint32_t first, uint32_t stat_sn, uint8_t level)
{
    drawbevel_core_fresh(session->numbers, session->maps, session->headers, session->tickets, session->statuses, session->status_tickets, first,
                         stat_sn, level);
}

/* Offers a whole PDU (NOP-Out, SCSI Command, Task Management or Logout) with a ticket on a connection. */
static inline enum drawbevel_answer drawbevel_offer(struct drawbevel_session *session, uint32_t connection, uint32_t ticket, const uint8_t *pdu,
                                                    size_t length)
{
    return (enum drawbevel_answer)(uint32_t)drawbevel_core_offer(session->numbers, session->maps, session->headers, session->tickets, connection,
                                                                 ticket, pdu, length);
}

struct drawbevel_command {
    uint32_t number, ticket;
    uint32_t origin; /* a connection, or DRAWBEVEL_NO_ORIGIN */
};

/* Takes the next command: COMMAND, with its header in the first 48 bytes of out, or VOID, with its number alone. */
static inline enum drawbevel_answer drawbevel_take(struct drawbevel_session *session, uint8_t *out, size_t lent, struct drawbevel_command *command)
{
    uint32_t a[4];
    drawbevel_core_take(session->numbers, session->maps, session->headers, session->tickets, out, lent, a);
    command->number = a[1];
    command->ticket = a[2];
    command->origin = a[3];
    return (enum drawbevel_answer)a[0];
}

/* The effect of a logout (reason 0, 1 or 2) on an open connection, and how many commands were emptied and newly voided. Send its Logout
 * Response before. */
static inline enum drawbevel_answer drawbevel_logout(struct drawbevel_session *session, uint32_t connection, uint8_t reason, uint32_t *emptied,
                                                     uint32_t *voided)
{
    uint32_t a[4];
    drawbevel_core_logout(session->numbers, session->maps, connection, reason, a);
    *emptied = a[1];
    *voided = a[2];
    return (enum drawbevel_answer)a[0];
}

/* Opens a closed connection with its first StatSN and an empty ledger. */
static inline enum drawbevel_answer drawbevel_open(struct drawbevel_session *session, uint32_t connection, uint32_t stat_sn)
{
    return (enum drawbevel_answer)(uint32_t)drawbevel_core_open(session->numbers, session->maps, connection, stat_sn);
}

/* Sends a status, that is a response other than Data-In and R2T: its header with the next StatSN, which is handed out, and both window numbers
 * goes to the first 48 bytes of out, and is kept with the ticket. A NOP-In with ITT 0xffffffff uses up no StatSN and isn't kept. A SCSI Response is
 * given its task's record: it must have the record's Initiator Task Tag, and as SNACK tag that of the latest SNACK of type 3 (0 before any); its
 * ExpDataSN is the record's count, exp_data_sn isn't looked at. For another response any record will do, a zeroed one too. */
static inline enum drawbevel_answer drawbevel_send(struct drawbevel_session *session, const struct drawbevel_task *task, uint32_t connection,
                                                   uint32_t ticket, const struct drawbevel_response *response, uint8_t *out, size_t lent,
                                                   uint32_t *stat_sn)
{
    uint64_t words[10], a;
    drawbevel_response_words(response, words);
    a = drawbevel_core_send(session->numbers, session->maps, session->statuses, session->status_tickets, task->numbers, task->wide, connection, ticket,
                            words, out, lent);
    *stat_sn = (uint32_t)(a >> 32);
    return (enum drawbevel_answer)(uint32_t)a;
}

/* Acknowledges the statuses before an ExpStatSN, and how many were released. */
static inline enum drawbevel_answer drawbevel_acknowledge(struct drawbevel_session *session, uint32_t connection, uint32_t exp_stat_sn,
                                                          uint32_t *released)
{
    uint64_t a = drawbevel_core_acknowledge(session->numbers, session->maps, connection, exp_stat_sn);
    *released = (uint32_t)(a >> 32);
    return (enum drawbevel_answer)(uint32_t)a;
}

/* The run of statuses that a status SNACK, a whole PDU, asks for: its first number and its count, each to be sent again by drawbevel_resend. */
static inline enum drawbevel_answer drawbevel_snack(const struct drawbevel_session *session, uint32_t connection, const uint8_t *pdu, size_t length,
                                                    uint32_t *first, uint32_t *count)
{
    uint32_t a[4];
    drawbevel_core_snack(session->numbers, session->maps, connection, pdu, length, a);
    *first = a[1];
    *count = a[2];
    return (enum drawbevel_answer)a[0];
}

/* Writes a held status again, with the window numbers of now, into the first 48 bytes of out, and its ticket. A SCSI Response has ExpDataSN, and
 * the SNACK tag after a SNACK of type 3, from the record: give its task's as it is now. For another response any record will do. */
static inline enum drawbevel_answer drawbevel_resend(const struct drawbevel_session *session, const struct drawbevel_task *task, uint32_t connection,
                                                     uint32_t stat_sn, uint8_t *out, size_t lent, uint32_t *ticket)
{
    uint64_t a = drawbevel_core_resend(session->numbers, session->maps, session->statuses, session->status_tickets, task->numbers, task->wide,
                                       connection, stat_sn, out, lent);
    *ticket = (uint32_t)(a >> 32);
    return (enum drawbevel_answer)(uint32_t)a;
}

/* ExpCmdSN and MaxCmdSN. MaxCmdSN is the next number to hand out plus 63; ExpCmdSN can be one more. */
static inline void drawbevel_window(const struct drawbevel_session *session, uint32_t *exp_cmd_sn, uint32_t *max_cmd_sn)
{
    uint32_t a[4];
    drawbevel_core_window(session->numbers, session->maps, a);
    *exp_cmd_sn = a[1];
    *max_cmd_sn = a[2];
}

/* The next StatSN of an open connection, which an R2T carries and doesn't use up (11.8.3). */
static inline enum drawbevel_answer drawbevel_next_stat_sn(const struct drawbevel_session *session, uint32_t connection, uint32_t *stat_sn)
{
    uint64_t a = drawbevel_core_next(session->numbers, session->maps, connection);
    *stat_sn = (uint32_t)(a >> 32);
    return (enum drawbevel_answer)(uint32_t)a;
}

struct drawbevel_held {
    uint32_t ticket;
    uint32_t origin; /* a connection, or DRAWBEVEL_NO_ORIGIN */
};

/* Whose copy of a command the session holds: HELD, with its ticket and origin, VOID, or FREE. Any number may be asked for. */
static inline enum drawbevel_answer drawbevel_holder(const struct drawbevel_session *session, uint32_t number, struct drawbevel_held *held)
{
    uint32_t a[4];
    drawbevel_core_holder(session->numbers, session->maps, session->tickets, number, a);
    held->ticket = a[1];
    held->origin = a[2];
    return (enum drawbevel_answer)a[0];
}

/* ---- the data of a task: its record (struct drawbevel_task), the session as it is, and an open connection. No call changes the session: neither a
 * Data-In nor an R2T uses up a StatSN or is kept. */

/* A fresh record. target_transfer_tag is what a Data-In with A shall bear and the DataACK that answers it, unlike that of any other task;
 * 0xffffffff for a target that never asks for a DataACK. immediate is the length of the data that came with the command; the other two are the
 * settled parameters. */
static inline enum drawbevel_answer drawbevel_task_make(struct drawbevel_task *task, uint32_t initiator_task_tag, uint64_t lun,
                                                        uint32_t target_transfer_tag, uint32_t immediate, uint32_t max_burst_length,
                                                        uint16_t max_outstanding_r2t)
{
    int i;
    uint64_t a = drawbevel_core_task(task->numbers, task->wide, initiator_task_tag, lun, target_transfer_tag, immediate, max_burst_length,
                                     max_outstanding_r2t);
    /* No R2T is open, so no word of these counts. */
    for (i = 0; i < 8 && (uint32_t)a == DRAWBEVEL_DONE; i++) {
        task->tags[i] = 0;
        task->ends[i] = 0;
    }
    return (enum drawbevel_answer)(uint32_t)a;
}

/* The next Data-In, with so many bytes of data from where the last one ended: its header goes to the first 48 bytes of out. is_final (F) ends the
 * burst; acknowledge (A) asks for a DataACK, at most once in MaxBurstLength bytes and never at ErrorRecoveryLevel 0 (11.7.2), which isn't checked.
 * FIELD: the burst would pass MaxBurstLength or the data 2^32, 2^32 - 1 PDUs are sent, or A has no Target Transfer Tag. */
static inline enum drawbevel_answer drawbevel_task_data_in(const struct drawbevel_session *session, struct drawbevel_task *task, uint32_t connection,
                                                           bool is_final, bool acknowledge, uint32_t data_segment_length, uint8_t *out, size_t lent)
{
    return (enum drawbevel_answer)(uint32_t)drawbevel_core_data_in(session->numbers, session->maps, task->numbers, task->wide, connection, is_final,
                                                                   acknowledge, data_segment_length, out, lent);
}

/* The next R2T, for so many bytes after those that were asked for (or were immediate data): its header goes to the first 48 bytes of out.
 * target_transfer_tag is what the Data-Out that answer it bear. FIELD: that is 0xffffffff, the length is 0 or above MaxBurstLength, the data would
 * pass 2^32, MaxOutstandingR2T are open, or 2^32 - 1 PDUs are sent. */
static inline enum drawbevel_answer drawbevel_task_r2t(const struct drawbevel_session *session, struct drawbevel_task *task, uint32_t connection,
                                                       uint32_t target_transfer_tag, uint32_t desired_data_transfer_length, uint8_t *out, size_t lent)
{
    return (enum drawbevel_answer)(uint32_t)drawbevel_core_r2t(session->numbers, session->maps, task->numbers, task->wide, task->tags, task->ends,
                                                               connection, target_transfer_tag, desired_data_transfer_length, out, lent);
}

struct drawbevel_came {
    uint32_t offset, count; /* the place of the PDU's data in the whole transfer, and its bytes */
    uint32_t open;          /* how many R2Ts aren't wholly answered */
};

/* A Data-Out, a whole PDU: where its data belong. It is due where it answers the oldest open R2T, with the next DataSN, from where the data came up
 * to, and with F exactly at that R2T's end; else FIELD. Unsolicited data never is: InitialR2T is Yes here. */
static inline enum drawbevel_answer drawbevel_task_data_out(const struct drawbevel_session *session, struct drawbevel_task *task, uint32_t connection,
                                                            const uint8_t *pdu, size_t length, struct drawbevel_came *came)
{
    uint32_t a[4];
    drawbevel_core_data_out(session->numbers, session->maps, connection, pdu, length, task->numbers, task->wide, task->tags, task->ends, a);
    came->offset = a[1];
    came->count = a[2];
    came->open = a[3];
    return (enum drawbevel_answer)a[0];
}

/* A SNACK of type 0, 2 or 3, a whole PDU (11.16). One of type 1 goes to drawbevel_snack.
 *   0, Data/R2T SNACK   RUN: the first DataSN or R2TSN and the count of those that the caller sends again itself, unchanged but for the window
 *                       numbers: the record doesn't have them, and it stays.
 *   2, DataACK          ACKNOWLEDGED: the count of those newly acknowledged, which are never asked for again.
 *   3, R-Data SNACK     RUN: all that aren't acknowledged. drawbevel_task_data_in sends their data anew from here on, with DataSN from the first on,
 *                       from the offset given: the caller knows where the acknowledged data end. The SCSI Response, sent or sent again, then has
 *                       the SNACK's tag. Open R2Ts stay open.
 * The offset is looked at for type 3 alone. */
static inline enum drawbevel_answer drawbevel_task_snack(const struct drawbevel_session *session, struct drawbevel_task *task, uint32_t connection,
                                                         uint32_t offset, const uint8_t *pdu, size_t length, uint32_t *first, uint32_t *count)
{
    uint32_t a[4];
    bool is_run;
    drawbevel_core_data_snack(session->numbers, session->maps, connection, pdu, length, task->numbers, task->wide, offset, a);
    is_run = a[0] == DRAWBEVEL_RUN;
    *first = is_run ? a[1] : 0;
    *count = is_run ? a[2] : a[1];
    return (enum drawbevel_answer)a[0];
}

/* ---- a login */

/* The whole of a login between requests: it may be moved and copied. Its members are the core's; values is for reading. */
struct drawbevel_login {
    uint64_t numbers[8];
    uint32_t values[12]; /* by enum drawbevel_key: the parameters in force, Yes 1 and No 0 */
    bool seen[28];
};

enum drawbevel_key {
    DRAWBEVEL_MAX_CONNECTIONS,
    DRAWBEVEL_MAX_OUTSTANDING_R2T,
    DRAWBEVEL_INITIAL_R2T,
    DRAWBEVEL_DATA_PDU_IN_ORDER,
    DRAWBEVEL_DATA_SEQUENCE_IN_ORDER,
    DRAWBEVEL_IMMEDIATE_DATA,
    DRAWBEVEL_MAX_RECV_DATA_SEGMENT_LENGTH,
    DRAWBEVEL_MAX_BURST_LENGTH,
    DRAWBEVEL_FIRST_BURST_LENGTH,
    DRAWBEVEL_DEFAULT_TIME2WAIT,
    DRAWBEVEL_DEFAULT_TIME2RETAIN,
    DRAWBEVEL_ERROR_RECOVERY_LEVEL
};

void drawbevel_core_login_fresh(uint64_t *numbers8, uint32_t *values12, bool *seen28);
void drawbevel_core_login(uint64_t *numbers8, uint32_t *values12, bool *seen28, const uint8_t *pdu, size_t length, uint16_t live, uint16_t new_handle,
                          const uint8_t *target_name, size_t name_length, uint8_t *gather, size_t gather_lent, uint8_t *text, size_t text_lent,
                          uint64_t *answer8);

/* A login before its first request: every standard value is in force. */
static inline void drawbevel_login_fresh(struct drawbevel_login *login)
{
    drawbevel_core_login_fresh(login->numbers, login->values, login->seen);
}

struct drawbevel_login_answer {
    uint16_t status; /* Status-Class and Status-Detail of a refused login, else 0 */
    uint8_t stage;   /* after the request: 0 security, 1 operational, 3 full feature */
    uint8_t transit, csg, nsg;
    uint16_t tsih;
    size_t length; /* of the answer's text, in the first bytes of the text output; later bytes stay */
};

/* One Login Request, a whole PDU. live is the handle (TSIH) of the live session or 0, new_handle what a leading login is given, the gather area
 * the same one for the whole login. LOGIN ends the login. */
static inline enum drawbevel_answer drawbevel_login_receive(struct drawbevel_login *login, const uint8_t *pdu, size_t length, uint16_t live,
                                                            uint16_t new_handle, const uint8_t *target_name, size_t name_length, uint8_t *gather,
                                                            size_t gather_lent, uint8_t *text, size_t text_lent,
                                                            struct drawbevel_login_answer *answer)
{
    uint64_t a[8];
    drawbevel_core_login(login->numbers, login->values, login->seen, pdu, length, live, new_handle, target_name, name_length, gather, gather_lent, text,
                         text_lent, a);
    answer->status = (uint16_t)a[1];
    answer->stage = (uint8_t)a[2];
    answer->transit = (uint8_t)a[3];
    answer->csg = (uint8_t)a[4];
    answer->nsg = (uint8_t)a[5];
    answer->tsih = (uint16_t)a[6];
    answer->length = (size_t)a[7];
    return (enum drawbevel_answer)a[0];
}

/* The Login Response to a Login Request, as drawbevel_read shows it, that drawbevel_login_receive answered OK. drawbevel_write takes it with
 *   StatSN: on the connection's first response any number, on each further one the last plus one (11.13.4);
 *   ExpCmdSN and MaxCmdSN: the request's CmdSN, which Login Requests don't use up (11.12.8), and that plus 63; on a connection that joins a
 *   live session those of drawbevel_window.
 * After the last one drawbevel_fresh begins the session with the request's CmdSN as its first number and the settled ErrorRecoveryLevel, or
 * drawbevel_open joins the connection; stat_sn of either is the last response's StatSN plus one. */
static inline struct drawbevel_response drawbevel_login_accepted(const struct drawbevel_pdu *pdu, const struct drawbevel_login_answer *answer)
{
    struct drawbevel_response response;
    response.kind = DRAWBEVEL_LOGIN_RESPONSE;
    response.of.login_response.transit = answer->transit;
    response.of.login_response.csg = answer->csg;
    response.of.login_response.nsg = answer->nsg;
    response.of.login_response.data_segment_length = answer->length;
    response.of.login_response.isid = pdu->request.login.isid;
    response.of.login_response.tsih = answer->tsih;
    response.of.login_response.initiator_task_tag = pdu->initiator_task_tag;
    response.of.login_response.status_class = 0;
    response.of.login_response.status_detail = 0;
    return response;
}

/* The Login Response that refuses a login with a status; its StatSN, ExpCmdSN and MaxCmdSN mean nothing (11.13.5). Of a PDU of another kind it
 * has the Initiator Task Tag alone; where none could be read, give a zeroed struct. */
static inline struct drawbevel_response drawbevel_login_refused(const struct drawbevel_pdu *pdu, uint16_t status)
{
    bool is_login = pdu->kind == DRAWBEVEL_LOGIN_REQUEST;
    struct drawbevel_response response;
    response.kind = DRAWBEVEL_LOGIN_RESPONSE;
    response.of.login_response.transit = 0;
    response.of.login_response.csg = is_login ? pdu->request.login.csg : 0;
    response.of.login_response.nsg = 0;
    response.of.login_response.data_segment_length = 0;
    response.of.login_response.isid = is_login ? pdu->request.login.isid : 0;
    response.of.login_response.tsih = is_login ? pdu->request.login.tsih : 0;
    response.of.login_response.initiator_task_tag = pdu->initiator_task_tag;
    response.of.login_response.status_class = status >> 8;
    response.of.login_response.status_detail = status & 0xff;
    return response;
}

#ifdef __cplusplus
}
#endif

#endif

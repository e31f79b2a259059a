/* drawbevel.h as an engine of the tests: every function, struct and constant of it, by name. What comes from the tests and goes to them are the
 * numbers of the rules and of RFC 7143, written out here, so that a number or a place in the header that is another's is seen. */
#include <drawbevel.h>
#include <stdlib.h>
#include <string.h>

#ifdef __cplusplus
#define EXPORT extern "C"
#else
#define EXPORT
#endif

enum {
    NO_ANSWER = 1000, /* a number that the header has no name for */
    TOUCHED = 1001,   /* a refusal that changed the PDU or the record */
    NONE = 255        /* no origin */
};

/* What a struct is filled with before a call: a field that isn't set shows. */
static const int FILL = 0xa5;

/* The keys in the order of the rules' table. */
static const enum drawbevel_key KEYS[12] = {
    DRAWBEVEL_MAX_CONNECTIONS,
    DRAWBEVEL_MAX_OUTSTANDING_R2T,
    DRAWBEVEL_INITIAL_R2T,
    DRAWBEVEL_DATA_PDU_IN_ORDER,
    DRAWBEVEL_DATA_SEQUENCE_IN_ORDER,
    DRAWBEVEL_IMMEDIATE_DATA,
    DRAWBEVEL_MAX_RECV_DATA_SEGMENT_LENGTH,
    DRAWBEVEL_MAX_BURST_LENGTH,
    DRAWBEVEL_FIRST_BURST_LENGTH,
    DRAWBEVEL_DEFAULT_TIME2WAIT,
    DRAWBEVEL_DEFAULT_TIME2RETAIN,
    DRAWBEVEL_ERROR_RECOVERY_LEVEL
};

/* A record's words in an order of the tests' own. */
struct words {
    uint32_t numbers[12], tags[8];
    uint64_t wide[4], ends[8];
};

struct shim {
    struct drawbevel_session session;
    struct drawbevel_login login;
};

static uint32_t number(enum drawbevel_answer answer)
{
    switch (answer) {
    case DRAWBEVEL_OK: return 0;
    case DRAWBEVEL_BUFFER: return 1;
    case DRAWBEVEL_OPCODE: return 2;
    case DRAWBEVEL_FIELD: return 3;
    case DRAWBEVEL_LENGTH: return 4;
    case DRAWBEVEL_TOOLONG: return 5;
    case DRAWBEVEL_LOGIN: return 6;
    case DRAWBEVEL_NOCONN: return 7;
    case DRAWBEVEL_CLOSED: return 8;
    case DRAWBEVEL_OPEN: return 9;
    case DRAWBEVEL_FULL: return 10;
    case DRAWBEVEL_STALE: return 11;
    case DRAWBEVEL_SNACK: return 12;
    case DRAWBEVEL_DONE: return 32;
    case DRAWBEVEL_KEPT: return 33;
    case DRAWBEVEL_DUPLICATE: return 34;
    case DRAWBEVEL_PASSED: return 35;
    case DRAWBEVEL_BEYOND: return 36;
    case DRAWBEVEL_IMMEDIATE: return 37;
    case DRAWBEVEL_NOTHING: return 38;
    case DRAWBEVEL_VOID: return 39;
    case DRAWBEVEL_COMMAND: return 40;
    case DRAWBEVEL_FREE: return 41;
    case DRAWBEVEL_HELD: return 42;
    case DRAWBEVEL_RUN: return 43;
    case DRAWBEVEL_ACKNOWLEDGED: return 44;
    default: return NO_ANSWER;
    }
}

static uint64_t origin_of(uint32_t origin)
{
    return origin == DRAWBEVEL_NO_ORIGIN ? (uint64_t)NONE : origin;
}

/* The response of an opcode and its fields, in the order of RFC 7143's pictures; another opcode becomes a kind as it stands. */
static struct drawbevel_response response_of(uint64_t opcode, const uint64_t fields[9])
{
    struct drawbevel_response response;
    memset(&response, FILL, sizeof response);
    switch (opcode) {
    case 0x20:
        response.kind = DRAWBEVEL_NOP_IN;
        response.of.nop_in.data_segment_length = fields[0];
        response.of.nop_in.lun = fields[1];
        response.of.nop_in.initiator_task_tag = fields[2];
        response.of.nop_in.target_transfer_tag = fields[3];
        break;
    case 0x21:
        response.kind = DRAWBEVEL_SCSI_RESPONSE;
        response.of.scsi_response.overflow = fields[0];
        response.of.scsi_response.underflow = fields[1];
        response.of.scsi_response.response = fields[2];
        response.of.scsi_response.status = fields[3];
        response.of.scsi_response.data_segment_length = fields[4];
        response.of.scsi_response.initiator_task_tag = fields[5];
        response.of.scsi_response.snack_tag = fields[6];
        response.of.scsi_response.residual_count = fields[7];
        response.of.scsi_response.exp_data_sn = fields[8];
        break;
    case 0x22:
        response.kind = DRAWBEVEL_TASK_MANAGEMENT_RESPONSE;
        response.of.task_management_response.response = fields[0];
        response.of.task_management_response.initiator_task_tag = fields[1];
        break;
    case 0x23:
        response.kind = DRAWBEVEL_LOGIN_RESPONSE;
        response.of.login_response.transit = fields[0];
        response.of.login_response.csg = fields[1];
        response.of.login_response.nsg = fields[2];
        response.of.login_response.data_segment_length = fields[3];
        response.of.login_response.isid = fields[4];
        response.of.login_response.tsih = fields[5];
        response.of.login_response.initiator_task_tag = fields[6];
        response.of.login_response.status_class = fields[7];
        response.of.login_response.status_detail = fields[8];
        break;
    case 0x25:
        response.kind = DRAWBEVEL_DATA_IN;
        response.of.data_in.is_final = fields[0];
        response.of.data_in.acknowledge = fields[1];
        response.of.data_in.data_segment_length = fields[2];
        response.of.data_in.lun = fields[3];
        response.of.data_in.initiator_task_tag = fields[4];
        response.of.data_in.target_transfer_tag = fields[5];
        response.of.data_in.data_sn = fields[6];
        response.of.data_in.buffer_offset = fields[7];
        break;
    case 0x26:
        response.kind = DRAWBEVEL_LOGOUT_RESPONSE;
        response.of.logout_response.response = fields[0];
        response.of.logout_response.initiator_task_tag = fields[1];
        response.of.logout_response.time2wait = fields[2];
        response.of.logout_response.time2retain = fields[3];
        break;
    case 0x31:
        response.kind = DRAWBEVEL_R2T;
        response.of.r2t.lun = fields[0];
        response.of.r2t.initiator_task_tag = fields[1];
        response.of.r2t.target_transfer_tag = fields[2];
        response.of.r2t.r2t_sn = fields[3];
        response.of.r2t.buffer_offset = fields[4];
        response.of.r2t.desired_data_transfer_length = fields[5];
        break;
    case 0x3f:
        response.kind = DRAWBEVEL_REJECT;
        response.of.reject.reason = fields[0];
        break;
    default:
        response.kind = opcode;
        break;
    }
    return response;
}

/* A Login Response's opcode and fields; opcode 0 for a response of another kind. */
static void login_response_fields(const struct drawbevel_response *response, uint64_t answer[10])
{
    answer[0] = response->kind == DRAWBEVEL_LOGIN_RESPONSE ? 0x23 : 0;
    answer[1] = response->of.login_response.transit;
    answer[2] = response->of.login_response.csg;
    answer[3] = response->of.login_response.nsg;
    answer[4] = response->of.login_response.data_segment_length;
    answer[5] = response->of.login_response.isid;
    answer[6] = response->of.login_response.tsih;
    answer[7] = response->of.login_response.initiator_task_tag;
    answer[8] = response->of.login_response.status_class;
    answer[9] = response->of.login_response.status_detail;
}

/* The record of its words. */
static struct drawbevel_task task_of(const struct words *words)
{
    struct drawbevel_task task;
    memcpy(task.numbers, words->numbers, sizeof task.numbers);
    memcpy(task.tags, words->tags, sizeof task.tags);
    memcpy(task.wide, words->wide, sizeof task.wide);
    memcpy(task.ends, words->ends, sizeof task.ends);
    return task;
}

/* The words of a record after a call: a refusal changes none. */
static uint32_t words_after(uint32_t said, const struct drawbevel_task *task, struct words *words)
{
    struct words before;
    memcpy(&before, words, sizeof before);
    memcpy(words->numbers, task->numbers, sizeof words->numbers);
    memcpy(words->tags, task->tags, sizeof words->tags);
    memcpy(words->wide, task->wide, sizeof words->wide);
    memcpy(words->ends, task->ends, sizeof words->ends);
    return drawbevel_is_refusal(said) && memcmp(&before, words, sizeof before) != 0 ? (uint32_t)TOUCHED : said;
}

/* A session and a login begun in memory full of a byte. */
static void begin(struct shim *shim, int byte)
{
    memset(shim, byte, sizeof *shim);
    drawbevel_fresh(&shim->session, 1, 1, 0);
    drawbevel_login_fresh(&shim->login);
}

/* A record made in memory full of a byte. */
static struct drawbevel_task made(int byte)
{
    struct drawbevel_task task;
    memset(&task, byte, sizeof task);
    drawbevel_task_make(&task, 1, 2, 3, 4, 5, 6);
    return task;
}

EXPORT struct shim *shim_make(void)
{
    struct shim *shim = (struct shim *)malloc(sizeof(struct shim));
    if (!shim)
        abort();
    begin(shim, FILL);
    return shim;
}

EXPORT void shim_drop(struct shim *shim)
{
    free(shim);
}

/* ---- what belongs to no session or login */

EXPORT void shim_sizes(uint64_t answer[5])
{
    answer[0] = DRAWBEVEL_HEADER_BYTES;
    answer[1] = DRAWBEVEL_PDU_BYTES;
    answer[2] = DRAWBEVEL_TEXT_BYTES;
    answer[3] = DRAWBEVEL_CONNECTIONS;
    answer[4] = DRAWBEVEL_NO_ORIGIN;
}

EXPORT void shim_keys(uint64_t answer[12])
{
    int i;
    for (i = 0; i < 12; i++)
        answer[i] = KEYS[i];
}

/* Whether every member of a session, of a login and of a record is the same at their beginning, whatever its memory held before. */
EXPORT uint32_t shim_begins_whole(void)
{
    struct shim a, b;
    struct drawbevel_task s = made(0x5a), t = made(0xa5);
    begin(&a, 0x5a);
    begin(&b, 0xa5);
    return memcmp(&s, &t, sizeof s) == 0
        && memcmp(a.session.maps, b.session.maps, sizeof a.session.maps) == 0
        && memcmp(a.session.numbers, b.session.numbers, sizeof a.session.numbers) == 0
        && memcmp(a.session.tickets, b.session.tickets, sizeof a.session.tickets) == 0
        && memcmp(a.session.status_tickets, b.session.status_tickets, sizeof a.session.status_tickets) == 0
        && memcmp(a.session.headers, b.session.headers, sizeof a.session.headers) == 0
        && memcmp(a.session.statuses, b.session.statuses, sizeof a.session.statuses) == 0
        && memcmp(a.login.numbers, b.login.numbers, sizeof a.login.numbers) == 0
        && memcmp(a.login.values, b.login.values, sizeof a.login.values) == 0
        && memcmp(a.login.seen, b.login.seen, sizeof a.login.seen) == 0;
}

EXPORT uint32_t shim_is_refusal(uint32_t answer)
{
    return drawbevel_is_refusal(answer);
}

EXPORT const char *shim_answer_name(uint32_t answer)
{
    return drawbevel_answer_name(answer);
}

EXPORT uint32_t shim_length(const uint8_t *input, size_t length, uint64_t answer[1])
{
    uint32_t whole = (uint32_t)FILL;
    uint32_t said = number(drawbevel_length(input, length, &whole));
    answer[0] = whole;
    return said;
}

/* The answer: opcode, seven common fields, and the kind's own in the order of RFC 7143's pictures. */
EXPORT uint32_t shim_read(const uint8_t *input, size_t length, uint64_t answer[17])
{
    struct drawbevel_pdu pdu, before;
    uint32_t said;
    memset(&pdu, FILL, sizeof pdu);
    memcpy(&before, &pdu, sizeof pdu);
    said = number(drawbevel_read(input, length, &pdu));
    if (said != 0)
        return memcmp(&before, &pdu, sizeof pdu) == 0 ? said : (uint32_t)TOUCHED;
    answer[1] = pdu.immediate;
    answer[2] = pdu.cmd_sn;
    answer[3] = pdu.lun;
    answer[4] = pdu.initiator_task_tag;
    answer[5] = pdu.exp_stat_sn;
    answer[6] = pdu.data_start;
    answer[7] = pdu.data_segment_length;
    switch (pdu.kind) {
    case DRAWBEVEL_NOP_OUT:
        answer[0] = 0x00;
        answer[8] = pdu.request.nop_out.target_transfer_tag;
        break;
    case DRAWBEVEL_SCSI_COMMAND:
        answer[0] = 0x01;
        answer[8] = pdu.request.scsi_command.is_final;
        answer[9] = pdu.request.scsi_command.is_read;
        answer[10] = pdu.request.scsi_command.is_write;
        answer[11] = pdu.request.scsi_command.attribute;
        answer[12] = pdu.request.scsi_command.total_ahs_length;
        answer[13] = pdu.request.scsi_command.expected_data_transfer_length;
        answer[14] = pdu.request.scsi_command.cdb[0];
        answer[15] = pdu.request.scsi_command.cdb[1];
        break;
    case DRAWBEVEL_TASK_MANAGEMENT:
        answer[0] = 0x02;
        answer[8] = pdu.request.task_management.function;
        answer[9] = pdu.request.task_management.referenced_task_tag;
        answer[10] = pdu.request.task_management.ref_cmd_sn;
        answer[11] = pdu.request.task_management.exp_data_sn;
        break;
    case DRAWBEVEL_LOGIN_REQUEST:
        answer[0] = 0x03;
        answer[8] = pdu.request.login.transit;
        answer[9] = pdu.request.login.continues;
        answer[10] = pdu.request.login.csg;
        answer[11] = pdu.request.login.nsg;
        answer[12] = pdu.request.login.version_max;
        answer[13] = pdu.request.login.version_min;
        answer[14] = pdu.request.login.isid;
        answer[15] = pdu.request.login.tsih;
        answer[16] = pdu.request.login.cid;
        break;
    case DRAWBEVEL_DATA_OUT:
        answer[0] = 0x05;
        answer[8] = pdu.request.data_out.is_final;
        answer[9] = pdu.request.data_out.target_transfer_tag;
        answer[10] = pdu.request.data_out.data_sn;
        answer[11] = pdu.request.data_out.buffer_offset;
        break;
    case DRAWBEVEL_LOGOUT_REQUEST:
        answer[0] = 0x06;
        answer[8] = pdu.request.logout.reason;
        answer[9] = pdu.request.logout.cid;
        break;
    case DRAWBEVEL_SNACK_REQUEST:
        answer[0] = 0x10;
        answer[8] = pdu.request.snack.snack_type;
        answer[9] = pdu.request.snack.target_transfer_tag;
        answer[10] = pdu.request.snack.beg_run;
        answer[11] = pdu.request.snack.run_length;
        break;
    default:
        return NO_ANSWER;
    }
    return said;
}

EXPORT uint32_t shim_write(uint8_t *out, size_t lent, uint64_t opcode, const uint64_t fields[9], uint32_t stat_sn, uint32_t exp_cmd_sn,
                           uint32_t max_cmd_sn)
{
    struct drawbevel_response response = response_of(opcode, fields);
    return number(drawbevel_write(out, lent, &response, stat_sn, exp_cmd_sn, max_cmd_sn));
}

/* ---- a session */

EXPORT void shim_fresh(struct shim *shim, uint32_t first, uint32_t stat_sn, uint8_t level)
{
    memset(&shim->session, FILL, sizeof shim->session);
    drawbevel_fresh(&shim->session, first, stat_sn, level);
}

EXPORT uint32_t shim_offer(struct shim *shim, uint32_t connection, uint32_t ticket, const uint8_t *pdu, size_t length)
{
    return number(drawbevel_offer(&shim->session, connection, ticket, pdu, length));
}

EXPORT uint32_t shim_take(struct shim *shim, uint8_t *out, size_t lent, uint64_t answer[3])
{
    struct drawbevel_command command;
    uint32_t said;
    memset(&command, FILL, sizeof command);
    said = number(drawbevel_take(&shim->session, out, lent, &command));
    answer[0] = command.number;
    answer[1] = command.ticket;
    answer[2] = origin_of(command.origin);
    return said;
}

EXPORT uint32_t shim_logout(struct shim *shim, uint32_t connection, uint8_t reason, uint64_t answer[2])
{
    uint32_t emptied = (uint32_t)FILL, voided = (uint32_t)FILL;
    uint32_t said = number(drawbevel_logout(&shim->session, connection, reason, &emptied, &voided));
    answer[0] = emptied;
    answer[1] = voided;
    return said;
}

EXPORT uint32_t shim_open(struct shim *shim, uint32_t connection, uint32_t stat_sn)
{
    return number(drawbevel_open(&shim->session, connection, stat_sn));
}

EXPORT uint32_t shim_send(struct shim *shim, const struct words *words, uint32_t connection, uint32_t ticket, uint64_t opcode,
                          const uint64_t fields[9], uint8_t *out, size_t lent, uint64_t answer[1])
{
    struct drawbevel_response response = response_of(opcode, fields);
    struct drawbevel_task task = task_of(words);
    uint32_t stat_sn = (uint32_t)FILL;
    uint32_t said = number(drawbevel_send(&shim->session, &task, connection, ticket, &response, out, lent, &stat_sn));
    answer[0] = stat_sn;
    return said;
}

EXPORT uint32_t shim_acknowledge(struct shim *shim, uint32_t connection, uint32_t exp_stat_sn, uint64_t answer[1])
{
    uint32_t released = (uint32_t)FILL;
    uint32_t said = number(drawbevel_acknowledge(&shim->session, connection, exp_stat_sn, &released));
    answer[0] = released;
    return said;
}

EXPORT uint32_t shim_snack(const struct shim *shim, uint32_t connection, const uint8_t *pdu, size_t length, uint64_t answer[2])
{
    uint32_t first = (uint32_t)FILL, count = (uint32_t)FILL;
    uint32_t said = number(drawbevel_snack(&shim->session, connection, pdu, length, &first, &count));
    answer[0] = first;
    answer[1] = count;
    return said;
}

EXPORT uint32_t shim_resend(const struct shim *shim, const struct words *words, uint32_t connection, uint32_t stat_sn, uint8_t *out, size_t lent,
                            uint64_t answer[1])
{
    struct drawbevel_task task = task_of(words);
    uint32_t ticket = (uint32_t)FILL;
    uint32_t said = number(drawbevel_resend(&shim->session, &task, connection, stat_sn, out, lent, &ticket));
    answer[0] = ticket;
    return said;
}

EXPORT void shim_window(const struct shim *shim, uint64_t answer[2])
{
    uint32_t exp_cmd_sn = (uint32_t)FILL, max_cmd_sn = (uint32_t)FILL;
    drawbevel_window(&shim->session, &exp_cmd_sn, &max_cmd_sn);
    answer[0] = exp_cmd_sn;
    answer[1] = max_cmd_sn;
}

EXPORT uint32_t shim_next_stat_sn(const struct shim *shim, uint32_t connection, uint64_t answer[1])
{
    uint32_t stat_sn = (uint32_t)FILL;
    uint32_t said = number(drawbevel_next_stat_sn(&shim->session, connection, &stat_sn));
    answer[0] = stat_sn;
    return said;
}

EXPORT uint32_t shim_holder(const struct shim *shim, uint32_t cmd_sn, uint64_t answer[2])
{
    struct drawbevel_held held;
    uint32_t said;
    memset(&held, FILL, sizeof held);
    said = number(drawbevel_holder(&shim->session, cmd_sn, &held));
    answer[0] = held.ticket;
    answer[1] = origin_of(held.origin);
    return said;
}

/* ---- a task's record */

EXPORT uint32_t shim_task(struct words *words, uint32_t itt, uint64_t lun, uint32_t tag, uint32_t came, uint32_t max_burst, uint16_t max_r2t)
{
    struct drawbevel_task task = task_of(words);
    uint32_t said = number(drawbevel_task_make(&task, itt, lun, tag, came, max_burst, max_r2t));
    return words_after(said, &task, words);
}

EXPORT uint32_t shim_data_in(const struct shim *shim, struct words *words, uint32_t connection, uint8_t f, uint8_t a, uint32_t length, uint8_t *out,
                             size_t lent)
{
    struct drawbevel_task task = task_of(words);
    uint32_t said = number(drawbevel_task_data_in(&shim->session, &task, connection, f, a, length, out, lent));
    return words_after(said, &task, words);
}

EXPORT uint32_t shim_r2t(const struct shim *shim, struct words *words, uint32_t connection, uint32_t tag, uint32_t length, uint8_t *out, size_t lent)
{
    struct drawbevel_task task = task_of(words);
    uint32_t said = number(drawbevel_task_r2t(&shim->session, &task, connection, tag, length, out, lent));
    return words_after(said, &task, words);
}

EXPORT uint32_t shim_data_out(const struct shim *shim, struct words *words, uint32_t connection, const uint8_t *pdu, size_t length,
                              uint64_t answer[3])
{
    struct drawbevel_task task = task_of(words);
    struct drawbevel_came came;
    uint32_t said;
    memset(&came, FILL, sizeof came);
    said = number(drawbevel_task_data_out(&shim->session, &task, connection, pdu, length, &came));
    answer[0] = came.offset;
    answer[1] = came.count;
    answer[2] = came.open;
    return words_after(said, &task, words);
}

EXPORT uint32_t shim_data_snack(const struct shim *shim, struct words *words, uint32_t connection, uint32_t offset, const uint8_t *pdu,
                                size_t length, uint64_t answer[2])
{
    struct drawbevel_task task = task_of(words);
    uint32_t first = (uint32_t)FILL, count = (uint32_t)FILL;
    uint32_t said = number(drawbevel_task_snack(&shim->session, &task, connection, offset, pdu, length, &first, &count));
    answer[0] = first;
    answer[1] = count;
    return words_after(said, &task, words);
}

/* ---- a login */

EXPORT void shim_login_fresh(struct shim *shim)
{
    memset(&shim->login, FILL, sizeof shim->login);
    drawbevel_login_fresh(&shim->login);
}

EXPORT uint32_t shim_login(struct shim *shim, const uint8_t *pdu, size_t length, uint16_t live, uint16_t new_handle, const uint8_t *name,
                           size_t name_length, uint8_t *gather, size_t gather_lent, uint8_t *text, size_t text_lent, uint64_t answer[7])
{
    struct drawbevel_login_answer login_answer;
    uint32_t said;
    memset(&login_answer, FILL, sizeof login_answer);
    said = number(drawbevel_login_receive(&shim->login, pdu, length, live, new_handle, name, name_length, gather, gather_lent, text, text_lent,
                                          &login_answer));
    answer[0] = login_answer.status;
    answer[1] = login_answer.stage;
    answer[2] = login_answer.transit;
    answer[3] = login_answer.csg;
    answer[4] = login_answer.nsg;
    answer[5] = login_answer.tsih;
    answer[6] = login_answer.length;
    return said;
}

EXPORT void shim_values(const struct shim *shim, uint64_t answer[12])
{
    int i;
    for (i = 0; i < 12; i++)
        answer[i] = shim->login.values[KEYS[i]];
}

/* The Login Response to a good Login Request, answered with this stage, T, CSG, NSG, TSIH and length; opcode 0 where it can't be read. */
EXPORT void shim_login_accepted(const uint8_t *input, size_t length, const uint64_t answered[6], uint64_t answer[10])
{
    struct drawbevel_login_answer login_answer;
    struct drawbevel_pdu pdu;
    struct drawbevel_response response;
    answer[0] = 0;
    if (drawbevel_read(input, length, &pdu) != DRAWBEVEL_OK)
        return;
    login_answer.status = 0;
    login_answer.stage = (uint8_t)answered[0];
    login_answer.transit = (uint8_t)answered[1];
    login_answer.csg = (uint8_t)answered[2];
    login_answer.nsg = (uint8_t)answered[3];
    login_answer.tsih = (uint16_t)answered[4];
    login_answer.length = (size_t)answered[5];
    response = drawbevel_login_accepted(&pdu, &login_answer);
    login_response_fields(&response, answer);
}

/* The Login Response that refuses these bytes, which may be no PDU. */
EXPORT void shim_login_refused(const uint8_t *input, size_t length, uint16_t status, uint64_t answer[10])
{
    struct drawbevel_pdu pdu;
    struct drawbevel_response response;
    memset(&pdu, FILL, sizeof pdu);
    if (drawbevel_read(input, length, &pdu) != DRAWBEVEL_OK)
        memset(&pdu, 0, sizeof pdu);
    response = drawbevel_login_refused(&pdu, status);
    login_response_fields(&response, answer);
}

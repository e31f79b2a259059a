/* A session from C: two connections, a write that is sent again and asks for its data, a read, a status that is sent again.
 * Build: (cd crates/capi && rt lib) && cc -std=c11 -Iinclude examples/session.c crates/capi/out/libcapi.a -o session */
#include <drawbevel.h>
#include <stdio.h>
#include <string.h>

enum { DATA_BYTES = 8, NO_TAG = -1 };

static struct drawbevel_session session;

static void put32(uint8_t *at, uint32_t value)
{
    int i;
    for (i = 0; i < 4; i++)
        at[i] = (uint8_t)(value >> (24 - 8 * i));
}

static uint32_t get32(const uint8_t *at)
{
    return (uint32_t)at[0] << 24 | (uint32_t)at[1] << 16 | (uint32_t)at[2] << 8 | at[3];
}

/* A SCSI command, WRITE(10) or READ(10), with this command number and task tag. */
static void command_pdu(uint8_t pdu[DRAWBEVEL_HEADER_BYTES], bool is_write, uint32_t cmd_sn, uint32_t tag)
{
    memset(pdu, 0, DRAWBEVEL_HEADER_BYTES);
    pdu[0] = DRAWBEVEL_SCSI_COMMAND;
    pdu[1] = is_write ? 0xa0 : 0xc0;
    pdu[32] = is_write ? 0x2a : 0x28;
    put32(pdu + 16, tag);
    put32(pdu + 20, DATA_BYTES);
    put32(pdu + 24, cmd_sn);
}

/* The Data-Out that answers an R2T whole. */
static void data_out_pdu(uint8_t pdu[DRAWBEVEL_HEADER_BYTES + DATA_BYTES], const uint8_t r2t[DRAWBEVEL_HEADER_BYTES])
{
    memset(pdu, 0, DRAWBEVEL_HEADER_BYTES);
    pdu[0] = DRAWBEVEL_DATA_OUT;
    pdu[1] = 0x80;
    put32(pdu + 4, DATA_BYTES);
    memcpy(pdu + 8, r2t + 8, 16); /* LUN and both tags */
    memcpy(pdu + 40, r2t + 40, 4);
    memset(pdu + DRAWBEVEL_HEADER_BYTES, 'a', DATA_BYTES);
}

static void say(const char *what, enum drawbevel_answer answer)
{
    printf("%s: %s\n", what, drawbevel_answer_name(answer));
}

/* A good status of a task. ExpDataSN comes from its record. */
static struct drawbevel_response status_of(uint32_t tag)
{
    struct drawbevel_response good;
    memset(&good, 0, sizeof good);
    good.kind = DRAWBEVEL_SCSI_RESPONSE;
    good.of.scsi_response.initiator_task_tag = tag;
    return good;
}

/* Worker 0's write 2 waits behind the gap at 1 when connection 0 is lost. It is sent again on connection 1: exactly this copy is kept. */
static void lost_and_sent_again(void)
{
    uint8_t pdu[DRAWBEVEL_HEADER_BYTES], out[DRAWBEVEL_HEADER_BYTES];
    struct drawbevel_command command;
    struct drawbevel_held held;
    enum drawbevel_answer answer;
    uint32_t emptied, voided;
    command_pdu(pdu, true, 2, 0x22);
    say("offer 2 on 0", drawbevel_offer(&session, 0, 7, pdu, sizeof pdu));
    say("logout of 0", drawbevel_logout(&session, 0, 1, &emptied, &voided));
    printf("emptied %u, voided %u\n", (unsigned)emptied, (unsigned)voided);

    say("offer 2 on 1", drawbevel_offer(&session, 1, 8, pdu, sizeof pdu));
    say("offer 2 on 1 again", drawbevel_offer(&session, 1, 9, pdu, sizeof pdu));
    say("holder of 2", drawbevel_holder(&session, 2, &held));
    printf("ticket %u, from %u\n", (unsigned)held.ticket, (unsigned)held.origin);
    command_pdu(pdu, false, 1, 0x11);
    say("offer 1 on 1", drawbevel_offer(&session, 1, 6, pdu, sizeof pdu));
    while ((answer = drawbevel_take(&session, out, sizeof out, &command)) == DRAWBEVEL_COMMAND)
        printf("out %u, ticket %u, from %u\n", (unsigned)command.number, (unsigned)command.ticket, (unsigned)command.origin);
    say("take", answer);
}

/* Read 1: its data in one Data-In, then its status, which says how many there were. */
static void read_data(void)
{
    uint8_t out[DRAWBEVEL_HEADER_BYTES];
    struct drawbevel_response good = status_of(0x11);
    struct drawbevel_task task;
    uint32_t stat_sn;
    say("record of 1", drawbevel_task_make(&task, 0x11, 0, (uint32_t)NO_TAG, 0, 262144, 1));
    say("Data-In", drawbevel_task_data_in(&session, &task, 1, true, false, DATA_BYTES, out, sizeof out));
    printf("DataSN %u, offset %u\n", (unsigned)get32(out + 36), (unsigned)get32(out + 40));
    say("send", drawbevel_send(&session, &task, 1, 6, &good, out, sizeof out, &stat_sn));
    printf("StatSN %u, ExpDataSN %u\n", (unsigned)stat_sn, (unsigned)get32(out + 36));
}

/* Write 2: its data are asked for by one R2T and come in one Data-Out; its status is sent again before it is acknowledged. */
static void write_data(void)
{
    uint8_t pdu[DRAWBEVEL_HEADER_BYTES + DATA_BYTES], out[DRAWBEVEL_HEADER_BYTES], again[DRAWBEVEL_HEADER_BYTES];
    struct drawbevel_response good = status_of(0x22);
    struct drawbevel_task task;
    struct drawbevel_came came;
    uint32_t stat_sn, ticket, released;
    say("record of 2", drawbevel_task_make(&task, 0x22, 0, (uint32_t)NO_TAG, 0, 262144, 1));
    say("R2T", drawbevel_task_r2t(&session, &task, 1, 0x77, DATA_BYTES, out, sizeof out));
    data_out_pdu(pdu, out);
    say("Data-Out", drawbevel_task_data_out(&session, &task, 1, pdu, sizeof pdu, &came));
    printf("offset %u, %u bytes, %u open\n", (unsigned)came.offset, (unsigned)came.count, (unsigned)came.open);
    say("Data-Out again", drawbevel_task_data_out(&session, &task, 1, pdu, sizeof pdu, &came));

    say("send", drawbevel_send(&session, &task, 1, 8, &good, out, sizeof out, &stat_sn));
    say("resend", drawbevel_resend(&session, &task, 1, stat_sn, again, sizeof again, &ticket));
    printf("StatSN %u, ticket %u, same bytes: %s\n", (unsigned)stat_sn, (unsigned)ticket, memcmp(out, again, sizeof out) == 0 ? "yes" : "no");
    say("acknowledge", drawbevel_acknowledge(&session, 1, stat_sn + 1, &released));
    printf("released %u\n", (unsigned)released);
    say("resend", drawbevel_resend(&session, &task, 1, stat_sn, again, sizeof again, &ticket));
}

int main(void)
{
    uint32_t exp_cmd_sn, max_cmd_sn;
    drawbevel_fresh(&session, 1, 100, 1);
    say("open 1", drawbevel_open(&session, 1, 200));
    lost_and_sent_again();
    read_data();
    write_data();
    drawbevel_window(&session, &exp_cmd_sn, &max_cmd_sn);
    printf("ExpCmdSN %u, MaxCmdSN %u\n", (unsigned)exp_cmd_sn, (unsigned)max_cmd_sn);
    return 0;
}

/* Responses as the structs of drawbevel.h, with fields that hold more than their place in the header. Each line says what a write and a
 * send answer, and whether either changed a lent byte. Then records, and flags that are other numbers than 0 and 1. */
#include <drawbevel.h>
#include <stdio.h>
#include <string.h>

static struct drawbevel_session s;
static const struct drawbevel_task none; /* of ITT 0, with nothing sent */

/* One response through both functions. */
static void both(const char *name, const struct drawbevel_response *r)
{
    static struct drawbevel_session before;
    uint8_t out[64], again[64];
    enum drawbevel_answer written, sent;
    uint32_t stat_sn;
    int stays;
    memset(out, 0x91, sizeof out);
    memset(again, 0x91, sizeof again);
    before = s;
    written = drawbevel_write(out, sizeof out, r, 1, 2, 3);
    stays = memcmp(out, again, sizeof out) == 0;
    sent = drawbevel_send(&s, &none, 0, 9, r, again, sizeof again, &stat_sn);
    stays = stays && again[0] == 0x91 && memcmp(again, again + 1, sizeof again - 1) == 0;
    stays = stays && memcmp(&s, &before, sizeof s) == 0;
    printf("%s: write %u, send %u, %s\n", name, (unsigned)written, (unsigned)sent, stays ? "all stays" : "written");
}

/* A good response of a kind, all its fields 0. */
static struct drawbevel_response zero(uint64_t kind)
{
    struct drawbevel_response r;
    memset(&r, 0, sizeof r);
    r.kind = kind;
    return r;
}

static void scsi(const char *name, uint64_t overflow, uint64_t underflow, uint64_t length)
{
    struct drawbevel_response r = zero(DRAWBEVEL_SCSI_RESPONSE);
    r.of.scsi_response.overflow = overflow;
    r.of.scsi_response.underflow = underflow;
    r.of.scsi_response.data_segment_length = length;
    both(name, &r);
}

static void login(const char *name, uint64_t transit, uint64_t csg, uint64_t nsg, uint64_t isid)
{
    struct drawbevel_response r = zero(DRAWBEVEL_LOGIN_RESPONSE);
    r.of.login_response.transit = transit;
    r.of.login_response.csg = csg;
    r.of.login_response.nsg = nsg;
    r.of.login_response.isid = isid;
    both(name, &r);
}

static void data_in(const char *name, uint64_t is_final, uint64_t acknowledge, uint64_t length)
{
    struct drawbevel_response r = zero(DRAWBEVEL_DATA_IN);
    r.of.data_in.is_final = is_final;
    r.of.data_in.acknowledge = acknowledge;
    r.of.data_in.data_segment_length = length;
    both(name, &r);
}

static void r2t(const char *name, uint64_t r2t_sn, uint64_t length)
{
    struct drawbevel_response r = zero(DRAWBEVEL_R2T);
    r.of.r2t.r2t_sn = r2t_sn;
    r.of.r2t.desired_data_transfer_length = length;
    both(name, &r);
}

static void exp_data_sn(const char *name, uint64_t number)
{
    struct drawbevel_response r = zero(DRAWBEVEL_SCSI_RESPONSE);
    r.of.scsi_response.exp_data_sn = number;
    both(name, &r);
}

static void snack_tag(const char *name, uint64_t tag)
{
    struct drawbevel_response r = zero(DRAWBEVEL_SCSI_RESPONSE);
    r.of.scsi_response.snack_tag = tag;
    both(name, &r);
}

/* A record with so many R2Ts, made where another stands. */
static void make(const char *name, uint16_t max_outstanding_r2t)
{
    struct drawbevel_task task, before;
    enum drawbevel_answer made;
    memset(&task, 0x91, sizeof task);
    before = task;
    made = drawbevel_task_make(&task, 1, 2, 3, 4, 5, max_outstanding_r2t);
    printf("%s: make %u, %s\n", name, (unsigned)made, memcmp(&task, &before, sizeof task) == 0 ? "all stays" : "written");
}

/* Byte 1 of a Data-In with these flags. */
static void flags(const char *name, int is_final, int acknowledge)
{
    struct drawbevel_task task;
    uint8_t out[48];
    drawbevel_task_make(&task, 1, 2, 3, 0, 8192, 1);
    drawbevel_task_data_in(&s, &task, 0, is_final, acknowledge, 1, out, sizeof out);
    printf("%s: byte 1 is 0x%02x\n", name, (unsigned)out[1]);
}

static void kind(const char *name, uint64_t opcode)
{
    struct drawbevel_response r = zero(opcode);
    both(name, &r);
}

int main(void)
{
    drawbevel_fresh(&s, 1, 100, 1);
    scsi("overflow 1", 1, 0, 8192);
    scsi("overflow 2", 2, 0, 0);
    scsi("overflow 255", 255, 0, 0);
    scsi("overflow 2^32", 0x100000000, 0, 0);
    scsi("underflow 1", 0, 1, 0);
    scsi("underflow 2", 0, 2, 0);
    scsi("overflow 1 and underflow 1", 1, 1, 0);
    scsi("overflow 2, 8193 bytes", 2, 0, 8193);
    scsi("2^32-1 bytes", 0, 0, 0xffffffff);
    scsi("2^32 bytes", 0, 0, 0x100000000);
    login("transit 1", 1, 1, 3, 0xffffffffffff);
    login("transit 2", 2, 1, 3, 0);
    login("transit 4", 4, 1, 3, 0);
    login("transit 4, no stage", 4, 0, 0, 0);
    login("transit 0, NSG 1", 0, 0, 1, 0);
    login("CSG 4", 1, 4, 3, 0);
    login("NSG 4", 1, 1, 4, 0);
    login("ISID 2^48", 1, 1, 3, 0x1000000000000);
    exp_data_sn("ExpDataSN 2^32-1", 0xffffffff);
    exp_data_sn("ExpDataSN 2^32", 0x100000000);
    snack_tag("SNACK tag 1", 1);
    snack_tag("SNACK tag 2^32", 0x100000000);
    data_in("F and A, 8192 bytes", 1, 1, 8192);
    data_in("F 2", 2, 0, 0);
    data_in("A 2^32", 1, 0x100000000, 0);
    data_in("A 2, 8193 bytes", 1, 2, 8193);
    r2t("R2TSN 2^32-1", 0xffffffff, 1);
    r2t("R2TSN 2^32", 0x100000000, 1);
    r2t("desired length 2^32", 0, 0x100000000);
    kind("NOP-In", DRAWBEVEL_NOP_IN);
    kind("kind 0x24", 0x24);
    kind("kind 0x120", 0x120);
    kind("kind 0x80000020", 0x80000020);
    kind("kind 0x100000020", 0x100000020);
    make("no R2T", 0);
    make("1 R2T", 1);
    make("8 R2Ts", 8);
    make("9 R2Ts", 9);
    make("257 R2Ts", 257);
    flags("F 256", 256, 0);
    flags("A 2", 0, 2);
    flags("F -1, A 2^31-1", -1, 0x7fffffff);
    return 0;
}

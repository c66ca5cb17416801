/* Both balancing calls: every set on each device, by the rules written a second time, input by input; and every byte of every buffer after each
 * call, guard bytes included. */
#include "crc.h"
#include "lent.h"

enum { ADDRESS = 8, FIRST = 0x01 };

/* What a call is given, and what it must leave. A set of -1 is read back. */
struct call {
    const char *name;
    struct lent device, tape, log, out;
    int x, check;
    long set;
    uint8_t limit, number, log_bytes[MOST];
    size_t tape_used, log_used;
    uint32_t five[5];
};

/* ---- the rules */
static int is_on(long set, int input) { return (set >> (input - 1) & 1) != 0; }

static uint8_t rules(int x, long set, int limit) {
    int many = 0;
    for (int input = x + 1; input <= 16; input++)
        if (is_on(set, input)) return BQ769X0_NOT_ON_DEVICE;
    for (int input = 1; input < x; input++)
        if (input % 5 != 0 && is_on(set, input) && is_on(set, input + 1)) return BQ769X0_NEIGHBOURS;
    for (int input = 1; input <= x; input++) many += is_on(set, input);
    return many > limit ? BQ769X0_TOO_MANY_CELLS : BQ769X0_OK;
}

/* The register's byte for the block of five that begins at an input. */
static uint8_t register_of(long set, int block) {
    int byte = 0;
    for (int i = 0; i < 5; i++) byte |= is_on(set, 5 * block + i + 1) << i;
    return (uint8_t)byte;
}

/* ---- the fields */
static void tape_field(struct call *c, uint8_t tag, const uint8_t *bytes, size_t count) {
    uint8_t *to = at(&c->tape) + c->tape.len;
    to[0] = tag, to[1] = 0, to[2] = (uint8_t)count;
    if (count != 0) memcpy(to + 3, bytes, count);
    c->tape.len += 3 + count;
    c->tape_used = c->tape.len;
}

static void log_field(struct call *c, uint8_t tag, const uint8_t *bytes, size_t count) {
    uint8_t *to = c->log_bytes + c->log_used;
    to[0] = tag, to[1] = 0, to[2] = (uint8_t)count;
    memcpy(to + 3, bytes, count);
    c->log_used += 3 + count;
}

/* The write of these registers, and its answer; and a read, answered with these bytes. */
static void writes(struct call *c, const uint8_t *regs, size_t count) {
    uint8_t sent[2 + 2 * 3] = {ADDRESS, FIRST}, sum = crc(crc(0, ADDRESS << 1), FIRST);
    size_t n = 2;
    for (size_t i = 0; i < count; i++) {
        sent[n++] = regs[i];
        if (c->check) sent[n++] = crc(sum, regs[i]);
        sum = 0;
    }
    log_field(c, 0x11, sent, n);
    tape_field(c, 0x01, NULL, 0);
}

static void reads(struct call *c, const uint8_t *regs, size_t count) {
    uint8_t came[2 * 3], asked[4] = {ADDRESS, FIRST, 0, 0}, sum = crc(0, ADDRESS << 1 | 1);
    size_t n = 0;
    for (size_t i = 0; i < count; i++) {
        came[n++] = regs[i];
        if (c->check) came[n++] = crc(sum, regs[i]);
        sum = 0;
    }
    asked[3] = (uint8_t)n;
    log_field(c, 0x12, asked, sizeof asked);
    tape_field(c, 0x01, came, n);
}

/* ---- a call */
static struct call begun(const char *name, int x, int check) {
    const uint8_t device[] = {0x20, 0, 4, (uint8_t)x, (uint8_t)x, ADDRESS, (uint8_t)check};
    struct call c;
    memset(&c, 0, sizeof c);
    c.name = name, c.x = x, c.check = check;
    lend(&c.device, device, sizeof device);
    lend(&c.tape, NULL, 0);
    lend(&c.log, NULL, 24);
    lend(&c.out, NULL, BQ769X0_OUT);
    return c;
}

static struct call setting(const char *name, int x, int check, long set, uint8_t limit) {
    struct call c = begun(name, x, check);
    uint8_t regs[3] = {register_of(set, 0), register_of(set, 1), register_of(set, 2)};
    c.set = set, c.limit = limit;
    c.number = rules(x, set, limit);
    if (c.number == BQ769X0_OK) {
        writes(&c, regs, (size_t)x / 5);
        if (!check) reads(&c, regs, (size_t)x / 5);
    }
    return c;
}

static struct call getting(const char *name, int x, int check, const uint8_t regs[3]) {
    struct call c = begun(name, x, check);
    c.set = -1;
    reads(&c, regs, (size_t)x / 5);
    for (int i = 0; i < x; i++) c.five[0] |= (uint32_t)(regs[i / 5] >> i % 5 & 1) << i;
    return c;
}

/* Refused after so many whole fields of tape and log. */
static void refused(struct call *c, uint8_t number, size_t tape_used, size_t log_used) {
    c->number = number;
    c->tape_used = tape_used;
    c->log_used = log_used;
    memset(c->five, 0, sizeof c->five);
}

static uint8_t called(struct call *c, int null) {
    const uint8_t *device = lent_at(&c->device, null), *tape = lent_at(&c->tape, null);
    uint8_t *log = lent_at(&c->log, null), *out = at(&c->out);
    if (c->set < 0) return bq769x0_balance_get(device, c->device.len, tape, c->tape.len, log, c->log.len, out);
    return bq769x0_balance_set(device, c->device.len, (uint16_t)c->set, c->limit, tape, c->tape.len, log, c->log.len, out);
}

static void made(struct call *c, int null) {
    struct call before = *c;
    uint8_t out[BQ769X0_OUT];
    must(called(c, null) == c->number, c->name, "the number");
    laid(out, c->tape_used, c->log_used, c->five);
    same(c->name, "device", &c->device, &before.device, out, 0);
    same(c->name, "tape", &c->tape, &before.tape, out, 0);
    same(c->name, "log", &c->log, &before.log, c->log_bytes, c->log_used);
    same(c->name, "out", &c->out, &before.out, out, BQ769X0_OUT);
    run++;
}

/* ---- every set of two bytes, with a limit that it just keeps and one that it just breaks */
static void every_set(int x, int check) {
    for (long set = 0; set <= UINT16_MAX; set++) {
        int many = 0;
        for (int input = 1; input <= 16; input++) many += is_on(set, input);
        struct call c = setting("a set", x, check, set, (uint8_t)many);
        made(&c, 0);
        if (many == 0) continue;
        c = setting("a set over the limit", x, check, set, (uint8_t)(many - 1));
        made(&c, 0);
    }
}

/* Every byte in each register, the upper three bits set too, is read by its lower five. */
static void every_byte(int x, int check) {
    for (int byte = 0; byte <= UINT8_MAX; byte++)
        for (int place = 0; place < x / 5; place++) {
            uint8_t regs[3] = {0x15, 0x0A, 0x11};
            regs[place] = (uint8_t)byte;
            struct call c = getting("registers read", x, check, regs);
            made(&c, 0);
        }
}

/* One call in every way that its buffers can be short or its bus fail. */
static void cut_short(struct call whole) {
    size_t tape_end = 0, log_end = 0;
    struct call c;
    for (size_t n = 0; n < whole.device.len; n++) {
        c = whole;
        c.device.len = n;
        refused(&c, BQ769X0_BAD_TAPE, 0, 0);
        made(&c, 0);
        made(&c, 1);
    }
    while (tape_end < whole.tape.len) {
        size_t tape_next = tape_end + 3 + at(&whole.tape)[tape_end + 2], log_next = log_end + 3 + whole.log_bytes[log_end + 2];
        for (size_t n = tape_end; n < tape_next; n++) {
            c = whole;
            c.tape.len = n;
            refused(&c, n == tape_end ? BQ769X0_TAPE_ENDED : BQ769X0_BAD_TAPE, tape_end, log_end);
            made(&c, 1);
        }
        for (size_t n = log_end; n < log_next; n++) {
            c = whole;
            c.log.len = n;
            refused(&c, BQ769X0_LOG_FULL, tape_end, log_end);
            made(&c, 1);
        }
        c = whole;
        memcpy(at(&c.tape) + tape_end, "\2\0", 3);
        refused(&c, whole.check && whole.set < 0 ? BQ769X0_CRC_MISMATCH : BQ769X0_I2C_ERROR, tape_end + 3, log_next);
        made(&c, 0);
        tape_end = tape_next, log_end = log_next;
    }
}

/* A byte of a read other than it was: by its check byte, or as the first register that reads back otherwise. */
static void other_bytes(struct call whole) {
    for (size_t i = whole.set < 0 ? 3 : 6; i < whole.tape.len; i++) {
        struct call c = whole;
        at(&c.tape)[i] ^= 0x04;
        if (whole.check) {
            refused(&c, BQ769X0_CRC_MISMATCH, whole.tape_used, whole.log_used);
        } else if (whole.set < 0) {
            c.five[0] ^= 1u << (5 * (i - 3) + 2);
        } else {
            refused(&c, BQ769X0_VERIFY_ERROR, whole.tape_used, whole.log_used);
            c.five[0] = 1, c.five[1] = (uint32_t)(FIRST + i - 6);
        }
        made(&c, 0);
    }
}

/* ---- the device's bytes */
static void device_byte(struct call c, size_t place, uint8_t byte, uint8_t number) {
    at(&c.device)[place] = byte;
    refused(&c, number, 0, 0);
    made(&c, 0);
}

static void devices(struct call whole) {
    static const struct {
        size_t place;
        uint8_t byte, number;
    } wrong[] = {
        {0, 0x21, BQ769X0_BAD_TAPE},   {2, 5, BQ769X0_BAD_TAPE},         {6, 2, BQ769X0_BAD_TAPE},
        {3, 6, BQ769X0_BAD_DEVICE},    {4, 2, BQ769X0_BAD_CELL_COUNT},   {5, 128, BQ769X0_BAD_ADDRESS},
    };
    struct call c = whole;
    for (size_t i = 0; i < sizeof wrong / sizeof wrong[0]; i++) device_byte(whole, wrong[i].place, wrong[i].byte, wrong[i].number);
    c.device.len = 34;
    made(&c, 0);
}

int main(void) {
    static const uint8_t regs[3] = {0x15, 0x0A, 0x11};
    for (int x = 5; x <= 15; x += 5)
        for (int check = 0; check <= 1; check++) {
            struct call sets = setting("inputs 1 and 3", x, check, 5, 2), gets = getting("registers read", x, check, regs);
            every_set(x, check);
            every_byte(x, check);
            cut_short(sets);
            cut_short(gets);
            if (!check) other_bytes(sets);
            other_bytes(gets);
            devices(sets);
            devices(gets);
        }
    return tried("balancing");
}

/* The C boundary as firmware meets it: each call, with every byte of every buffer compared after it, guard bytes around each included. */
#include "lent.h"

enum { FIELDS = 8 };

/* Which of the three functions: without a reading, with one by the crate's list, with one by the wiring. */
enum reading { NONE, CELLS, WIRED };

/* What a call is given, and what it must leave: answer, positions, five numbers, the log's and both lists' first bytes, and the spread. */
struct call {
    const char *name;
    struct lent job, tape, log, inputs, list, spread, out;
    uint8_t number;
    size_t tape_used, log_used, inputs_used, list_used, spread_used;
    uint32_t five[5];
    uint8_t log_bytes[MOST], inputs_bytes[MOST], list_bytes[MOST], spread_bytes[BQ769X0_SPREAD];
};

static uint8_t called(struct call *c, enum reading reading, int null) {
    const uint8_t *job = lent_at(&c->job, null), *tape = lent_at(&c->tape, null);
    uint8_t *log = lent_at(&c->log, null), *inputs = lent_at(&c->inputs, null), *list = lent_at(&c->list, null), *out = at(&c->out);
    switch (reading) {
    case NONE:
        return bq769x0_init(job, c->job.len, tape, c->tape.len, log, c->log.len, out);
    case CELLS:
        return bq769x0_init_cells(job, c->job.len, tape, c->tape.len, log, c->log.len, list, c->list.len, out);
    default:
        return bq769x0_init_wired(job, c->job.len, tape, c->tape.len, log, c->log.len, inputs, c->inputs.len, list, c->list.len,
                                  at(&c->spread), out);
    }
}

static void made(struct call *c, enum reading reading, int null) {
    uint8_t out[BQ769X0_OUT];
    struct call before = *c;
    must(called(c, reading, null) == c->number, c->name, "the number");
    laid(out, c->tape_used, c->log_used, c->five);
    same(c->name, "job", &c->job, &before.job, out, 0);
    same(c->name, "tape", &c->tape, &before.tape, out, 0);
    same(c->name, "log", &c->log, &before.log, c->log_bytes, c->log_used);
    same(c->name, "inputs", &c->inputs, &before.inputs, c->inputs_bytes, c->inputs_used);
    same(c->name, "list", &c->list, &before.list, c->list_bytes, c->list_used);
    same(c->name, "spread", &c->spread, &before.spread, c->spread_bytes, c->spread_used);
    same(c->name, "out", &c->out, &before.out, out, BQ769X0_OUT);
    run++;
}

/* ---- the scope's example, field by field, with a reading of its five cells after it */
static const uint8_t job[] = {0x20, 0, 4, 5, 5, 8, 0, 0x21, 0, 24, 0, 0, 3, 0xE8, 0, 0, 0, 50, 0, 0, 0, 20, 0, 0, 0x0A, 0xF0, 0, 0, 0x10, 0x68, 2, 5, 1, 1};

struct field {
    size_t len;
    uint8_t bytes[24];
};

static const struct field tape[FIELDS] = {
    {5, {1, 0, 2, 0, 0}}, {4, {1, 0, 1, 0}}, {3, {1, 0, 0}}, {9, {1, 0, 6, 0x13, 0x55, 0x50, 0xCF, 0xDF, 0x19}}, {4, {1, 0, 1, 0}}, {3, {1, 0, 0}},
    {4, {1, 0, 1, 0x40}}, {13, {1, 0, 10, 0x27, 0x10, 0x27, 0x11, 0x20, 0, 0xFF, 0xFF, 0, 0}},
};
static const struct field logged[FIELDS] = {
    {7, {0x12, 0, 4, 8, 0x50, 0, 2}}, {7, {0x12, 0, 4, 8, 0x59, 0, 1}}, {11, {0x11, 0, 8, 8, 6, 0x13, 0x55, 0x50, 0xCF, 0xDF, 0x19}},
    {7, {0x12, 0, 4, 8, 6, 0, 6}}, {7, {0x12, 0, 4, 8, 5, 0, 1}}, {6, {0x11, 0, 3, 8, 5, 0x40}}, {7, {0x12, 0, 4, 8, 5, 0, 1}},
    {7, {0x12, 0, 4, 8, 0x0C, 0, 10}},
};
static const uint32_t accepted[5] = {0, 56, 22, 2797, 4201};
/* readings 10000, 10001, 8192, 65535 and 0 at 365 microvolts a step */
static const int32_t millivolts[5] = {3650, 3650, 2990, 23920, 0};
static const uint8_t all_inputs[5] = {1, 2, 3, 4, 5};

/* So many transfers made, of which the last may have faulted: what tape and log then hold. */
static void transfers(struct call *c, size_t count) {
    c->tape_used = c->log_used = 0;
    for (size_t i = 0; i < count; i++) {
        memcpy(c->log_bytes + c->log_used, logged[i].bytes, logged[i].len);
        c->tape_used += tape[i].len;
        c->log_used += logged[i].len;
    }
}

static size_t whole_tape(uint8_t *to, size_t count) {
    size_t n = 0;
    for (size_t i = 0; i < count; i++) {
        memcpy(to + n, tape[i].bytes, tape[i].len);
        n += tape[i].len;
    }
    return n;
}

static void refused(struct call *c, uint8_t number, size_t count) {
    c->number = number;
    c->inputs_used = c->list_used = c->spread_used = 0;
    memset(c->five, 0, sizeof c->five);
    transfers(c, count);
}

/* Sum, lowest and highest. */
static void spread_of(uint8_t *to, const int32_t *volts, size_t count) {
    int32_t sum = 0, lowest = volts[0], highest = volts[0];
    for (size_t i = 0; i < count; i++) {
        sum += volts[i];
        if (volts[i] < lowest) lowest = volts[i];
        if (volts[i] > highest) highest = volts[i];
    }
    put(to + BQ769X0_SUM_MV, (uint64_t)sum, 4);
    put(to + BQ769X0_LOWEST_MV, (uint64_t)lowest, 4);
    put(to + BQ769X0_HIGHEST_MV, (uint64_t)highest, 4);
}

/* A reading's cells: voltages in the list, and by the wiring their inputs beside them and the spread. */
static void cells_read(struct call *c, enum reading reading, const uint8_t *inputs, const int32_t *volts, size_t count) {
    c->inputs_used = reading == WIRED ? count : 0;
    c->list_used = reading == NONE ? 0 : 4 * count;
    c->spread_used = reading == WIRED ? BQ769X0_SPREAD : 0;
    spread_of(c->spread_bytes, volts, count);
    memcpy(c->inputs_bytes, inputs, count);
    for (size_t i = 0; i < count; i++)
        put(c->list_bytes + 4 * i, (uint64_t)volts[i], 4);
}

/* The example as it stands, accepted. */
static struct call example(const char *name, enum reading reading) {
    struct call c;
    uint8_t bytes[MOST];
    size_t count = reading == NONE ? 7 : 8;
    memset(&c, 0, sizeof c);
    c.name = name;
    lend(&c.job, job, sizeof job);
    lend(&c.tape, bytes, whole_tape(bytes, count));
    lend(&c.log, NULL, 80);
    lend(&c.inputs, NULL, 9);
    lend(&c.list, NULL, 24);
    lend(&c.spread, NULL, BQ769X0_SPREAD);
    lend(&c.out, NULL, BQ769X0_OUT);
    transfers(&c, count);
    memcpy(c.five, accepted, sizeof accepted);
    cells_read(&c, reading, all_inputs, millivolts, 5);
    return c;
}

/* The same on a BQ76930 of seven cells: inputs 4, 8 and 9 are shorted, and read 0 here. */
static void seven_cells(void) {
    static const struct field reply = {23, {1, 0, 20, 0x27, 0x10, 0x27, 0x11, 0x27, 0x74, 0, 0, 0x29, 0x68,
                                            0x2A, 0xF8, 0x1F, 0x40, 0, 0, 0, 0, 0x2E, 0x18}};
    static const uint8_t inputs[7] = {1, 2, 3, 5, 6, 7, 10};
    static const int32_t volts[7] = {3650, 3650, 3686, 3869, 4015, 2920, 4307};
    struct call c = example("seven cells", WIRED);
    size_t before = c.tape.len - tape[7].len;
    at(&c.job)[3] = 10, at(&c.job)[4] = 7;
    memcpy(at(&c.tape) + before, reply.bytes, reply.len);
    c.tape.len = c.tape_used = before + reply.len;
    c.log_bytes[c.log_used - 1] = 20;
    c.list.len = 28;
    cells_read(&c, WIRED, inputs, volts, 7);
    made(&c, WIRED, 0);
    c = example("six inputs for seven cells", WIRED);
    at(&c.job)[3] = 10, at(&c.job)[4] = 7;
    c.list.len = 28, c.inputs.len = 6;
    refused(&c, BQ769X0_NO_ROOM, 7);
    made(&c, WIRED, 0);
}

/* Offset -1: every voltage is a millivolt less, and that of reading 0 below zero. */
static void below_zero(enum reading reading) {
    static const int32_t volts[5] = {3649, 3649, 2989, 23919, -1};
    static const uint8_t last[4] = {0xFF, 0xFF, 0xFF, 0xFF};
    struct call c = example("a cell below zero", reading);
    at(&c.tape)[4] = 0xFF;
    c.five[3] = 2796, c.five[4] = 4200;
    cells_read(&c, reading, all_inputs, volts, 5);
    made(&c, reading, 0);
    must(memcmp(at(&c.list) + 16, last, sizeof last) == 0, c.name, "the last cell");
    must(bq769x0_millivolts(at(&c.list), 4) == -1, c.name, "the last cell's millivolts");
    must(reading != WIRED || bq769x0_i32(at(&c.spread) + BQ769X0_LOWEST_MV) == -1, c.name, "the lowest cell");
    must(reading != WIRED || bq769x0_i32(at(&c.spread) + BQ769X0_SUM_MV) == 34205, c.name, "the sum");
}

/* Every length from 0 up to one short, of the job, the tape and the log; with no pointer where it is 0 too. */
static void short_buffers(enum reading reading) {
    size_t count = reading == NONE ? 7 : 8;
    for (size_t n = 0; n < sizeof job; n++) {
        struct call c = example("a short job", reading);
        c.job.len = n;
        refused(&c, BQ769X0_BAD_TAPE, 0);
        made(&c, reading, 0);
    }
    for (size_t n = 0, fields = 0, end = 0; n < example("", reading).tape.len; n++) {
        struct call c = example("a short tape", reading);
        c.tape.len = n;
        if (n == end + tape[fields].len)
            end += tape[fields++].len;
        refused(&c, n == end ? BQ769X0_TAPE_ENDED : BQ769X0_BAD_TAPE, fields);
        made(&c, reading, 0);
    }
    for (size_t n = 0, fields = 0, end = 0; n < example("", reading).log_used; n++) {
        struct call c = example("a short log", reading);
        c.log.len = n;
        if (n == end + logged[fields].len)
            end += logged[fields++].len;
        refused(&c, BQ769X0_LOG_FULL, fields);
        made(&c, reading, 0);
    }
    for (size_t i = 0; i < count; i++) {
        struct call c = example("a fault", reading);
        size_t n = whole_tape(at(&c.tape), i);
        memcpy(at(&c.tape) + n, "\2\0", 3);
        c.tape.len = n + 3;
        refused(&c, BQ769X0_I2C_ERROR, i + 1);
        c.tape_used = n + 3;
        made(&c, reading, 0);
    }
}

static void short_lists(enum reading reading) {
    for (size_t n = 0; n < 20; n++) {
        struct call c = example("a short list", reading);
        c.list.len = n;
        refused(&c, BQ769X0_NO_ROOM, 7);
        made(&c, reading, 0);
    }
    for (size_t n = 0; reading == WIRED && n < 5; n++) {
        struct call c = example("too few inputs", reading);
        c.inputs.len = n;
        refused(&c, BQ769X0_NO_ROOM, 7);
        made(&c, reading, 0);
    }
}

/* ---- the cell on an input, by the rule of the blocks of five: the last cell of each sits on its fifth input, the others on its first ones */
static uint8_t cell_on(int x, int cells, int input, uint8_t *cell) {
    int blocks = x / 5, found = 0;
    if (x != 5 && x != 10 && x != 15)
        return BQ769X0_BAD_DEVICE;
    if (cells < 3 * blocks || cells > x)
        return BQ769X0_BAD_CELL_COUNT;
    for (int block = 0; block < blocks; block++) {
        int inside = cells / blocks + (block < cells % blocks);
        for (int i = 1; i <= inside; i++) {
            found++;
            if (5 * block + (i < inside ? i : 5) == input) {
                *cell = (uint8_t)found;
                return BQ769X0_OK;
            }
        }
    }
    return BQ769X0_NO_SUCH_INPUT;
}

static void on_input(const struct call *c, int x, int cells, int input) {
    struct lent cell, before;
    uint8_t should = 0, number = cell_on(x, cells, input, &should);
    lend(&before, NULL, 1);
    cell = before;
    must(bq769x0_cell_on((uint8_t)x, (uint8_t)cells, (uint8_t)input, at(&cell)) == number, c->name, "the number");
    same(c->name, "cell", &cell, &before, &should, number == BQ769X0_OK);
    run++;
}

/* Every input, of every X and count up to 16 and of 255. */
static void cells_on(void) {
    struct call c = example("a cell on an input", NONE);
    for (int x = 0; x < 256; x += x == 16 ? 239 : 1)
        for (int cells = 0; cells < 256; cells += cells == 16 ? 239 : 1)
            for (int input = 0; input < 256; input++)
                on_input(&c, x, cells, input);
}

/* ---- the seconds of a delay's code, as the datasheet prints them */
typedef uint8_t question(uint8_t code, uint8_t seconds[1]);

/* All 256 codes: the first four have their seconds, the others 15 and the byte as it was. */
static void every_code(const char *name, question *asked, const uint8_t seconds[4]) {
    struct call c = example(name, NONE);
    for (int code = 0; code <= UINT8_MAX; code++) {
        struct lent lent, before;
        lend(&before, NULL, 1);
        lent = before;
        must(asked((uint8_t)code, at(&lent)) == (code < 4 ? BQ769X0_OK : BQ769X0_BAD_TAPE), c.name, "the number");
        same(c.name, "seconds", &lent, &before, seconds + code % 4, code < 4);
        run++;
    }
}

static void seconds_of_codes(void) {
    static const uint8_t uv[4] = {1, 4, 8, 16}, ov[4] = {1, 2, 4, 8};
    every_code("the seconds of a UV delay", bq769x0_uv_seconds, uv);
    every_code("the seconds of an OV delay", bq769x0_ov_seconds, ov);
}

/* A refusal's figures: OV and UV out of reach above, at 0 and below zero, and 08 that reads back otherwise. */
static void figures(void) {
    static const int32_t asked[] = {5000, INT32_MAX, 0, -1, INT32_MIN};
    struct call c;
    for (size_t i = 0; i < sizeof asked / sizeof asked[0]; i++) {
        c = example("an OV out of reach", NONE);
        put(at(&c.job) + 26, (uint64_t)asked[i], 4);
        refused(&c, BQ769X0_OV_UNOBTAINABLE, 2);
        c.five[0] = 2, c.five[1] = 2993, c.five[2] = 4482;
        made(&c, NONE, 0);
        c = example("a UV out of reach", NONE);
        put(at(&c.job) + 22, (uint64_t)asked[i], 4);
        refused(&c, BQ769X0_UV_UNOBTAINABLE, 2);
        c.five[0] = 2, c.five[1] = 1495, c.five[2] = 2984;
        made(&c, NONE, 0);
        must(bq769x0_i32(at(&c.out) + BQ769X0_FIGURE_2) == 2984, c.name, "the highest UV");
    }
    c = example("another byte in 08", NONE);
    at(&c.tape)[5 + 4 + 3 + 3 + 2] ^= 1;
    refused(&c, BQ769X0_VERIFY_ERROR, 4);
    c.five[0] = 1, c.five[1] = 8;
    made(&c, NONE, 0);
}

/* No pointer where a length is 0: of all at once, and of each that the call gets to. */
static void no_pointers(enum reading reading) {
    struct call c = example("no job, tape, log or list", reading);
    c.job.len = c.tape.len = c.log.len = c.inputs.len = c.list.len = 0;
    refused(&c, BQ769X0_BAD_TAPE, 0);
    made(&c, reading, 1);
    c = example("no tape", reading);
    c.tape.len = 0;
    refused(&c, BQ769X0_TAPE_ENDED, 0);
    made(&c, reading, 1);
    c = example("no log", reading);
    c.log.len = 0;
    refused(&c, BQ769X0_LOG_FULL, 0);
    made(&c, reading, 1);
    if (reading != NONE) {
        c = example("no list", reading);
        c.inputs.len = c.list.len = 0;
        refused(&c, BQ769X0_NO_ROOM, 7);
        made(&c, reading, 1);
    }
}

/* The header's own readers: a number of four bytes and of eight, millivolts on both sides of 0, and a name for each number and no other. */
static void readers(void) {
    static const uint8_t bytes[] = {0x01, 0x23, 0x45, 0x67, 0x89, 0xAB, 0xCD, 0xEF};
    static const uint8_t list[] = {0, 0, 0x0B, 0xB9, 0xFF, 0xFF, 0xFF, 0xFF, 0x7F, 0xFF, 0xFF, 0xFF, 0x80, 0, 0, 0};
    static const char *const none = "the header's readers";
    must(bq769x0_u32(bytes) == 0x01234567 && bq769x0_u64(bytes) == 0x0123456789ABCDEF, none, "a number");
    must(bq769x0_millivolts(list, 0) == 3001 && bq769x0_millivolts(list, 1) == -1, none, "a cell's millivolts");
    must(bq769x0_millivolts(list, 2) == INT32_MAX && bq769x0_millivolts(list, 3) == INT32_MIN, none, "the farthest millivolts");
    must(bq769x0_i32(list) == 3001 && bq769x0_i32(list + 4) == -1, none, "the millivolts at a place");
    must(strcmp(bq769x0_name(BQ769X0_OK), "Ok") == 0, none, "the name of 0");
    must(strcmp(bq769x0_name(BQ769X0_BAD_TAPE), "BadTape") == 0, none, "the name of 15");
    for (int a = 0; a <= UINT8_MAX; a++) {
        int named = a <= BQ769X0_TOO_MANY_CELLS;
        must(named == (strcmp(bq769x0_name((uint8_t)a), bq769x0_name(UINT8_MAX)) != 0), none, "a name, or none");
        for (int b = 0; named && b < a; b++) must(strcmp(bq769x0_name((uint8_t)a), bq769x0_name((uint8_t)b)) != 0, none, "a name of its own");
    }
}

int main(void) {
    readers();
    for (enum reading reading = NONE; reading <= WIRED; reading++) {
        struct call c = example("the example", reading);
        made(&c, reading, 0);
        short_buffers(reading);
        no_pointers(reading);
    }
    short_lists(CELLS);
    short_lists(WIRED);
    below_zero(CELLS);
    below_zero(WIRED);
    seven_cells();
    figures();
    cells_on();
    seconds_of_codes();
    return tried("boundary");
}

/* The live header against a chip made here, as C and as C++: both builds, each size and call, no fault and a fault at each transfer after each
 * number of bytes. A call's answer, lists and log must be those of the same call on the tape that the chip's answers made. */
#include "bq769x0_live.h"
#include "crc.h"

#include <stdio.h>
#include <stdlib.h>
#include <string.h>

enum { ADDRESS = 8, FULL = 15, LAST = 8 };

/* 256 registers; transfers are counted, and that of number fails_at ends after so many bytes. */
struct chip {
    uint8_t regs[256];
    int check;
    unsigned made, fails_at;
    size_t after;
};

static unsigned long tried;

static void must(int holds, const char *what) {
    if (!holds) {
        printf("live: %s is not as it should be\n", what);
        exit(1);
    }
}

/* The register and its data bytes, each with its check byte where the chip has them; a byte cut off is not stored. */
static int chip_write(void *context, uint8_t address, const uint8_t *bytes, size_t count) {
    struct chip *chip = (struct chip *)context;
    int fails = ++chip->made == chip->fails_at;
    size_t came = fails && chip->after < count ? chip->after : count, width = chip->check ? 2 : 1;
    uint8_t sum = crc(crc(0, (uint8_t)(ADDRESS << 1)), bytes[0]);
    must(address == ADDRESS && count > 1, "the address or the length of a write");
    for (size_t i = 1; i + width <= came; i += width) {
        if (chip->check) must(bytes[i + 1] == crc(sum, bytes[i]), "a check byte sent");
        chip->regs[(uint8_t)(bytes[0] + (i - 1) / width)] = bytes[i];
        sum = 0;
    }
    return fails;
}

static int chip_read(void *context, uint8_t address, uint8_t reg, uint8_t *bytes, size_t count, size_t *delivered) {
    struct chip *chip = (struct chip *)context;
    int fails = ++chip->made == chip->fails_at;
    uint8_t sum = crc(0, ADDRESS << 1 | 1);
    must(address == ADDRESS, "the address of a read");
    *delivered = fails && chip->after < count ? chip->after : count;
    for (size_t i = 0; i < *delivered; i++) {
        if (chip->check && i % 2 == 1) {
            bytes[i] = crc(sum, bytes[i - 1]);
            sum = 0;
        } else {
            bytes[i] = chip->regs[(uint8_t)(reg + (chip->check ? i / 2 : i))];
        }
    }
    return fails;
}

/* What an input reads: from 8000 up, the third 0; and its millivolts at gain 380 and offset -20, which are -20 of the third. */
static int reading_of(int input) { return input == 2 ? 0 : 8000 + 177 * input; }
static int32_t volts_of(int input) { return (reading_of(input) * 380 - 20 * 1000) / 1000; }

/* That gain and offset, those readings, and 05 with two bits that must stay. */
static struct chip chip_of(int check) {
    struct chip chip;
    memset(&chip, 0, sizeof chip);
    chip.check = check;
    chip.regs[0x50] = 0x04;
    chip.regs[0x51] = 0xEC;
    chip.regs[0x59] = 0xE0;
    chip.regs[0x05] = 0x03;
    for (int i = 0; i < FULL; i++) {
        chip.regs[0x0C + 2 * i] = (uint8_t)(reading_of(i) / 256);
        chip.regs[0x0D + 2 * i] = (uint8_t)(reading_of(i) % 256);
    }
    return chip;
}

struct outcome {
    uint8_t number, inputs[FULL], list[4 * FULL], spread[BQ769X0_SPREAD], out[BQ769X0_OUT], log[BQ769X0_LIVE_LOG];
};

static struct outcome blank(void) {
    struct outcome o;
    memset(&o, 0xC3, sizeof o);
    return o;
}

/* Inputs 1, 3, 6 and 12, as far as there are so many, where 2, 8 and 15 were on; and the limit that they keep. */
static uint16_t set_of(int x) { return (uint16_t)(0x0825 & ((1 << x) - 1)); }
static const uint8_t new_regs[3] = {0x05, 0x01, 0x02}, old_regs[3] = {0x02, 0x04, 0x10};

/* The call on the chip; and on the tape that it left. */
static struct outcome on_bus(const uint8_t *job, enum bq769x0_calls calls, size_t x, const struct bq769x0_bus *bus,
                             struct bq769x0_live *live) {
    struct outcome o = blank();
    switch (calls) {
    case BQ769X0_INIT: o.number = bq769x0_live_init(job, 34, bus, live, o.out); break;
    case BQ769X0_INIT_WIRED: o.number = bq769x0_live_init_wired(job, 34, bus, live, o.inputs, x, o.list, 4 * x, o.spread, o.out); break;
    case BQ769X0_INIT_CELLS: o.number = bq769x0_live_init_cells(job, 34, bus, live, o.list, 4 * x, o.out); break;
    case BQ769X0_BALANCE_SET: o.number = bq769x0_live_balance_set(job, 7, set_of((int)x), 4, bus, live, o.out); break;
    case BQ769X0_BALANCE_GET: o.number = bq769x0_live_balance_get(job, 7, bus, live, o.out); break;
    }
    memcpy(o.log, live->log, live->log_len);
    return o;
}

static struct outcome on_tape(const uint8_t *job, enum bq769x0_calls calls, size_t x, const struct bq769x0_live *live) {
    struct outcome o = blank();
    const uint8_t *tape = live->tape;
    size_t tape_len = live->tape_len, log_len = sizeof o.log;
    switch (calls) {
    case BQ769X0_INIT: o.number = bq769x0_init(job, 34, tape, tape_len, o.log, log_len, o.out); break;
    case BQ769X0_INIT_WIRED:
        o.number = bq769x0_init_wired(job, 34, tape, tape_len, o.log, log_len, o.inputs, x, o.list, 4 * x, o.spread, o.out);
        break;
    case BQ769X0_INIT_CELLS: o.number = bq769x0_init_cells(job, 34, tape, tape_len, o.log, log_len, o.list, 4 * x, o.out); break;
    case BQ769X0_BALANCE_SET: o.number = bq769x0_balance_set(job, 7, set_of((int)x), 4, tape, tape_len, o.log, log_len, o.out); break;
    case BQ769X0_BALANCE_GET: o.number = bq769x0_balance_get(job, 7, tape, tape_len, o.log, log_len, o.out); break;
    }
    return o;
}

/* The transfers of a call that no fault ends. */
static unsigned transfers_of(enum bq769x0_calls calls, int check) {
    static const unsigned plain[] = {7, 8, 8, 2, 1}, checked[] = {5, 6, 6, 1, 1};
    return (check ? checked : plain)[calls];
}

/* What a reading by the wiring gives of a full pack. */
static void cells(int x, const struct outcome *made) {
    int32_t sum = 0, lowest = volts_of(0), highest = volts_of(0);
    for (int i = 0; i < x; i++) {
        must(made->inputs[i] == i + 1 && bq769x0_millivolts(made->list, (size_t)i) == volts_of(i), "a cell");
        sum += volts_of(i);
        if (volts_of(i) < lowest) lowest = volts_of(i);
        if (volts_of(i) > highest) highest = volts_of(i);
    }
    must(bq769x0_i32(made->spread + BQ769X0_SUM_MV) == sum, "the sum");
    must(bq769x0_i32(made->spread + BQ769X0_LOWEST_MV) == lowest && bq769x0_i32(made->spread + BQ769X0_HIGHEST_MV) == highest, "the spread");
}

/* What a call without a fault has done. */
static void done(enum bq769x0_calls calls, int x, const struct chip *chip, const struct outcome *made) {
    static const uint8_t six[6] = {0x13, 0x55, 0x50, 0xB6, 0xCF, 0x19};
    size_t count = (size_t)x / 5;
    if (calls == BQ769X0_BALANCE_SET) {
        must(memcmp(chip->regs + 1, new_regs, count) == 0, "the chip after a set");
    } else if (calls == BQ769X0_BALANCE_GET) {
        must(bq769x0_u32(made->out + BQ769X0_SET) == (0x4082u & ((1u << x) - 1)), "the set read back");
    } else {
        must(memcmp(chip->regs + 6, six, sizeof six) == 0 && chip->regs[5] == 0x43, "the chip after an init");
    }
    if (calls == BQ769X0_INIT_WIRED) cells(x, made);
    for (size_t i = calls == BQ769X0_BALANCE_SET ? count : 0; i < 3; i++) must(chip->regs[1 + i] == old_regs[i], "another register");
}

/* And one that a fault has cut: of the registers of a set a first part is new; lists and spread are as they were lent. */
static void cut(enum bq769x0_calls calls, int x, const struct chip *chip, const struct outcome *made) {
    const struct outcome lent = blank();
    size_t fresh = 0;
    must(memcmp(made->inputs, lent.inputs, sizeof lent.inputs) == 0 && memcmp(made->list, lent.list, sizeof lent.list) == 0, "a list");
    must(memcmp(made->spread, lent.spread, sizeof lent.spread) == 0, "the spread after a fault");
    while (calls == BQ769X0_BALANCE_SET && fresh < (size_t)x / 5 && chip->regs[1 + fresh] == new_regs[fresh]) fresh++;
    must(memcmp(chip->regs + 1 + fresh, old_regs + fresh, 3 - fresh) == 0, "the registers above the new ones");
}

/* One call: as on its tape; with no fault accepted and done; with one refused, at that transfer. */
static void call(int x, int check, enum bq769x0_calls calls, unsigned fails_at, size_t after) {
    const uint8_t job[34] = {0x20, 0, 4, (uint8_t)x, (uint8_t)x, ADDRESS, (uint8_t)check, 0x21, 0, 24, 0, 0, 3, 0xE8, 0, 0, 0, 50,
                             0,    0, 0, 20, 0, 0, 0x0A, 0xF0, 0, 0, 0x10, 0x68, 2, 5, 1, 1};
    struct chip chip = chip_of(check);
    struct bq769x0_live live;
    struct outcome made, again;
    unsigned transfers = transfers_of(calls, check);
    memcpy(chip.regs + 1, old_regs, sizeof old_regs);
    chip.fails_at = fails_at;
    chip.after = after;
    {
        const struct bq769x0_bus bus = {&chip, chip_write, chip_read};
        made = on_bus(job, calls, (size_t)x, &bus, &live);
    }
    again = on_tape(job, calls, (size_t)x, &live);
    must(memcmp(&made, &again, sizeof made) == 0, "a call on the bus, beside the same on its tape,");
    must(bq769x0_u64(made.out + BQ769X0_TAPE_USED) == live.tape_len, "the tape's length");
    must(bq769x0_u64(made.out + BQ769X0_LOG_USED) == live.log_len, "the log's length");
    if (fails_at == 0 || fails_at > transfers) {
        must(made.number == BQ769X0_OK && chip.made == transfers, "a call without a fault");
        done(calls, x, &chip, &made);
    } else {
        must((made.number == BQ769X0_I2C_ERROR || made.number == BQ769X0_CRC_MISMATCH) && chip.made == fails_at, "a call with a fault");
        cut(calls, x, &chip, &made);
    }
    tried++;
}

int main(void) {
    for (int x = 5; x <= FULL; x += 5)
        for (int check = 0; check <= 1; check++)
            for (int calls = BQ769X0_INIT; calls <= BQ769X0_BALANCE_GET; calls++) {
                call(x, check, (enum bq769x0_calls)calls, 0, 0);
                for (unsigned at = 1; at <= LAST + 1; at++)
                    for (size_t after = 0; after <= 61; after++) call(x, check, (enum bq769x0_calls)calls, at, after);
            }
    printf("live: %lu calls as they should be\n", tried);
    return 0;
}

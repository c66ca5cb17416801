/*
 * Makes one call, by the name of its case, and prints every byte that it leaves. The same text is linked with the port's libraries and
 * with the Rust's; what the two print must be the same before anything is counted. Which calls it has: FIVE (init, both cell readings by
 * the crate's list, current, read_raw), REST (the other calls of crates/bench), COMMANDS, BALANCE, WIRED.
 */
#include "bq769x0.h"
#include "calls.h"
#include <stdio.h>
#include <stdlib.h>
#include <string.h>

enum { ADDRESS = 8, CELLS = 15, GAIN = 380, B51 = 0xEC, SHUNT = 1000, FILL = 0xC3, NONE = 256 };

static uint8_t tape[256], log_[128], list[4 * CELLS], data[2 * CELLS], out[BQ769X0_OUT];
static uint8_t fitted[CELLS];
static int32_t numbers[CELLS];
static size_t tape_len, ends[3];
static int inputs = CELLS, cells = CELLS; /* of the device, of the pack */

static uint8_t crc(uint8_t sum, uint8_t byte) {
    sum ^= byte;
    for (int i = 0; i < 8; i++) sum = (uint8_t)(sum << 1 ^ (sum & 0x80 ? 0x07 : 0));
    return sum;
}

/* A field of the tape for a transfer that is done: a read's bytes, with check bytes or without. */
static void done(int check, const uint8_t *bytes, size_t n) {
    uint8_t first = crc(0, ADDRESS << 1 | 1);
    tape[tape_len++] = 1;
    tape[tape_len++] = 0;
    tape[tape_len++] = (uint8_t)(check ? 2 * n : n);
    for (size_t i = 0; i < n; i++) {
        tape[tape_len++] = bytes[i];
        if (check) tape[tape_len++] = crc(i == 0 ? first : 0, bytes[i]);
    }
}

/* A write of these bytes: in the plain build it is read back. */
static void write_tape(int check, const uint8_t *bytes, size_t n) {
    done(0, bytes, 0);
    if (!check) done(0, bytes, n);
}

static void show(const char *name, const void *bytes, size_t n) {
    const uint8_t *b = bytes;
    printf("%s", name);
    for (size_t i = 0; i < n; i++) printf(" %02X", b[i]);
    printf("\n");
}

#define RECORD (uint8_t)inputs, (uint8_t)cells, ADDRESS, check, GAIN, B51, SHUNT
#define BUS tape, tape_len, log_, sizeof log_, ends

/* What the scope's job gives 06 and on. */
#if defined FIVE || defined REST
static const uint8_t six[6] = {0x13, 0x55, 0x50, 0xCF, 0xDF, 0x19};
#endif

#ifdef FIVE
static uint8_t job[34] = {0x20, 0, 4, 5, 5, ADDRESS, 0, 0x21, 0, 24, 0, 0, 3, 0xE8, 0, 0, 0, 50, 0, 0, 0, 20,
                          0, 0, 0x0A, 0xF0, 0, 0, 0x10, 0x68, 2, 5, 1, 1};

static void init_tape(int check) {
    static const uint8_t zero[2] = {0, 0}, on[1] = {0x40};
    done(check, zero, 2);
    done(check, zero, 1);
    write_tape(check, six, sizeof six);
    done(check, zero, 1);
    write_tape(check, on, 1);
}

/* Readings of cells from about 3 V up. */
static void cells_tape(int check) {
    uint8_t readings[2 * CELLS];
    for (int i = 0; i < inputs; i++) {
        readings[2 * i] = (uint8_t)((8000 + 177 * i) / 256);
        readings[2 * i + 1] = (uint8_t)((8000 + 177 * i) % 256);
    }
    done(check, readings, (size_t)(2 * inputs));
}

/* An init of that pack, and a reading of its cells after it. */
static void read_after_init(int check) {
    job[3] = (uint8_t)inputs;
    job[4] = (uint8_t)cells;
    job[6] = (uint8_t)check;
    init_tape(check);
    cells_tape(check);
}

static int five(const char *name, int check) {
    static const uint8_t discharging[2] = {0xF6, 0x3C};
    if (strcmp(name, "init") == 0) {
        job[6] = (uint8_t)check;
        init_tape(check);
        return bq769x0_init(job, sizeof job, tape, tape_len, log_, sizeof log_, out);
    }
    if (strcmp(name, "init_cells") == 0) {
        read_after_init(check);
        return bq769x0_init_cells(job, sizeof job, tape, tape_len, log_, sizeof log_, list, sizeof list, out);
    }
    if (strcmp(name, "cells") == 0) {
        cells_tape(check);
        return bench_cells(RECORD, numbers, (size_t)cells, BUS);
    }
    if (strcmp(name, "current") == 0) {
        done(check, discharging, 2);
        return bench_current(RECORD, BUS);
    }
    if (strcmp(name, "read_raw") == 0) {
        cells_tape(check);
        return bench_read_raw((uint8_t)inputs, ADDRESS, check, 0x0C, data, (size_t)(2 * inputs), BUS);
    }
    return NONE;
}
#endif

#ifdef REST
static int rest(const char *name, int check) {
    static const uint8_t pack[2] = {0x30, 0xD4}, sensor[2] = {0x0C, 0x45}, control[1] = {0x18};
    if (strcmp(name, "write_raw") == 0) {
        write_tape(check, six, sizeof six);
        return bench_write_raw((uint8_t)inputs, ADDRESS, check, 0x06, six, sizeof six, BUS);
    }
    if (strcmp(name, "voltage") == 0) {
        done(check, pack, 2);
        return bench_voltage(RECORD, BUS);
    }
    if (strcmp(name, "temperature") == 0) {
        done(check, sensor, 2);
        done(check, control, 1);
        return bench_temperature(RECORD, BUS);
    }
    return NONE;
}
#endif

#ifdef COMMANDS
/* A register's byte read, and another written in its place. */
static void change_tape(int check, uint8_t from, uint8_t to) {
    done(check, &from, 1);
    write_tape(check, &to, 1);
}

static int command(const char *name, int check) {
    static const uint8_t set[1] = {0x15}, status[1] = {0x8C}, flags[1] = {0x0C}, on[1] = {0x43}, control[1] = {0x18};
    if (strcmp(name, "enable_balancing") == 0) {
        write_tape(check, set, 1);
        return bench_enable_balancing(RECORD, set[0], BUS);
    }
    if (strcmp(name, "balancing_state") == 0) {
        done(check, set, 1);
        return bench_balancing_state(RECORD, BUS);
    }
    if (strcmp(name, "sys_stat") == 0) {
        done(check, status, 1);
        return bench_sys_stat(RECORD, BUS);
    }
    if (strcmp(name, "sys_stat_reset") == 0) { /* no sound chip reads back so: the flags would be cleared, and the plain build answer 5 */
        write_tape(check, flags, 1);
        return bench_sys_stat_reset(RECORD, flags[0], BUS);
    }
    if (strcmp(name, "discharge") == 0) {
        change_tape(check, 0x40, 0x42);
        return bench_discharge(RECORD, true, BUS);
    }
    if (strcmp(name, "charge") == 0) {
        change_tape(check, 0x42, 0x43);
        return bench_charge(RECORD, true, BUS);
    }
    if (strcmp(name, "is_charge_enabled") == 0) {
        done(check, on, 1);
        return bench_is_charge_enabled(RECORD, BUS);
    }
    if (strcmp(name, "ship_enter") == 0) {
        for (uint8_t byte = 0; byte < 3; byte++) write_tape(check, &byte, 1);
        return bench_ship_enter(RECORD, BUS);
    }
    if (strcmp(name, "enable_adc") == 0) {
        change_tape(check, 0x08, 0x18);
        return bench_enable_adc(RECORD, true, BUS);
    }
    if (strcmp(name, "set_temperature_source") == 0) {
        change_tape(check, 0x10, 0x18);
        return bench_set_temperature_source(RECORD, true, BUS);
    }
    if (strcmp(name, "temperature_source") == 0) {
        done(check, control, 1);
        return bench_temperature_source(RECORD, BUS);
    }
    if (strcmp(name, "coulomb_counter_mode") == 0) {
        change_tape(check, 0x43, 0x23);
        return bench_coulomb_counter_mode(RECORD, 1, BUS);
    }
    return NONE;
}
#endif

/* Every other input of each block of five, and all that the device has read back. */
#ifdef BALANCE
static int balance(const char *name, int check) {
    static const uint8_t regs[3] = {0x15, 0x0A, 0x15};
    const uint8_t device[7] = {0x20, 0, 4, (uint8_t)inputs, (uint8_t)cells, ADDRESS, (uint8_t)check};
    const uint16_t set = (uint16_t)(0x5555 & ((1 << inputs) - 1));
    if (strcmp(name, "balance_set") == 0) {
        write_tape(check, regs, (size_t)inputs / 5);
        return bq769x0_balance_set(device, sizeof device, set, 8, tape, tape_len, log_, sizeof log_, out);
    }
    if (strcmp(name, "balance_get") == 0) {
        done(check, regs, (size_t)inputs / 5);
        return bq769x0_balance_get(device, sizeof device, tape, tape_len, log_, sizeof log_, out);
    }
    return NONE;
}
#endif

/* The cells by the wiring, set up and alone, the question for their figures, and the cell on an input: the Rust has none of these. */
#ifdef WIRED
static int wired(const char *name, int check) {
    if (strcmp(name, "wired") == 0) {
        cells_tape(check);
        return bench_wired(RECORD, fitted, (size_t)cells, numbers, (size_t)cells, BUS);
    }
    if (strcmp(name, "init_wired") == 0) {
        uint8_t spread[BQ769X0_SPREAD];
        read_after_init(check);
        return bq769x0_init_wired(job, sizeof job, tape, tape_len, log_, sizeof log_, fitted, (size_t)cells, list, sizeof list, spread, out);
    }
    if (strcmp(name, "spread") == 0) {
        bench_spread(36400, 3001, 3740, numbers);
        return 0;
    }
    if (strcmp(name, "cell_on") == 0) return bq769x0_cell_on((uint8_t)inputs, (uint8_t)cells, (uint8_t)inputs, data);
    return NONE;
}
#endif

static int call(const char *name, int check) {
    int number = NONE;
#ifdef FIVE
    if (number == NONE) number = five(name, check);
#endif
#ifdef REST
    if (number == NONE) number = rest(name, check);
#endif
#ifdef COMMANDS
    if (number == NONE) number = command(name, check);
#endif
#ifdef BALANCE
    if (number == NONE) number = balance(name, check);
#endif
#ifdef WIRED
    if (number == NONE) number = wired(name, check);
#endif
    return number;
}

/* harness CALL plain|check 5|10|15 [CELLS]: a pack of as many cells as inputs where no count is given; an init alone is the scope's, of a BQ76920 */
int main(int argc, char **argv) {
    if (argc != 4 && argc != 5) return 2;
    inputs = atoi(argv[3]);
    cells = argc == 5 ? atoi(argv[4]) : inputs;
    if (inputs < 1 || CELLS < inputs || cells < 1 || CELLS < cells) return 2;
    memset(log_, FILL, sizeof log_);
    memset(list, FILL, sizeof list);
    memset(data, FILL, sizeof data);
    memset(out, FILL, sizeof out);
    int number = call(argv[1], strcmp(argv[2], "check") == 0);
    if (number == NONE) return 2;
    printf("number %d\n", number);
    show("log", log_, sizeof log_);
    show("list", list, sizeof list);
    show("data", data, sizeof data);
    show("out", out, sizeof out);
    show("fitted", fitted, sizeof fitted);
    show("numbers", numbers, sizeof numbers);
    show("ends", ends, sizeof ends);
    return 0;
}

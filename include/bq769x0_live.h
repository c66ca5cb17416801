/*
 * The calls of bq769x0.h on a live bus: the transfers are made one after another by the caller's own two functions.
 *
 * A call knows tapes only, so it is made in passes. The tape of a pass has the answers that the bus has given so far and, behind them, a
 * fault. Where a pass does not come to that fault, its answer is the call's. Where it does, the log's last field is the transfer that
 * the call wants next: it is made on the bus, its answer takes the fault's place, and the next pass begins. Whether the fault was reached
 * is told by how far the tape is used, never by the number: with check bytes a read that faults is refused with 1.
 *
 * It is proved of the five functions (crates/live/src/lib.rt) that such passes make each transfer once, in the call's order, and end as
 * the call does on the bus itself; that a pass which comes to the fault has left inputs and list as they were; and that an init takes at
 * most eight passes and a reading of the cells one more, a set of inputs three and its reading back two: for every bus whose answers are
 * as long as was asked, or shorter where they fault. This header, which makes the passes, is only tested (tests/c/live.c).
 */
#ifndef BQ769X0_LIVE_H
#define BQ769X0_LIVE_H

#include "bq769x0.h"

#ifdef __cplusplus
extern "C" {
#endif

/*
 * A bus. Both functions answer 0 where the transfer was done and anything else where it was not acknowledged or was cut off.
 *
 *   write  sends count bytes, the register first, to the 7-bit address, between a start and a stop
 *   read   sends the register, then after a repeated start reads count bytes; where it fails, delivered is how many came before, 0 if
 *          that is not known
 */
struct bq769x0_bus {
    void *context;
    int (*write)(void *context, uint8_t address, const uint8_t *bytes, size_t count);
    int (*read)(void *context, uint8_t address, uint8_t reg, uint8_t *bytes, size_t count, size_t *delivered);
};

/* The longest tape is that of an init with check bytes and a reading of 15 inputs, 86 bytes, and a fault; the longest log that of an init
 * without check bytes and a reading, 59. */
enum { BQ769X0_LIVE_TAPE = 96, BQ769X0_LIVE_LOG = 64 };

/* What a call has sent and been answered, for the caller to keep or to look at: fields as in bq769x0.h. The call needs no bytes of it
 * from before. */
struct bq769x0_live {
    uint8_t tape[BQ769X0_LIVE_TAPE];
    size_t tape_len;
    uint8_t log[BQ769X0_LIVE_LOG];
    size_t log_len;
};

/* The transfer of a log's field is made, and its answer put behind the tape, with room for a fault behind it: 0 where there is none,
 * which no call of this header comes to. */
static inline int bq769x0_live_transfer(const struct bq769x0_bus *bus, struct bq769x0_live *live, const uint8_t *field) {
    size_t sent = (size_t)field[1] << 8 | field[2];
    uint8_t *answer = live->tape + live->tape_len;
    size_t count = field[0] == 0x12 ? (size_t)field[5] << 8 | field[6] : 0, delivered = 0;
    int failed;
    if (sizeof live->tape - live->tape_len < 3 + count + 3) return 0;
    if (field[0] == 0x12) {
        failed = bus->read(bus->context, field[3], field[4], answer + 3, count, &delivered);
    } else {
        failed = bus->write(bus->context, field[3], field + 4, sent - 1);
    }
    if (failed != 0) count = delivered < count ? delivered : count;
    answer[0] = failed == 0 ? 0x01 : 0x02;
    answer[1] = (uint8_t)(count >> 8);
    answer[2] = (uint8_t)count;
    live->tape_len += 3 + count;
    return 1;
}

/* Which of the calls, with what it is given beside tape and log. */
enum bq769x0_calls { BQ769X0_INIT, BQ769X0_INIT_WIRED, BQ769X0_INIT_CELLS, BQ769X0_BALANCE_SET, BQ769X0_BALANCE_GET };

struct bq769x0_live_call {
    enum bq769x0_calls calls;
    const uint8_t *job; /* or device */
    size_t job_len;
    uint8_t *inputs;
    size_t inputs_len;
    uint8_t *list;
    size_t list_len;
    uint8_t *spread;
    uint16_t set;
    uint8_t limit;
};

/* A pass: the call on the tape so far with a fault behind it. */
static inline uint8_t bq769x0_live_pass(const struct bq769x0_live_call *call, struct bq769x0_live *live, uint8_t *out) {
    size_t tape_len = live->tape_len + 3;
    live->tape[live->tape_len] = 0x02;
    live->tape[live->tape_len + 1] = 0;
    live->tape[live->tape_len + 2] = 0;
    if (call->calls == BQ769X0_INIT_WIRED)
        return bq769x0_init_wired(call->job, call->job_len, live->tape, tape_len, live->log, sizeof live->log, call->inputs,
                                  call->inputs_len, call->list, call->list_len, call->spread, out);
    if (call->calls == BQ769X0_INIT_CELLS)
        return bq769x0_init_cells(call->job, call->job_len, live->tape, tape_len, live->log, sizeof live->log, call->list, call->list_len,
                                  out);
    if (call->calls == BQ769X0_BALANCE_SET)
        return bq769x0_balance_set(call->job, call->job_len, call->set, call->limit, live->tape, tape_len, live->log, sizeof live->log,
                                   out);
    if (call->calls == BQ769X0_BALANCE_GET)
        return bq769x0_balance_get(call->job, call->job_len, live->tape, tape_len, live->log, sizeof live->log, out);
    return bq769x0_init(call->job, call->job_len, live->tape, tape_len, live->log, sizeof live->log, out);
}

static inline uint8_t bq769x0_live_passes(const struct bq769x0_live_call *call, const struct bq769x0_bus *bus, struct bq769x0_live *live,
                                          uint8_t out[BQ769X0_OUT]) {
    live->tape_len = live->log_len = 0;
    for (;;) {
        uint8_t number = bq769x0_live_pass(call, live, out);
        size_t wanted = live->log_len;
        live->log_len = (size_t)bq769x0_u64(out + BQ769X0_LOG_USED);
        if (bq769x0_u64(out + BQ769X0_TAPE_USED) <= live->tape_len) return number;
        if (!bq769x0_live_transfer(bus, live, live->log + wanted)) return BQ769X0_BAD_TAPE;
    }
}

/* As the functions of bq769x0.h, with a bus in the place of tape and log; the millivolts in job, list, spread and out are signed as there. */
static inline uint8_t bq769x0_live_init(const uint8_t *job, size_t job_len, const struct bq769x0_bus *bus, struct bq769x0_live *live,
                                        uint8_t out[BQ769X0_OUT]) {
    struct bq769x0_live_call call = {BQ769X0_INIT, job, job_len, NULL, 0, NULL, 0, NULL, 0, 0};
    return bq769x0_live_passes(&call, bus, live, out);
}

static inline uint8_t bq769x0_live_init_wired(const uint8_t *job, size_t job_len, const struct bq769x0_bus *bus, struct bq769x0_live *live,
                                              uint8_t *inputs, size_t inputs_len, uint8_t *list, size_t list_len,
                                              uint8_t spread[BQ769X0_SPREAD], uint8_t out[BQ769X0_OUT]) {
    struct bq769x0_live_call call = {BQ769X0_INIT_WIRED, job, job_len, inputs, inputs_len, list, list_len, spread, 0, 0};
    return bq769x0_live_passes(&call, bus, live, out);
}

static inline uint8_t bq769x0_live_init_cells(const uint8_t *job, size_t job_len, const struct bq769x0_bus *bus, struct bq769x0_live *live,
                                              uint8_t *list, size_t list_len, uint8_t out[BQ769X0_OUT]) {
    struct bq769x0_live_call call = {BQ769X0_INIT_CELLS, job, job_len, NULL, 0, list, list_len, NULL, 0, 0};
    return bq769x0_live_passes(&call, bus, live, out);
}

static inline uint8_t bq769x0_live_balance_set(const uint8_t *device, size_t device_len, uint16_t set, uint8_t limit,
                                               const struct bq769x0_bus *bus, struct bq769x0_live *live, uint8_t out[BQ769X0_OUT]) {
    struct bq769x0_live_call call = {BQ769X0_BALANCE_SET, device, device_len, NULL, 0, NULL, 0, NULL, set, limit};
    return bq769x0_live_passes(&call, bus, live, out);
}

static inline uint8_t bq769x0_live_balance_get(const uint8_t *device, size_t device_len, const struct bq769x0_bus *bus,
                                               struct bq769x0_live *live, uint8_t out[BQ769X0_OUT]) {
    struct bq769x0_live_call call = {BQ769X0_BALANCE_GET, device, device_len, NULL, 0, NULL, 0, NULL, 0, 0};
    return bq769x0_live_passes(&call, bus, live, out);
}

#ifdef __cplusplus
}
#endif

#endif

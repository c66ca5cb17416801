/*
 * A driver for the battery monitors BQ76920, BQ76930 and BQ76940 that is proved: setting one up by a job, alone or with a
 * reading of its cells after it; balancing a set of its inputs, and reading that set back; which cell of a pack sits on an input;
 * and the seconds that a delay's code in a job stands for.
 *
 * All functions work on bytes in memory and touch nothing else: they read what the bus answered from a tape and write what they
 * sent into a log. Every number in a buffer stands with its high byte first. Millivolts are signed, in two's complement, and bq769x0_i32
 * reads them: UV and OV in job, each cell of list, all of spread, UV and OV in out, and the figures of refusals 7 and 8. No other number has
 * a sign.
 *
 *   job   field 20, the device, and field 21, the configuration: 34 bytes; more are not looked at
 *           20 0004  X (5, 10 or 15), cells, 7-bit address, check bytes (0 or 1)
 *           21 0018  shunt in microohms, SCD A, OCD A, UV mV, OV mV, four bytes each; codes of SCD, OCD, UV, OV delay
 *   device  field 20 alone: 7 bytes; more are not looked at, so a whole job does too
 *   tape  a field for each transfer: 01, two bytes of length, the bytes read (none for a write); 02 where the bus faults, the
 *         bytes delivered first
 *   log   gets a field for each transfer: 11, two bytes of length, the address and every byte sent; 12, 0004, the address, the
 *         register and two bytes of count. An init takes 52 bytes of it, 45 with check bytes, a cell reading 7 more; a set of inputs
 *         takes at most 15, and its reading back 7; bytes that no field takes are left as they were
 *   list  four bytes a cell, in mV, signed: FFFFFFFF is -1 mV; bytes past the count of cells are left as they were
 *   inputs  a byte a cell: the input, from 1, that the cell beside it in list sits on; bytes past the count are left as they were
 *   spread  BQ769X0_SPREAD bytes: sum, lowest and highest of the cells in list, in mV, signed, four bytes each
 *   out   BQ769X0_OUT bytes, all written whatever the answer
 *
 * No two buffers overlap, but that job or device and tape, which are only read, may. A buffer of length 0 may have any pointer. Every length is a
 * count of bytes. docs/FORMAT.md has each buffer byte by byte, with an example.
 *
 * The library is for Linux on 64-bit x86, since the Rattle kit compiles for nothing else: a PC that replays or drives a board's traffic
 * can link it, a microcontroller can't. The functions allocate nothing, keep nothing between calls, and call nothing outside but memcpy,
 * memmove and memset.
 */
#ifndef BQ769X0_H
#define BQ769X0_H

#include <stddef.h>
#include <stdint.h>

#ifdef __cplusplus
extern "C" {
#endif

/* Counts up where a function, a layout or a number of this header changes; and the Rust crate whose answers these are. */
#define BQ769X0_VERSION 5
#define BQ769X0_CRATE "0.3.1"

/*
 * out
 *    0 to  7  how many bytes of the tape are used
 *    8 to 15  how many bytes of the log are used
 *
 *             BQ769X0_OK after an init     any refusal
 *   16 to 19  the range: 0 lower, 1 upper  how many figures the refusal names: 0, 1 or 2
 *   20 to 23  SCD threshold in A           the first figure, 0 where there is none
 *   24 to 27  OCD threshold in A           the second figure, 0 where there is none
 *   28 to 31  UV threshold in mV, signed   0
 *   32 to 35  OV threshold in mV, signed   0
 *
 * Where bq769x0_balance_get is BQ769X0_OK, 16 to 19 are the set, and 20 to 35 are 0; where bq769x0_balance_set is, 16 to 35 are 0.
 */
#define BQ769X0_OUT 36

/* Where each number of out begins: the first two have eight bytes, the others four. */
enum bq769x0_place {
    BQ769X0_TAPE_USED = 0,
    BQ769X0_LOG_USED = 8,
    BQ769X0_RANGE = 16,
    BQ769X0_SCD_A = 20,
    BQ769X0_OCD_A = 24,
    BQ769X0_UV_MV = 28,
    BQ769X0_OV_MV = 32,
    BQ769X0_SET = 16,
    BQ769X0_FIGURES = 16,
    BQ769X0_FIGURE_1 = 20,
    BQ769X0_FIGURE_2 = 24
};

/* And where each of spread begins. */
#define BQ769X0_SPREAD 12

enum bq769x0_spread_place { BQ769X0_SUM_MV = 0, BQ769X0_LOWEST_MV = 4, BQ769X0_HIGHEST_MV = 8 };

/* The number of four bytes, and of eight, that begins at a place. */
static inline uint32_t bq769x0_u32(const uint8_t *at) {
    return (uint32_t)at[0] << 24 | (uint32_t)at[1] << 16 | (uint32_t)at[2] << 8 | (uint32_t)at[3];
}

static inline uint64_t bq769x0_u64(const uint8_t *at) { return (uint64_t)bq769x0_u32(at) << 32 | bq769x0_u32(at + 4); }

/* The millivolts that begin at a place, with their sign, and those of a cell of list, from 0. A cast alone would leave to the compiler
 * what a number below zero becomes. */
static inline int32_t bq769x0_i32(const uint8_t *at) {
    uint32_t mv = bq769x0_u32(at);
    return mv <= INT32_MAX ? (int32_t)mv : -(int32_t)(UINT32_MAX - mv) - 1;
}

static inline int32_t bq769x0_millivolts(const uint8_t *list, size_t cell) { return bq769x0_i32(list + 4 * cell); }

/* What the functions return. A refusal leaves list, inputs, spread, cell and seconds as they were, and in log every transfer that was made, the
 * one that faulted or showed the error included. */
enum bq769x0_refusal {
    BQ769X0_OK = 0,
    BQ769X0_CRC_MISMATCH = 1,         /* a check byte of a read disagrees */
    BQ769X0_I2C_ERROR = 2,            /* the tape says fault */
    BQ769X0_BUF_TOO_LARGE = 3,        /* too many bytes for one transfer */
    BQ769X0_UNINITIALIZED = 4,        /* a reading before init */
    BQ769X0_VERIFY_ERROR = 5,         /* figure: the first register that reads back otherwise than written */
    BQ769X0_RANGE_MISMATCH = 6,       /* SCD and OCD have no range in common */
    BQ769X0_UV_UNOBTAINABLE = 7,      /* figures: the lowest and the highest UV threshold in mV, signed */
    BQ769X0_OV_UNOBTAINABLE = 8,      /* figures: the lowest and the highest OV threshold in mV, signed */
    BQ769X0_BAD_DEVICE = 9,           /* X is not 5, 10 or 15 */
    BQ769X0_BAD_CELL_COUNT = 10,      /* not 3 to 5, 6 to 10, 9 to 15 cells for that X */
    BQ769X0_BAD_ADDRESS = 11,         /* over 127 */
    BQ769X0_BAD_SHUNT = 12,           /* 0, or over 2147483647 microohms */
    BQ769X0_CURRENT_TOO_LARGE = 13,   /* a current times the shunt is 256000 or more */
    BQ769X0_REGISTER_RUNS_OUT = 14,   /* a transfer would pass register FF */
    BQ769X0_BAD_TAPE = 15,            /* the job is no job, the tape has no field that fits the transfer, or a delay's code is over 3 */
    BQ769X0_TAPE_ENDED = 16,          /* no field left for a transfer */
    BQ769X0_LOG_FULL = 17,            /* no room for the transfer's field */
    BQ769X0_UNKNOWN_FLAGS = 18,       /* a status reset with bit 6 */
    BQ769X0_NO_ROOM = 19,             /* list or inputs is shorter than the count of cells */
    BQ769X0_UNKNOWN_RANGE = 20,       /* a code asked for range Unknown; no function gives it */
    BQ769X0_NO_SUCH_INPUT = 21,       /* no cell of the pack sits on that input: 0, a shorted one, or one over X */
    BQ769X0_NOT_ON_DEVICE = 22,       /* the set has an input over X */
    BQ769X0_NEIGHBOURS = 23,          /* the set has two neighbouring inputs of one block of five */
    BQ769X0_TOO_MANY_CELLS = 24       /* the set has more inputs than the board's limit */
};

/* The name of what a function returned, as the Rust and this driver have it. */
static inline const char *bq769x0_name(uint8_t number) {
    if (number > BQ769X0_TOO_MANY_CELLS) return "no number of this driver";
    switch ((enum bq769x0_refusal)number) {
    case BQ769X0_OK: return "Ok";
    case BQ769X0_CRC_MISMATCH: return "CRCMismatch";
    case BQ769X0_I2C_ERROR: return "I2CError";
    case BQ769X0_BUF_TOO_LARGE: return "BufTooLarge";
    case BQ769X0_UNINITIALIZED: return "Uninitialized";
    case BQ769X0_VERIFY_ERROR: return "VerifyError";
    case BQ769X0_RANGE_MISMATCH: return "OCDSCDRangeMismatch";
    case BQ769X0_UV_UNOBTAINABLE: return "UVThresholdUnobtainable";
    case BQ769X0_OV_UNOBTAINABLE: return "OVThresholdUnobtainable";
    case BQ769X0_BAD_DEVICE: return "BadDevice";
    case BQ769X0_BAD_CELL_COUNT: return "BadCellCount";
    case BQ769X0_BAD_ADDRESS: return "BadAddress";
    case BQ769X0_BAD_SHUNT: return "BadShunt";
    case BQ769X0_CURRENT_TOO_LARGE: return "CurrentTooLarge";
    case BQ769X0_REGISTER_RUNS_OUT: return "RegisterRunsOut";
    case BQ769X0_BAD_TAPE: return "BadTape";
    case BQ769X0_TAPE_ENDED: return "TapeEnded";
    case BQ769X0_LOG_FULL: return "LogFull";
    case BQ769X0_UNKNOWN_FLAGS: return "UnknownFlags";
    case BQ769X0_NO_ROOM: return "NoRoom";
    case BQ769X0_UNKNOWN_RANGE: return "UnknownRange";
    case BQ769X0_NO_SUCH_INPUT: return "NoSuchInput";
    case BQ769X0_NOT_ON_DEVICE: return "NotOnDevice";
    case BQ769X0_NEIGHBOURS: return "Neighbours";
    case BQ769X0_TOO_MANY_CELLS: return "TooManyCells";
    }
    return "no number of this driver";
}

/* Sets the device up. */
uint8_t bq769x0_init(const uint8_t *job, size_t job_len, const uint8_t *tape, size_t tape_len, uint8_t *log, size_t log_len,
                     uint8_t out[BQ769X0_OUT]);

/* Sets the device up and, where that is accepted, reads its cells by the datasheet's wiring: each fitted input once, the bottom
 * of the pack first, its number in inputs and its voltage beside it in list. inputs takes a byte a cell, list four: inputs_len and
 * list_len are in bytes. spread gets sum, lowest and highest of these very cells: highest less lowest is how far they lie apart. out is as
 * after bq769x0_init, the positions after the reading. */
uint8_t bq769x0_init_wired(const uint8_t *job, size_t job_len, const uint8_t *tape, size_t tape_len, uint8_t *log, size_t log_len,
                           uint8_t *inputs, size_t inputs_len, uint8_t *list, size_t list_len, uint8_t spread[BQ769X0_SPREAD],
                           uint8_t out[BQ769X0_OUT]);

/* Balances a set of inputs, with all others off, on the device of field 20: bit 0 of set is input 1, bit 14 input 15. limit is how many
 * inputs the board lets balance at once. Refused ahead of any transfer: a device as in a job, then BQ769X0_NOT_ON_DEVICE,
 * BQ769X0_NEIGHBOURS, BQ769X0_TOO_MANY_CELLS, in this order. Else registers 01 on, as many as the device has, are written by one
 * transfer, and without check bytes read back.
 *
 * Neighbours are inputs, not cells: 1 and 2 are, 5 and 6 are of two blocks and are not. Where inputs are shorted, two cells that touch can
 * sit on inputs that do not: with four cells in a block the upper two are on 3 and 5. Such a pair is not refused.
 *
 * For the board's designer: a transfer that is cut, by a fault or by a reset of the board, leaves none, some or all of these registers new,
 * from 01 on, and the others as they were. Then no neighbours are on that were not on before, and an input that was off is on only if it is
 * in set. But MORE INPUTS CAN BE ON THAN THE LIMIT, those of new registers beside those of old ones, until the same call, made again, is
 * BQ769X0_OK. A board that does not bear this balances set 0 first, and the new set once that is BQ769X0_OK: then, cut or not, only
 * inputs of the old set are on, and after it only inputs of the new one. */
uint8_t bq769x0_balance_set(const uint8_t *device, size_t device_len, uint16_t set, uint8_t limit, const uint8_t *tape, size_t tape_len,
                            uint8_t *log, size_t log_len, uint8_t out[BQ769X0_OUT]);

/* The set that the device has on, by five bits of each of those registers, at BQ769X0_SET of out. It can have neighbours, or more inputs
 * than a limit: the chip refuses nothing. */
uint8_t bq769x0_balance_get(const uint8_t *device, size_t device_len, const uint8_t *tape, size_t tape_len, uint8_t *log, size_t log_len,
                            uint8_t out[BQ769X0_OUT]);

/* The cell, from 1, bottom of the pack first, that sits on an input of a device with X inputs (5, 10 or 15) and so many cells:
 * BQ769X0_BAD_DEVICE, BQ769X0_BAD_CELL_COUNT, BQ769X0_NO_SUCH_INPUT. */
uint8_t bq769x0_cell_on(uint8_t x, uint8_t cells, uint8_t input, uint8_t cell[1]);

/* The seconds for which an undervoltage, or an overvoltage, stands before the chip acts on it, by the delay's code as a job has it:
 *   code                 0   1   2   3
 *   bq769x0_uv_seconds   1   4   8  16
 *   bq769x0_ov_seconds   1   2   4   8
 * A code over 3 is BQ769X0_BAD_TAPE, as in a job. The Rust crate names the OV delays as the UV ones; the chip waits as long as stands here. */
uint8_t bq769x0_uv_seconds(uint8_t code, uint8_t seconds[1]);
uint8_t bq769x0_ov_seconds(uint8_t code, uint8_t seconds[1]);

/* As bq769x0_init_wired, with the list of the Rust crate bq769x0 0.3.1, without inputs and spread; list_len is in bytes, four a cell. On a
 * BQ76920, and on a BQ76940 of 14 or 15 cells, that list shows the inputs of the datasheet's wiring. On a BQ76930 of any count, and on
 * a BQ76940 of 9 to 13, it does not: it shows some input twice and leaves out at least one that carries a cell. */
uint8_t bq769x0_init_cells(const uint8_t *job, size_t job_len, const uint8_t *tape, size_t tape_len, uint8_t *log, size_t log_len,
                           uint8_t *list, size_t list_len, uint8_t out[BQ769X0_OUT]);

#ifdef __cplusplus
}
#endif

#endif

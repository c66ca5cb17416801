/*
 * The calls of crates/bench, bench_wired and bench_commands, for the harness alone: on a record of these numbers, its offset as register
 * 51 has it, initialised where the shunt is not 0, its cells zero. Each gives 0 or a refusal's number; out is how far the tape is used,
 * how far the log, and the answer's value as a number, or 0: a current in mA or a voltage in mV, below zero as 2^32 less its size; a
 * temperature's number of degrees, 2^32 more where a thermistor has them; a register's byte; a switch or the source, 0 or 1.
 */
#ifndef BENCH_CALLS_H
#define BENCH_CALLS_H

#include <stdbool.h>
#include <stddef.h>
#include <stdint.h>

#define RECORD uint8_t x, uint8_t cells, uint8_t address, bool check, uint16_t gain, uint8_t b51, uint32_t shunt
#define BUS const uint8_t *tape, size_t tape_len, uint8_t *log, size_t log_len, size_t out[3]

/* bench */
uint8_t bench_cells(RECORD, int32_t *list, size_t list_len, BUS);
uint8_t bench_current(RECORD, BUS);
uint8_t bench_voltage(RECORD, BUS);
uint8_t bench_temperature(RECORD, BUS);
uint8_t bench_read_raw(uint8_t x, uint8_t address, bool check, uint8_t reg, uint8_t *data, size_t data_len, BUS);
uint8_t bench_write_raw(uint8_t x, uint8_t address, bool check, uint8_t reg, const uint8_t *data, size_t data_len, BUS);

/* bench_wired */
uint8_t bench_wired(RECORD, uint8_t *inputs, size_t inputs_len, int32_t *list, size_t list_len, BUS);

void bench_spread(int32_t sum, int32_t lowest, int32_t highest, int32_t out[3]); /* of a record that holds these three */

/* bench_commands */
uint8_t bench_enable_balancing(RECORD, uint8_t set, BUS);
uint8_t bench_balancing_state(RECORD, BUS);
uint8_t bench_sys_stat(RECORD, BUS);
uint8_t bench_sys_stat_reset(RECORD, uint8_t flags, BUS);
uint8_t bench_discharge(RECORD, bool enable, BUS);
uint8_t bench_charge(RECORD, bool enable, BUS);
uint8_t bench_is_charge_enabled(RECORD, BUS);
uint8_t bench_ship_enter(RECORD, BUS);
uint8_t bench_enable_adc(RECORD, bool enable, BUS);
uint8_t bench_set_temperature_source(RECORD, bool thermistor, BUS);
uint8_t bench_temperature_source(RECORD, BUS);
uint8_t bench_coulomb_counter_mode(RECORD, uint8_t mode, BUS); /* 0 off, 1 once, any other always */

/* bench_steps: the millivolts of the step that a number of millivolts is given */
uint8_t bench_scd_from_mv(uint8_t mv_threshold);
uint8_t bench_ocd_from_mv(uint8_t mv_threshold);

#undef RECORD
#undef BUS
#endif

//! The Rust crate behind the functions that the harness calls, with the signatures of the port's: bq769x0.h and calls.h have them. One
//! library for each of harness.c's groups of calls, `five`, `rest`, `commands` and `balance`, and one for steps.c, `steps`: a group is compiled
//! with no other's callers beside it.
#![no_std]
#![allow(incomplete_features, dead_code, unused_imports, unused_macros)]
#![feature(generic_const_exprs)]
mod bus;

use bus::Bus;
use core::slice::{from_raw_parts, from_raw_parts_mut};

/// A call on the device of this size, or 9.
macro_rules! by_size {
    ($x:expr, $on:ident($($argument:expr),*)) => {{
        let answer = match $x {
            5 => $on::<5>($($argument),*),
            10 => $on::<10>($($argument),*),
            15 => $on::<15>($($argument),*),
            _ => Err(Found::refused(9)),
        };
        answer.map_or_else(|refused| refused, |five| Found { number: 0, five })
    }};
}

mod plain {
    use bq_plain as bq;
    type Bus<'a> = crate::bus::Bus<'a, false>;
    include!("calls.rs");
}
mod check {
    use bq_check as bq;
    type Bus<'a> = crate::bus::Bus<'a, true>;
    include!("calls.rs");
}

#[panic_handler]
fn panicked(_: &core::panic::PanicInfo) -> ! {
    loop {}
}

/// An answer: 0 or a refusal's number, and the five numbers after the positions.
pub struct Found {
    number: u8,
    five: [u32; 5],
}

impl Found {
    fn refused(number: u8) -> Found {
        Found { number, five: [0; 5] }
    }
}

/// Fields 20 and 21: the device, then shunt, SCD A, OCD A, UV mV, OV mV, then the four delays' codes.
pub struct Config {
    x: u8,
    cells: u8,
    address: u8,
    check: bool,
    numbers: [u32; 5],
    delays: [u8; 4],
}

fn parse(job: &[u8]) -> Option<Config> {
    let job: &[u8; 34] = job.get(..34)?.try_into().ok()?;
    let &[0x20, 0, 4, x, cells, address, check @ 0..=1, 0x21, 0, 24, .., scd @ 0..=3, ocd @ 0..=7, uv @ 0..=3, ov @ 0..=3] = job else {
        return None;
    };
    let number = |i: usize| u32::from_be_bytes([job[10 + 4 * i], job[11 + 4 * i], job[12 + 4 * i], job[13 + 4 * i]]);
    let numbers = [number(0), number(1), number(2), number(3), number(4)];
    Some(Config { x, cells, address, check: check == 1, numbers, delays: [scd, ocd, uv, ov] })
}

/// The 36 bytes.
fn lay_out(out: &mut [u8; 36], used: usize, logged: usize, five: &[u32; 5]) {
    out[..8].copy_from_slice(&(used as u64).to_be_bytes());
    out[8..16].copy_from_slice(&(logged as u64).to_be_bytes());
    for (place, number) in out[16..].chunks_exact_mut(4).zip(five) {
        place.copy_from_slice(&number.to_be_bytes());
    }
}

/// A call by the build that is asked for: its number; `tell` has how far tape and log are used, and the five numbers.
macro_rules! answer {
    ($check:expr, $tape:expr, $log:expr, $tell:expr, $call:ident($($argument:expr),*)) => {{
        macro_rules! by {
            ($calls:ident) => {{
                let mut bus = Bus::new($tape, $log);
                let found = $calls::$call($($argument,)* &mut bus);
                ($tell)(bus.used, bus.logged, &found.five);
                found.number
            }};
        }
        if $check { by!(check) } else { by!(plain) }
    }};
}

#[cfg(five)]
#[no_mangle]
pub unsafe extern "C" fn bq769x0_init(
    job: *const u8, job_len: usize, tape: *const u8, tape_len: usize, log: *mut u8, log_len: usize, out: &mut [u8; 36],
) -> u8 {
    let (tape, log) = (from_raw_parts(tape, tape_len), from_raw_parts_mut(log, log_len));
    let mut tell = |used, logged, five: &[u32; 5]| lay_out(out, used, logged, five);
    let Some(asked) = parse(from_raw_parts(job, job_len)) else { return no_job(tell) };
    answer!(asked.check, tape, log, tell, init(&asked))
}

#[cfg(five)]
#[no_mangle]
pub unsafe extern "C" fn bq769x0_init_cells(
    job: *const u8, job_len: usize, tape: *const u8, tape_len: usize, log: *mut u8, log_len: usize, list: *mut u8, list_len: usize,
    out: &mut [u8; 36],
) -> u8 {
    let (tape, log) = (from_raw_parts(tape, tape_len), from_raw_parts_mut(log, log_len));
    let list = from_raw_parts_mut(list, list_len);
    let mut tell = |used, logged, five: &[u32; 5]| lay_out(out, used, logged, five);
    let Some(asked) = parse(from_raw_parts(job, job_len)) else { return no_job(tell) };
    answer!(asked.check, tape, log, tell, init_cells(&asked, list))
}

/// Field 20.
pub struct Device {
    x: u8,
    cells: u8,
    address: u8,
    check: bool,
}

fn parse_device(device: &[u8]) -> Option<Device> {
    let &[0x20, 0, 4, x, cells, address, check @ 0..=1] = device.get(..7)? else { return None };
    Some(Device { x, cells, address, check: check == 1 })
}

#[cfg(balance)]
#[no_mangle]
pub unsafe extern "C" fn bq769x0_balance_set(
    device: *const u8, device_len: usize, set: u16, limit: u8, tape: *const u8, tape_len: usize, log: *mut u8, log_len: usize,
    out: &mut [u8; 36],
) -> u8 {
    let (tape, log) = (from_raw_parts(tape, tape_len), from_raw_parts_mut(log, log_len));
    let mut tell = |used, logged, five: &[u32; 5]| lay_out(out, used, logged, five);
    let Some(asked) = parse_device(from_raw_parts(device, device_len)) else { return no_job(tell) };
    answer!(asked.check, tape, log, tell, balance_set(&asked, set, limit))
}

#[cfg(balance)]
#[no_mangle]
pub unsafe extern "C" fn bq769x0_balance_get(
    device: *const u8, device_len: usize, tape: *const u8, tape_len: usize, log: *mut u8, log_len: usize, out: &mut [u8; 36],
) -> u8 {
    let (tape, log) = (from_raw_parts(tape, tape_len), from_raw_parts_mut(log, log_len));
    let mut tell = |used, logged, five: &[u32; 5]| lay_out(out, used, logged, five);
    let Some(asked) = parse_device(from_raw_parts(device, device_len)) else { return no_job(tell) };
    answer!(asked.check, tape, log, tell, balance_get(&asked))
}

/// 15: the job is no job.
fn no_job(tell: impl FnOnce(usize, usize, &[u32; 5])) -> u8 {
    tell(0, 0, &[0; 5]);
    15
}

/// What a record is made of; it is initialised where the shunt is not 0.
pub struct Record {
    x: u8,
    cells: u8,
    address: u8,
    gain: u16,
    offset: i8,
    shunt: u32,
}

fn tell_ends(out: &mut [usize; 3], used: usize, logged: usize, five: &[u32; 5]) {
    *out = [used, logged, five[0] as usize];
}

#[cfg(five)]
#[no_mangle]
pub unsafe extern "C" fn bench_cells(
    x: u8, cells: u8, address: u8, check: bool, gain: u16, b51: u8, shunt: u32,
    list: *mut i32, list_len: usize, tape: *const u8, tape_len: usize, log: *mut u8, log_len: usize, out: &mut [usize; 3],
) -> u8 {
    let (tape, log) = (from_raw_parts(tape, tape_len), from_raw_parts_mut(log, log_len));
    let list = from_raw_parts_mut(list, list_len);
    let record = Record { x, cells, address, gain, offset: b51 as i8, shunt };
    answer!(check, tape, log, |used, logged, five: &[u32; 5]| tell_ends(out, used, logged, five), cells(&record, list))
}

#[cfg(five)]
#[no_mangle]
pub unsafe extern "C" fn bench_current(
    x: u8, cells: u8, address: u8, check: bool, gain: u16, b51: u8, shunt: u32,
    tape: *const u8, tape_len: usize, log: *mut u8, log_len: usize, out: &mut [usize; 3],
) -> u8 {
    let (tape, log) = (from_raw_parts(tape, tape_len), from_raw_parts_mut(log, log_len));
    let record = Record { x, cells, address, gain, offset: b51 as i8, shunt };
    answer!(check, tape, log, |used, logged, five: &[u32; 5]| tell_ends(out, used, logged, five), current(&record))
}

#[cfg(five)]
#[no_mangle]
pub unsafe extern "C" fn bench_read_raw(
    x: u8, address: u8, check: bool, reg: u8, data: *mut u8, data_len: usize,
    tape: *const u8, tape_len: usize, log: *mut u8, log_len: usize, out: &mut [usize; 3],
) -> u8 {
    let (tape, log) = (from_raw_parts(tape, tape_len), from_raw_parts_mut(log, log_len));
    let data = from_raw_parts_mut(data, data_len);
    let record = Record { x, cells: x, address, gain: 0, offset: 0, shunt: 0 };
    answer!(check, tape, log, |used, logged, five: &[u32; 5]| tell_ends(out, used, logged, five), read_raw(&record, reg, data))
}

/// The calls on a record that are lent nothing but tape and log, each with what tells its outcome.
macro_rules! on_record {
    ($($function:ident: $call:ident($($argument:ident: $type:ty),*), $tell:ident;)*) => {$(
        #[no_mangle]
        pub unsafe extern "C" fn $function(
            x: u8, cells: u8, address: u8, check: bool, gain: u16, b51: u8, shunt: u32, $($argument: $type,)*
            tape: *const u8, tape_len: usize, log: *mut u8, log_len: usize, out: &mut [usize; 3],
        ) -> u8 {
            let (tape, log) = (from_raw_parts(tape, tape_len), from_raw_parts_mut(log, log_len));
            let record = Record { x, cells, address, gain, offset: b51 as i8, shunt };
            answer!(check, tape, log, |used, logged, five: &[u32; 5]| $tell(out, used, logged, five), $call(&record $(, $argument)*))
        }
    )*};
}

#[cfg(rest)]
#[no_mangle]
pub unsafe extern "C" fn bench_write_raw(
    x: u8, address: u8, check: bool, reg: u8, data: *const u8, data_len: usize,
    tape: *const u8, tape_len: usize, log: *mut u8, log_len: usize, out: &mut [usize; 3],
) -> u8 {
    let (tape, log) = (from_raw_parts(tape, tape_len), from_raw_parts_mut(log, log_len));
    let data = from_raw_parts(data, data_len);
    let record = Record { x, cells: x, address, gain: 0, offset: 0, shunt: 0 };
    answer!(check, tape, log, |used, logged, five: &[u32; 5]| tell_ends(out, used, logged, five), write_raw(&record, reg, data))
}

/// The third number with 2^32 more where a thermistor has the degrees.
#[cfg(rest)]
fn tell_degrees(out: &mut [usize; 3], used: usize, logged: usize, five: &[u32; 5]) {
    *out = [used, logged, five[0] as usize + ((five[1] as usize) << 32)];
}

#[cfg(rest)]
on_record! {
    bench_voltage: voltage(), tell_ends;
    bench_temperature: temperature(), tell_degrees;
}

#[cfg(commands)]
on_record! {
    bench_enable_balancing: enable_balancing(cells_on: u8), tell_ends;
    bench_balancing_state: balancing_state(), tell_ends;
    bench_sys_stat: sys_stat(), tell_ends;
    bench_sys_stat_reset: sys_stat_reset(flags: u8), tell_ends;
    bench_discharge: discharge(enable: bool), tell_ends;
    bench_charge: charge(enable: bool), tell_ends;
    bench_is_charge_enabled: is_charge_enabled(), tell_ends;
    bench_ship_enter: ship_enter(), tell_ends;
    bench_enable_adc: enable_adc(enable: bool), tell_ends;
    bench_set_temperature_source: set_temperature_source(thermistor: bool), tell_ends;
    bench_temperature_source: temperature_source(), tell_ends;
    bench_coulomb_counter_mode: coulomb_counter_mode(code: u8), tell_ends;
}

// The millivolts of a step, which are the number that the crate's enums have for it.
#[cfg(steps)]
#[no_mangle]
pub extern "C" fn bench_scd_from_mv(mv_threshold: u8) -> u8 {
    bq_plain::SCDThreshold::from_mv(mv_threshold) as u8
}

#[cfg(steps)]
#[no_mangle]
pub extern "C" fn bench_ocd_from_mv(mv_threshold: u8) -> u8 {
    bq_plain::OCDThreshold::from_mv(mv_threshold) as u8
}

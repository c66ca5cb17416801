// The crate's calls. Included once for each build of the crate, which is `bq` here, over its `Bus`.
use crate::{Config as Asked, Device, Found, Record};
use bq::*;

fn number(error: Error) -> Found {
    match error {
        Error::CRCMismatch => Found::refused(1),
        Error::I2CError => Found::refused(2),
        Error::BufTooLarge => Found::refused(3),
        Error::Uninitialized => Found::refused(4),
        Error::VerifyError(register) => Found { number: 5, five: [1, register as u32, 0, 0, 0] },
        Error::OCDSCDRangeMismatch => Found::refused(6),
        Error::UVThresholdUnobtainable(low, high) => Found { number: 7, five: [2, low.0, high.0, 0, 0] },
        Error::OVThresholdUnobtainable(low, high) => Found { number: 8, five: [2, low.0, high.0, 0, 0] },
    }
}

/// What a call answers: the bus's number where it refused a transfer.
fn heard<T>(bus: &Bus, answer: Result<T, Error>) -> Result<T, Found> {
    answer.map_err(|error| if bus.refused == 0 { number(error) } else { Found::refused(bus.refused) })
}

fn config(asked: &Asked) -> Config {
    let [shunt, scd, ocd, uv, ov] = asked.numbers;
    let [scd_delay, ocd_delay, uv_delay, ov_delay] = asked.delays;
    Config {
        shunt: MicroOhms(shunt),
        scd_threshold: Amperes(scd),
        ocd_threshold: Amperes(ocd),
        uv_threshold: MilliVolts(uv),
        ov_threshold: MilliVolts(ov),
        scd_delay: match scd_delay { 0 => SCDDelay::_70uS, 1 => SCDDelay::_100uS, 2 => SCDDelay::_200uS, _ => SCDDelay::_400uS },
        ocd_delay: match ocd_delay {
            0 => OCDDelay::_8ms,
            1 => OCDDelay::_20ms,
            2 => OCDDelay::_40ms,
            3 => OCDDelay::_80ms,
            4 => OCDDelay::_160ms,
            5 => OCDDelay::_320ms,
            6 => OCDDelay::_640ms,
            _ => OCDDelay::_1280ms,
        },
        uv_delay: match uv_delay { 0 => UVDelay::_1s, 1 => UVDelay::_4s, 2 => UVDelay::_8s, _ => UVDelay::_16s },
        ov_delay: match ov_delay { 0 => OVDelay::_1s, 1 => OVDelay::_4s, 2 => OVDelay::_8s, _ => OVDelay::_16s },
    }
}

/// The device of a job, set up: 10, 11, 12, 13 in front.
fn set_up<const X: usize>(asked: &Asked, bus: &mut Bus) -> Result<(BQ769x0<X>, [u32; 5]), Found>
where
    [(); X * 2]: Sized,
    [(); X * 4]: Sized,
{
    let Some(mut device) = BQ769x0::<X>::new(asked.address, asked.cells) else { return Err(Found::refused(10)) };
    if asked.address > 127 {
        return Err(Found::refused(11));
    }
    let [shunt, scd, ocd, ..] = asked.numbers;
    if shunt == 0 || shunt > 2_147_483_647 {
        return Err(Found::refused(12));
    }
    if scd as u64 * shunt as u64 >= 256_000 || ocd as u64 * shunt as u64 >= 256_000 {
        return Err(Found::refused(13));
    }
    let answer = device.init(bus, &config(asked));
    let found = heard(bus, answer)?;
    let range = (found.ocdscd_range_used == OCDSCDRange::Upper) as u32;
    Ok((device, [range, found.scd_threshold.0, found.ocd_threshold.0, found.uv_threshold.0, found.ov_threshold.0]))
}

pub fn init(asked: &Asked, bus: &mut Bus) -> Found {
    fn on<const X: usize>(asked: &Asked, bus: &mut Bus) -> Result<[u32; 5], Found>
    where
        [(); X * 2]: Sized,
        [(); X * 4]: Sized,
    {
        set_up::<X>(asked, bus).map(|(_, five)| five)
    }
    by_size!(asked.x, on(asked, bus))
}

/// An init, and a reading of the cells after it: 19 in front of that.
pub fn init_cells(asked: &Asked, list: &mut [u8], bus: &mut Bus) -> Found {
    fn on<const X: usize>(asked: &Asked, list: &mut [u8], bus: &mut Bus) -> Result<[u32; 5], Found>
    where
        [(); X * 2]: Sized,
        [(); X * 4]: Sized,
    {
        let (mut device, five) = set_up::<X>(asked, bus)?;
        let Some(list) = list.get_mut(..4 * asked.cells as usize) else { return Err(Found::refused(19)) };
        let cells = device.cell_voltages(bus);
        let cells = heard(bus, cells)?;
        for (place, cell) in list.chunks_exact_mut(4).zip(cells) {
            place.copy_from_slice(&cell.0.to_be_bytes());
        }
        Ok(five)
    }
    by_size!(asked.x, on(asked, list, bus))
}

/// 10 and 11.
fn new<const X: usize>(asked: &Device) -> Result<BQ769x0<X>, Found>
where
    [(); X * 2]: Sized,
    [(); X * 4]: Sized,
{
    let Some(device) = BQ769x0::<X>::new(asked.address, asked.cells) else { return Err(Found::refused(10)) };
    if asked.address > 127 { Err(Found::refused(11)) } else { Ok(device) }
}

/// A set of inputs by the crate's `write_raw`: 22, 23 and 24 in front.
pub fn balance_set(asked: &Device, set: u16, limit: u8, bus: &mut Bus) -> Found {
    fn on<const X: usize>(asked: &Device, set: u16, limit: u8, bus: &mut Bus) -> Result<[u32; 5], Found>
    where
        [(); X * 2]: Sized,
        [(); X * 4]: Sized,
    {
        let mut device = new::<X>(asked)?;
        if set >> X != 0 {
            return Err(Found::refused(22));
        }
        if set & set >> 1 & 0b01111_01111_01111 != 0 {
            return Err(Found::refused(23));
        }
        if set.count_ones() > limit as u32 {
            return Err(Found::refused(24));
        }
        let registers = [set, set >> 5, set >> 10].map(|set| set as u8 & 0x1F);
        let written = device.write_raw(bus, 0x01, &registers[..X / 5]);
        heard(bus, written).map(done)
    }
    by_size!(asked.x, on(asked, set, limit, bus))
}

/// And its reading back by `read_raw`.
pub fn balance_get(asked: &Device, bus: &mut Bus) -> Found {
    fn on<const X: usize>(asked: &Device, bus: &mut Bus) -> Result<[u32; 5], Found>
    where
        [(); X * 2]: Sized,
        [(); X * 4]: Sized,
    {
        let mut registers = [0; 3];
        let read = new::<X>(asked)?.read_raw(bus, 0x01, &mut registers[..X / 5]);
        heard(bus, read)?;
        let [first, second, third] = registers.map(|byte| (byte & 0x1F) as u32);
        Ok(one(first | second << 5 | third << 10))
    }
    by_size!(asked.x, on(asked, bus))
}

fn device<const X: usize>(record: &Record) -> BQ769x0<X> {
    BQ769x0::made(record.address, record.cells, record.gain, record.offset, MicroOhms(record.shunt))
}

/// 19 in front, where the crate would not answer 4. The crate's voltages have no sign, those of the list one, by the same bits.
pub fn cells(record: &Record, list: &mut [i32], bus: &mut Bus) -> Found {
    fn on<const X: usize>(record: &Record, list: &mut [i32], bus: &mut Bus) -> Result<[u32; 5], Found>
    where
        [(); X * 2]: Sized,
        [(); X * 4]: Sized,
    {
        let mut device = device::<X>(record);
        if device.is_initialized() && list.len() < record.cells as usize {
            return Err(Found::refused(19));
        }
        let cells = device.cell_voltages(bus);
        let cells = heard(bus, cells)?;
        for (place, cell) in list.iter_mut().zip(cells) {
            *place = cell.0 as i32;
        }
        Ok([0; 5])
    }
    by_size!(record.x, on(record, list, bus))
}

/// 4 in front.
pub fn current(record: &Record, bus: &mut Bus) -> Found {
    fn on<const X: usize>(record: &Record, bus: &mut Bus) -> Result<[u32; 5], Found>
    where
        [(); X * 2]: Sized,
        [(); X * 4]: Sized,
    {
        let mut device = device::<X>(record);
        if !device.is_initialized() {
            return Err(Found::refused(4));
        }
        let found = device.current(bus);
        heard(bus, found).map(|found| [found.0 as u32, 0, 0, 0, 0])
    }
    by_size!(record.x, on(record, bus))
}

pub fn read_raw(record: &Record, reg: u8, data: &mut [u8], bus: &mut Bus) -> Found {
    fn on<const X: usize>(record: &Record, reg: u8, data: &mut [u8], bus: &mut Bus) -> Result<[u32; 5], Found>
    where
        [(); X * 2]: Sized,
        [(); X * 4]: Sized,
    {
        let done = device::<X>(record).read_raw(bus, reg, data);
        heard(bus, done).map(|()| [0; 5])
    }
    by_size!(record.x, on(record, reg, data, bus))
}

/// The calls that are the crate's own and no more: each with its arguments, what it is asked of the device, and its answer as numbers.
macro_rules! on_record {
    ($($call:ident($($argument:ident: $type:ty),*): |$device:ident, $bus:ident| $asked:expr, $told:expr;)*) => {$(
        pub fn $call(record: &Record, $($argument: $type,)* bus: &mut Bus) -> Found {
            fn on<const X: usize>(record: &Record, $($argument: $type,)* $bus: &mut Bus) -> Result<[u32; 5], Found>
            where
                [(); X * 2]: Sized,
                [(); X * 4]: Sized,
            {
                let mut $device = device::<X>(record);
                let answer = $asked;
                heard($bus, answer).map($told)
            }
            by_size!(record.x, on(record, $($argument,)* bus))
        }
    )*};
}

fn done((): ()) -> [u32; 5] {
    [0; 5]
}

fn one(number: u32) -> [u32; 5] {
    [number, 0, 0, 0, 0]
}

/// The degrees, and then 1 where a thermistor has them.
fn degrees(read: Temperature) -> [u32; 5] {
    match read {
        Temperature::InternalDie(degrees) => [degrees.0 as u32, 0, 0, 0, 0],
        Temperature::ExternalThermistor(degrees) => [degrees.0 as u32, 1, 0, 0, 0],
    }
}

fn source(thermistor: bool) -> TemperatureSource {
    if thermistor { TemperatureSource::ExternalThermistor } else { TemperatureSource::InternalDie }
}

fn mode(code: u8) -> CoulombCounterMode {
    match code {
        0 => CoulombCounterMode::Disabled,
        1 => CoulombCounterMode::OneShot,
        _ => CoulombCounterMode::Continuous,
    }
}

on_record! {
    write_raw(reg: u8, data: &[u8]): |device, bus| device.write_raw(bus, reg, data), done;
    voltage(): |device, bus| device.voltage(bus), |found| one(found.0);
    temperature(): |device, bus| device.temperature(bus), degrees;
    enable_balancing(cells: u8): |device, bus| device.enable_balancing(bus, cells), done;
    balancing_state(): |device, bus| device.balancing_state(bus), |set| one(set as u32);
    sys_stat(): |device, bus| device.sys_stat(bus), |stat| one(stat.kept() as u32);
    sys_stat_reset(flags: u8): |device, bus| device.sys_stat_reset(bus, SysStat::from_bits(flags).ok_or(Found::refused(18))?), done;
    discharge(enable: bool): |device, bus| device.discharge(bus, enable), done;
    charge(enable: bool): |device, bus| device.charge(bus, enable), done;
    is_charge_enabled(): |device, bus| device.is_charge_enabled(bus), |on| one(on as u32);
    ship_enter(): |device, bus| device.ship_enter(bus), done;
    enable_adc(enable: bool): |device, bus| device.enable_adc(bus, enable), done;
    set_temperature_source(thermistor: bool): |device, bus| device.set_temperature_source(bus, source(thermistor)), done;
    temperature_source(): |device, bus| device.temperature_source(bus), |source| one((source == TemperatureSource::ExternalThermistor) as u32);
    coulomb_counter_mode(code: u8): |device, bus| device.coulomb_counter_mode(bus, mode(code)), done;
}

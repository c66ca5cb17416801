// A job on the crate, behind the added refusals. Included once for each build of the crate, which is `bq` here.
use crate::bus::{lines, Bus, Transfer};
use crate::crates::balancing;
use crate::crates::chip::Chip;
use crate::crates::printed::{cell_on, end, numbers, spread, unsound, Lent};
use crate::crates::wiring::{figures, fitted};
use crate::job::{is_sound, Job, Kept, Wired};
use bq::*;
use std::panic::{catch_unwind, AssertUnwindSafe};

/// What callrun prints for this job, or staterun: 9 in front of each call on a record that is not sound.
pub fn run(job: &Job, bus: &mut Bus) -> String {
    if let Some(given) = &job.given {
        if !is_sound(job, &given.kept) {
            return unsound(job, &given.kept, bus);
        }
    }
    match job.x {
        5 => on(BQ769x0::<5>::new(job.address, job.cells), job, bus),
        10 => on(BQ769x0::<10>::new(job.address, job.cells), job, bus),
        15 => on(BQ769x0::<15>::new(job.address, job.cells), job, bus),
        _ => "refused 9\n".to_string(),
    }
}

fn on<const X: usize>(device: Option<BQ769x0<X>>, job: &Job, bus: &mut Bus) -> String
where
    [(); X * 2]: Sized,
    [(); X * 4]: Sized,
{
    let Some(device) = device else { return "refused 10\n".to_string() };
    if job.address > 127 {
        return "refused 11\n".to_string();
    }
    let mut running = Running { device, wired: Wired::default(), job, bus };
    if let Some(given) = &job.given {
        running.keep(&given.kept);
    }
    let calls: String = job.calls.iter().map(|(tag, value)| running.call(*tag, value)).collect();
    calls + &end(job, &running.kept(), running.bus)
}

struct Running<'a, 'b, const X: usize> {
    device: BQ769x0<X>,
    /// The part of the record that the crate's device has not.
    wired: Wired,
    job: &'a Job,
    bus: &'a mut Bus<'b>,
}

impl<const X: usize> Running<'_, '_, X>
where
    [(); X * 2]: Sized,
    [(); X * 4]: Sized,
{
    /// A call's transfers, its answer and its data.
    fn call(&mut self, tag: u8, value: &[u8]) -> String {
        let from = self.bus.log.len();
        self.bus.refused = None;
        let mut lent = Lent::new(tag, value);
        let answer = catch_unwind(AssertUnwindSafe(|| self.answer(tag, value, &mut lent)));
        let line = match (self.bus.refused, answer) {
            (_, Err(_)) => "panic".to_string(),
            (Some(number), Ok(Ok(line))) => format!("{line} after a transfer refused {number}"),
            (Some(number), Ok(Err(_))) => format!("refused {number}"),
            (None, Ok(Ok(line))) => line,
            (None, Ok(Err(number))) => format!("refused {number}"),
        };
        lines(&self.bus.log[from..]) + &line + "\n" + &lent.line(tag, self.job)
    }

    fn keep(&mut self, kept: &Kept) {
        let cells = std::array::from_fn(|i| MilliVolts(kept.cells[i] as u32));
        self.device.keep(kept.initialised, kept.gain, kept.offset, MicroOhms(kept.shunt), cells);
        self.wired = kept.wired;
    }

    /// The record. Of its fifteen moved cells the crate has the first X; no call changes the rest.
    fn kept(&self) -> Kept {
        let (initialised, shunt, cells) = self.device.kept();
        let mut all = self.job.given.as_ref().map_or([0; 15], |given| given.kept.cells);
        for (place, cell) in all.iter_mut().zip(cells) {
            *place = signed(cell);
        }
        let (gain, offset) = (self.device.adc_gain(), self.device.adc_offset());
        Kept { initialised, gain, offset, shunt: shunt.0, cells: all, wired: self.wired }
    }

    /// The line of an answer, or a refusal's number and figures.
    fn answer(&mut self, tag: u8, value: &[u8], lent: &mut Lent) -> Result<String, String> {
        let (device, bus) = (&mut self.device, &mut *self.bus);
        let done = |()| "done".to_string();
        let flag = value == [1];
        match tag {
            0x21 => return self.init(value),
            0x22 => return self.cells(&mut lent.list),
            0x23 => return self.current(),
            0x24 => return self.voltage(),
            0x25 => device.temperature(bus).map(degrees),
            0x26 => device.enable_balancing(bus, value[0]).map(done),
            0x27 => device.balancing_state(bus).map(|set| format!("balancing {set}")),
            0x28 => device.sys_stat(bus).map(|status| format!("status {}", status.kept())),
            0x29 => device.sys_stat_reset(bus, SysStat::from_bits(value[0]).ok_or("18")?).map(done),
            0x2A => device.discharge(bus, flag).map(done),
            0x2B => device.charge(bus, flag).map(done),
            0x2C => device.is_charge_enabled(bus).map(|on| format!("charging {}", on as u8)),
            0x2D => device.ship_enter(bus).map(done),
            0x2E => device.enable_adc(bus, flag).map(done),
            0x2F => device.set_temperature_source(bus, source(flag)).map(done),
            0x30 => device.temperature_source(bus).map(|s| format!("source {}", source_name(s))),
            0x31 => device.coulomb_counter_mode(bus, mode(value[0])).map(done),
            0x32 => device.read_raw(bus, value[0], &mut lent.data).map(done),
            0x34 => return self.wired(lent),
            0x35 => return cell_on(value),
            0x36 => return self.balance_set(value),
            0x37 => return self.balance_get(),
            0x38 => return Ok(spread(&self.wired)),
            _ => device.write_raw(bus, value[0], &value[1..]).map(done),
        }
        .map_err(number)
    }

    /// 12 and 13 in front.
    fn init(&mut self, value: &[u8]) -> Result<String, String> {
        let config = config(value);
        let (shunt, scd, ocd) = (config.shunt.0, config.scd_threshold.0, config.ocd_threshold.0);
        if shunt == 0 || shunt > 2_147_483_647 {
            return Err("12".to_string());
        }
        if [scd, ocd].iter().any(|asked| *asked as u64 * shunt as u64 >= 256_000) {
            return Err("13".to_string());
        }
        self.device.init(self.bus, &config).map(|found| set_up(&found)).map_err(number)
    }

    /// 19 in front, where the crate would not answer 4. The crate's own list goes into the lent one.
    fn cells(&mut self, list: &mut [i32]) -> Result<String, String> {
        if self.device.is_initialized() && list.len() < self.job.cells as usize {
            return Err("19".to_string());
        }
        let cells = self.reading()?;
        list[..cells.len()].copy_from_slice(&cells);
        Ok(format!("cells{}", numbers(&cells)))
    }

    /// 19 in front, where the crate would not answer 4. The fitted inputs and their voltages go into the lent lists.
    fn wired(&mut self, lent: &mut Lent) -> Result<String, String> {
        let count = self.job.cells as usize;
        if self.device.is_initialized() && lent.inputs.len().min(lent.list.len()) < count {
            return Err("19".to_string());
        }
        self.reading()?;
        let mut line = "wired".to_string();
        for (place, input) in fitted(X, count).into_iter().enumerate() {
            let voltage = self.wired.cells[place];
            (lent.inputs[place], lent.list[place]) = (input as u8, voltage);
            line += &format!(" {input} {voltage}");
        }
        Ok(line)
    }

    /// The crate's own list. The read, its refusals and the moved cells kept are the crate's; beside these are kept, from the same reply, each fitted
    /// input's voltage and their figures. Places past the count stay as they were.
    fn reading(&mut self) -> Result<Vec<i32>, String> {
        let field = self.bus.at;
        let moved = self.device.cell_voltages(self.bus).map_err(number)?.iter().map(|cell| signed(*cell)).collect();
        let voltages = self.by_input(&self.bus.tape[field + 3..self.bus.at]);
        let fitted = fitted(X, self.job.cells as usize);
        let cells = &mut self.wired.cells[..fitted.len()];
        for (cell, input) in cells.iter_mut().zip(fitted) {
            *cell = voltages[input - 1];
        }
        self.wired.figures = figures(cells);
        Ok(moved)
    }

    /// All inputs' voltages from a read's reply: five at a time, by the crate's own call for a BQ76920 of five cells, which moves none.
    fn by_input(&self, reply: &[u8]) -> Vec<i32> {
        let bytes: Vec<u8> = reply.iter().step_by(1 + self.job.check as usize).copied().collect();
        bytes.chunks(10).flat_map(|block| self.five(block)).collect()
    }

    fn five(&self, block: &[u8]) -> Vec<i32> {
        let registers: Vec<(u8, u8)> = (0x0C..).zip(block.iter().copied()).collect();
        let mut chip = Chip::new(self.job.check, &registers);
        let mut feed = |asked: &Transfer| chip.field(asked);
        let mut bus = Bus::new(self.job.check, &[]);
        bus.feed = Some(&mut feed);
        let mut device = BQ769x0::<5>::new(8, 5).expect("a device");
        let (gain, offset) = (self.device.adc_gain(), self.device.adc_offset());
        device.keep(true, gain, offset, MicroOhms(1), std::array::from_fn(|_| MilliVolts(0)));
        device.cell_voltages(&mut bus).map_err(number).expect("a reading").iter().map(|cell| signed(*cell)).collect()
    }

    /// The read, its refusals and the voltage with five offsets are the crate's; with an offset a cell it is computed, from the same reply.
    fn voltage(&mut self) -> Result<String, String> {
        let field = self.bus.at;
        let found = signed(self.device.voltage(self.bus).map_err(number)?);
        let reply: Vec<u8> = self.bus.tape[field + 3..self.bus.at].iter().step_by(1 + self.job.check as usize).copied().collect();
        let reading = u16::from_be_bytes([reply[0], reply[1]]);
        let by = |offsets: u8| pack_by_count(offsets, self.device.adc_gain(), self.device.adc_offset(), reading);
        if by(5) != found {
            return Ok(format!("voltage {found} by the crate, {} by its formula", by(5)));
        }
        Ok(format!("voltage {}", by(self.job.cells)))
    }

    /// 22, 23 and 24 in front. The write of one register is the crate's own for balancing, that of two or three its `write_raw`.
    fn balance_set(&mut self, value: &[u8]) -> Result<String, String> {
        let set = u16::from_be_bytes([value[0], value[1]]);
        let registers = balancing::registers(X, set, value[2]).map_err(|number| number.to_string())?;
        let written = match registers[..] {
            [byte] => self.device.enable_balancing(self.bus, byte),
            _ => self.device.write_raw(self.bus, 0x01, &registers),
        };
        written.map(|()| "done".to_string()).map_err(number)
    }

    /// The read likewise.
    fn balance_get(&mut self) -> Result<String, String> {
        let mut registers = vec![0; X / 5];
        match registers[..] {
            [_] => self.device.balancing_state(self.bus).map(|byte| registers[0] = byte),
            _ => self.device.read_raw(self.bus, 0x01, &mut registers),
        }
        .map_err(number)?;
        Ok(format!("balanceget {}", balancing::set(&registers)))
    }

    /// 4 in front.
    fn current(&mut self) -> Result<String, String> {
        if !self.device.is_initialized() {
            return Err("4".to_string());
        }
        self.device.current(self.bus).map(|found| format!("current {}", found.0)).map_err(number)
    }
}

/// The crate's millivolts with their sign: the one place where a voltage's form moves away from the crate's (request 2; docs/DIFFERENCES.md, D57).
/// The bits are the crate's. All that is printed or compared of its voltages comes through here.
pub fn signed(voltage: MilliVolts) -> i32 {
    voltage.0 as i32
}

/// The pack voltage with so many offsets: the one place where the port's number moves away from the crate's (request 3; docs/DIFFERENCES.md, D54).
/// The datasheet has one a fitted cell, and so the port takes the record's count; the crate takes five, whatever the count. With five this must be
/// the crate's own number, which `voltage` holds it to on every job.
fn pack_by_count(offsets: u8, gain: u16, offset: i8, reading: u16) -> i32 {
    (4 * gain as i32 * reading as i32 + offsets as i32 * offset as i32 * 1000) / 1000
}

pub fn set_up(found: &CalculatedValues) -> String {
    let range = (found.ocdscd_range_used == OCDSCDRange::Upper) as u8;
    let (scd, ocd) = (found.scd_threshold.0, found.ocd_threshold.0);
    format!("init range {range} scd {scd} ocd {ocd} uv {} ov {}", signed(found.uv_threshold), signed(found.ov_threshold))
}

/// The crate's errors by 01's numbers, with their figures.
pub fn number(error: Error) -> String {
    match error {
        Error::CRCMismatch => "1".to_string(),
        Error::I2CError => "2".to_string(),
        Error::BufTooLarge => "3".to_string(),
        Error::Uninitialized => "4".to_string(),
        Error::VerifyError(register) => format!("5 {register}"),
        Error::OCDSCDRangeMismatch => "6".to_string(),
        Error::UVThresholdUnobtainable(low, high) => format!("7 {} {}", signed(low), signed(high)),
        Error::OVThresholdUnobtainable(low, high) => format!("8 {} {}", signed(low), signed(high)),
    }
}

/// The set-up in field 21.
pub fn config(value: &[u8]) -> Config {
    let word = |i: usize| u32::from_be_bytes(value[4 * i..4 * i + 4].try_into().unwrap());
    Config {
        shunt: MicroOhms(word(0)),
        scd_threshold: Amperes(word(1)),
        ocd_threshold: Amperes(word(2)),
        uv_threshold: MilliVolts(word(3)),
        ov_threshold: MilliVolts(word(4)),
        scd_delay: at(value[20], [SCDDelay::_70uS, SCDDelay::_100uS, SCDDelay::_200uS, SCDDelay::_400uS]),
        ocd_delay: at(value[21], ocd_delays()),
        uv_delay: at(value[22], [UVDelay::_1s, UVDelay::_4s, UVDelay::_8s, UVDelay::_16s]),
        ov_delay: at(value[23], [OVDelay::_1s, OVDelay::_4s, OVDelay::_8s, OVDelay::_16s]),
    }
}

fn at<T, const N: usize>(code: u8, list: [T; N]) -> T {
    list.into_iter().nth(code as usize).expect("a code of the list")
}

fn ocd_delays() -> [OCDDelay; 8] {
    use OCDDelay::*;
    [_8ms, _20ms, _40ms, _80ms, _160ms, _320ms, _640ms, _1280ms]
}

fn mode(code: u8) -> CoulombCounterMode {
    match code {
        0 => CoulombCounterMode::Disabled,
        1 => CoulombCounterMode::OneShot,
        _ => CoulombCounterMode::Continuous,
    }
}

fn source(thermistor: bool) -> TemperatureSource {
    if thermistor { TemperatureSource::ExternalThermistor } else { TemperatureSource::InternalDie }
}

fn source_name(source: TemperatureSource) -> &'static str {
    if source == TemperatureSource::InternalDie { "die" } else { "thermistor" }
}

fn degrees(found: Temperature) -> String {
    match found {
        Temperature::InternalDie(d) => format!("temperature die {}", d.0),
        Temperature::ExternalThermistor(d) => format!("temperature thermistor {}", d.0),
    }
}

// The lines of crates/rows by the crate's own functions. Included once for each build of the crate, which is `bq` here; `calls` are its calls.
use crate::bus::{field_of, Bus, Transfer};
use crate::crates::chip::Chip;
use crate::{Came, Line};
use bq::*;
use calls::{config, number, signed};
use crc_any::CRCu8;
use std::panic::{catch_unwind, AssertUnwindSafe};
use Came::{Is, NotRun};

fn line(name: &str, came: Came, should: impl ToString) -> Line {
    Line { name: name.to_string(), came, should: Some(should.to_string()) }
}

fn row(name: &str, came: impl ToString, should: impl ToString) -> Line {
    line(name, Is(came.to_string()), should)
}

fn heading(name: &str) -> Line {
    Line { name: name.to_string(), came: Is(String::new()), should: None }
}

fn caught(run: impl FnOnce() -> String) -> String {
    catch_unwind(AssertUnwindSafe(run)).unwrap_or("panics".to_string())
}

/// A device and its chip, set up or to be so.
struct Bench<const X: usize> {
    device: BQ769x0<X>,
    chip: Chip,
    /// The read of 05 faults.
    cut: bool,
}

impl<const X: usize> Bench<X>
where
    [(); X * 2]: Sized,
    [(); X * 4]: Sized,
{
    fn new(check: bool, cell_count: u8, set: &[(u8, u8)]) -> Bench<X> {
        Bench { device: BQ769x0::new(8, cell_count).expect("a device"), chip: Chip::new(check, set), cut: false }
    }

    fn run<T>(&mut self, call: impl FnOnce(&mut BQ769x0<X>, &mut Bus) -> T) -> T {
        let mut bus = Bus::new(self.chip.check, &[]);
        let (chip, cut) = (&mut self.chip, self.cut);
        let mut reply = |asked: &Transfer| if cut && asked.sent[0] == 0x05 { field_of(2, &[]) } else { chip.field(asked) };
        bus.guarded = false;
        bus.feed = Some(&mut reply);
        call(&mut self.device, &mut bus)
    }

    /// Delays as in the scope's example.
    fn init(&mut self, words: [u32; 5]) -> Result<CalculatedValues, Error> {
        let mut value: Vec<u8> = words.iter().flat_map(|word| word.to_be_bytes()).collect();
        value.extend([2, 5, 1, 1]);
        self.run(|device, bus| device.init(bus, &config(&value)))
    }

    fn cells(&mut self) -> Vec<i32> {
        self.run(|device, bus| device.cell_voltages(bus).expect("cells").iter().map(|cell| signed(*cell)).collect())
    }

    fn current(&mut self) -> String {
        caught(|| self.run(|device, bus| device.current(bus).map_or_else(number, |found| format!("{} mA", found.0))))
    }
}

const EXAMPLE: [u32; 5] = [1000, 50, 20, 2800, 4200];

fn calibration(check: bool) -> Vec<Line> {
    let mut gain = Bench::<5>::new(check, 5, &[(0x50, 0x0C), (0x59, 0xE0)]);
    gain.init(EXAMPLE).expect("set up");
    let mut offset = Bench::<5>::new(check, 5, &[(0x51, 0x80)]);
    offset.init(EXAMPLE).expect("set up");
    vec![row("50=0C 59=E0: gain", gain.device.adc_gain(), 396), row("51=80: offset", offset.device.adc_offset(), -128)]
}

/// The cell that reads 1, and the one that reads 0.
fn readings(check: bool) -> Vec<Line> {
    let mut bench = Bench::<5>::new(check, 5, &[(0x51, 0xFF), (0x0D, 0x01)]);
    bench.init(EXAMPLE).expect("set up");
    let cells = bench.cells();
    vec![row("reading 1, gain 365, offset -1", cells[0], 0), row("reading 0, same", cells[1], -1)]
}

/// The code in a register after setting up, and the UV reported.
fn trip(check: bool, uv: u32, ov: u32, register: u8) -> (u8, i32) {
    let mut bench = Bench::<5>::new(check, 5, &[]);
    let found = bench.init([1000, 50, 20, uv, ov]).expect("set up");
    (bench.chip.registers[register as usize], signed(found.uv_threshold))
}

fn trip_codes(check: bool) -> Vec<Line> {
    let mut lines = Vec::new();
    for (name, asked, code, reported) in
        [("UV 1495, gain 365, offset 0: code", 1495, 0xFF, 2984), ("UV 1496: code", 1496, 0x00, 1495), ("UV 2984: code", 2984, 0xFE, 2978)]
    {
        let came = trip(check, asked, 4200, 0x0A);
        lines.extend([row(name, came.0, code), row("  reported", came.1, reported)]);
    }
    lines.push(row("OV 2993: code", trip(check, 2800, 2993, 0x09).0, 0x00));
    lines.push(row("OV 4482: code", trip(check, 2800, 4482, 0x09).0, 0xFF));
    lines
}

fn unobtainable(check: bool) -> Vec<Line> {
    let refused = |name: &str, uv: u32, ov: u32, should: [u32; 3]| {
        let answer = Bench::<5>::new(check, 5, &[]).init([1000, 50, 20, uv, ov]).expect_err("a refusal");
        let told = number(answer);
        let told: Vec<&str> = told.split(' ').collect();
        [row(name, told[0], should[0]), row("  low", told[1], should[1]), row("  high", told[2], should[2])]
    };
    let mut lines = Vec::new();
    lines.extend(refused("UV 1494: refused", 1494, 4200, [7, 1495, 2984]));
    lines.extend(refused("UV 2985: refused", 2985, 4200, [7, 1495, 2984]));
    lines.extend(refused("OV 2992: refused", 2800, 2992, [8, 2993, 4482]));
    lines.extend(refused("OV 4483: refused", 2800, 4483, [8, 2993, 4482]));
    lines
}

fn scd(amperes: u32, shunt: u32) -> String {
    caught(|| format!("{} mV", SCDThreshold::from_current(Amperes(amperes), MicroOhms(shunt)) as u32))
}

fn ocd(amperes: u32, shunt: u32) -> String {
    caught(|| format!("{} mV", OCDThreshold::from_current(Amperes(amperes), MicroOhms(shunt)) as u32))
}

/// What setting up for two currents answers.
fn refusal(check: bool, shunt: u32, scd: u32, ocd: u32) -> String {
    let found = |found: CalculatedValues| format!("set up with SCD {} A, OCD {} A", found.scd_threshold.0, found.ocd_threshold.0);
    caught(|| Bench::<5>::new(check, 5, &[]).init([shunt, scd, ocd, 2800, 4200]).map_or_else(number, found))
}

fn steps(check: bool) -> Vec<Line> {
    let mut bench = Bench::<5>::new(check, 5, &[]);
    bench.init([1000, 44, 44, 2800, 4200]).expect("set up");
    let regs = bench.chip.registers;
    vec![
        row("SCD 255 A at 1000 uOhm: mV", scd(255, 1000).trim_end_matches(" mV"), 200),
        row("D1 SCD 256 A: refused", scd(256, 1000), 13),
        row("SCD 256 A: set up: refused", refusal(check, 1000, 256, 20), 13),
        row("OCD 256 A: set up: refused", refusal(check, 1000, 50, 256), 13),
        row("SCD 100, OCD 55 A: refused", refusal(check, 1000, 100, 55), 6),
        row("SCD 44, OCD 44 A: range", regs[0x06] / 128, 0),
        row("  SCD code", regs[0x06] % 8, 0x2),
        row("  OCD code", regs[0x07] % 16, 0xD),
    ]
}

/// The current at this counter reading, after an init with this shunt.
fn current(check: bool, counter: u16, shunt: u32) -> String {
    let [high, low] = counter.to_be_bytes();
    let mut bench = Bench::<5>::new(check, 5, &[(0x32, high), (0x33, low)]);
    bench.init([shunt, 0, 0, 2800, 4200]).expect("set up");
    bench.current()
}

/// The voltage of a BQ76920's pack of so many cells, by the crate's own call: reading 0, offset 1.
fn pack(check: bool, cell_count: u8) -> i32 {
    let mut bench = Bench::<5>::new(check, cell_count, &[(0x51, 0x01)]);
    bench.init(EXAMPLE).expect("set up");
    signed(bench.run(|device, bus| device.voltage(bus).map_err(number).expect("a voltage")))
}

/// The cells of a BQ76930, of which input k reads 1000 k.
fn cells(check: bool, inputs: &[u32]) -> Vec<Line> {
    let reading = |k: u16| (1000 * (k + 1)).to_be_bytes();
    let set: Vec<(u8, u8)> = (0..10).flat_map(|k| [(12 + 2 * k, reading(k as u16)[0]), (13 + 2 * k, reading(k as u16)[1])]).collect();
    let mut bench = Bench::<10>::new(check, inputs.len() as u8, &set);
    bench.init(EXAMPLE).expect("set up");
    let mut lines = vec![heading(&format!("BQ76930, {} cells", inputs.len()))];
    for (i, (cell, should)) in bench.cells().iter().zip(inputs).enumerate() {
        lines.push(row(&format!("  cell {}, input", i + 1), cell / 365, should));
    }
    lines
}

/// By the stand-in for crc_any.
fn check_bytes() -> Vec<Line> {
    let of = |bytes: &[u8]| {
        let mut crc = CRCu8::crc8();
        crc.digest(bytes);
        crc.get_crc()
    };
    vec![
        row("check byte of 01", of(&[0x01]), 0x07),
        row("check byte of 80", of(&[0x80]), 0x89),
        row("check byte of FF", of(&[0xFF]), 0xF3),
        row("check byte of the text 123456789", of(b"123456789"), 0xF4),
        row("check byte of nothing", of(b""), 0x00),
    ]
}

fn functions(check: bool) -> Vec<Line> {
    let unknown = || OCDSCDRange::Unknown;
    vec![
        row("D2 OCD 256 A at 1000 uOhm: refused", ocd(256, 1000), 13),
        row("D3 SCD 65536 A at 65536 uOhm: refused", scd(65536, 65536), 13),
        row("D3 OCD 65536 A at 65536 uOhm: refused", ocd(65536, 65536), 13),
        row("D4 code of SCD 22 mV for range Unknown: refused", caught(|| SCDThreshold::_22mV.bits(unknown()).to_string()), 20),
        row("D5 code of OCD 8 mV for range Unknown: refused", caught(|| OCDThreshold::_8mV.bits(unknown()).to_string()), 20),
        row("D6 bit of range Unknown: refused", caught(|| unknown().bits().to_string()), 20),
        row("D7 counter 1, shunt 0: refused", Bench::<5>::new(check, 5, &[(0x33, 0x01)]).current(), 12),
        row("D8 counter 1, shunt 2147483648: refused", current(check, 1, 2147483648), 12),
        row("D8 counter 8000, shunt 4018405376: refused", current(check, 0x8000, 4018405376), 12),
        line("D9 reading asked for 2800 mV at gain 0: refused", NotRun("a part of init, behind a calibration, whose gain is 365 or more"), 9),
        line("D9 plan at gain 0: refused", NotRun("the same"), 9),
        row("D10 plan with shunt 0: refused", refusal(check, 0, 50, 20), 12),
        row("D35 SCD step 200 mV: mV", SCDThreshold::_200mV as u32, 200),
        row("D35 OCD step 100 mV: mV", OCDThreshold::_100mV as u32, 100),
        line("D38 reading FFFF, gain 65535: mV", NotRun("AdcTransferFunction is private, and its gain 365 to 396"), 4294836),
        line("D38 reading 0, gain 365, offset -1: mV", NotRun("AdcTransferFunction is private; by a cell this is `reading 0, same`"), -1),
        line("D39 CC_READY and OVERCURRENT in one set", NotRun("an operator of bitflags, which the stand-in does not have"), 0x81),
        row("D39 the set of bit 6", SysStat::from_bits(0x40).map_or("None".to_string(), |set| set.bits().to_string()), 0x40),
        row("D54 pack of 3 cells, reading 0, offset 1: mV (5 before)", pack(check, 3), 3),
        row("D54 the same of 5 cells: mV", pack(check, 5), 5),
        row("D53 OV delay of 1 s: bits", OVDelay::_1s.bits(), 0x00),
        line("D53 OV delay of 2 s: bits", NotRun("it has no OV delay of that name; code 1 is named 4 s"), 0x10),
        row("D53 OV delay of 4 s: bits (16 before)", OVDelay::_4s.bits(), 0x20),
        row("D53 OV delay of 8 s: bits (32 before)", OVDelay::_8s.bits(), 0x30),
        line("D53 OV delay of code 1: s (4 before)", NotRun("it names its delays, and answers no seconds"), 2),
        line("D79 OV delay of code 3: s", NotRun("the same"), 8),
        line("D79 UV delay of code 3: s", NotRun("the same"), 16),
        line("D79 UV delay of code 4: refused", NotRun("the same"), 15),
    ]
}

/// The current of a record that an init left marked with shunt 0, since the read of 05 faulted.
fn marked(check: bool) -> String {
    let mut bench = Bench::<5>::new(check, 5, &[(0x33, 0x01)]);
    bench.cut = true;
    bench.init([0, 0, 0, 2800, 4200]).expect_err("a fault");
    bench.current()
}

fn records(check: bool) -> Vec<Line> {
    let mut bench = Bench::<5>::new(check, 5, &[]);
    bench.init(EXAMPLE).expect("set up");
    let handed = bench.cells().len();
    let made = BQ769x0::<6>::new(8, 6).map_or("None", |_| "made");
    let literal = || NotRun("registers are literals in its calls");
    vec![
        line("D11 setup with address 128: refused", NotRun("it has no setup"), 9),
        line("D11 setup with X 6: refused", NotRun("the same"), 9),
        line("D27 a read with 6 bytes of log: refused", NotRun("it has no log"), 17),
        line("D27 the same with 7: refused", NotRun("the same"), 0),
        row("D29 current of a record marked with shunt 0: refused", marked(check), 9),
        row("D29 the same with shunt 2147483648: refused", current(check, 1, 2147483648), 9),
        row("D30 new with X 6: refused", made, 9),
        line("D30 X of the record it leaves", NotRun("None is no record"), 0),
        line("D30 current of that record: refused", NotRun("the same"), 9),
        row("D33 cells handed back of a list of 4", handed, 0),
        row("D33 cells handed back of a list of 6", handed, 5),
        row("D34 BQ76920", BQ76920, 5),
        row("D34 BQ76930", BQ76930, 10),
        row("D34 BQ76940", BQ76940, 15),
        line("D34 SYS_CTRL2", literal(), 0x05),
        line("D34 PROTECT1", literal(), 0x06),
        line("D34 ADCGAIN1", literal(), 0x50),
    ]
}

pub fn all(check: bool) -> Vec<Line> {
    let mut lines = calibration(check);
    lines.extend(readings(check));
    lines.extend(trip_codes(check));
    lines.extend(unobtainable(check));
    lines.extend(steps(check));
    lines.push(row("counter FFFF, 1000 uOhm: mA", current(check, 0xFFFF, 1000).trim_end_matches(" mA"), -8));
    lines.extend(cells(check, &[1, 2, 3, 5, 5, 6, 7, 10, 9, 10]));
    lines.extend(cells(check, &[1, 2, 5, 4, 5, 6]));
    lines.extend(check_bytes());
    lines.extend(functions(check));
    lines.extend(records(check));
    lines
}

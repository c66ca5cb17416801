// The crate with no refusal in front. Included once for each build of the crate, which is `bq` here; `calls` are its calls.
use crate::bus::{field_of, lines, Bus, Feed, Transfer};
use crate::crates::chip::Chip;
use bq::*;
use calls::{config, number, set_up};
use std::panic::{catch_unwind, AssertUnwindSafe};

/// The text, or the panic's own.
fn caught(run: impl FnOnce() -> String) -> String {
    catch_unwind(AssertUnwindSafe(run)).unwrap_or_else(|panic| {
        let text = panic.downcast_ref::<&str>().map(|text| text.to_string());
        format!("panics: {}", text.or(panic.downcast_ref::<String>().cloned()).unwrap_or_default())
    })
}

/// What calls on a BQ76920 of five cells do, over a chip with these registers set: the transfers, the answer, the mark and shunt left behind.
fn on_chip(check: bool, address: u8, set: &[(u8, u8)], run: impl FnOnce(&mut BQ769x0<5>, &mut Bus) -> Result<String, Error>) -> String {
    let mut chip = Chip::new(check, set);
    on_bus(check, address, &mut |asked| chip.field(asked), run)
}

fn on_bus(check: bool, address: u8, feed: Feed, run: impl FnOnce(&mut BQ769x0<5>, &mut Bus) -> Result<String, Error>) -> String {
    let mut device = BQ769x0::<5>::new(address, 5).expect("a device");
    let mut bus = Bus::new(check, &[]);
    bus.guarded = false;
    bus.feed = Some(feed);
    let answer = caught(|| run(&mut device, &mut bus).unwrap_or_else(|error| format!("error {}", number(error))));
    let (mark, shunt, _) = device.kept();
    format!("{}{answer}; mark {}, shunt {}", lines(&bus.log).replace('\n', ", "), mark as u8, shunt.0)
}

fn init(shunt: u32, scd: u32, ocd: u32) -> Config {
    let words = [shunt, scd, ocd, 2800, 4200];
    let mut value: Vec<u8> = words.iter().flat_map(|word| word.to_be_bytes()).collect();
    value.extend([2, 5, 1, 1]);
    config(&value)
}

fn set_up_by(check: bool, shunt: u32, scd: u32, ocd: u32) -> String {
    on_chip(check, 8, &[], |device, bus| device.init(bus, &init(shunt, scd, ocd)).map(|found| set_up(&found)))
}

fn scd(amperes: u32, shunt: u32) -> String {
    caught(|| format!("{} mV", SCDThreshold::from_current(Amperes(amperes), MicroOhms(shunt)) as u32))
}

fn ocd(amperes: u32, shunt: u32) -> String {
    caught(|| format!("{} mV", OCDThreshold::from_current(Amperes(amperes), MicroOhms(shunt)) as u32))
}

fn current_by(check: bool, counter: u16, shunt: u32) -> String {
    let [high, low] = counter.to_be_bytes();
    on_chip(check, 8, &[(0x32, high), (0x33, low)], |device, bus| {
        device.init(bus, &init(shunt, 0, 0))?;
        bus.log.clear();
        device.current(bus).map(|found| format!("{} mA", found.0))
    })
}

fn made(device: bool) -> String {
    if device { "made" } else { "None" }.to_string()
}

/// Each input, and what this build of the crate does on it.
pub fn rows(check: bool) -> Vec<(&'static str, String)> {
    let mut rows = steps();
    rows.extend([
        ("D15 12: init, shunt 0", set_up_by(check, 0, 0, 0)),
        ("D15 12: init, shunt 0, the read of 05 faults", cut_short(check)),
        ("D16 12: init, shunt 2,147,483,648", set_up_by(check, 0x8000_0000, 0, 0)),
        ("D8 12: current of counter 1, shunt 2,147,483,648", current_by(check, 1, 0x8000_0000)),
        ("D8 12: current of counter 8000, shunt 4,018,405,375", current_by(check, 0x8000, 4_018_405_375)),
        ("D8 12: current of counter 8000, shunt 4,018,405,376", current_by(check, 0x8000, 4_018_405_376)),
        ("D8 12: current of counter 1, shunt 4,294,958,856", current_by(check, 1, 4_294_958_856)),
        ("D17 13: init, SCD 256 A at 1000 µΩ", set_up_by(check, 1000, 256, 20)),
        ("D18 13: init, OCD 256 A at 1000 µΩ", set_up_by(check, 1000, 50, 256)),
        ("D19 13: init, SCD 4,294,968 A at 1000 µΩ", set_up_by(check, 1000, 4_294_968, 20)),
        ("D20 4: current before init", on_chip(check, 8, &[], |device, bus| device.current(bus).map(|found| found.0.to_string()))),
        ("D14 11: new, address 128", made(BQ769x0::<5>::new(128, 5).is_some())),
        ("D14 11: balancing 01 written at address 128", on_chip(check, 128, &[], |device, bus| device.enable_balancing(bus, 1).map(done))),
        ("D14 11: the same at address 0", on_chip(check, 0, &[], |device, bus| device.enable_balancing(bus, 1).map(done))),
        ("D12 9: new, X 6, 6 cells", made(BQ769x0::<6>::new(8, 6).is_some())),
        ("D12 9: new, X 0, 0 cells", made(BQ769x0::<0>::new(8, 0).is_some())),
        ("D12 9: new, X 16, 15 cells", made(BQ769x0::<16>::new(8, 15).is_some())),
        ("D13 10: new, X 5, 2 and 6 cells", made(BQ769x0::<5>::new(8, 2).is_some()) + ", " + &made(BQ769x0::<5>::new(8, 6).is_some())),
        ("D21 14: write_raw(FF, 01 02), read back so", on_chip(check, 8, &[], |device, bus| device.write_raw(bus, 0xFF, &[1, 2]).map(done))),
        ("D21 14: write_raw(FF, 01 02), read back 01 00", misread(check)),
        ("D22 14: read_raw(FF, 2 bytes)", on_chip(check, 8, &[(0xFF, 7), (0, 8)], past_the_end)),
        ("D23 18: the set of bit 6", SysStat::from_bits(0x40).map_or("None".to_string(), |set| set.bits().to_string())),
        ("4: cells before init", on_chip(check, 8, &[], |device, bus| device.cell_voltages(bus).map(|found| found.len().to_string()))),
        ("D24 19: the length of the cells handed back", on_chip(check, 8, &[], how_many_cells)),
    ]);
    rows
}

fn steps() -> Vec<(&'static str, String)> {
    let unknown = || OCDSCDRange::Unknown;
    vec![
        ("13: SCD step, 255 A at 1000 µΩ, for comparison", scd(255, 1000)),
        ("D1 13: SCD step, 256 A at 1000 µΩ", scd(256, 1000)),
        ("D2 13: OCD step, 256 A at 1000 µΩ", ocd(256, 1000)),
        ("D3 13: SCD step, 65,536 A at 65,536 µΩ", scd(65_536, 65_536)),
        ("D3 13: OCD step, 65,536 A at 65,536 µΩ", ocd(65_536, 65_536)),
        ("none: SCD step, 50 A at shunt 0", scd(50, 0)),
        ("D4 20: code of SCD 22 mV for range Unknown", caught(|| SCDThreshold::_22mV.bits(unknown()).to_string())),
        ("D5 20: code of OCD 8 mV for range Unknown", caught(|| OCDThreshold::_8mV.bits(unknown()).to_string())),
        ("D6 20: the bit of range Unknown", caught(|| unknown().bits().to_string())),
    ]
}

fn done(_: ()) -> String {
    "done".to_string()
}

/// A write of two bytes, of which the second reads back as 0.
fn misread(check: bool) -> String {
    let mut reply = |asked: &Transfer| field_of(1, if asked.read.is_some() { &[1, 0] } else { &[] });
    on_bus(check, 8, &mut reply, |device, bus| device.write_raw(bus, 0xFF, &[1, 2]).map(done))
}

/// An init with shunt 0 whose read of 05 faults.
fn cut_short(check: bool) -> String {
    let mut chip = Chip::new(check, &[]);
    let mut reply = |asked: &Transfer| if asked.sent[0] == 0x05 { field_of(2, &[]) } else { chip.field(asked) };
    on_bus(check, 8, &mut reply, |device, bus| device.init(bus, &init(0, 0, 0)).map(|found| set_up(&found)))
}

fn past_the_end(device: &mut BQ769x0<5>, bus: &mut Bus) -> Result<String, Error> {
    let mut data = [0; 2];
    device.read_raw(bus, 0xFF, &mut data).map(|()| format!("data {:02X} {:02X}", data[0], data[1]))
}

fn how_many_cells(device: &mut BQ769x0<5>, bus: &mut Bus) -> Result<String, Error> {
    device.init(bus, &init(1000, 50, 20))?;
    bus.log.clear();
    device.cell_voltages(bus).map(|found| found.len().to_string())
}

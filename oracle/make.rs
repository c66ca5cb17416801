//! Jobs by the throw of a seeded dice: the tape is written while the crate runs the calls, then some jobs are damaged.
use crate::bus::{field, field_of, Bus, Transfer};
use crate::crates::{run, wiring};
use crate::job::{parse, Given, Kept, Wired};
use crc_any::CRCu8;

/// Past the 32,768 bytes that count, and little enough for a pipe to take whole.
const LONGEST: usize = 40_000;

/// How long field 1D is, and where field 1E has the log's size.
const WIRED: usize = 3 + 72;
const LOG_SIZE_AT: usize = 3 + 68;

pub struct Dice(pub u64);

impl Dice {
    /// The next number of splitmix64.
    pub fn any(&mut self) -> u64 {
        self.0 = self.0.wrapping_add(0x9E37_79B9_7F4A_7C15);
        let z = (self.0 ^ (self.0 >> 30)).wrapping_mul(0xBF58_476D_1CE4_E5B9);
        let z = (z ^ (z >> 27)).wrapping_mul(0x94D0_49BB_1331_11EB);
        z ^ (z >> 31)
    }

    pub fn below(&mut self, n: usize) -> usize {
        (self.any() % n as u64) as usize
    }

    fn percent(&mut self, n: usize) -> bool {
        self.below(100) < n
    }

    pub fn pick<T: Copy>(&mut self, list: &[T]) -> T {
        list[self.below(list.len())]
    }

    pub fn byte(&mut self) -> u8 {
        if self.percent(25) { self.pick(&[0x00, 0x01, 0x7F, 0x80, 0xFF]) } else { self.any() as u8 }
    }

    pub fn bytes(&mut self, n: usize) -> Vec<u8> {
        (0..n).map(|_| self.byte()).collect()
    }
}

/// Registers 50, 51 and 59, as the job's chip has them.
type Calibration = [u8; 3];

/// The dice that the job of this index is thrown with.
pub fn dice(seed: u64, index: u64) -> Dice {
    Dice(Dice(Dice(seed).any() ^ index).any())
}

/// The job of this index: for callrun or for staterun.
pub fn job(seed: u64, index: u64, given: bool) -> Vec<u8> {
    let dice = &mut dice(seed, index);
    if given { given_job(dice) } else { calls_job(dice) }
}

fn calls_job(dice: &mut Dice) -> Vec<u8> {
    if dice.below(200) == 0 {
        let length = dice.below(40);
        return dice.bytes(length);
    }
    let device = device(dice);
    let chip = [dice.byte(), dice.byte(), dice.byte()];
    let head = calls(dice, device, &chip, 75);
    let bytes = with_tape(dice, head, chip);
    damaged(dice, bytes)
}

/// A job behind field 1E, or 1D and 1E, on a tape that may have other bytes ahead.
fn given_job(dice: &mut Dice) -> Vec<u8> {
    let mut device = device(dice);
    let chip = [dice.byte(), dice.byte(), dice.byte()];
    let mut kept = kept(dice, device[1]);
    if dice.percent(20) {
        spoil(dice, &mut device, &mut kept);
    }
    let before = if dice.percent(70) { 0 } else { dice.below(12) };
    let given = given(dice, kept, before);
    let mut head = given_fields(dice, &given);
    head.extend(calls(dice, device, &chip, 20));
    head.extend(dice.bytes(before));
    let mut bytes = with_tape(dice, head, chip);
    if dice.percent(60) {
        tighten(dice, &mut bytes);
    }
    damaged(dice, bytes)
}

/// Any voltage that a record can hold.
fn millivolts(dice: &mut Dice) -> i32 {
    if dice.percent(50) { dice.any() as i32 } else { dice.pick(&[0, 1, 4000, -1]) }
}

/// The cells by the wiring: with figures that a reading of so many leaves, or with any.
fn wired(dice: &mut Dice, count: u8) -> Wired {
    if dice.percent(50) {
        return Wired { cells: std::array::from_fn(|_| millivolts(dice)), figures: std::array::from_fn(|_| millivolts(dice)) };
    }
    // An input reads -128 to 26,078 mV.
    let cells: [i32; 15] = std::array::from_fn(|_| dice.below(26_207) as i32 - 128);
    Wired { cells, figures: wiring::figures(&cells[..count.clamp(1, 15) as usize]) }
}

/// A sound record of so many cells: as new, calibrated, or set up.
fn kept(dice: &mut Dice, count: u8) -> Kept {
    let cells = std::array::from_fn(|_| millivolts(dice));
    let wired = wired(dice, count);
    let gain = if dice.percent(20) { dice.pick(&[365, 396]) } else { 365 + dice.below(32) as u16 };
    let offset = dice.byte() as i8;
    let shunt = match dice.below(10) {
        0 => return Kept { initialised: false, gain: 0, offset: 0, shunt: 0, cells, wired },
        1..=2 => 0,
        3 => dice.pick(&[1, 2_147_483_647]),
        4 => 1 + dice.below(2_147_483_647) as u32,
        _ => 1 + dice.below(10_000) as u32,
    };
    Kept { initialised: shunt != 0, gain, offset, shunt, cells, wired }
}

/// A record made unsound, mostly, in one place.
fn spoil(dice: &mut Dice, device: &mut [u8; 4], kept: &mut Kept) {
    match dice.below(12) {
        0 => device[0] = dice.byte(),
        1 => device[1] = dice.byte(),
        2 => device[2] = dice.pick(&[127, 128, 255]),
        3 => kept.gain = dice.pick(&[364, 397]),
        4 => kept.gain = dice.any() as u16,
        5 => kept.gain = 0,
        6 => (kept.gain, kept.offset) = (0, 0),
        7 => (kept.initialised, kept.gain, kept.shunt) = (false, 0, 0),
        8 => kept.shunt = dice.pick(&[2_147_483_648, u32::MAX]),
        9 => kept.shunt = 0,
        10 => kept.shunt = dice.any() as u32,
        _ => kept.initialised = !kept.initialised,
    }
}

/// A log and both positions with the record; the tape's replies start at `ready`.
fn given(dice: &mut Dice, kept: Kept, ready: usize) -> Given {
    let used = if dice.percent(50) { 0 } else { dice.below(40) };
    let room = if dice.percent(20) { dice.below(60) } else { 300 };
    let log_size = match dice.below(200) {
        0 => dice.pick(&[65_535, 65_536, 65_537, 0xFFFF_FFFF]),
        1 => dice.below(70_000),
        _ => used + room,
    };
    let log_at = if dice.percent(5) { place(dice, log_size) } else { used };
    Given { kept, log_size, tape_at: place(dice, ready), log_at }
}

/// Field 1E and, in three jobs of five, field 1D ahead that give this; a few have another length, stand where they may not, or are left out.
fn given_fields(dice: &mut Dice, given: &Given) -> Vec<u8> {
    let mut value = given_value(given);
    if dice.percent(1) {
        value[0] = dice.byte();
    }
    let field = field_of(0x1E, &value);
    let wired = wired_value(&given.kept.wired);
    let ahead = field_of(0x1D, &wired);
    match dice.below(200) {
        0..=79 => field,
        80 => [field, ahead].concat(),
        81 => [&ahead[..], &ahead, &field].concat(),
        82 => [field_of(0x1D, &wired[..dice.below(wired.len())]), field].concat(),
        83 => [field_of(0x1D, &[&wired[..], &wired[..1 + dice.below(4)]].concat()), field].concat(),
        84 => ahead,
        _ => [ahead, field].concat(),
    }
}

/// The value of field 1D that gives this.
fn wired_value(wired: &Wired) -> Vec<u8> {
    wired.cells.iter().chain(&wired.figures).flat_map(|number| number.to_be_bytes()).collect()
}

/// The value of field 1E that gives this.
fn given_value(given: &Given) -> Vec<u8> {
    let kept = &given.kept;
    let mut value = vec![kept.initialised as u8];
    value.extend(kept.gain.to_be_bytes());
    value.push(kept.offset as u8);
    value.extend(kept.shunt.to_be_bytes());
    value.extend(kept.cells.iter().flat_map(|cell| cell.to_be_bytes()));
    value.extend((given.log_size as u32).to_be_bytes());
    value.extend((given.tape_at as u64).to_be_bytes());
    value.extend((given.log_at as u64).to_be_bytes());
    value
}

/// A log that ends where the field of one of its transfers does, or a byte ahead.
fn tighten(dice: &mut Dice, bytes: &mut [u8]) {
    let Some(job) = parse(bytes) else { return };
    let mut bus = Bus::of(&job);
    run(&job, &mut bus, true);
    let ends = ends(&bus.log);
    if !ends.is_empty() {
        let size = bus.log_from + dice.pick(&ends) - dice.below(2);
        let at = LOG_SIZE_AT + if bytes[0] == 0x1D { WIRED } else { 0 };
        bytes[at..at + 4].copy_from_slice(&(size as u32).to_be_bytes());
    }
}

/// Where each of these fields ends.
pub fn ends(fields: &[u8]) -> Vec<usize> {
    let (mut ends, mut end) = (Vec::new(), 0);
    while let Some((_, value)) = field(&fields[end..]) {
        end += 3 + value.len();
        ends.push(end);
    }
    ends
}

/// Mostly this place; or one near it, or far off.
fn place(dice: &mut Dice, place: usize) -> usize {
    match dice.below(20) {
        0 => dice.below(place + 20),
        1 => place + 1,
        2 => dice.pick(&[1 << 16, 1 << 32, 1 << 63, usize::MAX - 6, usize::MAX]),
        _ => place,
    }
}

/// Field 20, call fields, 3F; the first call is an init in so many of a hundred.
fn calls(dice: &mut Dice, device: [u8; 4], chip: &Calibration, inits: usize) -> Vec<u8> {
    let mut bytes = field_of(0x20, &device);
    let count = if dice.below(2000) == 0 { 1000 + dice.below(6000) } else { dice.below(9) };
    for i in 0..count {
        let tag = match dice.below(10) {
            _ if i == 0 && dice.percent(inits) => 0x21,
            0 => 0x22,
            1 => 0x23,
            2 => 0x34,
            _ => 0x21 + dice.below(24) as u8,
        };
        let value = call(dice, tag, device[0] as usize, chip);
        bytes.extend(field_of(tag, &value));
    }
    bytes.extend([0x3F, 0, 0]);
    bytes
}

fn with_tape(dice: &mut Dice, mut bytes: Vec<u8>, chip: Calibration) -> Vec<u8> {
    let tape = tape(dice, &bytes, chip);
    bytes.extend(tape);
    bytes
}

/// Some jobs damaged, and none too long.
fn damaged(dice: &mut Dice, mut bytes: Vec<u8>) -> Vec<u8> {
    if dice.percent(12) {
        damage(dice, &mut bytes);
    }
    bytes.truncate(LONGEST);
    bytes
}

pub fn device(dice: &mut Dice) -> [u8; 4] {
    let x = if dice.percent(2) { dice.byte() } else { dice.pick(&[5, 10, 15]) };
    let (low, high) = match x {
        5 => (3, 5),
        10 => (6, 10),
        _ => (9, 15),
    };
    let cells = match dice.below(50) {
        0 => dice.byte(),
        1 => dice.pick(&[low - 1, high + 1]),
        _ => low + dice.below(high as usize - low as usize + 1) as u8,
    };
    let address = match dice.below(50) {
        0 => dice.byte(),
        1 => dice.pick(&[0, 127, 128, 255]),
        2..=20 => dice.pick(&[0x08, 0x18]),
        _ => dice.below(128) as u8,
    };
    [x, cells, address, dice.below(2) as u8]
}

fn call(dice: &mut Dice, tag: u8, x: usize, chip: &Calibration) -> Vec<u8> {
    match tag {
        0x21 => init(dice, chip),
        0x22 => vec![room(dice)],
        0x34 => vec![room(dice), room(dice)],
        0x35 => question(dice),
        0x36 => set(dice, x),
        0x26 | 0x29 => vec![if dice.percent(80) { dice.byte() & 0xBF } else { dice.byte() }],
        0x2A | 0x2B | 0x2E | 0x2F => vec![dice.below(2) as u8],
        0x31 => vec![dice.below(3) as u8],
        0x32 => {
            let most = 2 * x.clamp(1, 15);
            let count = match dice.below(4) {
                0 => dice.pick(&[0, 1, most - 1, most, most + 1, 255, 256, 257, 512]),
                1 => dice.below(513),
                _ => dice.below(most + 1),
            };
            vec![register(dice, count), (count >> 8) as u8, count as u8]
        }
        0x33 => {
            let count = if dice.percent(90) { dice.below(10) } else { dice.below(65) };
            let mut value = vec![register(dice, count)];
            value.extend(dice.bytes(count));
            value
        }
        _ => Vec::new(),
    }
}

/// The length of a lent list: mostly enough for any pack.
fn room(dice: &mut Dice) -> u8 {
    if dice.percent(80) { 15 + dice.below(4) as u8 } else { dice.below(17) as u8 }
}

/// A pack, mostly one that there is, and an input.
fn question(dice: &mut Dice) -> Vec<u8> {
    let [x, cells, ..] = device(dice);
    vec![x, cells, if dice.percent(90) { dice.below(17) as u8 } else { dice.byte() }]
}

/// A set of inputs and a limit: mostly inputs that the device has, no two beside each other, and as many as may be.
pub fn set(dice: &mut Dice, x: usize) -> Vec<u8> {
    let apart = dice.percent(80);
    let most = if dice.percent(90) { x.min(15) } else { 16 };
    let mut set = 0u16;
    for place in 0..most {
        let beside = place % 5 > 0 && set >> (place - 1) & 1 == 1;
        if dice.percent(40) && !(apart && beside) {
            set |= 1 << place;
        }
    }
    let many = set.count_ones() as usize;
    let limit = match dice.below(10) {
        0 => dice.byte(),
        1 => many.saturating_sub(1) as u8,
        2..=5 => many as u8,
        _ => (many + dice.below(9)) as u8,
    };
    vec![(set >> 8) as u8, set as u8, limit]
}

/// A register for a transfer of so many bytes: often one near which it would pass FF.
fn register(dice: &mut Dice, count: usize) -> u8 {
    if dice.percent(20) { (256 + dice.below(3)).saturating_sub(count + 1).min(255) as u8 } else { dice.byte() }
}

/// Field 21's value.
pub fn init(dice: &mut Dice, chip: &Calibration) -> Vec<u8> {
    let shunt: u32 = match dice.below(20) {
        0 => dice.pick(&[0, 1, 2_147_483_647, 2_147_483_648, u32::MAX]),
        1 => dice.any() as u32,
        2 => dice.pick(&[255_999, 256_000, 256_001]),
        3..=9 => 1000,
        _ => 1 + dice.below(10_000) as u32,
    };
    let (scd, ocd) = match dice.below(20) {
        0..=1 => (dice.below(300), dice.below(300)),
        2..=10 => (dice.below(101), dice.below(51)),
        _ => (34 + dice.below(222), 15 + dice.below(241)),
    };
    let gain = 365 + (((chip[0] >> 2 & 3) << 3) | chip[2] >> 5) as i32;
    let offset = chip[1] as i8 as i32;
    let mv = |reading: i32| (reading * gain + offset * 1000) / 1000;
    let words = [
        shunt,
        amperes(dice, scd, shunt),
        amperes(dice, ocd, shunt),
        threshold(dice, mv(0x1000), mv(0x1FF0)),
        threshold(dice, mv(0x2008), mv(0x2FF8)),
    ];
    let mut value: Vec<u8> = words.iter().flat_map(|word| word.to_be_bytes()).collect();
    value.extend([dice.below(4) as u8, dice.below(8) as u8, dice.below(4) as u8, dice.below(4) as u8]);
    value
}

/// A current that gives about so many millivolts, or one at a limit of the product.
fn amperes(dice: &mut Dice, mv: usize, shunt: u32) -> u32 {
    let shunt = shunt.max(1) as u64;
    let asked = match dice.below(60) {
        0 => dice.any() >> 32,
        1 => dice.pick(&[0, 1, 255, 256, 65_535, 65_536, 0xFFFF_FFFF]),
        2 => 256_000 / shunt + dice.below(2) as u64,
        3 => 255_999 / shunt,
        4 => (1 << 32) / shunt + dice.below(2) as u64,
        _ => mv as u64 * 1000 / shunt + dice.below(2) as u64,
    };
    asked.min(0xFFFF_FFFF) as u32
}

fn threshold(dice: &mut Dice, low: i32, high: i32) -> u32 {
    match dice.below(60) {
        0 => dice.any() as u32,
        1 => dice.pick(&[0, u32::MAX, 0x7FFF_FFFF, 0x8000_0000]),
        2 => low as u32 - 1,
        3 => high as u32 + 1,
        4..=7 => dice.pick(&[low, low + 1, high - 1, high]) as u32,
        _ => low as u32 + dice.below((high - low + 1) as usize) as u32,
    }
}

/// How a job's transfers go: all well, all but one, or any of them ill.
enum Course {
    Clean,
    OneAt(usize),
    Wild,
}

struct Replies<'a> {
    dice: &'a mut Dice,
    check: bool,
    chip: Calibration,
    course: Course,
    made: usize,
    /// The last write's register and bytes, if the transfer before this was a write.
    written: Vec<u8>,
}

/// What the tape of these bytes goes on with.
pub fn tape(dice: &mut Dice, bytes: &[u8], chip: Calibration) -> Vec<u8> {
    let Some(job) = parse(bytes) else { return dice.bytes(6) };
    let course = match dice.below(10) {
        0..=4 => Course::Clean,
        5..=7 => Course::OneAt(1 + dice.below(12)),
        _ => Course::Wild,
    };
    let mut replies = Replies { dice, check: job.check, chip, course, made: 0, written: Vec::new() };
    let mut feed = |asked: &Transfer| replies.field(asked);
    let mut bus = Bus::of(&job);
    bus.feed = Some(&mut feed);
    run(&job, &mut bus, true);
    bus.tape.split_off(job.tape.len())
}

impl Replies<'_> {
    fn field(&mut self, asked: &Transfer) -> Vec<u8> {
        self.made += 1;
        let value = match asked.read {
            Some(count) => self.value(asked, count),
            None => Vec::new(),
        };
        self.written = if asked.read.is_none() { asked.sent.to_vec() } else { Vec::new() };
        let ill = match self.course {
            Course::Clean => false,
            Course::OneAt(place) => self.made == place,
            Course::Wild => self.dice.percent(20),
        };
        if ill { self.accident(value) } else { field_of(1, &value) }
    }

    /// The bytes a sound chip would give: what was just written, its calibration, any others; with check bytes in the check build.
    fn value(&mut self, asked: &Transfer, on_bus: usize) -> Vec<u8> {
        let register = asked.sent[0];
        let count = if self.check { on_bus / 2 } else { on_bus };
        let data = match register {
            _ if !self.check && self.written.len() == count + 1 && self.written[0] == register => self.written[1..].to_vec(),
            0x50 if count == 2 => self.chip[..2].to_vec(),
            0x59 if count == 1 => self.chip[2..].to_vec(),
            _ => self.dice.bytes(count),
        };
        if !self.check {
            return data;
        }
        let mut value = Vec::new();
        let mut crc = CRCu8::crc8();
        crc.digest(&[asked.address << 1 | 1]);
        for byte in data {
            crc.digest(&[byte]);
            value.extend([byte, crc.get_crc()]);
            crc.reset();
        }
        value
    }

    fn accident(&mut self, mut value: Vec<u8>) -> Vec<u8> {
        let dice = &mut *self.dice;
        let kind = dice.below(20);
        if kind >= 7 && kind <= 13 && !value.is_empty() {
            let place = dice.below(value.len());
            value[place] = if dice.percent(50) { value[place] ^ (1 << dice.below(8)) } else { dice.byte() };
        }
        match kind {
            0..=9 => field_of(2, &value[..dice.below(value.len() + 1)]),
            10..=14 => field_of(1, &value),
            15 => field_of(dice.pick(&[1, 2]), &[value, dice.bytes(1)].concat()),
            16 => field_of(1, &value[..value.len().saturating_sub(1 + dice.below(2))]),
            17 => field_of(dice.byte(), &value),
            18 => {
                let whole = field_of(1, &value);
                whole[..dice.below(whole.len())].to_vec()
            }
            _ => Vec::new(),
        }
    }
}

pub fn damage(dice: &mut Dice, bytes: &mut Vec<u8>) {
    for _ in 0..1 + dice.below(3) {
        let reach = if dice.percent(40) { bytes.len().min(40) } else { bytes.len() };
        let place = dice.below(reach.max(1));
        match dice.below(6) {
            0 => bytes.insert(place.min(bytes.len()), dice.byte()),
            1 => bytes.truncate(place),
            _ if bytes.is_empty() => {}
            2 => drop(bytes.remove(place)),
            3 => bytes[place] ^= 1 << dice.below(8),
            _ => bytes[place] = dice.byte(),
        }
    }
}

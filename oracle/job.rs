//! A job of callrun: the device, the calls, the tape; or of staterun, which has field 1E ahead, and ahead of that may have field 1D.
use crate::bus::field;

/// What a record has beside field 20's values.
pub struct Kept {
    pub initialised: bool,
    pub gain: u16,
    pub offset: i8,
    pub shunt: u32,
    pub cells: [i32; 15],
    pub wired: Wired,
}

/// What the crate's record has not: the cells by the wiring, bottom of the pack first, and sum, lowest and highest of as many as the pack has.
#[derive(Clone, Copy, Default)]
pub struct Wired {
    pub cells: [i32; 15],
    pub figures: [i32; 3],
}

/// What fields 1D and 1E give.
pub struct Given {
    pub kept: Kept,
    pub log_size: usize,
    pub tape_at: usize,
    pub log_at: usize,
}

pub struct Job {
    pub given: Option<Given>,
    pub x: u8,
    pub cells: u8,
    pub address: u8,
    pub check: bool,
    pub calls: Vec<(u8, Vec<u8>)>,
    pub tape: Vec<u8>,
}

/// Whether these bytes are for staterun: they begin with the tag of field 1D or 1E.
pub fn is_given(bytes: &[u8]) -> bool {
    matches!(bytes.first(), Some(0x1D | 0x1E))
}

/// The job these bytes are, of which the first 32,768 count; none if anything else stands ahead of the tape.
pub fn parse(bytes: &[u8]) -> Option<Job> {
    let bytes = &bytes[..bytes.len().min(32768)];
    if !is_given(bytes) {
        return parse_calls(bytes);
    }
    let (wired, bytes) = parse_wired(bytes)?;
    let (0x1E, value) = field(bytes)? else { return None };
    let given = parse_given(value, wired)?;
    let job = parse_calls(&bytes[3 + value.len()..])?;
    Some(Job { given: Some(given), ..job })
}

/// The number in four bytes from a place on.
fn word(value: &[u8], at: usize) -> u32 {
    u32::from_be_bytes(value[at..at + 4].try_into().unwrap())
}

/// What field 1D gives, or zeros without it; and the bytes from field 1E on.
fn parse_wired(bytes: &[u8]) -> Option<(Wired, &[u8])> {
    let (0x1D, value) = field(bytes)? else { return Some((Wired::default(), bytes)) };
    let value: &[u8; 72] = value.try_into().ok()?;
    let number = |i: usize| word(value, 4 * i) as i32;
    let wired = Wired { cells: std::array::from_fn(number), figures: std::array::from_fn(|i| number(15 + i)) };
    Some((wired, &bytes[3 + value.len()..]))
}

fn parse_given(value: &[u8], wired: Wired) -> Option<Given> {
    let value: &[u8; 88] = value.try_into().ok()?;
    let long = |at: usize| u64::from_be_bytes(value[at..at + 8].try_into().unwrap()) as usize;
    let word = |at: usize| word(value, at);
    if value[0] > 1 || word(68) > 65536 {
        return None;
    }
    let kept = Kept {
        initialised: value[0] == 1,
        gain: u16::from_be_bytes([value[1], value[2]]),
        offset: value[3] as i8,
        shunt: word(4),
        cells: std::array::from_fn(|i| word(8 + 4 * i) as i32),
        wired,
    };
    Some(Given { kept, log_size: word(68) as usize, tape_at: long(72), log_at: long(80) })
}

/// Field 20, calls, 3F and the tape.
pub fn parse_calls(bytes: &[u8]) -> Option<Job> {
    let (0x20, &[x, cells, address, check @ 0..=1]) = field(bytes)? else { return None };
    let mut job = Job { given: None, x, cells, address, check: check == 1, calls: Vec::new(), tape: Vec::new() };
    let mut left = &bytes[7..];
    loop {
        let (tag, value) = field(left)?;
        left = &left[3 + value.len()..];
        if tag == 0x3F && value.is_empty() {
            job.tape = left.to_vec();
            return Some(job);
        }
        if !lawful(tag, value) {
            return None;
        }
        job.calls.push((tag, value.to_vec()));
    }
}

/// Whether callrun has a call of this tag and value.
fn lawful(tag: u8, value: &[u8]) -> bool {
    match (tag, value) {
        (0x21, v) => v.len() == 24 && v[20] < 4 && v[21] < 8 && v[22] < 4 && v[23] < 4,
        (0x22 | 0x26 | 0x29, v) => v.len() == 1,
        (0x2A | 0x2B | 0x2E | 0x2F, v) => matches!(v, [0 | 1]),
        (0x31, v) => matches!(v, [0..=2]),
        (0x32, v) => v.len() == 3 && u16::from_be_bytes([v[1], v[2]]) <= 512,
        (0x33, v) => (1..=65).contains(&v.len()),
        (0x34, v) => v.len() == 2,
        (0x35 | 0x36, v) => v.len() == 3,
        (0x23 | 0x24 | 0x25 | 0x27 | 0x28 | 0x2C | 0x2D | 0x30 | 0x37 | 0x38, v) => v.is_empty(),
        _ => false,
    }
}

/// Whether a record is sound, as 01 has it.
pub fn is_sound(job: &Job, kept: &Kept) -> bool {
    let counts = match job.x {
        5 => 3..=5,
        10 => 6..=10,
        15 => 9..=15,
        _ => return false,
    };
    let made = counts.contains(&job.cells) && job.address <= 127;
    let calibrated = if kept.gain == 0 { kept.offset == 0 } else { (365..=396).contains(&kept.gain) };
    let marked = if kept.initialised { kept.shunt != 0 && kept.gain != 0 } else { kept.shunt == 0 };
    made && calibrated && kept.shunt <= 2_147_483_647 && marked
}

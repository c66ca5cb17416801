//! The static library behind a safe wrapper, and the comparison of tests/c again: every byte of every buffer after each call.

/// The boundary. Nothing checks these declarations but the tests below.
mod bq769x0 {
    pub const OUT: usize = 36;
    pub const SPREAD: usize = 12;

    mod linked {
        extern "C" {
            pub fn bq769x0_init(job: *const u8, job_len: usize, tape: *const u8, tape_len: usize, log: *mut u8, log_len: usize, out: *mut u8) -> u8;
            pub fn bq769x0_init_cells(
                job: *const u8, job_len: usize, tape: *const u8, tape_len: usize, log: *mut u8, log_len: usize,
                list: *mut u8, list_len: usize, out: *mut u8,
            ) -> u8;
            pub fn bq769x0_init_wired(
                job: *const u8, job_len: usize, tape: *const u8, tape_len: usize, log: *mut u8, log_len: usize,
                inputs: *mut u8, inputs_len: usize, list: *mut u8, list_len: usize, spread: *mut u8, out: *mut u8,
            ) -> u8;
            pub fn bq769x0_balance_set(
                device: *const u8, device_len: usize, set: u16, limit: u8, tape: *const u8, tape_len: usize, log: *mut u8, log_len: usize,
                out: *mut u8,
            ) -> u8;
            pub fn bq769x0_balance_get(
                device: *const u8, device_len: usize, tape: *const u8, tape_len: usize, log: *mut u8, log_len: usize, out: *mut u8,
            ) -> u8;
            pub fn bq769x0_cell_on(x: u8, cells: u8, input: u8, cell: *mut u8) -> u8;
            pub fn bq769x0_uv_seconds(code: u8, seconds: *mut u8) -> u8;
            pub fn bq769x0_ov_seconds(code: u8, seconds: *mut u8) -> u8;
        }
    }

    pub fn init(job: &[u8], tape: &[u8], log: &mut [u8], out: &mut [u8; OUT]) -> u8 {
        // Slices and an array are what the library takes: pointers with their lengths, none overlapping another that is written.
        unsafe {
            linked::bq769x0_init(job.as_ptr(), job.len(), tape.as_ptr(), tape.len(), log.as_mut_ptr(), log.len(), out.as_mut_ptr())
        }
    }

    pub fn init_cells(job: &[u8], tape: &[u8], log: &mut [u8], list: &mut [u8], out: &mut [u8; OUT]) -> u8 {
        unsafe {
            linked::bq769x0_init_cells(
                job.as_ptr(), job.len(), tape.as_ptr(), tape.len(), log.as_mut_ptr(), log.len(),
                list.as_mut_ptr(), list.len(), out.as_mut_ptr(),
            )
        }
    }

    pub fn init_wired(
        job: &[u8], tape: &[u8], log: &mut [u8], inputs: &mut [u8], list: &mut [u8], spread: &mut [u8; SPREAD], out: &mut [u8; OUT],
    ) -> u8 {
        unsafe {
            linked::bq769x0_init_wired(
                job.as_ptr(), job.len(), tape.as_ptr(), tape.len(), log.as_mut_ptr(), log.len(),
                inputs.as_mut_ptr(), inputs.len(), list.as_mut_ptr(), list.len(), spread.as_mut_ptr(), out.as_mut_ptr(),
            )
        }
    }

    pub fn balance_set(device: &[u8], set: u16, limit: u8, tape: &[u8], log: &mut [u8], out: &mut [u8; OUT]) -> u8 {
        unsafe {
            linked::bq769x0_balance_set(
                device.as_ptr(), device.len(), set, limit, tape.as_ptr(), tape.len(), log.as_mut_ptr(), log.len(), out.as_mut_ptr(),
            )
        }
    }

    pub fn balance_get(device: &[u8], tape: &[u8], log: &mut [u8], out: &mut [u8; OUT]) -> u8 {
        unsafe {
            linked::bq769x0_balance_get(
                device.as_ptr(), device.len(), tape.as_ptr(), tape.len(), log.as_mut_ptr(), log.len(), out.as_mut_ptr(),
            )
        }
    }

    pub fn cell_on(x: u8, cells: u8, input: u8, cell: &mut [u8; 1]) -> u8 {
        unsafe { linked::bq769x0_cell_on(x, cells, input, cell.as_mut_ptr()) }
    }

    pub fn uv_seconds(code: u8, seconds: &mut [u8; 1]) -> u8 {
        unsafe { linked::bq769x0_uv_seconds(code, seconds.as_mut_ptr()) }
    }

    pub fn ov_seconds(code: u8, seconds: &mut [u8; 1]) -> u8 {
        unsafe { linked::bq769x0_ov_seconds(code, seconds.as_mut_ptr()) }
    }

    /// The millivolts of a list's first cells, with their signs.
    pub fn millivolts(list: &[u8], cells: usize) -> Vec<i32> {
        list.chunks_exact(4).take(cells).map(|four| i32::from_be_bytes(four.try_into().unwrap())).collect()
    }
}

/// Which of the three functions: without a reading, with one by the crate's list, with one by the wiring.
#[derive(Clone, Copy, PartialEq)]
enum Reading {
    None,
    Cells,
    Wired,
}
use Reading::{Cells, None, Wired};

const FILL: u8 = 0xC3;

const JOB: [u8; 34] = [
    0x20, 0, 4, 5, 5, 8, 0, 0x21, 0, 24, 0, 0, 3, 0xE8, 0, 0, 0, 50, 0, 0, 0, 20, 0, 0, 0x0A, 0xF0, 0, 0, 0x10, 0x68, 2, 5, 1, 1,
];

/// What the bus answers and what the log then gets, a transfer a line; the last is the reading of the cells.
const TRANSFERS: [(&[u8], &[u8]); 8] = [
    (&[1, 0, 2, 0, 0], &[0x12, 0, 4, 8, 0x50, 0, 2]),
    (&[1, 0, 1, 0], &[0x12, 0, 4, 8, 0x59, 0, 1]),
    (&[1, 0, 0], &[0x11, 0, 8, 8, 6, 0x13, 0x55, 0x50, 0xCF, 0xDF, 0x19]),
    (&[1, 0, 6, 0x13, 0x55, 0x50, 0xCF, 0xDF, 0x19], &[0x12, 0, 4, 8, 6, 0, 6]),
    (&[1, 0, 1, 0], &[0x12, 0, 4, 8, 5, 0, 1]),
    (&[1, 0, 0], &[0x11, 0, 3, 8, 5, 0x40]),
    (&[1, 0, 1, 0x40], &[0x12, 0, 4, 8, 5, 0, 1]),
    (&[1, 0, 10, 0x27, 0x10, 0x27, 0x11, 0x20, 0, 0xFF, 0xFF, 0, 0], &[0x12, 0, 4, 8, 0x0C, 0, 10]),
];
const ACCEPTED: [u32; 5] = [0, 56, 22, 2797, 4201];
const MILLIVOLTS: [i32; 5] = [3650, 3650, 2990, 23920, 0];

fn tape(count: usize) -> Vec<u8> {
    TRANSFERS[..count].iter().flat_map(|t| t.0).copied().collect()
}

fn log(count: usize) -> Vec<u8> {
    TRANSFERS[..count].iter().flat_map(|t| t.1).copied().collect()
}

/// What a call must leave.
struct Left {
    number: u8,
    tape_used: usize,
    log: Vec<u8>,
    five: [u32; 5],
    inputs: Vec<u8>,
    list: Vec<i32>,
}

fn refused(number: u8, tape_used: usize, transfers: usize) -> Left {
    Left { number, tape_used, log: log(transfers), five: [0; 5], inputs: vec![], list: vec![] }
}

/// The transfers of the example, with its reading or without.
fn count(reading: Reading) -> usize {
    if reading == None { 7 } else { 8 }
}

fn accepted(reading: Reading) -> Left {
    let all = count(reading);
    let inputs = if reading == Wired { vec![1, 2, 3, 4, 5] } else { vec![] };
    let list = if reading == None { vec![] } else { MILLIVOLTS.to_vec() };
    Left { number: 0, tape_used: tape(all).len(), log: log(all), five: ACCEPTED, inputs, list }
}

fn over(bytes: &[u8], len: usize) -> Vec<u8> {
    let mut whole = bytes.to_vec();
    whole.resize(len, FILL);
    whole
}

/// The sizes of what is lent: log, inputs, list.
const ROOM: [usize; 3] = [80, 9, 24];

/// What every call leaves: its number, the bytes of out, and the log with what it had behind its fields.
fn compare(name: &str, number: u8, out: &[u8; bq769x0::OUT], log: &[u8], left: &Left) {
    let mut expected = Vec::new();
    expected.extend((left.tape_used as u64).to_be_bytes());
    expected.extend((left.log.len() as u64).to_be_bytes());
    expected.extend(left.five.iter().flat_map(|n| n.to_be_bytes()));
    assert_eq!(number, left.number, "{name}: the number");
    assert_eq!(out.to_vec(), expected, "{name}: out");
    assert_eq!(log, over(&left.log, log.len()), "{name}: the log");
}

/// Sum, lowest and highest of what a reading by the wiring gave; else what was lent.
fn spread_of(left: &Left, reading: Reading) -> Vec<u8> {
    let Some(lowest) = left.list.iter().min().filter(|_| reading == Wired) else {
        return vec![FILL; bq769x0::SPREAD];
    };
    let highest = left.list.iter().max().unwrap();
    [left.list.iter().sum::<i32>(), *lowest, *highest].iter().flat_map(|mv| mv.to_be_bytes()).collect()
}

fn check(name: &str, reading: Reading, job: &[u8], tape: &[u8], room: [usize; 3], left: Left) -> u32 {
    let [mut log, mut inputs, mut list] = room.map(|len| vec![FILL; len]);
    let mut spread = [FILL; bq769x0::SPREAD];
    let mut out = [FILL; bq769x0::OUT];
    let number = match reading {
        None => bq769x0::init(job, tape, &mut log, &mut out),
        Cells => bq769x0::init_cells(job, tape, &mut log, &mut list, &mut out),
        Wired => bq769x0::init_wired(job, tape, &mut log, &mut inputs, &mut list, &mut spread, &mut out),
    };
    compare(name, number, &out, &log, &left);
    assert_eq!(inputs, over(&left.inputs, room[1]), "{name}: the inputs");
    assert_eq!(bq769x0::millivolts(&list, left.list.len()), left.list, "{name}: the millivolts");
    let cells: Vec<u8> = left.list.iter().flat_map(|mv| mv.to_be_bytes()).collect();
    assert_eq!(list, over(&cells, room[2]), "{name}: the list");
    assert_eq!(spread.to_vec(), spread_of(&left, reading), "{name}: the spread");
    1
}

/// How many whole fields of these lengths n bytes hold, and where they end.
fn whole(fields: impl Iterator<Item = usize>, n: usize) -> (usize, usize) {
    let mut held = (0, 0);
    for len in fields {
        if n < held.1 + len {
            break;
        }
        held = (held.0 + 1, held.1 + len);
    }
    held
}

fn every(reading: Reading) -> u32 {
    let count = count(reading);
    let all = tape(count);
    let mut run = check("the example", reading, &JOB, &all, ROOM, accepted(reading));
    for n in 0..JOB.len() {
        run += check("a short job", reading, &JOB[..n], &all, ROOM, refused(15, 0, 0));
    }
    for n in 0..all.len() {
        let (fields, end) = whole(TRANSFERS.iter().map(|t| t.0.len()), n);
        let number = if n == end { 16 } else { 15 };
        run += check("a short tape", reading, &JOB, &all[..n], ROOM, refused(number, end, fields));
    }
    for n in 0..log(count).len() {
        let (fields, _) = whole(TRANSFERS.iter().map(|t| t.1.len()), n);
        run += check("a short log", reading, &JOB, &all, [n, 9, 24], refused(17, tape(fields).len(), fields));
    }
    for i in 0..count {
        let mut faulted = tape(i);
        faulted.extend([2, 0, 0]);
        run += check("a fault", reading, &JOB, &faulted, ROOM, refused(2, faulted.len(), i + 1));
    }
    run
}

fn short_lists() -> u32 {
    let (all, used) = (tape(8), tape(7).len());
    let lists = (0..20).flat_map(|n| [(Cells, [80, 9, n]), (Wired, [80, 9, n])]);
    let inputs = (0..5).map(|n| (Wired, [80, n, 24]));
    lists.chain(inputs).map(|(reading, room)| check("a short list", reading, &JOB, &all, room, refused(19, used, 7))).sum()
}

/// Four cells on a BQ76920: input 4 is shorted.
fn four_cells() -> u32 {
    let mut job = JOB;
    job[4] = 4;
    let list = [0, 1, 2, 4].map(|place| MILLIVOLTS[place]).to_vec();
    check("four cells", Wired, &job, &tape(8), ROOM, Left { inputs: vec![1, 2, 3, 5], list, ..accepted(Wired) })
}

/// Offset -1: every voltage is a millivolt less, and that of reading 0 below zero.
fn below_zero(reading: Reading) -> u32 {
    let mut tape = tape(8);
    tape[4] = 0xFF;
    let list = vec![3649, 3649, 2989, 23919, -1];
    check("a cell below zero", reading, &JOB, &tape, ROOM, Left { five: [0, 56, 22, 2796, 4200], list, ..accepted(reading) })
}

const DEVICE: [u8; 7] = [0x20, 0, 4, 15, 15, 8, 0];

/// A set, or where there is none its reading back, of a BQ76940 without check bytes.
fn balance(name: &str, set: Option<(u16, u8)>, device: &[u8], tape: &[u8], room: usize, left: Left) -> u32 {
    let (mut log, mut out) = (vec![FILL; room], [FILL; bq769x0::OUT]);
    let number = match set {
        Some((set, limit)) => bq769x0::balance_set(device, set, limit, tape, &mut log, &mut out),
        Option::None => bq769x0::balance_get(device, tape, &mut log, &mut out),
    };
    compare(name, number, &out, &log, &left);
    1
}

/// Inputs 1, 7 and 15 set and read back, refused by each rule and each short buffer.
fn balancing() -> u32 {
    const SENT: [u8; 8] = [0x11, 0, 5, 8, 1, 0x01, 0x02, 0x10];
    const READ: [u8; 7] = [0x12, 0, 4, 8, 1, 0, 3];
    let answers = [1, 0, 0, 1, 0, 3, 0x01, 0x02, 0x10];
    let log = [SENT.to_vec(), READ.to_vec()];
    let set = Some((0x4041, 3));
    let left = |number, tape_used, log: &[Vec<u8>], five| Left { number, tape_used, log: log.concat(), five, inputs: vec![], list: vec![] };
    let none = |number| left(number, 0, &[], [0; 5]);
    let mut run = balance("a set", set, &DEVICE, &answers, 15, left(0, 9, &log, [0; 5]));
    run += balance("a set read back", Option::None, &DEVICE, &answers[3..], 7, left(0, 6, &log[1..], [0x4041, 0, 0, 0, 0]));
    run += balance("an upper bit read", Option::None, &DEVICE, &[1, 0, 3, 0xE1, 0x22, 0x10], 7, left(0, 6, &log[1..], [0x4041, 0, 0, 0, 0]));
    run += balance("another byte in 02", set, &DEVICE, &[1, 0, 0, 1, 0, 3, 1, 3, 0x10], 15, left(5, 9, &log, [1, 2, 0, 0, 0]));
    for (name, asked, number) in [("input 16", (0x8000, 9), 22), ("1 and 2", (0x0003, 9), 23), ("three for two", (0x4041, 2), 24)] {
        run += balance(name, Some(asked), &DEVICE, &answers, 15, none(number));
    }
    run += balance("input 6 of five", Some((0x0020, 9)), &[0x20, 0, 4, 5, 5, 8, 0], &answers, 15, none(22));
    run += balance("no such size", set, &[0x20, 0, 4, 6, 6, 8, 0], &answers, 15, none(9));
    for n in 0..DEVICE.len() {
        run += balance("a short device", set, &DEVICE[..n], &answers, 15, none(15));
        run += balance("a short device", Option::None, &DEVICE[..n], &answers[3..], 7, none(15));
    }
    for n in 0..answers.len() {
        let (fields, end) = whole([3, 6].into_iter(), n);
        let number = if n == end { 16 } else { 15 };
        run += balance("a short tape", set, &DEVICE, &answers[..n], 15, left(number, end, &log[..fields], [0; 5]));
    }
    for n in 0..15 {
        let (fields, _) = whole([8, 7].into_iter(), n);
        run += balance("a short log", set, &DEVICE, &answers, n, left(17, 3 * fields, &log[..fields], [0; 5]));
    }
    run
}

/// The cell on each input of a pack, and what the packs that are none answer.
fn cells_on() -> u32 {
    let seven = [1, 2, 3, 5, 6, 7, 10].into_iter().zip(1..).map(|(input, cell)| ([10, 7, input], 0, [cell]));
    let none = [([10, 7, 0], 21), ([10, 7, 4], 21), ([10, 7, 11], 21), ([6, 6, 1], 9), ([10, 5, 1], 10)];
    let refused = none.into_iter().map(|(asked, number)| (asked, number, [FILL]));
    let check = |([x, cells, input], number, cell): ([u8; 3], u8, [u8; 1])| {
        let mut lent = [FILL];
        assert_eq!((bq769x0::cell_on(x, cells, input, &mut lent), lent), (number, cell), "cell on {input} of {x}, {cells}");
        1
    };
    seven.chain(refused).map(check).sum()
}

/// Every code of either delay: its seconds, or 15 past the list.
fn seconds() -> u32 {
    let check = |name: &str, asked: fn(u8, &mut [u8; 1]) -> u8, list: [u8; 4]| {
        for code in 0..=u8::MAX {
            let mut lent = [FILL];
            let should = list.get(code as usize).map_or((15, [FILL]), |seconds| (0, [*seconds]));
            assert_eq!((asked(code, &mut lent), lent), should, "seconds of the {name} delay {code}");
        }
        256
    };
    check("UV", bq769x0::uv_seconds, [1, 4, 8, 16]) + check("OV", bq769x0::ov_seconds, [1, 2, 4, 8])
}

fn main() {
    let readings = every(None) + every(Cells) + every(Wired) + short_lists() + four_cells() + below_zero(Cells) + below_zero(Wired);
    let run = readings + balancing() + cells_on() + seconds();
    println!("rust: {run} calls as they should be");
}

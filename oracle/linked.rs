//! The static library for C, as include/bq769x0.h has it, and what a call of it leaves.
use crate::asked::Asked;

pub const OUT: usize = 36;

/// Sum, lowest and highest, four bytes each.
pub const SPREAD: usize = 12;

/// Bytes on either side of each buffer that a call writes.
const MARGIN: usize = 8;

extern "C" {
    fn bq769x0_init(job: *const u8, job_len: usize, tape: *const u8, tape_len: usize, log: *mut u8, log_len: usize, out: *mut u8) -> u8;
    fn bq769x0_init_cells(
        job: *const u8, job_len: usize, tape: *const u8, tape_len: usize, log: *mut u8, log_len: usize,
        list: *mut u8, list_len: usize, out: *mut u8,
    ) -> u8;
    fn bq769x0_init_wired(
        job: *const u8, job_len: usize, tape: *const u8, tape_len: usize, log: *mut u8, log_len: usize,
        inputs: *mut u8, inputs_len: usize, list: *mut u8, list_len: usize, spread: *mut u8, out: *mut u8,
    ) -> u8;
    fn bq769x0_balance_set(
        device: *const u8, device_len: usize, set: u16, limit: u8, tape: *const u8, tape_len: usize, log: *mut u8, log_len: usize, out: *mut u8,
    ) -> u8;
    fn bq769x0_balance_get(device: *const u8, device_len: usize, tape: *const u8, tape_len: usize, log: *mut u8, log_len: usize, out: *mut u8) -> u8;
    fn bq769x0_cell_on(x: u8, cells: u8, input: u8, cell: *mut u8) -> u8;
}

/// The number, and every byte of the buffers written, with their margins.
#[derive(PartialEq)]
pub struct Left {
    pub number: u8,
    pub out: Vec<u8>,
    pub log: Vec<u8>,
    pub inputs: Vec<u8>,
    pub list: Vec<u8>,
    pub spread: Vec<u8>,
}

/// A buffer of this size and its margins, the bytes by their places, and over them these.
pub fn over(bytes: &[u8], size: usize) -> Vec<u8> {
    let mut whole: Vec<u8> = (0..size + 2 * MARGIN).map(|place| (place as u8).wrapping_mul(29) ^ 0xC3).collect();
    whole[MARGIN..MARGIN + bytes.len()].copy_from_slice(bytes);
    whole
}

/// The buffers before a call: those too that it is not lent, which it leaves so.
fn untouched(asked: &Asked) -> Left {
    let lent = |size: Option<usize>| over(&[], size.unwrap_or(0));
    let (inputs, list) = (lent(asked.inputs), lent(asked.list));
    Left { number: 0, out: over(&[], OUT), log: over(&[], asked.log), inputs, list, spread: over(&[], SPREAD) }
}

/// What the library makes of a call.
pub fn call(asked: &Asked) -> Left {
    let (job, tape) = (&asked.job[..], &asked.tape[..]);
    let (job, job_len, tape, tape_len) = (job.as_ptr(), job.len(), tape.as_ptr(), tape.len());
    let mut left = untouched(asked);
    let (out, log) = (inside(&mut left.out), inside(&mut left.log));
    let (inputs, list, spread) = (inside(&mut left.inputs), inside(&mut left.list), inside(&mut left.spread));
    // Each pointer has at least its length behind it, and what is written overlaps nothing.
    left.number = unsafe {
        match (asked.inputs, asked.list) {
            _ if asked.balance.is_some() => balance(asked, log, out),
            (Some(m), Some(n)) => bq769x0_init_wired(job, job_len, tape, tape_len, log, asked.log, inputs, m, list, n, spread, out),
            (_, Some(n)) => bq769x0_init_cells(job, job_len, tape, tape_len, log, asked.log, list, n, out),
            _ => bq769x0_init(job, job_len, tape, tape_len, log, asked.log, out),
        }
    };
    left
}

/// By the call's field: tag, two bytes of length, and for a set three of value.
unsafe fn balance(asked: &Asked, log: *mut u8, out: *mut u8) -> u8 {
    let (job, tape) = (&asked.job[..], &asked.tape[..]);
    match asked.balance.as_deref() {
        Some(&[0x36, _, _, high, low, limit]) => {
            let set = u16::from_be_bytes([high, low]);
            bq769x0_balance_set(job.as_ptr(), job.len(), set, limit, tape.as_ptr(), tape.len(), log, asked.log, out)
        }
        _ => bq769x0_balance_get(job.as_ptr(), job.len(), tape.as_ptr(), tape.len(), log, asked.log, out),
    }
}

fn inside(buffer: &mut [u8]) -> *mut u8 {
    buffer[MARGIN..].as_mut_ptr()
}

/// The number of the library's answer to which cell sits on an input, and the lent byte, with its margins.
pub fn cell_on(x: u8, cells: u8, input: u8) -> (u8, Vec<u8>) {
    let mut cell = over(&[], 1);
    // The pointer has its byte behind it.
    let number = unsafe { bq769x0_cell_on(x, cells, input, inside(&mut cell)) };
    (number, cell)
}

//! Calls of the library for C by the throw of the dice.
use crate::bus::field_of;
use crate::expected;
use crate::make::{damage, device, dice, ends, init, set, tape, Dice};

/// More than any call takes of a log.
const LONGEST_LOG: usize = 130;

/// What a call is given: the two texts, the log's size, for `bq769x0_init_cells` and `bq769x0_init_wired` the list's, and for the latter that of
/// the inputs; or for the balancing functions the field of their call, which has the set and the limit.
#[derive(Clone)]
pub struct Asked {
    pub job: Vec<u8>,
    pub tape: Vec<u8>,
    pub log: usize,
    pub list: Option<usize>,
    pub inputs: Option<usize>,
    pub balance: Option<Vec<u8>>,
}

/// The call of this index: by turns of the five functions.
pub fn asked(seed: u64, index: u64) -> Asked {
    let dice = &mut dice(seed, index);
    let mut asked = if index % 5 < 3 { an_init(dice, index % 5) } else { balancing(dice, index % 5 == 3) };
    spoil(dice, &mut asked);
    asked.log = log_size(dice, &asked);
    asked
}

fn an_init(dice: &mut Dice, readings: u64) -> Asked {
    let device = device(dice);
    let chip = [dice.byte(), dice.byte(), dice.byte()];
    let job = [field_of(0x20, &device), field_of(0x21, &init(dice, &chip))].concat();
    let list = (readings > 0).then(|| list_size(dice, device[1]));
    let inputs = (readings > 1).then(|| inputs_size(dice, device[1]));
    let reading = if list.is_none() { vec![] } else { field_of(0x22, &[15]) };
    let tape = tape(dice, &[&job[..], &reading, &[0x3F, 0, 0]].concat(), chip);
    Asked { job, tape, log: LONGEST_LOG, list, inputs, balance: None }
}

/// A set, or its reading back, by field 20 alone.
fn balancing(dice: &mut Dice, sets: bool) -> Asked {
    let device = device(dice);
    let job = field_of(0x20, &device);
    let call = if sets { field_of(0x36, &set(dice, device[0] as usize)) } else { field_of(0x37, &[]) };
    let tape = tape(dice, &[&job[..], &call, &[0x3F, 0, 0]].concat(), [0; 3]);
    Asked { job, tape, log: LONGEST_LOG, list: None, inputs: None, balance: Some(call) }
}

/// Some jobs and tapes damaged, some with bytes behind that nobody looks at, and some tapes cut short.
fn spoil(dice: &mut Dice, asked: &mut Asked) {
    match dice.below(100) {
        0..=5 => damage(dice, &mut asked.job),
        6..=13 => damage(dice, &mut asked.tape),
        14..=18 => asked.job.extend(dice.bytes(3)),
        19..=23 => asked.tape.extend(dice.bytes(3)),
        24..=27 => asked.tape.truncate(near_an_end(dice, &asked.tape)),
        _ => {}
    }
}

/// Four bytes a cell, or fewer, or more.
fn list_size(dice: &mut Dice, cells: u8) -> usize {
    let exact = 4 * cells as usize;
    match dice.below(10) {
        0 => dice.below(71),
        1 => exact.saturating_sub(1),
        2 => exact + dice.below(4),
        3..=6 => exact,
        _ => 60 + dice.below(11),
    }
    .min(70)
}

/// A byte a cell, or fewer, or more.
fn inputs_size(dice: &mut Dice, cells: u8) -> usize {
    let exact = cells as usize;
    match dice.below(10) {
        0 => dice.below(21),
        1 => exact.saturating_sub(1),
        2..=6 => exact,
        _ => 15 + dice.below(6),
    }
    .min(20)
}

/// What the call takes of the log; or to the end of one of its fields, or a byte less; or any.
fn log_size(dice: &mut Dice, asked: &Asked) -> usize {
    let log = expected::log(asked);
    let whole = log.len();
    match dice.below(20) {
        0 => dice.below(LONGEST_LOG + 1),
        1..=2 => near_an_end(dice, &log),
        3 => whole.saturating_sub(1),
        4..=8 => whole,
        _ => whole + dice.below(LONGEST_LOG + 1 - whole),
    }
}

/// Where one of these fields ends, or a byte ahead.
fn near_an_end(dice: &mut Dice, fields: &[u8]) -> usize {
    let ends = ends(fields);
    if ends.is_empty() { 0 } else { dice.pick(&ends) - dice.below(2) }
}

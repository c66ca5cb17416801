//! What a call of the library should leave, by the crate's own answers behind the added refusals.
use crate::asked::Asked;
use crate::bus::Bus;
use crate::crates::{run, wiring};
use crate::job::{parse_calls, Job};
use crate::linked::{over, Left, OUT, SPREAD};

/// Fields 20 and 21, and field 20 alone.
const JOB: usize = 34;
const DEVICE: usize = 7;

/// An answer's line: its numbers, or a refusal's number and figures.
enum Answer {
    Given(Vec<u32>),
    Refused(Vec<u32>),
}

struct Answered<'a> {
    bus: Bus<'a>,
    number: u32,
    five: Vec<u32>,
    lent: Lent,
}

/// What a reading stores in the lent buffers.
#[derive(Default)]
struct Lent {
    inputs: Vec<u8>,
    cells: Vec<u32>,
    spread: Vec<u32>,
}

/// The job of one call that these bytes begin with, and its tape: an init, or a balancing call on the device.
fn job(asked: &Asked) -> Option<Job> {
    if let Some(call) = &asked.balance {
        return parse_calls(&[asked.job.get(..DEVICE)?, call, &[0x3F, 0, 0], &asked.tape].concat());
    }
    let job = parse_calls(&[asked.job.get(..JOB)?, &[0x3F, 0, 0], &asked.tape].concat())?;
    matches!(job.calls[..], [(0x21, _)]).then_some(job)
}

/// A line's numbers as C's buffers have them: below zero in two's complement.
fn numbers(words: &[&str]) -> Option<Vec<u32>> {
    words.iter().map(|word| word.parse::<i64>().ok().map(|number| number as u32)).collect()
}

/// The line of the last call's answer taken apart; one that is no answer as it is.
fn answer(text: &str) -> Result<Answer, String> {
    let line = text.lines().filter(|line| !line.starts_with("record ")).last().unwrap_or("");
    let words: Vec<&str> = line.split(' ').collect();
    let answer = match words[..] {
        ["init", "range", range, "scd", scd, "ocd", ocd, "uv", uv, "ov", ov] => numbers(&[range, scd, ocd, uv, ov]).map(Answer::Given),
        ["cells" | "wired" | "spread", ref cells @ ..] => numbers(cells).map(Answer::Given),
        ["balanceget", set] => numbers(&[set, "0", "0", "0", "0"]).map(Answer::Given),
        ["done"] => Some(Answer::Given(vec![0; 5])),
        ["refused", ref refusal @ ..] => numbers(refusal).map(Answer::Refused),
        _ => None,
    };
    answer.ok_or(line.to_string())
}

fn ran<'a>(job: &Job, log: usize, overflow_checks: bool) -> Result<(Bus<'a>, Answer), String> {
    let mut bus = Bus { log_size: log, ..Bus::of(job) };
    let answer = answer(&run(job, &mut bus, overflow_checks))?;
    Ok((bus, answer))
}

/// A refusal's five numbers: the count of its figures, those, and 0.
fn refused<'a>(bus: Bus<'a>, refusal: &[u32]) -> Answered<'a> {
    let mut five = vec![refusal.len() as u32 - 1];
    five.extend(&refusal[1..]);
    five.resize(5, 0);
    Answered { bus, number: refusal[0], five, lent: Lent::default() }
}

/// The call; and where it is an init that is accepted and a list is lent, both calls from the start, and by the wiring those and the question for the
/// figures.
fn answered<'a>(asked: &Asked, overflow_checks: bool) -> Result<Answered<'a>, String> {
    let Some(mut job) = job(asked) else { return Ok(refused(Bus::new(false, &[]), &[15])) };
    let (bus, first) = ran(&job, asked.log, overflow_checks)?;
    let five = match first {
        Answer::Given(five) => five,
        Answer::Refused(refusal) => return Ok(refused(bus, &refusal)),
    };
    let Some(list) = asked.list else { return Ok(Answered { bus, number: 0, five, lent: Lent::default() }) };
    let cells = (list / 4) as u8;
    job.calls.push(asked.inputs.map_or((0x22, vec![cells]), |inputs| (0x34, vec![inputs as u8, cells])));
    let (bus, reading) = ran(&job, asked.log, overflow_checks)?;
    let given = match reading {
        Answer::Given(given) => given,
        Answer::Refused(refusal) => return Ok(refused(bus, &refusal)),
    };
    if asked.inputs.is_none() {
        return Ok(Answered { bus, number: 0, five, lent: Lent { cells: given, ..Lent::default() } });
    }
    job.calls.push((0x38, vec![]));
    let (bus, Answer::Given(spread)) = ran(&job, asked.log, overflow_checks)? else { panic!("the figures are refused to nobody") };
    let (inputs, cells) = given.chunks(2).map(|pair| (pair[0] as u8, pair[1])).unzip();
    Ok(Answered { bus, number: 0, five, lent: Lent { inputs, cells, spread } })
}

/// What should be left, by the build with overflow checks or the one without; or what the crate does that is no answer.
pub fn expected(asked: &Asked, overflow_checks: bool) -> Result<Left, String> {
    let Answered { bus, number, five, lent } = answered(asked, overflow_checks)?;
    let bytes = |numbers: &[u32]| numbers.iter().flat_map(|n| n.to_be_bytes()).collect::<Vec<u8>>();
    let used = [bus.at as u64, bus.log_at() as u64].map(|used| used.to_be_bytes()).concat();
    Ok(Left {
        number: number as u8,
        out: over(&[used, bytes(&five)].concat(), OUT),
        log: over(&bus.log, asked.log),
        inputs: over(&lent.inputs, asked.inputs.unwrap_or(0)),
        list: over(&bytes(&lent.cells), asked.list.unwrap_or(0)),
        spread: over(&bytes(&lent.spread), SPREAD),
    })
}

/// The same of which cell sits on an input, by the rule written here.
pub fn cell_on(x: u8, cells: u8, input: u8) -> (u8, Vec<u8>) {
    match wiring::cell_on(x, cells, input) {
        Ok(cell) => (0, over(&[cell], 1)),
        Err(number) => (number, over(&[], 1)),
    }
}

/// The log's fields then.
pub fn log(asked: &Asked) -> Vec<u8> {
    answered(asked, true).map_or(vec![], |answered| answered.bus.log)
}

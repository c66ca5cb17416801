//! Makes calls of the static library for C from a seed, and compares what each leaves with what the crate answers, with overflow checks and without.
#![allow(incomplete_features)]
#![feature(generic_const_exprs)]
mod asked;
mod bus;
#[allow(dead_code)]
mod crates;
mod expected;
mod job;
mod linked;
#[allow(dead_code)]
mod make;
mod parts;
mod shrink;

use asked::{asked, Asked};
use bus::hex;
use expected::expected;
use linked::{call, Left};
use shrink::least;
use std::collections::BTreeMap;
use std::process::exit;

fn differs(asked: &Asked) -> bool {
    let ours = Ok(call(asked));
    [true, false].iter().any(|overflow_checks| expected(asked, *overflow_checks) != ours)
}

/// A smaller call that still differs: its tape, its job, its log, its lists.
fn smaller(asked: Asked) -> Asked {
    let tape = least(&asked.tape, &|tape| differs(&Asked { tape: tape.to_vec(), ..asked.clone() }));
    let asked = Asked { tape, ..asked };
    let job = least(&asked.job, &|job| differs(&Asked { job: job.to_vec(), ..asked.clone() }));
    let asked = Asked { job, ..asked };
    let log = (0..=asked.log).find(|log| differs(&Asked { log: *log, ..asked.clone() }));
    let asked = Asked { log: log.unwrap_or(asked.log), ..asked };
    let list = asked.list.and_then(|most| (0..=most).find(|list| differs(&Asked { list: Some(*list), ..asked.clone() })));
    let asked = Asked { list, ..asked };
    let inputs = asked.inputs.and_then(|most| (0..=most).find(|inputs| differs(&Asked { inputs: Some(*inputs), ..asked.clone() })));
    Asked { inputs, ..asked }
}

const NAMES: [&str; 5] = ["bq769x0_init", "bq769x0_init_cells", "bq769x0_init_wired", "bq769x0_balance_set", "bq769x0_balance_get"];

/// Which of the functions is called.
fn kind(asked: &Asked) -> usize {
    match &asked.balance {
        Some(call) => 3 + (call[0] == 0x37) as usize,
        None => asked.list.is_some() as usize + asked.inputs.is_some() as usize,
    }
}

fn text(left: &Result<Left, String>) -> String {
    match left {
        Ok(left) => {
            let lists = format!("inputs{}\nlist{}\nspread{}", hex(&left.inputs), hex(&left.list), hex(&left.spread));
            format!("number {}\nout{}\nlog{}\n{lists}", left.number, hex(&left.out), hex(&left.log))
        }
        Err(line) => line.clone(),
    }
}

fn report(asked: Asked) -> ! {
    let least = smaller(asked);
    let [ours, checked, wrapping] = [Ok(call(&least)), expected(&least, true), expected(&least, false)].map(|left| text(&left));
    println!("a difference; the smallest call of {} that shows it:\njob{}\ntape{}", NAMES[kind(&least)], hex(&least.job), hex(&least.tape));
    let (inputs, list) = (least.inputs.unwrap_or(0), least.list.unwrap_or(0));
    println!("call{}", hex(least.balance.as_deref().unwrap_or(&[])));
    println!("log of {} bytes, inputs of {inputs}, list of {list}; each buffer below with its margins", least.log);
    println!("the library:\n{ours}\nthe crate with overflow checks:\n{checked}\nwithout:\n{wrapping}");
    exit(1);
}

/// Every X, count and input.
fn each_cell_on() {
    for n in 0..1u32 << 24 {
        let [_, x, cells, input] = n.to_be_bytes();
        let (ours, should) = (linked::cell_on(x, cells, input), expected::cell_on(x, cells, input));
        if ours != should {
            println!("library: bq769x0_cell_on of {x}, {cells}, {input}: {ours:?}, and by the rule of the blocks {should:?}");
            exit(1);
        }
    }
    println!("library: bq769x0_cell_on of all 16,777,216 numbers X, count and input, by the rule of the blocks: no difference");
}

fn main() {
    let arguments: Vec<String> = std::env::args().collect();
    let [_, seed, jobs] = &arguments[..] else { panic!("library SEED COUNT") };
    let (seed, jobs): (u64, u64) = (seed.parse().expect("a seed"), jobs.parse().expect("a count"));
    each_cell_on();
    let mut tally: BTreeMap<u8, [usize; 5]> = BTreeMap::new();
    for index in 0..jobs {
        let asked = asked(seed, index);
        if differs(&asked) {
            println!("library: job {index} of seed {seed}");
            report(asked);
        }
        tally.entry(call(&asked).number).or_default()[kind(&asked)] += 1;
    }
    let times = |times: &[usize; 5]| times.map(|times| times.to_string()).join(", ");
    let came: Vec<String> = tally.iter().map(|(number, by_kind)| format!("{number}: {}", times(by_kind))).collect();
    println!("library: how often each number came, from each of {}: {}", NAMES.join(", "), came.join("; "));
    let jobs = |kind: usize| tally.values().map(|times| times[kind]).sum::<usize>();
    let counts: Vec<String> = NAMES.iter().enumerate().map(|(kind, name)| format!("{} of {name}", jobs(kind))).collect();
    println!("library: jobs: {}, by the crate with overflow checks and without: no difference", counts.join(", "));
}

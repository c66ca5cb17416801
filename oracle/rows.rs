//! Runs the lines of crates/rows on the crate, by each of its four builds, and holds them to the file that the port's lines are stored in.
#![allow(incomplete_features)]
#![feature(generic_const_exprs)]
mod bus;
#[allow(dead_code)]
mod crates;
mod job;

use std::fmt::{Display, Formatter, Result};
use std::process::exit;

mod plain_checked {
    use crate::crates::plain_checked as calls;
    use bq_plain_checked as bq;
    include!("row_lines.rs");
}
mod plain_wrapping {
    use crate::crates::plain_wrapping as calls;
    use bq_plain_wrapping as bq;
    include!("row_lines.rs");
}
mod check_checked {
    use crate::crates::check_checked as calls;
    use bq_check_checked as bq;
    include!("row_lines.rs");
}
mod check_wrapping {
    use crate::crates::check_wrapping as calls;
    use bq_check_wrapping as bq;
    include!("row_lines.rs");
}

/// What came, or why the crate can't be asked.
enum Came {
    Is(String),
    NotRun(&'static str),
}

/// A line of crates/rows; a heading has nothing that it should be.
struct Line {
    name: String,
    came: Came,
    should: Option<String>,
}

impl Line {
    fn with(&self, came: &str) -> String {
        match &self.should {
            Some(should) => format!("{}: {came}, should be {should}", self.name),
            None => self.name.clone(),
        }
    }
}

impl Display for Line {
    fn fmt(&self, to: &mut Formatter) -> Result {
        match &self.came {
            Came::Is(came) => write!(to, "{}", self.with(came)),
            Came::NotRun(why) => write!(to, "{}", self.with(&format!("not run, {why}"))),
        }
    }
}

/// Each line in which the crate differs: its name, what comes of the crate with overflow checks, and what without.
const DIFFERING: &[(&str, &str, &str)] = &[
    ("D1 SCD 256 A: refused", "22 mV", "22 mV"),
    ("SCD 256 A: set up: refused", "set up with SCD 22 A, OCD 22 A", "set up with SCD 22 A, OCD 22 A"),
    ("OCD 256 A: set up: refused", "set up with SCD 56 A, OCD 8 A", "set up with SCD 56 A, OCD 8 A"),
    ("D2 OCD 256 A at 1000 uOhm: refused", "8 mV", "8 mV"),
    ("D3 SCD 65536 A at 65536 uOhm: refused", "panics", "22 mV"),
    ("D3 OCD 65536 A at 65536 uOhm: refused", "panics", "8 mV"),
    ("D4 code of SCD 22 mV for range Unknown: refused", "panics", "panics"),
    ("D5 code of OCD 8 mV for range Unknown: refused", "panics", "panics"),
    ("D6 bit of range Unknown: refused", "panics", "panics"),
    ("D7 counter 1, shunt 0: refused", "panics", "panics"),
    ("D8 counter 1, shunt 2147483648: refused", "0 mA", "0 mA"),
    ("D8 counter 8000, shunt 4018405376: refused", "1 mA", "1 mA"),
    ("D10 plan with shunt 0: refused", "panics", "panics"),
    ("D39 the set of bit 6", "None", "None"),
    ("D54 pack of 3 cells, reading 0, offset 1: mV (5 before)", "5", "5"),
    ("D53 OV delay of 4 s: bits (16 before)", "16", "16"),
    ("D53 OV delay of 8 s: bits (32 before)", "32", "32"),
    ("D29 current of a record marked with shunt 0: refused", "panics", "panics"),
    ("D29 the same with shunt 2147483648: refused", "0 mA", "0 mA"),
    ("D30 new with X 6: refused", "None", "None"),
    ("D33 cells handed back of a list of 4", "5", "5"),
];

/// Whether the crate's line is the stored one, or differs from it as it is listed to.
fn as_listed(stored: &str, line: &Line, overflow_checks: bool) -> bool {
    let listed = DIFFERING.iter().find(|(name, _, _)| *name == line.name);
    match (&line.came, listed) {
        (Came::Is(came), None) => stored == line.with(came),
        (Came::Is(came), Some((_, checked, wrapping))) => {
            came == if overflow_checks { checked } else { wrapping } && stored == line.with(line.should.as_deref().unwrap_or_default())
        }
        (Came::NotRun(_), _) => stored == line.with(line.should.as_deref().unwrap_or_default()),
    }
}

fn hold(stored: &[&str], lines: &[Line], build: &str, overflow_checks: bool) {
    for (i, line) in lines.iter().enumerate() {
        if !stored.get(i).is_some_and(|stored| as_listed(stored, line, overflow_checks)) {
            println!("rows: line {} by the build {build}:\n{line}\nhere:\n{}", i + 1, stored.get(i).unwrap_or(&"no such line"));
            exit(1);
        }
    }
    if stored.len() != lines.len() {
        println!("rows: {} lines here, {} by the build {build}", stored.len(), lines.len());
        exit(1);
    }
}

fn report(lines: &[Line]) {
    let not_run = lines.iter().filter(|line| matches!(line.came, Came::NotRun(_))).count();
    let differing = DIFFERING.len();
    let same = lines.len() - differing - not_run;
    println!("rows: {} lines: {same} the same by four builds of the crate, {differing} differ as listed, {not_run} it can't be asked", lines.len());
    for line in lines {
        let should = line.should.as_deref().unwrap_or_default();
        if let Came::NotRun(why) = line.came {
            println!("  {}: here {should}; not run in the Rust: {why}", line.name);
        } else if let Some((name, checked, wrapping)) = DIFFERING.iter().find(|(name, _, _)| *name == line.name) {
            let without = if checked == wrapping { String::new() } else { format!(", without overflow checks {wrapping}") };
            println!("  {}: here {should}, in the Rust {checked}{without}", name);
        }
    }
}

fn main() {
    std::panic::set_hook(Box::new(|_| {}));
    let plain = plain_checked::all(false);
    let Some(file) = std::env::args().nth(1) else {
        plain.iter().for_each(|line| println!("{line}"));
        return;
    };
    let text = std::fs::read_to_string(&file).expect("the stored lines");
    let stored: Vec<&str> = text.lines().collect();
    for (name, _, _) in DIFFERING {
        assert_eq!(plain.iter().filter(|line| line.name == *name).count(), 1, "{name} is listed, and is one line");
    }
    hold(&stored, &plain, "without check bytes", true);
    hold(&stored, &plain_wrapping::all(false), "without check bytes and overflow checks", false);
    hold(&stored, &check_checked::all(true), "with check bytes", true);
    hold(&stored, &check_wrapping::all(true), "with check bytes, without overflow checks", false);
    report(&plain);
}

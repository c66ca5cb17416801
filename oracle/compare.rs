//! Makes jobs from a seed, runs each through callrun or staterun and through the crate, with overflow checks and without, and compares all that they
//! print.
#![allow(incomplete_features)]
#![feature(generic_const_exprs)]
mod bus;
mod crates;
mod job;
mod make;
mod parts;
mod shrink;

use bus::hex;
use std::collections::BTreeMap;
use std::io::Write;
use std::process::{exit, Command, Stdio};

/// Every third job is made for staterun.
const GIVEN: u64 = 3;

/// What callrun prints, or staterun where the job is its own, and how it ends if not well.
fn ported(programs: &str, bytes: &[u8]) -> String {
    let program = if job::is_given(bytes) { "staterun" } else { "callrun" };
    let mut command = Command::new(format!("{programs}/{program}"));
    let mut child = command.stdin(Stdio::piped()).stdout(Stdio::piped()).stderr(Stdio::null()).spawn().expect("the program starts");
    // Of a job over 32,768 bytes the rest may find no reader.
    let _ = child.stdin.take().unwrap().write_all(bytes);
    let output = child.wait_with_output().expect("the program ends");
    let text = String::from_utf8_lossy(&output.stdout).into_owned();
    if output.status.success() { text } else { format!("{text}{}\n", output.status) }
}

/// Which answers came, by build: a refusal by its number, any other by its first word.
fn count(tally: &mut BTreeMap<String, [usize; 3]>, text: &str, build: usize) {
    for line in text.lines() {
        let words = if line.starts_with("refused") { 2 } else { 1 };
        let name: Vec<&str> = line.split(' ').take(words).collect();
        tally.entry(name.join(" ")).or_default()[build] += 1;
    }
}

fn differing(programs: &str, bytes: &[u8]) -> Option<[String; 3]> {
    let texts = [ported(programs, bytes), crates::text(bytes, true), crates::text(bytes, false)];
    if texts[0] == texts[1] && texts[0] == texts[2] { None } else { Some(texts) }
}

fn report(programs: &str, bytes: &[u8]) -> ! {
    let least = shrink::least(bytes, &|bytes| differing(programs, bytes).is_some());
    let [ours, checked, wrapping] = differing(programs, &least).expect("it differs still");
    println!("a difference; the smallest job that shows it:\n{}", hex(&least));
    println!("the port:\n{ours}the crate with overflow checks:\n{checked}without:\n{wrapping}");
    exit(1);
}

fn main() {
    let arguments: Vec<String> = std::env::args().collect();
    let [_, programs, seed, jobs] = &arguments[..] else { panic!("compare PROGRAMS SEED COUNT") };
    let (seed, jobs): (u64, u64) = (seed.parse().expect("a seed"), jobs.parse().expect("a count"));
    let mut tally = BTreeMap::new();
    let mut builds = [0; 3];
    let mut given = 0;
    for index in 0..jobs {
        let bytes = make::job(seed, index, index % GIVEN == 0);
        if differing(programs, &bytes).is_some() {
            println!("job {index} of seed {seed}");
            report(programs, &bytes);
        }
        let build = job::parse(&bytes).map_or(2, |job| job.check as usize);
        builds[build] += 1;
        given += job::is_given(&bytes) as usize;
        count(&mut tally, &crates::text(&bytes, true), build);
    }
    println!("lines printed: without check bytes, with, for what is no job");
    for (name, [plain, check, none]) in &tally {
        println!("{name}: {plain}, {check}, {none}");
    }
    println!("seed {seed}: {jobs} jobs, {} without check bytes, {} with, {} that are none", builds[0], builds[1], builds[2]);
    println!("{given} of them through staterun, the others through callrun");
    println!("each run with overflow checks and without");
    println!("no difference");
}

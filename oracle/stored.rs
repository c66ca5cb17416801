//! Runs the stored jobs of callrun and staterun on the crate, as files of tests/jobs have them, and holds it to their answers.
#![allow(incomplete_features)]
#![feature(generic_const_exprs)]
mod bus;
mod crates;
mod job;

use std::process::exit;

/// A job of a file: the heading, which begins with the program's name, the bytes, and the answer below them.
struct Stored {
    heading: String,
    bytes: Vec<u8>,
    answer: String,
}

/// The bytes of an indented line, ahead of a comment.
fn bytes(line: &str) -> Vec<u8> {
    let words = line.split('#').next().unwrap();
    if words.trim() == "none" {
        return Vec::new();
    }
    let digits: Vec<u32> = words.chars().filter(|c| !c.is_whitespace()).map(|c| c.to_digit(16).expect("a digit")).collect();
    digits.chunks(2).map(|pair| (pair[0] * 16 + pair[1]) as u8).collect()
}

/// A file's jobs: a heading, indented bytes, the answer, and a blank line where the next one follows.
fn jobs(text: &str) -> Vec<Stored> {
    let mut jobs: Vec<Stored> = Vec::new();
    let mut within = false;
    for line in text.lines().filter(|line| !line.trim_start().starts_with('#')) {
        match jobs.last_mut() {
            _ if line.trim().is_empty() => within = false,
            Some(job) if within && line.starts_with(char::is_whitespace) => job.bytes.extend(bytes(line)),
            Some(job) if within => job.answer += &format!("{line}\n"),
            _ => {
                within = true;
                jobs.push(Stored { heading: line.to_string(), bytes: Vec::new(), answer: String::new() });
            }
        }
    }
    jobs
}

fn main() {
    let files: Vec<String> = std::env::args().skip(1).collect();
    assert!(!files.is_empty(), "stored FILE..");
    let texts = files.iter().map(|file| std::fs::read_to_string(file).unwrap_or_else(|error| panic!("{file}: {error}")));
    let stored: Vec<Vec<Stored>> = texts.map(|text| jobs(&text)).collect();
    std::panic::set_hook(Box::new(|_| {}));
    let mut run = 0;
    for (file, jobs) in files.iter().zip(&stored) {
        let held = |job: &&Stored| job.heading.starts_with("callrun: ") || job.heading.starts_with("staterun: ");
        for Stored { heading, bytes, answer } in jobs.iter().filter(held) {
            run += 1;
            for overflow_checks in [true, false] {
                let text = crates::text(bytes, overflow_checks);
                if text != *answer {
                    println!("stored jobs: {file}: {heading}\nstored:\n{answer}the crate, overflow checks {overflow_checks}:\n{text}");
                    exit(1);
                }
            }
        }
    }
    println!("stored jobs: {run} of callrun and staterun, by the crate with overflow checks and without: no difference");
}

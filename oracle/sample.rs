//! Makes jobs from a seed, of callrun or of staterun, and prints them as a file of tests/jobs, each with what the crate prints of it.
#![allow(incomplete_features)]
#![feature(generic_const_exprs)]
mod bus;
mod crates;
mod job;
mod make;
mod parts;

use bus::{field, hex};
use parts::parts;

/// Longer jobs are left to `compare`.
const LONGEST: usize = 352;

/// How many characters a line of bytes has at most.
const WIDTH: usize = 150;

/// How many bytes the numbers of a field have; where it has more of them, they are bytes.
fn sizes(tag: u8) -> Vec<usize> {
    match tag {
        0x1D => vec![4; 18],
        0x1E => [vec![1, 2, 1, 4], vec![4; 15], vec![4, 8, 8]].concat(),
        0x21 => vec![4; 5],
        _ => Vec::new(),
    }
}

/// A part's words: a field's tag, length and numbers, else its bytes.
fn words(part: &[u8]) -> Vec<String> {
    let sizes = field(part).map_or(Vec::new(), |(tag, _)| [vec![1, 2], sizes(tag)].concat());
    let mut words = Vec::new();
    let mut left = part;
    while !left.is_empty() {
        let size = sizes.get(words.len()).map_or(1, |size| left.len().min(*size));
        words.push(hex(&left[..size]).replace(' ', ""));
        left = &left[size..];
    }
    words
}

/// Parts as lines that begin with the margin, three blanks between two parts; one that is longer than a line goes on further in.
fn lines(margin: &str, parts: &[Vec<String>]) -> Vec<String> {
    let mut lines: Vec<String> = Vec::new();
    for part in parts.iter().filter(|part| !part.is_empty()) {
        let text = part.join(" ");
        match lines.last_mut() {
            Some(line) if line.len() + 3 + text.len() <= WIDTH => *line += &format!("   {text}"),
            _ => {
                lines.push(format!("{margin}{}", part[0]));
                for word in &part[1..] {
                    let line = lines.last_mut().unwrap();
                    if line.len() + 1 + word.len() <= WIDTH {
                        *line += &format!(" {word}");
                    } else {
                        lines.push(format!("{margin}    {word}"));
                    }
                }
            }
        }
    }
    lines
}

/// A field with fifteen cells as lines: so many words, the cells, what is left.
fn around_cells(part: &[u8], ahead: usize) -> Vec<String> {
    let mut left = words(part);
    let rows = [("    ", ahead), ("        ", 15), ("        ", usize::MAX)];
    rows.iter().flat_map(|(margin, count)| lines(margin, &[left.drain(..left.len().min(*count)).collect()])).collect()
}

/// A job's bytes as lines: fields 1D and 1E, the rest of the head, and the tape, the bytes ahead of its position apart.
fn laid_out(bytes: &[u8]) -> Vec<String> {
    let job = job::parse(bytes);
    let (mut head, tape) = bytes.split_at(bytes.len() - job.as_ref().map_or(0, |job| job.tape.len()));
    let (ahead, tape) = tape.split_at(job.and_then(|job| job.given).map_or(0, |given| given.tape_at.min(tape.len())));
    let mut all = Vec::new();
    while let Some((tag @ (0x1D | 0x1E), value)) = field(head) {
        let (part, rest) = head.split_at(3 + value.len());
        all.extend(around_cells(part, if tag == 0x1D { 2 } else { 6 }));
        head = rest;
    }
    let ahead = ahead.iter().map(|byte| format!("{byte:02X}")).collect();
    all.extend(lines("    ", &parts(head).into_iter().map(words).collect::<Vec<_>>()));
    all.extend(lines("    ", &[ahead].into_iter().chain(parts(tape).into_iter().map(words)).collect::<Vec<_>>()));
    if all.is_empty() { vec!["    none".to_string()] } else { all }
}

fn main() {
    let arguments: Vec<String> = std::env::args().skip(1).collect();
    let [seed, count, program] = &arguments[..] else { panic!("sample SEED COUNT callrun|staterun") };
    assert!(program == "callrun" || program == "staterun", "sample SEED COUNT callrun|staterun");
    let (seed, count): (u64, usize) = (seed.parse().expect("a seed"), count.parse().expect("a count"));
    println!(
        "# {count} jobs of {program} from a seed, each with what the Rust crate prints of it, the pack voltage by the count (D54): \
         target/oracle/sample {seed} {count} {program}."
    );
    let all = (0..).map(|index: u64| (index, make::job(seed, index, program == "staterun")));
    for (index, bytes) in all.filter(|(_, bytes)| bytes.len() <= LONGEST).take(count) {
        println!("\n{program}: the Rust's answer: seed {seed}, job {index}\n{}", laid_out(&bytes).join("\n"));
        print!("{}", crates::text(&bytes, true));
    }
}

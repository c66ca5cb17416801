//! The lines of a job that no build of the crate writes: what was lent, the record, the log.
use crate::bus::{hex, Bus};
use super::wiring;
use crate::job::{Job, Kept, Wired};

/// What a call lends: read_raw's bytes and the cell calls' lists.
pub struct Lent {
    pub data: Vec<u8>,
    pub inputs: Vec<u8>,
    pub list: Vec<i32>,
}

impl Lent {
    pub fn new(tag: u8, value: &[u8]) -> Lent {
        let (data, inputs, list) = match tag {
            0x22 => (0, 0, value[0]),
            0x32 => (u16::from_be_bytes([value[1], value[2]]), 0, 0),
            0x34 => (0, value[0], value[1]),
            _ => (0, 0, 0),
        };
        Lent { data: vec![0xAA; data as usize], inputs: vec![255; inputs as usize], list: vec![i32::MAX; list as usize] }
    }

    /// The bytes after a read, and for staterun the lists after a cell call.
    pub fn line(&self, tag: u8, job: &Job) -> String {
        match tag {
            0x32 => format!("data{}\n", hex(&self.data)),
            0x22 if job.given.is_some() => format!("list{}\n", numbers(&self.list)),
            0x34 if job.given.is_some() => format!("inputs{}\nlist{}\n", numbers(&self.inputs), numbers(&self.list)),
            _ => String::new(),
        }
    }
}

/// Numbers, each after a blank.
pub fn numbers<T: std::fmt::Display>(list: &[T]) -> String {
    list.iter().map(|number| format!(" {number}")).collect()
}

/// The record and both positions, and for staterun the log.
pub fn end(job: &Job, kept: &Kept, bus: &Bus) -> String {
    let mut text = format!("record {} {} {} {}", job.x, job.cells, job.address, job.check as u8);
    text += &format!(" {} {} {} {}", kept.gain, kept.offset, kept.initialised as u8, kept.shunt);
    text += &(numbers(&kept.cells) + &numbers(&kept.wired.cells) + &numbers(&kept.wired.figures));
    text += &format!(" tape {} log {}\n", bus.at, bus.log_at());
    if job.given.is_some() {
        text += &format!("log{}\n", hex(&bus.whole_log()));
    }
    text
}

/// The line of a cell on an input, or the refusal's number: asked of the value's three numbers, whatever the record.
pub fn cell_on(value: &[u8]) -> Result<String, String> {
    let cell = wiring::cell_on(value[0], value[1], value[2]);
    cell.map(|cell| format!("cellon {cell}")).map_err(|number| number.to_string())
}

/// The line of a record's three figures, whatever the record.
pub fn spread(wired: &Wired) -> String {
    format!("spread{}", numbers(&wired.figures))
}

/// What staterun prints for a record that is not sound: each call that asks for a sound one is refused, and nothing changes.
pub fn unsound(job: &Job, kept: &Kept, bus: &Bus) -> String {
    let line = |tag: u8, value: &[u8]| {
        let answer = match tag {
            0x35 => cell_on(value),
            0x38 => Ok(spread(&kept.wired)),
            _ => Err("9".to_string()),
        };
        answer.unwrap_or_else(|number| format!("refused {number}")) + "\n" + &Lent::new(tag, value).line(tag, job)
    };
    job.calls.iter().map(|(tag, value)| line(*tag, value)).collect::<String>() + &end(job, kept, bus)
}

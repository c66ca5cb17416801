//! The reply tape and the transfer log behind the bus traits the crate calls, and the refusals of a transfer: 14, 17, 16, 15.
use crate::job::Job;
use embedded_hal::blocking::i2c::{Write, WriteRead};

/// A transfer as the crate asks for it: the bytes sent, the register first, and the count of bytes to be read.
pub struct Transfer<'a> {
    pub address: u8,
    pub sent: &'a [u8],
    pub read: Option<usize>,
}

/// Writes the tape's next field when none is left, to make a job as it runs.
pub type Feed<'a> = &'a mut dyn FnMut(&Transfer) -> Vec<u8>;

pub struct Bus<'a> {
    pub check: bool,
    pub tape: Vec<u8>,
    pub at: usize,
    /// The log's fields since the start, and where in a log of what size the first of them stands.
    pub log: Vec<u8>,
    pub log_from: usize,
    pub log_size: usize,
    /// The number a transfer of this call was refused with. The crate hears of a fault, and the number is the call's answer.
    pub refused: Option<u8>,
    /// Whether the refusals of a transfer stand in front; without, a transfer that passes register FF is made.
    pub guarded: bool,
    pub feed: Option<Feed<'a>>,
}

impl<'a> Bus<'a> {
    pub fn new(check: bool, tape: &[u8]) -> Bus<'a> {
        let tape = tape.to_vec();
        Bus { check, tape, at: 0, log: Vec::new(), log_from: 0, log_size: 65536, refused: None, guarded: true, feed: None }
    }

    /// A job's bus: from the start of an empty log, or as field 1E has it.
    pub fn of(job: &Job) -> Bus<'a> {
        let bus = Bus::new(job.check, &job.tape);
        let Some(given) = &job.given else { return bus };
        Bus { at: given.tape_at, log_from: given.log_at, log_size: given.log_size, ..bus }
    }

    /// How much of the log is used.
    pub fn log_at(&self) -> usize {
        self.log_from + self.log.len()
    }

    /// The log's bytes, each of which was EE.
    pub fn whole_log(&self) -> Vec<u8> {
        let mut whole = vec![0xEE; self.log_size];
        if !self.log.is_empty() {
            whole[self.log_from..self.log_at()].copy_from_slice(&self.log);
        }
        whole
    }

    /// The tape's field for this transfer: whether it faults, and its value.
    fn transfer(&mut self, asked: &Transfer) -> Result<(bool, Vec<u8>), u8> {
        let register = asked.sent[0] as usize;
        let on_bus = asked.read.unwrap_or(asked.sent.len() - 1);
        let data = if self.check { on_bus / 2 } else { on_bus };
        if self.guarded && data > 0 && register + data > 256 {
            return Err(14);
        }
        let entry = log_field(asked);
        if self.log.len() + entry.len() > self.log_size.saturating_sub(self.log_from) {
            return Err(17);
        }
        if let (true, Some(feed)) = (self.at == self.tape.len(), &mut self.feed) {
            self.tape.extend(feed(asked));
        }
        if self.at >= self.tape.len() {
            return Err(16);
        }
        let (tag, value) = field(&self.tape[self.at..]).ok_or(15)?;
        let wanted = asked.read.unwrap_or(0);
        if !(tag == 1 && value.len() == wanted || tag == 2 && value.len() <= wanted) {
            return Err(15);
        }
        let value = value.to_vec();
        self.at += 3 + value.len();
        self.log.extend(entry);
        Ok((tag == 2, value))
    }

    fn answer(&mut self, asked: &Transfer, buffer: &mut [u8]) -> Result<(), ()> {
        assert_eq!(self.refused, None, "a transfer after one that was refused");
        let (fault, value) = self.transfer(asked).map_err(|number| self.refused = Some(number))?;
        buffer[..value.len()].copy_from_slice(&value);
        if fault { Err(()) } else { Ok(()) }
    }
}

impl Write for Bus<'_> {
    type Error = ();
    fn write(&mut self, address: u8, bytes: &[u8]) -> Result<(), ()> {
        self.answer(&Transfer { address, sent: bytes, read: None }, &mut [])
    }
}

impl WriteRead for Bus<'_> {
    type Error = ();
    fn write_read(&mut self, address: u8, bytes: &[u8], buffer: &mut [u8]) -> Result<(), ()> {
        assert_eq!(bytes.len(), 1, "a read sends its register alone");
        self.answer(&Transfer { address, sent: bytes, read: Some(buffer.len()) }, buffer)
    }
}

/// The first field of these bytes: tag and value.
pub fn field(bytes: &[u8]) -> Option<(u8, &[u8])> {
    let [tag, high, low, rest @ ..] = bytes else { return None };
    let value = rest.get(..u16::from_be_bytes([*high, *low]) as usize)?;
    Some((*tag, value))
}

/// A field of these parts.
pub fn field_of(tag: u8, value: &[u8]) -> Vec<u8> {
    let mut bytes = vec![tag];
    bytes.extend((value.len() as u16).to_be_bytes());
    bytes.extend(value);
    bytes
}

fn log_field(asked: &Transfer) -> Vec<u8> {
    let mut value = vec![asked.address];
    value.extend(asked.sent);
    let Some(count) = asked.read else { return field_of(0x11, &value) };
    value.extend((count as u16).to_be_bytes());
    field_of(0x12, &value)
}

/// A log's transfers as text, a line each.
pub fn lines(log: &[u8]) -> String {
    let mut text = String::new();
    let mut left = log;
    while let Some((tag, value)) = field(left) {
        text += &if tag == 0x12 {
            format!("R {:02X} {}\n", value[1], u16::from_be_bytes([value[2], value[3]]))
        } else {
            format!("W{}\n", hex(&value[1..]))
        };
        left = &left[3 + value.len()..];
    }
    text
}

/// Bytes in hex, each after a blank.
pub fn hex(bytes: &[u8]) -> String {
    bytes.iter().map(|b| format!(" {b:02X}")).collect()
}

//! The reply tape and the transfer log, both lent, behind the bus traits the crate calls, and the refusals of a transfer: 14, 17, 16, 15.
use embedded_hal::blocking::i2c::{Write, WriteRead};

pub struct Bus<'a, const CHECK: bool> {
    tape: &'a [u8],
    log: &'a mut [u8],
    pub used: usize,
    pub logged: usize,
    /// The number that a transfer was refused with, 0 for none. The crate hears of a fault, and the number is the call's answer.
    pub refused: u8,
}

impl<'a, const CHECK: bool> Bus<'a, CHECK> {
    pub fn new(tape: &'a [u8], log: &'a mut [u8]) -> Self {
        Bus { tape, log, used: 0, logged: 0, refused: 0 }
    }

    fn refuse(&mut self, number: u8) -> Result<(), ()> {
        self.refused = number;
        Err(())
    }

    /// One transfer: the log's field is `head` and then `rest`.
    fn transfer(&mut self, register: u8, on_bus: usize, head: &[u8], rest: &[u8], buffer: &mut [u8]) -> Result<(), ()> {
        let data = if CHECK { on_bus / 2 } else { on_bus };
        if data > 0 && register as usize + data > 256 {
            return self.refuse(14);
        }
        let Some(entry) = self.log.get_mut(self.logged..).and_then(|log| log.get_mut(..head.len() + rest.len())) else {
            return self.refuse(17);
        };
        let left = match self.tape.get(self.used..) {
            None | Some([]) => return self.refuse(16),
            Some(left) => left,
        };
        let [tag, high, low, left @ ..] = left else { return self.refuse(15) };
        let Some(value) = left.get(..u16::from_be_bytes([*high, *low]) as usize) else { return self.refuse(15) };
        let fault = *tag == 2;
        if !(*tag == 1 && value.len() == buffer.len() || fault && value.len() <= buffer.len()) {
            return self.refuse(15);
        }
        entry[..head.len()].copy_from_slice(head);
        entry[head.len()..].copy_from_slice(rest);
        buffer[..value.len()].copy_from_slice(value);
        self.used += 3 + value.len();
        self.logged += entry.len();
        if fault { Err(()) } else { Ok(()) }
    }
}

impl<const CHECK: bool> Write for Bus<'_, CHECK> {
    type Error = ();
    #[inline]
    fn write(&mut self, address: u8, bytes: &[u8]) -> Result<(), ()> {
        let [high, low] = (bytes.len() as u16 + 1).to_be_bytes();
        self.transfer(bytes[0], bytes.len() - 1, &[0x11, high, low, address], bytes, &mut [])
    }
}

impl<const CHECK: bool> WriteRead for Bus<'_, CHECK> {
    type Error = ();
    #[inline]
    fn write_read(&mut self, address: u8, bytes: &[u8], buffer: &mut [u8]) -> Result<(), ()> {
        let [high, low] = (buffer.len() as u16).to_be_bytes();
        self.transfer(bytes[0], buffer.len(), &[0x12, 0, 4, address, bytes[0], high, low], &[], buffer)
    }
}

//! A chip whose registers count up past FF to 00.
use crate::bus::{field_of, Transfer};
use crc_any::CRCu8;

/// Its field of the tape for a transfer.
pub struct Chip {
    pub registers: [u8; 256],
    pub check: bool,
}

impl Chip {
    /// With these registers set, all others 0.
    pub fn new(check: bool, set: &[(u8, u8)]) -> Chip {
        let mut chip = Chip { registers: [0; 256], check };
        for (register, byte) in set {
            chip.registers[*register as usize] = *byte;
        }
        chip
    }

    pub fn field(&mut self, asked: &Transfer) -> Vec<u8> {
        let step = if self.check { 2 } else { 1 };
        let register = asked.sent[0] as usize;
        let Some(count) = asked.read else {
            for (i, byte) in asked.sent[1..].iter().step_by(step).enumerate() {
                self.registers[(register + i) % 256] = *byte;
            }
            return field_of(1, &[]);
        };
        let mut value = Vec::new();
        let mut crc = CRCu8::crc8();
        crc.digest(&[asked.address << 1 | 1]);
        for i in 0..count / step {
            let byte = self.registers[(register + i) % 256];
            crc.digest(&[byte]);
            value.extend(&[byte, crc.get_crc()][..step]);
            crc.reset();
        }
        field_of(1, &value)
    }
}

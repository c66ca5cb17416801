//! Stands in for crc_any: its CRC-8 with polynomial 07, start 0, no reflection and no final xor.
#![cfg_attr(not(test), no_std)]

pub struct CRCu8 {
    sum: u8,
}

impl CRCu8 {
    pub fn crc8() -> CRCu8 {
        CRCu8 { sum: 0 }
    }

    pub fn reset(&mut self) {
        self.sum = 0;
    }

    pub fn digest(&mut self, data: &[u8]) {
        for byte in data {
            self.sum ^= byte;
            for _ in 0..8 {
                let carry = self.sum & 0x80 != 0;
                self.sum = (self.sum << 1) ^ if carry { 0x07 } else { 0 };
            }
        }
    }

    pub fn get_crc(&self) -> u8 {
        self.sum
    }
}

#[test]
fn published_vectors() {
    let sum = |data: &[u8]| {
        let mut crc = CRCu8::crc8();
        crc.digest(data);
        crc.get_crc()
    };
    assert_eq!(sum(&[0x01]), 0x07);
    assert_eq!(sum(b"123456789"), 0xF4);
}

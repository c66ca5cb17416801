//! Stands in for crc_any by a table of 256 bytes: CRC-8 with polynomial 07, start 0, no reflection and no final xor.
#![cfg_attr(not(test), no_std)]

const fn remainder(byte: u8) -> u8 {
    let mut left = byte;
    let mut bit = 0;
    while bit < 8 {
        left = (left << 1) ^ if left & 0x80 != 0 { 0x07 } else { 0 };
        bit += 1;
    }
    left
}

static TABLE: [u8; 256] = {
    let mut table = [0; 256];
    let mut i = 0;
    while i < 256 {
        table[i] = remainder(i as u8);
        i += 1;
    }
    table
};

pub struct CRCu8 {
    sum: u8,
}

impl CRCu8 {
    pub fn crc8() -> CRCu8 {
        CRCu8 { sum: 0 }
    }

    pub fn reset(&mut self) {
        self.sum = 0;
    }

    pub fn digest(&mut self, data: &[u8]) {
        for byte in data {
            self.sum = TABLE[(self.sum ^ byte) as usize];
        }
    }

    pub fn get_crc(&self) -> u8 {
        self.sum
    }
}

#[test]
fn published_vectors() {
    let sum = |data: &[u8]| {
        let mut crc = CRCu8::crc8();
        crc.digest(data);
        crc.get_crc()
    };
    assert_eq!(sum(&[0x01]), 0x07);
    assert_eq!(sum(b"123456789"), 0xF4);
}

//! Stands in for embedded-hal 0.2: the two bus traits the crate calls, with its 7-bit addresses.
#![no_std]

pub mod blocking {
    pub mod i2c {
        pub trait Write {
            type Error;
            fn write(&mut self, address: u8, bytes: &[u8]) -> Result<(), Self::Error>;
        }

        pub trait WriteRead {
            type Error;
            fn write_read(&mut self, address: u8, bytes: &[u8], buffer: &mut [u8]) -> Result<(), Self::Error>;
        }
    }
}

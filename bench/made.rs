
// Appended to the copy: a record of these numbers, which outside of the crate only `new` and `init` can make; and the status byte,
// of which the crate gives one flag at a time.
impl<const X: usize> BQ769x0<X> {
    pub fn made(dev_address: u8, cell_count: u8, adc_gain: u16, adc_offset: i8, shunt: MicroOhms) -> Self {
        BQ769x0 { dev_address, init_complete: shunt.0 != 0, adc_gain, adc_offset, shunt, cell_count, cells: [MilliVolts(0); X] }
    }
}

impl Stat {
    pub fn kept(&self) -> u8 {
        self.bits
    }
}

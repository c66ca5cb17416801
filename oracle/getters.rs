
// Appended to the copy: what the crate keeps to itself and the record's line prints, and the same put in from a job.
impl<const X: usize> BQ769x0<X> {
    pub fn kept(&self) -> (bool, MicroOhms, [MilliVolts; X]) {
        (self.init_complete, self.shunt, self.cells)
    }

    pub fn keep(&mut self, init_complete: bool, adc_gain: u16, adc_offset: i8, shunt: MicroOhms, cells: [MilliVolts; X]) {
        self.init_complete = init_complete;
        self.adc_gain = adc_gain;
        self.adc_offset = adc_offset;
        self.shunt = shunt;
        self.cells = cells;
    }
}

impl Stat {
    pub fn kept(&self) -> u8 {
        self.bits
    }
}

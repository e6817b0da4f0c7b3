// Included at the end of line/esp32.rs: a line calibration taken apart and put together, and what it is made by.
impl<ADCX> AdcCalLine<ADCX> {
    pub fn taken_apart(&self) -> (u32, u32, u32, u8, bool) {
        (self.coeff_a, self.coeff_b, self.vref, self.unit, self.use_lut)
    }

    pub fn put_together(coeff_a: u32, coeff_b: u32, vref: u32, unit: u8, use_lut: bool) -> Self {
        Self { coeff_a, coeff_b, vref, use_lut, unit, _phantom: PhantomData }
    }

    /// a and b by any Vref, not only those that a code gives.
    pub fn by_vref(unit: u8, atten: u8, vref: u32) -> (u32, u32) {
        characterize_using_vref(unit, usize::from(atten), vref)
    }

    /// Whether a and b come from two points, by the fields at home.
    pub fn from_two_points() -> bool {
        check_efuse_tp()
    }
}

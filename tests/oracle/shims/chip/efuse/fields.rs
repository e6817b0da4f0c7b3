//! The field constants, which aren't in the text. A constant can't be moved to where a map says, so each has a home, a
//! word of its own behind the dump, and what the map's field holds is put there (reach.rs).
use crate::efuse::EfuseField;

/// The word after the last block's last, as a bit of that block.
const FIRST_HOME_BIT: u32 = 256;
const LAST_BLOCK: u32 = 10;

macro_rules! homes {
    ($($name:ident $count:literal,)*) => {
        /// The homes' order.
        #[allow(non_camel_case_types, clippy::upper_case_acronyms)]
        #[derive(Clone, Copy)]
        pub enum Home {
            $($name,)*
        }

        $(
            pub const $name: EfuseField = {
                let start = FIRST_HOME_BIT + 32 * Home::$name as u32;
                EfuseField::new(LAST_BLOCK, start / 32, start, $count)
            };
        )*
    };
}

homes! {
    // Ids 1 to 23 of document 01. Init codes have a bit more than it allows, to see what the crate does with it.
    ADC_VREF 5,
    BLK3_PART_RESERVE 1,
    ADC1_TP_LOW 7,
    ADC2_TP_LOW 7,
    ADC1_TP_HIGH 9,
    ADC2_TP_HIGH 9,
    BLK_VERSION_MINOR 8,
    SPI_BOOT_CRYPT_CNT 8,
    ADC1_INIT_CODE_ATTEN0 16,
    ADC1_INIT_CODE_ATTEN1 16,
    ADC1_INIT_CODE_ATTEN2 16,
    ADC1_INIT_CODE_ATTEN3 16,
    ADC1_CAL_VOL_ATTEN0 10,
    ADC1_CAL_VOL_ATTEN1 10,
    ADC1_CAL_VOL_ATTEN2 10,
    ADC1_CAL_VOL_ATTEN3 10,
    ADC1_INIT_CODE_ATTEN0_CH0 4,
    ADC1_INIT_CODE_ATTEN0_CH1 4,
    ADC1_INIT_CODE_ATTEN0_CH2 4,
    ADC1_INIT_CODE_ATTEN0_CH3 4,
    ADC1_INIT_CODE_ATTEN0_CH4 4,
    ADC1_INIT_CODE_ATTEN0_CH5 4,
    ADC1_INIT_CODE_ATTEN0_CH6 4,
    // Named by functions that nobody calls here: MAC addresses, revisions, the watchdog.
    BLK_VERSION_MAJOR 2,
    MAC0 32,
    MAC1 16,
    WAFER_VERSION_MAJOR 2,
    WAFER_VERSION_MINOR 4,
    WAFER_VERSION_MINOR_HI 1,
    WAFER_VERSION_MINOR_LO 3,
    WDT_DELAY_SEL 2,
}

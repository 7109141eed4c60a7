//! Signed formats: raws are `i64`, and run from -2^(width - 1) to 2^(width - 1) - 1.
//!
//! ```
//! use tamqoret::signed::I1F15;
//! let gain = I1F15.read_literal("-0.707")?;
//! assert_eq!(gain, -23167);
//! assert_eq!(&*I1F15.text(gain)?, "-0.707000732421875");
//! assert_eq!(I1F15.saturating_neg(-32768)?, 32767);
//! # Ok::<(), tamqoret::Error>(())
//! ```

use crate::family::{arithmetic, bytes, constants, conversions, declarations, family, further, manners, texts};

family!("signed", i64);

constants! {
    8: I8F0 = 0 I7F1 = 1 I6F2 = 2 I5F3 = 3 I4F4 = 4 I3F5 = 5 I2F6 = 6 I1F7 = 7 I0F8 = 8;
    16: I16F0 = 0 I15F1 = 1 I14F2 = 2 I13F3 = 3 I12F4 = 4 I11F5 = 5 I10F6 = 6 I9F7 = 7 I8F8 = 8 I7F9 = 9 I6F10 = 10
        I5F11 = 11 I4F12 = 12 I3F13 = 13 I2F14 = 14 I1F15 = 15 I0F16 = 16;
    32: I32F0 = 0 I31F1 = 1 I30F2 = 2 I29F3 = 3 I28F4 = 4 I27F5 = 5 I26F6 = 6 I25F7 = 7 I24F8 = 8 I23F9 = 9
        I22F10 = 10 I21F11 = 11 I20F12 = 12 I19F13 = 13 I18F14 = 14 I17F15 = 15 I16F16 = 16 I15F17 = 17 I14F18 = 18
        I13F19 = 19 I12F20 = 20 I11F21 = 21 I10F22 = 22 I9F23 = 23 I8F24 = 24 I7F25 = 25 I6F26 = 26 I5F27 = 27
        I4F28 = 28 I3F29 = 29 I2F30 = 30 I1F31 = 31 I0F32 = 32;
    64: I64F0 = 0 I63F1 = 1 I62F2 = 2 I61F3 = 3 I60F4 = 4 I59F5 = 5 I58F6 = 6 I57F7 = 7 I56F8 = 8 I55F9 = 9
        I54F10 = 10 I53F11 = 11 I52F12 = 12 I51F13 = 13 I50F14 = 14 I49F15 = 15 I48F16 = 16 I47F17 = 17 I46F18 = 18
        I45F19 = 19 I44F20 = 20 I43F21 = 21 I42F22 = 22 I41F23 = 23 I40F24 = 24 I39F25 = 25 I38F26 = 26 I37F27 = 27
        I36F28 = 28 I35F29 = 29 I34F30 = 30 I33F31 = 31 I32F32 = 32 I31F33 = 33 I30F34 = 34 I29F35 = 35 I28F36 = 36
        I27F37 = 37 I26F38 = 38 I25F39 = 39 I24F40 = 40 I23F41 = 41 I22F42 = 42 I21F43 = 43 I20F44 = 44 I19F45 = 45
        I18F46 = 46 I17F47 = 47 I16F48 = 48 I15F49 = 49 I14F50 = 50 I13F51 = 51 I12F52 = 52 I11F53 = 53 I10F54 = 54
        I9F55 = 55 I8F56 = 56 I7F57 = 57 I6F58 = 58 I5F59 = 59 I4F60 = 60 I3F61 = 61 I2F62 = 62 I1F63 = 63 I0F64 = 64;
}

//! Unsigned formats: raws are `u64`, and run from 0 to 2^width - 1.
//!
//! ```
//! use tamqoret::{Error, unsigned::U8F8};
//! let raw = U8F8.read("2.5", 10)?;
//! assert_eq!(raw, 640);
//! assert_eq!(U8F8.sub(0, raw), Err(Error::Overflow));
//! assert_eq!(U8F8.overflowing_sub(0, raw), Ok((64896, true)));
//! # Ok::<(), Error>(())
//! ```

use crate::family::{arithmetic, bytes, constants, conversions, declarations, family, further, manners, texts};

family!("unsigned", u64);

constants! {
    8: U8F0 = 0 U7F1 = 1 U6F2 = 2 U5F3 = 3 U4F4 = 4 U3F5 = 5 U2F6 = 6 U1F7 = 7 U0F8 = 8;
    16: U16F0 = 0 U15F1 = 1 U14F2 = 2 U13F3 = 3 U12F4 = 4 U11F5 = 5 U10F6 = 6 U9F7 = 7 U8F8 = 8 U7F9 = 9 U6F10 = 10
        U5F11 = 11 U4F12 = 12 U3F13 = 13 U2F14 = 14 U1F15 = 15 U0F16 = 16;
    32: U32F0 = 0 U31F1 = 1 U30F2 = 2 U29F3 = 3 U28F4 = 4 U27F5 = 5 U26F6 = 6 U25F7 = 7 U24F8 = 8 U23F9 = 9
        U22F10 = 10 U21F11 = 11 U20F12 = 12 U19F13 = 13 U18F14 = 14 U17F15 = 15 U16F16 = 16 U15F17 = 17 U14F18 = 18
        U13F19 = 19 U12F20 = 20 U11F21 = 21 U10F22 = 22 U9F23 = 23 U8F24 = 24 U7F25 = 25 U6F26 = 26 U5F27 = 27
        U4F28 = 28 U3F29 = 29 U2F30 = 30 U1F31 = 31 U0F32 = 32;
    64: U64F0 = 0 U63F1 = 1 U62F2 = 2 U61F3 = 3 U60F4 = 4 U59F5 = 5 U58F6 = 6 U57F7 = 7 U56F8 = 8 U55F9 = 9
        U54F10 = 10 U53F11 = 11 U52F12 = 12 U51F13 = 13 U50F14 = 14 U49F15 = 15 U48F16 = 16 U47F17 = 17 U46F18 = 18
        U45F19 = 19 U44F20 = 20 U43F21 = 21 U42F22 = 22 U41F23 = 23 U40F24 = 24 U39F25 = 25 U38F26 = 26 U37F27 = 27
        U36F28 = 28 U35F29 = 29 U34F30 = 30 U33F31 = 31 U32F32 = 32 U31F33 = 33 U30F34 = 34 U29F35 = 35 U28F36 = 36
        U27F37 = 37 U26F38 = 38 U25F39 = 39 U24F40 = 40 U23F41 = 41 U22F42 = 42 U21F43 = 43 U20F44 = 44 U19F45 = 45
        U18F46 = 46 U17F47 = 47 U16F48 = 48 U15F49 = 49 U14F50 = 50 U13F51 = 51 U12F52 = 52 U11F53 = 53 U10F54 = 54
        U9F55 = 55 U8F56 = 56 U7F57 = 57 U6F58 = 58 U5F59 = 59 U4F60 = 60 U3F61 = 61 U2F62 = 62 U1F63 = 63 U0F64 = 64;
}

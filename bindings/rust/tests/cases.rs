//! The request's cases, and each kind of call, through the archive.

use tamqoret::signed::{self, I1F7, I1F15, I4F4, I8F0, I16F16};
use tamqoret::unsigned::{self, U0F8, U8F0, U8F8};
use tamqoret::{Error, Text};

#[test]
fn reading() {
    assert_eq!(I4F4.read("7.96875", 10), Err(Error::Overflow));
    assert_eq!(I4F4.read("-8.03125", 10), Ok(-128));
    assert_eq!((I4F4.read("0.03125", 10), I4F4.read("0.09375", 10)), (Ok(0), Ok(2)));
    assert_eq!(I8F0.wrapping_read("127.5", 10), Ok(-128));
    assert_eq!(I8F0.saturating_read("127.5", 10), Ok(127));
    assert_eq!(I8F0.overflowing_read("127.5", 10), Ok((-128, true)));
    assert_eq!(I8F0.read("-128.5", 10), Ok(-128));
    assert_eq!((U8F0.read("-0.4", 10), U8F0.read("-0.6", 10)), (Ok(0), Err(Error::Overflow)));
    assert_eq!((I1F15.read("-1", 10), I1F15.read("1", 10)), (Ok(-32768), Err(Error::Overflow)));
    assert_eq!((I1F15.read("0.99998", 10), I1F15.read("0.99999", 10)), (Ok(32767), Err(Error::Overflow)));
    assert_eq!(I16F16.read("ff.8", 16), Ok(0xff_8000));
    assert_eq!(I1F15.read("0", 7), Err(Error::WrongRadix));
    assert_eq!(I1F15.read([b'0'; 4097], 10), Err(Error::TooLong));
}

#[test]
fn literals() {
    assert_eq!(I1F15.read_literal("+1"), Err(Error::MisplacedSign));
    assert_eq!(I1F15.read_literal("0x-1"), Err(Error::MisplacedSign));
    assert_eq!(I1F15.read_literal(""), Err(Error::NoDigits));
    assert_eq!((I1F15.read_literal("-"), U8F8.read_literal("-")), (Err(Error::NoDigits), Err(Error::MisplacedSign)));
    assert_eq!(I1F15.read_literal("0X1"), Err(Error::InvalidDigit));
    assert_eq!(I1F15.read_literal("0x_0.8"), Ok(16384));
    assert_eq!(I1F15.read_literal("1_e-1_"), Ok(3277));
}

#[test]
fn texts() {
    assert_eq!(I1F15.text(1).as_deref(), Ok("0.000030517578125"));
    assert_eq!(I1F15.text(-32768).map(|t: Text| t.to_string()), Ok("-1".to_string()));
    let mut out = [b'#'; 6];
    assert_eq!(I1F15.write(16384, &mut out), Ok(3));
    assert_eq!(&out, b"0.5###");
    assert_eq!(I1F15.write(1, &mut out), Err(Error::WrongLength));
    assert_eq!(&out, b"0.5###");
    assert_eq!(signed::I0F64.text(i64::MIN + 1).map(|t| t.len()), Ok(67));
    for raw in -32768..32768 {
        assert_eq!(I1F15.text(raw).and_then(|text| I1F15.read(&*text, 10)), Ok(raw));
    }
}

#[test]
fn arithmetic() {
    let most = i64::from(i32::MAX);
    assert_eq!(I16F16.wrapping_add(most, 1), Ok(i64::from(i32::MIN)));
    assert_eq!(I16F16.swap_bytes(0x1234_5678), Ok(0x7856_3412));
    assert_eq!((I16F16.mul(-1, 1), I16F16.div(-1, 2 << 16)), (Ok(-1), Ok(0)));
    assert_eq!((I16F16.div(1, 0), U8F8.rem(1, 0)), (Err(Error::ZeroDivisor), Err(Error::ZeroDivisor)));
    assert_eq!((I8F0.rem(-7, 3), U8F0.overflowing_sub(1, 2)), (Ok(-1), Ok((255, true))));
    assert_eq!((I1F7.neg(-128), I1F7.saturating_neg(-128)), (Err(Error::Overflow), Ok(127)));
    assert_eq!((I8F0.shr(-3, 1), I8F0.shl(1, 8)), (Ok(-2), Err(Error::Overflow)));
    assert_eq!((I8F0.wrapping_shl(1, 9), I8F0.overflowing_shr(4, 9)), (Ok(2), Ok((2, true))));
    assert_eq!([1, 2, 3, 25, 26].map(|raw| U0F8.log10(raw)), [Ok(-3), Ok(-3), Ok(-2), Ok(-2), Ok(-1)]);
    assert_eq!((U8F8.log10(0), I4F4.log10(-1)), (Err(Error::NotPositive), Err(Error::NotPositive)));
}

#[test]
fn bytes() {
    let mut out = [9; 3];
    assert_eq!((I1F15.to_be_bytes(-2, &mut out), out), (Ok(2), [255, 254, 9]));
    assert_eq!((I1F15.to_le_bytes(-2, &mut out), out), (Ok(2), [254, 255, 9]));
    assert_eq!((I1F15.from_be_bytes(&out[..2]), I1F15.from_le_bytes(&out[..2])), (Ok(-257), Ok(-2)));
    assert_eq!(
        (I1F15.from_be_bytes(&out), I1F15.to_le_bytes(0, &mut out[..1])),
        (Err(Error::WrongLength), Err(Error::WrongLength))
    );
}

#[test]
fn conversions() {
    assert_eq!(I1F15.to_signed(-1, I1F7), Ok(-1));
    assert_eq!((I1F7.to_signed(-1, I1F15), I1F15.to_unsigned(-1, U8F8)), (Ok(-256), Err(Error::Overflow)));
    assert_eq!(
        (I1F15.saturating_to_unsigned(-256, U8F8), U8F8.overflowing_to_signed(256, I1F7)),
        (Ok(0), Ok((-128, true)))
    );
    assert_eq!((I1F15.from_f32(0.5), I1F15.from_f64(-1.0)), (Ok(16384), Ok(-32768)));
    assert_eq!((I8F0.from_f64(2.5), I8F0.from_f64(-0.0), U8F0.from_f32(-0.4)), (Ok(2), Ok(0), Ok(0)));
    assert_eq!(I8F0.from_f64(f64::NAN), Err(Error::NotFinite));
    assert_eq!(
        (I8F0.saturating_from_f32(f32::NEG_INFINITY), I8F0.wrapping_from_f64(f64::INFINITY)),
        (Ok(-128), Err(Error::NotFinite))
    );
    assert_eq!((I1F15.to_f32(-16384), I1F15.to_f64(1)), (Ok(-0.5), Ok(2f64.powi(-15))));
    assert_eq!(I1F15.to_f64(0).map(f64::to_bits), Ok(0));
}

#[test]
fn formats_that_are_none() {
    assert_eq!(signed::Format::new(24, 30).add(1, 1), Err(Error::WrongWidth));
    assert_eq!(unsigned::Format::new(16, 17).text(1).err(), Some(Error::WrongFrac));
    assert_eq!(signed::Format::new(8, 9).to_signed(1, signed::Format::new(9, 1)), Err(Error::WrongWidth));
}

#[test]
fn refusals_have_numbers_and_words() {
    for number in (1..=5).chain(10..=19).chain(30..=32).chain([40, 41]) {
        assert_eq!(Error::of(number).number(), number);
        assert!(!matches!(Error::of(number), Error::Unknown(_)));
    }
    assert_eq!(Error::ZeroDivisor.to_string(), "a zero divisor");
    assert_eq!(Error::of(7), Error::Unknown(7));
}

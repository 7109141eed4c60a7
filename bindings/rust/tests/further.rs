//! Whole numbers of a format and more arithmetic, through the archive.

use tamqoret::Error;
use tamqoret::signed::{I0F8, I1F7, I4F4, I8F0};
use tamqoret::unsigned::{U4F4, U8F0};

#[test]
fn whole_numbers() {
    // -2.5 and 2.5
    assert_eq!((I4F4.floor(-40), I4F4.ceil(-40)), (Ok(-48), Ok(-32)));
    assert_eq!((I4F4.round(-40), I4F4.round_ties_even(-40)), (Ok(-48), Ok(-32)));
    assert_eq!((U4F4.floor(40), U4F4.ceil(40)), (Ok(32), Ok(48)));
    assert_eq!((U4F4.round(40), U4F4.round_ties_even(40)), (Ok(48), Ok(32)));
    assert_eq!((I4F4.int(-40), I4F4.frac(-40)), (Ok(-48), Ok(8)));
    assert_eq!((I0F8.int(-40), I0F8.frac(-40)), (Ok(0), Ok(-40)));
    assert_eq!((I4F4.ceil(127), I4F4.saturating_ceil(127)), (Err(Error::Overflow), Ok(127)));
    assert_eq!((I4F4.wrapping_ceil(127), U4F4.overflowing_round(255)), (Ok(-128), Ok((0, true))));
}

#[test]
fn signs() {
    assert_eq!((I4F4.abs(-40), I4F4.abs(-128), I4F4.saturating_abs(-128)), (Ok(40), Err(Error::Overflow), Ok(127)));
    assert_eq!([-40, 0, 40].map(|a| I4F4.signum(a)), [Ok(-16), Ok(0), Ok(16)]);
    assert_eq!((I1F7.signum(5), U4F4.signum(5)), (Err(Error::Overflow), Ok(16)));
}

#[test]
fn divisions() {
    assert_eq!((I8F0.div_euclid(-7, 2), I8F0.rem_euclid(-7, 2)), (Ok(-4), Ok(1)));
    assert_eq!((I8F0.div_euclid(-7, -2), U8F0.rem_euclid(7, 4)), (Ok(4), Ok(3)));
    assert_eq!((I8F0.rem_euclid(1, 0), U8F0.div_euclid(1, 0)), (Err(Error::ZeroDivisor), Err(Error::ZeroDivisor)));
}

#[test]
fn of_two_and_three() {
    assert_eq!((I8F0.dist(-100, 27), I8F0.dist(-100, 100)), (Ok(127), Err(Error::Overflow)));
    assert_eq!((I8F0.mean(-3, 0), U8F0.mean(255, 254)), (Ok(-2), Ok(254)));
    assert_eq!((I8F0.mul_add(20, 10, -100), I8F0.mul_add(20, 10, 0)), (Ok(100), Err(Error::Overflow)));
    assert_eq!(I4F4.mul_add(-1, 1, 0), Ok(-1));
}

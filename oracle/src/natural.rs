//! Natural numbers of any size: just what the exact model needs, written plainly.

/// Base 2^64, least place first, no zero at the top; zero has no places.
#[derive(Clone, Debug, Default, PartialEq, Eq)]
pub struct Natural {
    places: Vec<u64>,
}

impl Natural {
    pub fn is_zero(&self) -> bool {
        self.places.is_empty()
    }

    /// self := self x factor + addend
    pub fn multiply_add(&mut self, factor: u64, addend: u64) {
        let mut carry = addend;
        for place in &mut self.places {
            let sum = u128::from(*place) * u128::from(factor) + u128::from(carry);
            *place = sum as u64;
            carry = (sum >> 64) as u64;
        }
        if carry != 0 {
            self.places.push(carry);
        }
        self.trim();
    }

    /// self := floor(self / divisor); answers whether something was left over.
    pub fn divide(&mut self, divisor: u64) -> bool {
        let mut rest: u64 = 0;
        for place in self.places.iter_mut().rev() {
            let part = (u128::from(rest) << 64) | u128::from(*place);
            *place = (part / u128::from(divisor)) as u64;
            rest = (part % u128::from(divisor)) as u64;
        }
        self.trim();
        rest != 0
    }

    /// self := self x 2^count
    pub fn double(&mut self, count: u64) {
        if self.is_zero() {
            return;
        }
        self.multiply_add(1 << (count % 64), 0);
        let zeros = (count / 64) as usize;
        self.places.splice(0..0, std::iter::repeat_n(0, zeros));
    }

    /// self := floor(self / 2^count); answers whether something was left over.
    pub fn halve(&mut self, count: u64) -> bool {
        let whole = ((count / 64) as usize).min(self.places.len());
        let dropped = self.places.drain(0..whole).any(|place| place != 0);
        let left_over = self.divide(1 << (count % 64));
        dropped || left_over
    }

    pub fn is_odd(&self) -> bool {
        self.places.first().is_some_and(|place| place % 2 == 1)
    }

    /// The number modulo 2^64.
    pub fn low(&self) -> u64 {
        self.places.first().copied().unwrap_or(0)
    }

    /// The number, if it is below 2^64.
    pub fn small(&self) -> Option<u64> {
        (self.places.len() <= 1).then(|| self.low())
    }

    fn trim(&mut self) {
        while self.places.last() == Some(&0) {
            self.places.pop();
        }
    }
}

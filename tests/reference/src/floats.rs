//! "From float to grid": a float's exact value, the limits on it, its whole number of 1/10,000.

use crate::nearest;

/// The exact value of a finite float, from its bits: size / 2^shift, with a sign.
#[derive(Clone, Copy)]
pub struct Exact {
    negative: bool,
    size: u128,
    shift: u32,
}

/// A float that is not a number, an infinity, or has an exact value.
#[derive(Clone, Copy)]
pub enum Value {
    NotANumber,
    Infinite,
    Finite(Exact),
}

pub fn value(x: f32) -> Value {
    let bits = x.to_bits();
    let negative = bits >> 31 == 1;
    let exponent = bits >> 23 & 0xff;
    let fraction = u128::from(bits & 0x7f_ffff);
    match exponent {
        255 if fraction != 0 => Value::NotANumber,
        255 => Value::Infinite,
        // a subnormal: fraction × 2^-149
        0 => Value::Finite(Exact { negative, size: fraction, shift: 149 }),
        // (2^23 + fraction) × 2^(exponent - 150)
        1..=149 => Value::Finite(Exact { negative, size: (1 << 23) + fraction, shift: 150 - exponent }),
        _ => Value::Finite(Exact { negative, size: ((1 << 23) + fraction) << (exponent - 150), shift: 0 }),
    }
}

impl Exact {
    /// Compares size / 2^shift with halves / 2.
    fn size_against(self, halves: u128) -> std::cmp::Ordering {
        if self.shift > 100 {
            // the size is below 2^24, so the value is below 2^-76
            return if halves == 0 { self.size.cmp(&0) } else { std::cmp::Ordering::Less };
        }
        match self.size.checked_mul(2) {
            Some(doubled) => doubled.cmp(&(halves << self.shift)),
            None => std::cmp::Ordering::Greater,
        }
    }

    /// Compares the value with halves / 2.
    fn against(self, halves: i32) -> std::cmp::Ordering {
        let bound = u128::from(halves.unsigned_abs());
        match (self.negative && self.size != 0, halves < 0) {
            (false, false) => self.size_against(bound),
            (true, true) => self.size_against(bound).reverse(),
            (true, false) => std::cmp::Ordering::Less,
            (false, true) => std::cmp::Ordering::Greater,
        }
    }

    /// Whether the value lies from low / 2 to high / 2, both accepted.
    pub fn within(self, low: i32, high: i32) -> bool {
        self.against(low).is_ge() && self.against(high).is_le()
    }

    /// Whether the value lies exactly between two neighbouring whole numbers of 1/10,000, that is,
    /// 20,000 times the value is an odd whole number. No number without binary places is such.
    fn is_tie(self) -> bool {
        self.shift > 0 && self.size > 0 && (20_000 * self.size).trailing_zeros() == self.shift
    }

    /// The nearest whole number of 1/10,000. For values within limits only.
    pub fn grid(self) -> i128 {
        // past 2^-76 the value is far below half a unit
        let size = if self.shift > 100 { 0 } else { nearest(10_000 * self.size, 1 << self.shift) };
        if self.negative { -(size as i128) } else { size as i128 }
    }
}

/// The grid number of a float whose exact value is from low / 2 to high / 2; none otherwise.
pub fn limited(x: f32, low: i32, high: i32) -> Option<i128> {
    match value(x) {
        Value::Finite(v) if v.within(low, high) => Some(v.grid()),
        _ => None,
    }
}

pub fn is_finite(x: f32) -> bool {
    matches!(value(x), Value::Finite(_))
}

/// Whether a float lies exactly between two neighbouring whole numbers of 1/10,000.
pub fn is_tie(x: f32) -> bool {
    matches!(value(x), Value::Finite(v) if v.is_tie())
}

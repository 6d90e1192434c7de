//! The two tables of steps 4 and 11, from their series, in whole numbers of 10^-24.

use crate::nearest;
use std::sync::LazyLock;

const TRILLION: u128 = 1_000_000_000_000;
/// 1 in units of 10^-24.
const ONE: u128 = TRILLION * TRILLION;
/// 3.14159265358979323846 in units of 10^-24.
const PI: u128 = 314_159_265_358_979_323_846 * 10_000;

/// What becomes of the remainder of a division. The tables do not depend on it: see `steady`.
#[derive(Clone, Copy, PartialEq)]
pub enum Remainder {
    Dropped,
    RoundedUp,
}

fn divide(n: u128, d: u128, remainder: Remainder) -> u128 {
    match remainder {
        Remainder::Dropped => n / d,
        Remainder::RoundedUp => n.div_ceil(d),
    }
}

/// x × y / 10^24. Both factors are cut into digits of 10^12, so that 128 bits are enough.
fn product(x: u128, y: u128, remainder: Remainder) -> u128 {
    let (x1, x0, y1, y0) = (x / TRILLION, x % TRILLION, y / TRILLION, y % TRILLION);
    let middle = x1 * y0 + x0 * y1 + divide(x0 * y0, TRILLION, remainder);
    x1 * y1 + divide(middle, TRILLION, remainder)
}

/// The sine of a number of tenths of a degree, in 10^-9: x - x^3/3! + x^5/5! - .. + x^25/25!.
pub fn sine_entry(tenths: u128, remainder: Remainder) -> u128 {
    let x = divide(tenths * PI, 1800, remainder);
    let square = product(x, x, remainder);
    let (mut added, mut taken, mut term) = (x, 0, x);
    for power in (3..=25).step_by(2) {
        term = divide(product(term, square, remainder), power * (power - 1), remainder);
        if power % 4 == 3 {
            taken += term;
        } else {
            added += term;
        }
    }
    nearest(added - taken, ONE / 1_000_000_000)
}

/// 1 over the series of e^v through power 120, v = j² / 62,500, in 10^-9.
pub fn bell_entry(j: u128, remainder: Remainder) -> u128 {
    let v = j * j * (ONE / 62_500);
    let (mut sum, mut term) = (ONE, ONE);
    for power in 1..=120 {
        term = divide(product(term, v, remainder), power, remainder);
        sum += term;
    }
    nearest(1_000_000_000 * ONE, sum)
}

pub const SINES: u128 = 901;
pub const BELLS: u128 = 1201;

pub static SINE: LazyLock<Vec<i128>> =
    LazyLock::new(|| (0..SINES).map(|k| sine_entry(k, Remainder::Dropped) as i128).collect());
pub static BELL: LazyLock<Vec<i128>> =
    LazyLock::new(|| (0..BELLS).map(|j| bell_entry(j, Remainder::Dropped) as i128).collect());

/// Whether every entry is the same with each remainder dropped and with each rounded up.
pub fn steady() -> bool {
    (0..SINES).all(|k| sine_entry(k, Remainder::Dropped) == sine_entry(k, Remainder::RoundedUp))
        && (0..BELLS).all(|j| bell_entry(j, Remainder::Dropped) == bell_entry(j, Remainder::RoundedUp))
}

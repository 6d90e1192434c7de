//! An exact reference of docs/WORKING.md in 128-bit integers, which shares nothing with the proved
//! code. The checks hold that code to it. It is compiled with overflow checks.

pub mod calls;
pub mod cases;
pub mod deck;
pub mod deck_file;
pub mod double;
pub mod floats;
pub mod lab_cases;
pub mod lab_text;
pub mod program;
pub mod random;
pub mod tables;
pub mod tally;
pub mod text;
pub mod working;

/// The nearest whole number to n / d, a half going to the even neighbour (n is a size, without sign).
/// The only place that decides about a half. No entry of the tables comes near one.
pub fn nearest(n: u128, d: u128) -> u128 {
    let (up, left) = ((2 * n + d) / (2 * d), (2 * n + d) % (2 * d));
    // nothing left: n / d is up less a half
    if left == 0 && up % 2 == 1 { up - 1 } else { up }
}

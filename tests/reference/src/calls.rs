//! The calls on readings, with refusals 1 to 5 in their order. An answer is the whole number
//! of millionths.

use crate::floats::{is_finite, limited};
use crate::working::{self, Cie94, FIGURES, Lab, Weights};

pub type Reading = [f32; 3];
/// A refusal number.
pub type Refusal = u32;

/// Limits in halves.
const LIGHTNESS: (i32, i32) = (0, 200);
const PLANE: (i32, i32) = (-256, 256);
const WEIGHT: (i32, i32) = (1, 20);
const TOLERANCE: (i32, i32) = (0, 200);

pub fn sample([l, a, b]: Reading) -> Result<Lab, Refusal> {
    if ![l, a, b].into_iter().all(is_finite) {
        return Err(1);
    }
    let l = limited(l, LIGHTNESS.0, LIGHTNESS.1).ok_or(2u32)?;
    match (limited(a, PLANE.0, PLANE.1), limited(b, PLANE.0, PLANE.1)) {
        (Some(a), Some(b)) => Ok(Lab { l, a, b }),
        _ => Err(3),
    }
}

pub fn weights(k: [f32; 3]) -> Result<Weights, Refusal> {
    match k.map(|k| limited(k, WEIGHT.0, WEIGHT.1)) {
        [Some(l), Some(c), Some(h)] => Ok(Weights { l, c, h }),
        _ => Err(4),
    }
}

pub fn tolerance(t: f32) -> Result<i128, Refusal> {
    limited(t, TOLERANCE.0, TOLERANCE.1).ok_or(5)
}

/// The double that a caller gets for a number of millionths.
pub fn double(millionths: i128) -> f64 {
    millionths as f64 / 1_000_000.0
}

/// The verdict's rule.
pub fn is_within(millionths: i128, tolerance: i128) -> bool {
    millionths <= 100 * tolerance
}

pub fn cie76(r1: Reading, r2: Reading) -> Result<i128, Refusal> {
    let (s1, s2) = (sample(r1)?, sample(r2)?);
    Ok(working::cie76(s1, s2))
}

pub fn cie94(r1: Reading, r2: Reading, k: [f32; 3], kind: Cie94) -> Result<i128, Refusal> {
    let (s1, s2) = (sample(r1)?, sample(r2)?);
    Ok(working::cie94(s1, s2, weights(k)?, kind))
}

pub fn figures(r1: Reading, r2: Reading, k: [f32; 3]) -> Result<[i128; FIGURES], Refusal> {
    let (s1, s2) = (sample(r1)?, sample(r2)?);
    Ok(working::figures(s1, s2, weights(k)?))
}

pub fn ciede2000(r1: Reading, r2: Reading, k: [f32; 3]) -> Result<i128, Refusal> {
    Ok(figures(r1, r2, k)?[FIGURES - 1])
}

pub fn verdict(r1: Reading, r2: Reading, k: [f32; 3], t: f32) -> Result<(i128, bool), Refusal> {
    let (s1, s2) = (sample(r1)?, sample(r2)?);
    let (k, t) = (weights(k)?, tolerance(t)?);
    let millionths = working::ciede2000(s1, s2, k);
    Ok((millionths, is_within(millionths, t)))
}

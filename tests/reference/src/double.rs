//! CIEDE2000 in double precision, from the equations of source 001 (2 to 22), and CIE94 from source
//! 002; from nothing of the whole-number working.

use crate::working::{Cie94, Lab, Weights};

/// A pair and its weights, in grid numbers, as the doubles that the functions below take.
pub fn doubles(s1: Lab, s2: Lab, k: Weights) -> [[f64; 3]; 3] {
    let of = |x: [i128; 3]| x.map(|x| x as f64 / 10_000.0);
    [of([s1.l, s1.a, s1.b]), of([s2.l, s2.a, s2.b]), of([k.l, k.c, k.h])]
}

/// Hues this near to half a turn apart are taken as exactly so: arctangents of doubles are off by
/// about 10^-13 degree, and the nearest hues of grid numbers that are not exactly opposite differ
/// from half a turn by more than 10^-11.
const SAME: f64 = 2e-12;

/// The difference of two samples (L, a, b) under weights kL, kC, kH.
pub fn ciede2000(s1: [f64; 3], s2: [f64; 3], k: [f64; 3]) -> f64 {
    let [l1, a1, b1] = s1;
    let [l2, a2, b2] = s2;
    let seventh = |c: f64| (c.powi(7) / (c.powi(7) + 25f64.powi(7))).sqrt();
    // 2 to 7
    let mean_chroma = (a1.hypot(b1) + a2.hypot(b2)) / 2.0;
    let g = 0.5 * (1.0 - seventh(mean_chroma));
    let (a1, a2) = ((1.0 + g) * a1, (1.0 + g) * a2);
    let (c1, c2) = (a1.hypot(b1), a2.hypot(b2));
    let hue = |a: f64, b: f64| if a == 0.0 && b == 0.0 { 0.0 } else { b.atan2(a).to_degrees().rem_euclid(360.0) };
    let (h1, h2) = (hue(a1, b1), hue(a2, b2));
    let grey = c1 * c2 == 0.0;
    // 8 to 11
    let apart = (h2 - h1).abs();
    let far = apart > 180.0 + SAME;
    let dh = match (grey, far) {
        (true, _) => 0.0,
        (_, false) => h2 - h1,
        (_, true) if h2 > h1 => h2 - h1 - 360.0,
        _ => h2 - h1 + 360.0,
    };
    let hue_part = 2.0 * (c1 * c2).sqrt() * (dh / 2.0).to_radians().sin();
    // 12 to 14
    let (mean_l, mean_c) = ((l1 + l2) / 2.0, (c1 + c2) / 2.0);
    let mean_h = match (grey, far) {
        (true, _) => h1 + h2,
        (_, false) => (h1 + h2) / 2.0,
        (_, true) if h1 + h2 < 360.0 => (h1 + h2 + 360.0) / 2.0,
        _ => (h1 + h2 - 360.0) / 2.0,
    };
    // 15 to 21
    let cos = |degrees: f64| degrees.to_radians().cos();
    let t = 1.0 - 0.17 * cos(mean_h - 30.0) + 0.24 * cos(2.0 * mean_h) + 0.32 * cos(3.0 * mean_h + 6.0)
        - 0.20 * cos(4.0 * mean_h - 63.0);
    let d_theta = 30.0 * (-((mean_h - 275.0) / 25.0).powi(2)).exp();
    let rc = 2.0 * seventh(mean_c);
    let from_50 = (mean_l - 50.0).powi(2);
    let sl = 1.0 + 0.015 * from_50 / (20.0 + from_50).sqrt();
    let sc = 1.0 + 0.045 * mean_c;
    let sh = 1.0 + 0.015 * mean_c * t;
    let rt = -(2.0 * d_theta).to_radians().sin() * rc;
    // 22
    let (l, c, h) = ((l2 - l1) / (k[0] * sl), (c2 - c1) / (k[1] * sc), hue_part / (k[2] * sh));
    (l * l + c * c + h * h + rt * c * h).sqrt()
}

/// CIE94; without a standard the geometric mean of both chromas weighs.
pub fn cie94(s1: [f64; 3], s2: [f64; 3], k: [f64; 3], kind: Cie94) -> f64 {
    let (k1, k2) = if kind.textile { (0.048, 0.014) } else { (0.045, 0.015) };
    let (c1, c2) = (s1[1].hypot(s1[2]), s2[1].hypot(s2[2]));
    let (dl, da, db, dc) = (s1[0] - s2[0], s1[1] - s2[1], s1[2] - s2[2], c1 - c2);
    let dh = (da * da + db * db - dc * dc).max(0.0).sqrt();
    let mean = if kind.standard { c1 } else { (c1 * c2).sqrt() };
    let (l, c, h) = (dl / k[0], dc / (k[1] * (1.0 + k1 * mean)), dh / (k[2] * (1.0 + k2 * mean)));
    (l * l + c * c + h * h).sqrt()
}

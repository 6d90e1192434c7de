//! "The working": steps 1 to 12 on grid numbers, CIE76 and CIE94. Rust's division of signed
//! numbers drops the remainder toward zero, as the working's does.

use crate::tables::{BELL, SINE};

/// 10^9, the unit of ratios.
const E9: i128 = 1_000_000_000;
const E18: i128 = E9 * E9;
/// A degree of hue.
const DEGREE: i128 = 1_000_000;
/// A tenth of a degree, the step of both tables.
const TENTH: i128 = 100_000;

/// A sample in grid numbers (1/10,000).
#[derive(Clone, Copy, PartialEq, Debug)]
pub struct Lab {
    pub l: i128,
    pub a: i128,
    pub b: i128,
}

/// Weights in grid numbers.
#[derive(Clone, Copy, PartialEq, Debug)]
pub struct Weights {
    pub l: i128,
    pub c: i128,
    pub h: i128,
}

pub const EVEN: Weights = Weights { l: 10_000, c: 10_000, h: 10_000 };

impl Lab {
    pub fn is_grey(self) -> bool {
        self.a == 0 && self.b == 0
    }
}

/// The largest whole number whose square is at most n.
pub fn root(n: i128) -> i128 {
    assert!(n >= 0, "root of a negative number");
    let mut r = (n as f64).sqrt() as i128;
    while r * r > n {
        r -= 1;
    }
    while (r + 1) * (r + 1) <= n {
        r += 1;
    }
    r
}

/// Step 1.
pub fn chroma(s: Lab) -> i128 {
    root(1_000_000 * (s.a * s.a + s.b * s.b))
}

/// Step 2: the seventh-power ratio of a chroma sum.
pub fn ratio(sum: i128) -> i128 {
    let power = |x: i128| {
        let r = root(E9 * x);
        let p = x * x / E9;
        let p = p * x / E9;
        p * r / E9
    };
    let x = 2 * sum;
    if x <= E9 {
        let p = power(x);
        E9 * p / root(E18 + p * p)
    } else {
        let p = power(E18 / x);
        E18 / root(E18 + p * p)
    }
}

/// A point of the a'-b' plane (10^-7) and its distance from the middle.
#[derive(Clone, Copy)]
pub struct Point {
    pub a: i128,
    pub b: i128,
    pub chroma: i128,
}

/// Step 3.
pub fn primed(s: Lab, z: i128) -> Point {
    let a = s.a * (3 * E9 - z) / 2_000_000;
    let b = 1000 * s.b;
    Point { a, b, chroma: root(a * a + b * b) }
}

/// Step 4, an angle from 0 to 90 degrees.
fn sine_in_first_quadrant(angle: i128) -> i128 {
    let (k, rest) = ((angle / TENTH) as usize, angle % TENTH);
    let (sine, cosine) = (SINE[k], SINE[900 - k]);
    let t = rest * 17_453_293 / 1_000_000;
    let between = (sine * (E9 - t * t / (2 * E9)) + cosine * t) / E9;
    between.clamp(-E9, E9)
}

/// Step 4, any angle (10^-6 degree).
pub fn sine(angle: i128) -> i128 {
    let angle = angle.rem_euclid(360 * DEGREE);
    if angle >= 180 * DEGREE {
        -sine(angle - 180 * DEGREE)
    } else if angle > 90 * DEGREE {
        sine_in_first_quadrant(180 * DEGREE - angle)
    } else {
        sine_in_first_quadrant(angle)
    }
}

pub fn cosine(angle: i128) -> i128 {
    sine(angle + 90 * DEGREE)
}

/// Step 5: the quadrant of a point; a grey one has none.
pub fn quadrant(a: i128, b: i128) -> Option<i128> {
    if a > 0 && b >= 0 {
        Some(0)
    } else if a <= 0 && b > 0 {
        Some(1)
    } else if a < 0 && b <= 0 {
        Some(2)
    } else if a >= 0 && b < 0 {
        Some(3)
    } else {
        None
    }
}

/// Step 5: how far a point of quadrant 0 lies past the tenth k (10^-16).
fn past(x: i128, y: i128, k: usize) -> i128 {
    y * SINE[900 - k] - x * SINE[k]
}

/// Step 5: the largest tenth from 0 to 899 that a point of quadrant 0 is not short of.
/// `past` falls as k grows, so halving finds it; `tenth_by_scan` does not rely on that.
pub fn tenth(x: i128, y: i128) -> usize {
    let (mut low, mut high) = (0, 900);
    while high - low > 1 {
        let middle = (low + high) / 2;
        if past(x, y, middle) >= 0 {
            low = middle;
        } else {
            high = middle;
        }
    }
    low
}

pub fn tenth_by_scan(x: i128, y: i128) -> usize {
    (0..900).rev().find(|&k| past(x, y, k) >= 0).expect("tenth 0 always holds")
}

/// The point turned back into quadrant 0.
pub fn turned(a: i128, b: i128, quadrant: i128) -> (i128, i128) {
    match quadrant {
        0 => (a, b),
        1 => (b, -a),
        2 => (-a, -b),
        _ => (-b, a),
    }
}

/// Step 5: the hue of a point.
pub fn hue(p: Point) -> i128 {
    let Some(q) = quadrant(p.a, p.b) else { return 0 };
    let (x, y) = turned(p.a, p.b, q);
    let k = tenth(x, y);
    let v = past(x, y, k) / p.chroma;
    let rest = 99_999.min(v * 57_295_780 / E9);
    90 * DEGREE * q + k as i128 * TENTH + rest
}

/// Step 6: where two samples stand to each other on the circle.
#[derive(Clone, Copy, PartialEq, Debug)]
pub struct Side {
    /// X, in grid numbers squared.
    pub cross: i128,
    pub second_later: bool,
    pub first_later: bool,
    pub far: bool,
    /// Exactly opposite hues (step 7).
    pub opposite: bool,
}

pub fn side(s1: Lab, s2: Lab) -> Side {
    let cross = s1.a * s2.b - s2.a * s1.b;
    let (second_later, first_later, opposite) = match (quadrant(s1.a, s1.b), quadrant(s2.a, s2.b)) {
        (Some(q1), Some(q2)) if q1 == q2 => (cross > 0, cross < 0, false),
        (Some(q1), Some(q2)) => (q2 > q1, q1 > q2, cross == 0),
        _ => (false, false, false),
    };
    let far = second_later && cross < 0 || first_later && cross > 0;
    Side { cross, second_later, first_later, far, opposite }
}

/// Step 7: the hue part, signed, from points of either plane.
pub fn hue_part(s1: Lab, s2: Lab, p1: Point, p2: Point) -> i128 {
    let side = side(s1, s2);
    if s1.is_grey() || s2.is_grey() || side.cross == 0 && !side.opposite {
        return 0;
    }
    let d = p1.a * p2.a + p1.b * p2.b;
    let cross = p1.a * p2.b - p2.a * p1.b;
    let size = if d >= 0 {
        cross.abs() / root((p1.chroma * p2.chroma + d) / 2)
    } else {
        2 * root((p1.chroma * p2.chroma - d) / 2)
    };
    let plus = if side.opposite { side.second_later } else { side.cross > 0 };
    if plus { size } else { -size }
}

/// Step 8.
pub fn mean_hue(s1: Lab, s2: Lab, h1: i128, h2: i128) -> i128 {
    let sum = h1 + h2;
    if s1.is_grey() || s2.is_grey() {
        sum
    } else if !side(s1, s2).far {
        sum / 2
    } else if sum < 360 * DEGREE {
        (sum + 360 * DEGREE) / 2
    } else {
        (sum - 360 * DEGREE) / 2
    }
}

/// Step 9.
pub fn hue_weight(h: i128) -> i128 {
    E9 - 17 * cosine(h - 30 * DEGREE) / 100 + 24 * cosine(2 * h) / 100 + 32 * cosine(3 * h + 6 * DEGREE) / 100
        - 20 * cosine(4 * h - 63 * DEGREE) / 100
}

/// Step 10: SL.
pub fn lightness_weight(l1: i128, l2: i128) -> i128 {
    let m = l1 + l2 - 1_000_000;
    E9 + 750_000 * m * m / root(1_000_000 * (m * m + 8 * E9))
}

/// Step 11: the bell at a distance from 275 degrees.
pub fn bell(distance: i128) -> i128 {
    if distance >= 120 * DEGREE {
        return 0;
    }
    let (j, rest) = ((distance / TENTH) as usize, distance % TENTH);
    BELL[j] - (BELL[j] - BELL[j + 1]) * rest / TENTH
}

/// Step 11: R, of the mean hue and the sum of primed chromas.
pub fn rotation(mean_hue: i128, sum: i128) -> i128 {
    let angle = 6 * bell((mean_hue - 275 * DEGREE).abs()) / 100;
    2 * ratio(sum) * sine(angle) / E9
}

/// Step 12: the signed parts and the difference.
#[derive(Clone, Copy, PartialEq, Debug)]
pub struct Parts {
    pub l: i128,
    pub c: i128,
    pub h: i128,
    pub difference: i128,
}

/// SL, SC, SH.
type Scales = (i128, i128, i128);

fn parts(dl: i128, dc: i128, dh: i128, (sl, sc, sh): Scales, k: Weights, r: i128) -> Parts {
    let part = |difference: i128, unit: i128, k: i128, s: i128| {
        difference.signum() * (difference.abs() * unit / (k * s / 10_000))
    };
    let l = part(dl, 100 * E9, k.l, sl);
    let c = part(dc, E9 / 10, k.c, sc);
    let h = part(dh, E9 / 10, k.h, sh);
    Parts { l, c, h, difference: root(l * l + c * c + h * h - c * (h * r / E9)) }
}

pub const FIGURES: usize = 23;

pub const FIGURE_NAMES: [&str; FIGURES] = [
    "C1",
    "a1'",
    "b1'",
    "C1'",
    "h1",
    "C2",
    "a2'",
    "b2'",
    "C2'",
    "h2",
    "Z",
    "far",
    "H",
    "mean hue",
    "T",
    "SL",
    "SC",
    "SH",
    "R",
    "l",
    "c",
    "h",
    "CIEDE2000",
];

/// All figures of the second call, in the order of `FIGURE_NAMES`.
pub fn figures(s1: Lab, s2: Lab, k: Weights) -> [i128; FIGURES] {
    let (c1, c2) = (chroma(s1), chroma(s2));
    let z = ratio(c1 + c2);
    let (p1, p2) = (primed(s1, z), primed(s2, z));
    let (h1, h2) = (hue(p1), hue(p2));
    let far = side(s1, s2).far;
    let dh = hue_part(s1, s2, p1, p2);
    let mean = mean_hue(s1, s2, h1, h2);
    let t = hue_weight(mean);
    let s = p1.chroma + p2.chroma;
    let sl = lightness_weight(s1.l, s2.l);
    let sc = E9 + 45 * s / 20;
    let sh = E9 + (3 * s / 4) * t / E9;
    let r = rotation(mean, s);
    let p = parts(s2.l - s1.l, p2.chroma - p1.chroma, dh, (sl, sc, sh), k, r);
    [
        c1,
        p1.a,
        p1.b,
        p1.chroma,
        h1,
        c2,
        p2.a,
        p2.b,
        p2.chroma,
        h2,
        z,
        far as i128,
        dh,
        mean,
        t,
        sl,
        sc,
        sh,
        r,
        p.l,
        p.c,
        p.h,
        p.difference,
    ]
}

pub fn ciede2000(s1: Lab, s2: Lab, k: Weights) -> i128 {
    figures(s1, s2, k)[FIGURES - 1]
}

pub fn cie76(s1: Lab, s2: Lab) -> i128 {
    let (dl, da, db) = (s2.l - s1.l, s2.a - s1.a, s2.b - s1.b);
    root(10_000 * (dl * dl + da * da + db * db))
}

/// What the caller of CIE94 says: which constants, and whether sample 1 is a standard.
#[derive(Clone, Copy, PartialEq, Debug)]
pub struct Cie94 {
    pub textile: bool,
    pub standard: bool,
}

impl Cie94 {
    pub const ALL: [Cie94; 4] = [
        Cie94 { textile: false, standard: true },
        Cie94 { textile: true, standard: true },
        Cie94 { textile: false, standard: false },
        Cie94 { textile: true, standard: false },
    ];
}

pub fn cie94(s1: Lab, s2: Lab, k: Weights, kind: Cie94) -> i128 {
    let (first, second) = if kind.textile { (48, 14) } else { (45, 15) };
    let point = |s: Lab| Point { a: 1000 * s.a, b: 1000 * s.b, chroma: chroma(s) };
    let (p1, p2) = (point(s1), point(s2));
    let weighting = if kind.standard { p1.chroma } else { root(p1.chroma * p2.chroma) };
    let scales = (E9, E9 + first * weighting / 10, E9 + second * weighting / 10);
    let dh = hue_part(s1, s2, p1, p2);
    parts(s2.l - s1.l, p2.chroma - p1.chroma, dh, scales, k, 0).difference
}

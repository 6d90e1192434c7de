//! The pairs on which the checks compare: random ones of several kinds, and source 001's Table I.

use crate::calls::Reading;
use crate::random::Random;
use crate::working::Lab;

/// The float that stands for a grid number; its own grid number is that number again.
pub fn float(grid: i128) -> f32 {
    (grid as f64 / 10_000.0) as f32
}

/// The floats from 0 to 128 that lie exactly between two whole numbers of 1/10,000: the odd multiples
/// of 1/32. checks/ties.rs holds all floats against this.
pub fn ties() -> impl Iterator<Item = f32> {
    (1..128 * 32).step_by(2).map(|n| n as f32 / 32.0)
}

pub fn reading(s: Lab) -> Reading {
    [s.l, s.a, s.b].map(float)
}

const MOST: i64 = 1_280_000;

#[derive(Clone, Copy, PartialEq, Debug)]
pub enum Kind {
    WholeRange,
    AnyFloat,
    Close,
    NearGrey,
    OneGrey,
    Opposite,
    NextToOpposite,
    SameHue,
    Equal,
    Limits,
    Axes,
    Blue,
}

pub const KINDS: [Kind; 12] = [
    Kind::WholeRange,
    Kind::AnyFloat,
    Kind::Close,
    Kind::NearGrey,
    Kind::OneGrey,
    Kind::Opposite,
    Kind::NextToOpposite,
    Kind::SameHue,
    Kind::Equal,
    Kind::Limits,
    Kind::Axes,
    Kind::Blue,
];

fn lab(l: i64, a: i64, b: i64) -> Lab {
    let plane = |x: i64| i128::from(x.clamp(-MOST, MOST));
    Lab { l: i128::from(l.clamp(0, 1_000_000)), a: plane(a), b: plane(b) }
}

fn anywhere(r: &mut Random) -> Lab {
    lab(r.from(0, 1_000_000), r.from(-MOST, MOST), r.from(-MOST, MOST))
}

/// Within `size` of a sample in every coordinate.
fn near(s: Lab, size: i64, r: &mut Random) -> Lab {
    let mut moved = |x: i128| x as i64 + r.from(-size, size);
    lab(moved(s.l), moved(s.a), moved(s.b))
}

/// Two whole multiples of one direction, the second one turned round if asked.
fn along(opposite: bool, r: &mut Random) -> (Lab, Lab) {
    let size = r.pick(&[1, 10, 1000, 100_000, MOST]);
    let (u, v) = (r.from(-size, size), r.from(-size, size));
    let most = MOST / u.abs().max(v.abs()).max(1);
    let (p, q) = (r.from(1, most), r.from(1, most));
    let q = if opposite { -q } else { q };
    (lab(r.from(0, 1_000_000), p * u, p * v), lab(r.from(0, 1_000_000), q * u, q * v))
}

/// A pair of grid numbers of a kind.
fn grid_pair(kind: Kind, r: &mut Random) -> (Lab, Lab) {
    match kind {
        Kind::WholeRange | Kind::AnyFloat => (anywhere(r), anywhere(r)),
        Kind::Close => {
            let s = anywhere(r);
            let size = r.pick(&[1, 100, 10_000, 100_000]);
            (s, near(s, size, r))
        }
        Kind::NearGrey => {
            let grey = lab(r.from(0, 1_000_000), 0, 0);
            let size = r.pick(&[1, 2, 30, 1000, 30_000]);
            (near(grey, size, r), near(grey, size, r))
        }
        Kind::OneGrey => {
            let (grey, other) = (lab(r.from(0, 1_000_000), 0, 0), anywhere(r));
            if r.one_in(2) { (grey, other) } else { (other, grey) }
        }
        Kind::Opposite => along(true, r),
        Kind::NextToOpposite => {
            let (s1, s2) = along(true, r);
            let (da, db) = r.pick(&[(1, 0), (-1, 0), (0, 1), (0, -1)]);
            (s1, lab(s2.l as i64, s2.a as i64 + da, s2.b as i64 + db))
        }
        Kind::SameHue => along(false, r),
        Kind::Equal => {
            let s = anywhere(r);
            (s, s)
        }
        Kind::Limits => {
            let mut at = || {
                lab(r.pick(&[0, 1, 999_999, 1_000_000]), r.pick(&[-MOST, 0, 1, MOST]), r.pick(&[-MOST, -1, 0, MOST]))
            };
            (at(), at())
        }
        Kind::Axes => {
            let mut on = || {
                let size = r.pick(&[1, 1000, MOST]);
                let x = r.from(-size, size);
                let (l, off) = (r.from(0, 1_000_000), r.from(-1, 1));
                if r.one_in(2) { lab(l, x, off) } else { lab(l, off, x) }
            };
            (on(), on())
        }
        // hues around 275 degrees, chroma sums around twice 25
        Kind::Blue => {
            let mut blue = || {
                let (hue, chroma) = (r.from(150_000, 360_000) as f64 / 1000.0, r.from(150_000, 400_000) as f64);
                let (sine, cosine) = hue.to_radians().sin_cos();
                lab(r.from(0, 1_000_000), (chroma * cosine) as i64, (chroma * sine) as i64)
            };
            (blue(), blue())
        }
    }
}

/// A pair of readings of a kind.
pub fn pair(kind: Kind, r: &mut Random) -> (Reading, Reading) {
    let (s1, s2) = grid_pair(kind, r);
    let (mut r1, mut r2) = (reading(s1), reading(s2));
    if kind == Kind::AnyFloat {
        // floats between grid numbers
        for (x, most) in r1.iter_mut().chain(&mut r2).zip([100.0f32, 128.0, 128.0].into_iter().cycle()) {
            let moved = *x + (r.from(-1000, 1000) as f32) * 1e-7;
            *x = moved.clamp(if most == 100.0 { 0.0 } else { -most }, most);
        }
    }
    (r1, r2)
}

/// Weights: all 1 in half of the cases, else each within or at its limits.
pub fn weights(r: &mut Random) -> [f32; 3] {
    if r.one_in(2) {
        return [1.0; 3];
    }
    [0; 3].map(|_| match r.below(8) {
        0 => 0.5,
        1 => 10.0,
        _ => float(i128::from(r.from(5_000, 100_000))),
    })
}

/// A row of Table I: the pair, its two samples, CIEDE2000 in ten-thousandths.
pub struct Row {
    pub pair: usize,
    pub s1: Lab,
    pub s2: Lab,
    pub published: i128,
}

/// The words of a line as ten-thousandths; every decimal of the table has four places.
fn ten_thousandths(line: &str) -> Vec<i128> {
    let number = |word: &str| word.replace('.', "").parse().expect("a decimal of four places");
    line.split(' ').map(number).collect()
}

pub fn table_one() -> Vec<Row> {
    let row = |line: &str| {
        let [pair, l1, a1, b1, l2, a2, b2, published] = ten_thousandths(line)[..] else {
            panic!("not a row of Table I: {line}")
        };
        Row { pair: pair as usize, s1: Lab { l: l1, a: a1, b: b1 }, s2: Lab { l: l2, a: a2, b: b2 }, published }
    };
    include_str!("../../data/table_one.txt").lines().map(row).collect()
}

/// The other columns of Table I, in ten-thousandths: a1', C1', h1', a2', C2', h2', mean hue, G, T, SL,
/// SC, SH, RT.
pub fn table_one_figures() -> Vec<Vec<i128>> {
    include_str!("../../data/table_one_figures.txt").lines().map(|line| ten_thousandths(line)[1..].to_vec()).collect()
}

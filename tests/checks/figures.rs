//! Checks every call on a pair, bit for bit, against the reference, and CIEDE2000 and CIE94 against
//! double precision.

use interface as lq;
use reference::calls::{self, Reading, double};
use reference::cases::{self, KINDS, Kind};
use reference::double;
use reference::random::Random;
use reference::tally::Tally;
use reference::working::{self, Cie94, FIGURE_NAMES, FIGURES};

const PAIRS: usize = 1_200_000;

/// The largest deviation from double precision and where it is; the largest with all weights 1.
#[derive(Default)]
struct Deviation {
    largest: f64,
    at: String,
    largest_even: f64,
}

impl Deviation {
    fn see(&mut self, r1: Reading, r2: Reading, k: [f32; 3], exact: f64, found: lq::Answer) {
        let off = (exact - f64::from_bits(found.1)).abs();
        if off > self.largest {
            (self.largest, self.at) = (off, format!("{r1:?}, {r2:?}, weights {k:?}"));
        }
        if k == [1.0; 3] {
            self.largest_even = self.largest_even.max(off);
        }
    }
}

/// Of CIEDE2000, and of CIE94 in the order of `Cie94::ALL`.
#[derive(Default)]
struct Deviations {
    ciede2000: Deviation,
    cie94: [Deviation; Cie94::ALL.len()],
}

/// A tolerance at the difference, one grid unit off it, or anywhere.
fn tolerance(millionths: i128, r: &mut Random) -> f32 {
    let at = (millionths / 100 + i128::from(r.from(-1, 1))).clamp(0, 1_000_000);
    if r.one_in(4) { cases::float(i128::from(r.from(0, 1_000_000))) } else { cases::float(at) }
}

fn answer(millionths: i128) -> lq::Answer {
    (0, double(millionths).to_bits())
}

/// All calls on one pair.
fn compare(t: &mut Tally, r1: Reading, r2: Reading, k: [f32; 3], r: &mut Random, off: &mut Deviations) {
    let (s1, s2) = (calls::sample(r1).expect("accepted"), calls::sample(r2).expect("accepted"));
    let grid = calls::weights(k).expect("accepted");
    let [d1, d2, dk] = double::doubles(s1, s2, grid);
    let wanted = working::figures(s1, s2, grid);
    let (refusal, found) = lq::figures(r1, r2, k);
    t.same(("refusal of the figures", r1, r2, k), refusal, 0);
    for i in 0..FIGURES {
        t.same((FIGURE_NAMES[i], r1, r2, k), i128::from(found[i]), wanted[i]);
    }
    let millionths = wanted[FIGURES - 1];
    let de00 = lq::ciede2000(r1, r2, k);
    t.same(("CIEDE2000", r1, r2, k), de00, answer(millionths));
    off.ciede2000.see(r1, r2, k, double::ciede2000(d1, d2, dk), de00);
    t.same(("CIEDE2000 exchanged", r2, r1, k), lq::ciede2000(r2, r1, k), answer(millionths));
    t.same(("CIE76", r1, r2), lq::cie76(r1, r2), answer(working::cie76(s1, s2)));
    for (kind, off) in Cie94::ALL.into_iter().zip(&mut off.cie94) {
        let wanted = answer(working::cie94(s1, s2, grid, kind));
        let de94 = lq::cie94(r1, r2, k, kind);
        t.same(("CIE94", r1, r2, k, kind), de94, wanted);
        off.see(r1, r2, k, double::cie94(d1, d2, dk, kind), de94);
        if !kind.standard {
            t.same(("CIE94 exchanged", r2, r1, k, kind), lq::cie94(r2, r1, k, kind), wanted);
        }
    }
    let tolerance = tolerance(millionths, r);
    let within = calls::is_within(millionths, calls::tolerance(tolerance).expect("accepted"));
    let wanted = (0, double(millionths).to_bits(), within as u8);
    t.same(("verdict", r1, r2, k, tolerance), lq::verdict(r1, r2, k, tolerance), wanted);
}

/// Table I through the interface: the figures as ever, and the published difference.
fn table_one(t: &mut Tally, r: &mut Random, off: &mut Deviations) {
    for row in cases::table_one() {
        for (s1, s2) in [(row.s1, row.s2), (row.s2, row.s1)] {
            let (r1, r2) = (cases::reading(s1), cases::reading(s2));
            compare(t, r1, r2, [1.0; 3], r, off);
            let (_, bits) = lq::ciede2000(r1, r2, [1.0; 3]);
            let four = (f64::from_bits(bits) * 10_000.0).round() as i128;
            t.same(("Table I, at most one unit off", row.pair), (four - row.published).abs() <= 1, true);
        }
    }
    t.report("Table I, both ways round");
}

fn main() {
    let mut t = Tally::new("figures");
    let mut r = Random::new(4);
    let mut off = Deviations::default();
    table_one(&mut t, &mut r, &mut off);
    let each = PAIRS / KINDS.len();
    let mut pairs = 0;
    for kind in KINDS {
        // the whole range counts double
        let count = if kind == Kind::WholeRange { 2 * each } else { each };
        for _ in 0..count {
            let (r1, r2) = cases::pair(kind, &mut r);
            let k = cases::weights(&mut r);
            compare(&mut t, r1, r2, k, &mut r, &mut off);
        }
        pairs += count;
        t.report(&format!("{count} pairs, {kind:?}"));
    }
    println!("figures: {pairs} pairs against double precision");
    let of94 = Cie94::ALL.iter().zip(&off.cie94).map(|(kind, off)| (format!("{kind:?}"), off));
    for (name, off) in [("CIEDE2000".to_string(), &off.ciede2000)].into_iter().chain(of94) {
        println!("figures: {name}: largest deviation {:.7}, at {}", off.largest, off.at);
        println!("figures: {name}: with all weights 1, {:.7}", off.largest_even);
        t.same((name, "deviation below 0.001"), off.largest < 0.001, true);
    }
    t.end();
}

//! Checks what the calls make of a float, in every argument, against its exact value.
//! With --all: all 2^32 floats, in an argument of each sort; with --all N, every N-th of them.

use interface as lq;
use reference::calls::{self, double};
use reference::cases::{float, ties};
use reference::random::Random;
use reference::tally::Tally;
use reference::working::Cie94;

/// The argument that takes the float. The others are such that the answer tells its grid number.
#[derive(Clone, Copy, PartialEq, Debug)]
enum Argument {
    L1,
    A1,
    B1,
    L2,
    A2,
    B2,
    KL,
    KC,
    KH,
    Tolerance,
}
use Argument::*;

const ARGUMENTS: [Argument; 10] = [L1, A1, B1, L2, A2, B2, KL, KC, KH, Tolerance];

/// The CIE94 that weights go through.
const KIND: Cie94 = Cie94 { textile: false, standard: true };

fn answer(wanted: Result<i128, u32>) -> lq::Answer {
    match wanted {
        Ok(millionths) => (0, double(millionths).to_bits()),
        Err(refusal) => (refusal, 0),
    }
}

/// A coordinate: CIE76 beside a sample at a limit is 100 times the grid numbers between them.
fn coordinate(t: &mut Tally, argument: Argument, x: f32) {
    let (r1, r2) = match argument {
        L1 => ([x, 0.0, 0.0], [0.0; 3]),
        A1 => ([0.0, x, 0.0], [0.0, 128.0, 0.0]),
        B1 => ([0.0, 0.0, x], [0.0, 0.0, -128.0]),
        L2 => ([0.0; 3], [x, 0.0, 0.0]),
        A2 => ([0.0, 128.0, 0.0], [0.0, x, 0.0]),
        _ => ([0.0, 0.0, -128.0], [0.0, 0.0, x]),
    };
    t.same((argument, x, x.to_bits()), lq::cie76(r1, r2), answer(calls::cie76(r1, r2)));
}

/// A weight: CIE94 of a pair that differs in one part alone, so that each weight has its own
/// answer (see `weights_are_told_apart`).
fn weighted(argument: Argument, x: f32) -> (calls::Reading, calls::Reading, [f32; 3]) {
    match argument {
        KL => ([0.0, 0.0, 0.0], [100.0, 0.0, 0.0], [x, 1.0, 1.0]),
        KC => ([50.0, 0.0, 0.0], [50.0, 128.0, 0.0], [1.0, x, 1.0]),
        _ => ([50.0, 128.0, 0.0], [50.0, -128.0, 0.0], [1.0, 1.0, x]),
    }
}

fn weight(t: &mut Tally, argument: Argument, x: f32) {
    let (r1, r2, k) = weighted(argument, x);
    t.same((argument, x, x.to_bits()), lq::cie94(r1, r2, k, KIND), answer(calls::cie94(r1, r2, k, KIND)));
}

fn weights_are_told_apart(t: &mut Tally) {
    for argument in [KL, KC, KH] {
        let of = |grid: i128| {
            let (r1, r2, k) = weighted(argument, float(grid));
            calls::cie94(r1, r2, k, KIND).expect("accepted")
        };
        for grid in 5_000..100_000 {
            t.same((argument, grid, "has its own answer"), of(grid) > of(grid + 1), true);
        }
    }
    t.report("weights, each with its own answer");
}

/// Greys with lightness around 50 whose difference is exactly 100 × grid millionths.
fn greys(grid: i128) -> (calls::Reading, calls::Reading) {
    let low = (1_000_000 - grid) / 2;
    ([float(low), 0.0, 0.0], [float(low + grid), 0.0, 0.0])
}

/// The reference's answers for greys, worked out once for the grid numbers that come up in turn.
struct Greys {
    grid: i128,
    difference: i128,
}

impl Greys {
    fn at(&mut self, grid: i128) -> (calls::Reading, calls::Reading, i128) {
        let (r1, r2) = greys(grid);
        if self.grid != grid {
            let difference = calls::ciede2000(r1, r2, [1.0; 3]).expect("accepted");
            assert!(difference == 100 * grid, "greys {grid} apart differ by {difference}");
            *self = Greys { grid, difference };
        }
        (r1, r2, self.difference)
    }
}

/// A tolerance: yes at its own grid number, no one unit further.
fn tolerance(t: &mut Tally, x: f32, near: &mut Greys, past: &mut Greys) {
    match calls::tolerance(x) {
        Err(refusal) => {
            let (r1, r2) = greys(1);
            t.same((Tolerance, x, x.to_bits()), lq::verdict(r1, r2, [1.0; 3], x), (refusal, 0, 0));
        }
        Ok(grid) => {
            let (r1, r2, difference) = near.at(grid);
            let wanted = (0, double(difference).to_bits(), 1);
            t.same((Tolerance, x, x.to_bits()), lq::verdict(r1, r2, [1.0; 3], x), wanted);
            if grid < 1_000_000 {
                let (r1, r2, difference) = past.at(grid + 1);
                let wanted = (0, double(difference).to_bits(), 0);
                t.same((Tolerance, x, x.to_bits(), "one unit further"), lq::verdict(r1, r2, [1.0; 3], x), wanted);
            }
        }
    }
}

fn compare(t: &mut Tally, argument: Argument, floats: impl Iterator<Item = u32>) {
    let nothing = || Greys { grid: -1, difference: 0 };
    let (mut near, mut past) = (nothing(), nothing());
    for bits in floats {
        let x = f32::from_bits(bits);
        match argument {
            KL | KC | KH => weight(t, argument, x),
            Tolerance => tolerance(t, x, &mut near, &mut past),
            _ => coordinate(t, argument, x),
        }
    }
}

/// Floats at which something could change: limits, ties, ends of the exponents, and their
/// neighbours, with both signs.
fn edges() -> Vec<u32> {
    let mut edges = Vec::new();
    let mut around = |x: f32, width: u32| {
        for step in 0..=2 * width {
            let bits = x.to_bits().wrapping_add(step).wrapping_sub(width);
            edges.extend([bits, bits ^ 0x8000_0000]);
        }
    };
    for limit in [0.0, 0.5, 1.0, 10.0, 100.0, 128.0, f32::MIN_POSITIVE, f32::MAX, f32::INFINITY, f32::NAN] {
        around(limit, 300);
    }
    // all ties, and the first one past every limit
    for tie in ties().chain([128.03125]) {
        around(tie, 2);
    }
    for exponent in 0..256u32 {
        for fraction in [0, 1, 0x3f_ffff, 0x40_0000, 0x7f_ffff] {
            around(f32::from_bits(exponent << 23 | fraction), 1);
        }
    }
    edges
}

/// Random floats: any bits, within the limits, and next to the middle between two grid numbers.
fn random(count: usize, r: &mut Random) -> Vec<u32> {
    let mut floats = Vec::new();
    for i in 0..count {
        floats.push(match i % 3 {
            0 => r.next() as u32,
            1 => ((r.from(-12_900_000_000, 12_900_000_000) as f64 / 1e8) as f32).to_bits(),
            _ => {
                let middle = (2 * r.from(-1_280_001, 1_280_001) + 1) as f64 / 20_000.0;
                (middle as f32).to_bits().wrapping_add(r.below(3) as u32).wrapping_sub(1)
            }
        });
    }
    floats
}

/// All floats, or every so many, in one argument, on every processor.
fn all(t: &mut Tally, argument: Argument, step: usize) {
    let workers = std::thread::available_parallelism().map_or(1, |n| n.get() as u64);
    let whole = 1u64 << 32;
    let part = |worker: u64| worker * whole / workers;
    std::thread::scope(|scope| {
        let work = |worker: u64| {
            let mut t = Tally::new("floats");
            compare(&mut t, argument, (part(worker)..part(worker + 1)).step_by(step).map(|bits| bits as u32));
            t
        };
        let running: Vec<_> = (0..workers).map(|worker| scope.spawn(move || work(worker))).collect();
        for worker in running {
            t.add(worker.join().expect("a worker"));
        }
    });
    t.report(&format!("every float, in steps of {step}, as {argument:?}"));
}

fn main() {
    let mut t = Tally::new("floats");
    weights_are_told_apart(&mut t);
    let edges = edges();
    let mut r = Random::new(5);
    for argument in ARGUMENTS {
        compare(&mut t, argument, edges.iter().copied());
        compare(&mut t, argument, random(600_000, &mut r).into_iter());
        t.report(&format!("{} edges and 600000 random floats as {argument:?}", edges.len()));
    }
    let words: Vec<String> = std::env::args().skip(1).collect();
    if words.first().is_some_and(|word| word == "--all") {
        let step = words.get(1).map_or(1, |word| word.parse().expect("a number of steps"));
        for argument in [L1, A1, B2, KL, Tolerance] {
            all(&mut t, argument, step);
        }
    }
    t.end();
}

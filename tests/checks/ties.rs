//! Checks every float that lies exactly between two neighbouring whole numbers of 1/10,000, in every
//! argument of every call: of the two the even one counts. What is wanted is worked out from whole
//! numbers, so that no other rounding has a part in it.

use interface as lq;
use reference::calls::{self, double, is_within};
use reference::cases::{self, Kind, float};
use reference::floats::is_tie;
use reference::random::Random;
use reference::tally::Tally;
use reference::working::{Cie94, Lab, Weights, cie76, cie94, ciede2000, figures};

/// The arguments of a call, with their limits.
const ARGUMENTS: [(&str, f32, f32); 10] = [
    ("L1", 0.0, 100.0),
    ("a1", -128.0, 128.0),
    ("b1", -128.0, 128.0),
    ("L2", 0.0, 100.0),
    ("a2", -128.0, 128.0),
    ("b2", -128.0, 128.0),
    ("kL", 0.5, 10.0),
    ("kC", 0.5, 10.0),
    ("kH", 0.5, 10.0),
    ("tolerance", 0.0, 100.0),
];
const TOLERANCE: usize = 9;

/// The arguments in 1/10,000.
type Whole = [i128; ARGUMENTS.len()];

fn with<T: Copy>(mut arguments: [T; ARGUMENTS.len()], argument: usize, value: T) -> [T; ARGUMENTS.len()] {
    arguments[argument] = value;
    arguments
}

fn samples([l1, a1, b1, l2, a2, b2, ..]: Whole) -> (Lab, Lab) {
    (Lab { l: l1, a: a1, b: b1 }, Lab { l: l2, a: a2, b: b2 })
}

fn weights([.., l, c, h, _]: Whole) -> Weights {
    Weights { l, c, h }
}

fn difference(arguments: Whole) -> i128 {
    let (s1, s2) = samples(arguments);
    ciede2000(s1, s2, weights(arguments))
}

fn within(arguments: Whole) -> bool {
    is_within(difference(arguments), arguments[TOLERANCE])
}

/// All such floats from 0 to 128: every float is looked at.
fn all_ties(t: &mut Tally) -> Vec<f32> {
    let all: Vec<f32> = (0..=128f32.to_bits()).map(f32::from_bits).filter(|&x| is_tie(x)).collect();
    t.same("the floats that are ties", &all, &cases::ties().collect());
    println!("ties: {} of the floats from 0 to 128 lie exactly between two whole numbers of 1/10,000", all.len());
    all
}

/// The even and the odd one of the two whole numbers of 1/10,000 around a tie.
fn neighbours(tie: f32) -> (i128, i128) {
    let halves = f64::from(tie) * 20_000.0;
    assert!(halves % 2.0 == 1.0 || halves % 2.0 == -1.0, "{tie} is no odd number of halves");
    let low = (halves as i128 - 1) / 2;
    if low % 2 == 0 { (low, low + 1) } else { (low + 1, low) }
}

fn random_arguments(r: &mut Random) -> Whole {
    let (r1, r2) = cases::pair(Kind::WholeRange, r);
    let sample = |reading| calls::sample(reading).expect("within limits");
    let (s1, s2) = (sample(r1), sample(r2));
    let k = calls::weights(cases::weights(r)).expect("within limits");
    [s1.l, s1.a, s1.b, s2.l, s2.a, s2.b, k.l, k.c, k.h, 0]
}

/// Other arguments with which the verdict is one for the even neighbour and another for the odd one.
fn telling(argument: usize, even: i128, odd: i128, r: &mut Random) -> Whole {
    if argument == TOLERANCE {
        // greys that differ by 100 millionths times the larger neighbour
        let more = even.max(odd);
        let low = (1_000_000 - more) / 2;
        return [low, 0, 0, low + more, 0, 0, 10_000, 10_000, 10_000, 0];
    }
    for _ in 0..100_000 {
        let base = random_arguments(r);
        let [one, other] = [even, odd].map(|x| difference(with(base, argument, x)));
        // the largest tolerance below the larger difference
        let tolerance = (one.max(other) - 1) / 100;
        if one.min(other) <= 100 * tolerance && tolerance <= 1_000_000 {
            return with(base, TOLERANCE, tolerance);
        }
    }
    panic!("nothing tells {even} from {odd} as {}", ARGUMENTS[argument].0);
}

fn compare(t: &mut Tally, argument: usize, tie: f32, r: &mut Random) {
    let (even, odd) = neighbours(tie);
    let base = telling(argument, even, odd, r);
    let whole = with(base, argument, even);
    let about = (ARGUMENTS[argument].0, tie, whole);
    t.same((about, "told from its odd neighbour"), within(whole), !within(with(base, argument, odd)));
    let (s1, s2) = samples(whole);
    let k = weights(whole);
    let [l1, a1, b1, l2, a2, b2, kl, kc, kh, tolerance] = with(base.map(float), argument, tie);
    let (r1, r2, floats) = ([l1, a1, b1], [l2, a2, b2], [kl, kc, kh]);
    let answer = |millionths: i128| (0, double(millionths).to_bits());
    t.same((about, "CIE76"), lq::cie76(r1, r2), answer(cie76(s1, s2)));
    for kind in Cie94::ALL {
        t.same((about, kind), lq::cie94(r1, r2, floats, kind), answer(cie94(s1, s2, k, kind)));
    }
    t.same((about, "CIEDE2000"), lq::ciede2000(r1, r2, floats), answer(difference(whole)));
    t.same((about, "figures"), lq::figures(r1, r2, floats), (0, figures(s1, s2, k).map(|x| x as i64)));
    let verdict = (0, double(difference(whole)).to_bits(), within(whole) as u8);
    t.same((about, "verdict"), lq::verdict(r1, r2, floats, tolerance), verdict);
    // a deck of sample 1, in whole numbers, so that only what the search rounds is looked at
    let deck = [s1.l, s1.a, s1.b].map(|x| [x as i32]);
    let mut list = [7];
    let found = lq::search(deck.each_ref().map(|column| &column[..]), r2, floats, tolerance, &mut list);
    t.same((about, "search"), (found, list), if within(whole) { ((0, 1), [0]) } else { ((0, 0), [7]) });
}

fn main() {
    let mut t = Tally::new("ties");
    let mut r = Random::new(12);
    let ties = all_ties(&mut t);
    for (argument, (name, low, high)) in ARGUMENTS.into_iter().enumerate() {
        let inside: Vec<f32> = ties.iter().flat_map(|&x| [x, -x]).filter(|&x| low <= x && x <= high).collect();
        for &tie in &inside {
            compare(&mut t, argument, tie, &mut r);
        }
        t.report(&format!("{} floats as {name}", inside.len()));
    }
    t.end();
}

//! Checks which refusal comes first, in every combination of bad arguments of every call, and that
//! a refusal leaves zero results and an unchanged list.

use interface as lq;
use reference::calls::{self, double};
use reference::deck;
use reference::tally::Tally;
use reference::working::Cie94;

const NAN: f32 = f32::NAN;
const INFINITY: f32 = f32::INFINITY;

/// What an argument can be: one accepted value, then every way to be refused.
const LIGHTNESS: [f32; 6] = [40.0, NAN, INFINITY, -INFINITY, -0.0001, 100.00001];
const PLANE: [f32; 6] = [20.0, NAN, INFINITY, -INFINITY, -128.00002, 128.00002];
const WEIGHT: [f32; 6] = [1.0, NAN, INFINITY, -INFINITY, 0.499_999_97, 10.000001];
const TOLERANCE: [f32; 6] = [5.0, NAN, INFINITY, -INFINITY, -1e-45, 100.00001];

/// Every combination of three choices.
fn triples<'a>(first: &'a [f32], second: &'a [f32], third: &'a [f32]) -> impl Iterator<Item = [f32; 3]> + Clone + 'a {
    first.iter().flat_map(move |&x| second.iter().flat_map(move |&y| third.iter().map(move |&z| [x, y, z])))
}

fn samples() -> impl Iterator<Item = [f32; 3]> + Clone {
    triples(&LIGHTNESS, &PLANE, &PLANE)
}

/// As `samples`, with one way of each sort.
fn few_samples() -> impl Iterator<Item = [f32; 3]> + Clone {
    const L: [f32; 4] = [LIGHTNESS[0], LIGHTNESS[1], LIGHTNESS[3], LIGHTNESS[5]];
    const P: [f32; 3] = [PLANE[0], PLANE[2], PLANE[4]];
    triples(&L, &P, &P)
}

fn few_weights() -> impl Iterator<Item = [f32; 3]> + Clone {
    const K: [f32; 4] = [WEIGHT[0], WEIGHT[1], WEIGHT[4], WEIGHT[5]];
    triples(&K, &K, &K)
}

fn all_weights() -> impl Iterator<Item = [f32; 3]> + Clone {
    triples(&WEIGHT, &WEIGHT, &WEIGHT)
}

fn answer(wanted: Result<i128, u32>) -> lq::Answer {
    match wanted {
        Ok(millionths) => (0, double(millionths).to_bits()),
        Err(refusal) => (refusal, 0),
    }
}

fn compare(t: &mut Tally, r1: [f32; 3], r2: [f32; 3], k: [f32; 3]) {
    t.same(("CIEDE2000", r1, r2, k), lq::ciede2000(r1, r2, k), answer(calls::ciede2000(r1, r2, k)));
    let wanted = match calls::figures(r1, r2, k) {
        Ok(figures) => (0, figures.map(|x| x as i64)),
        Err(refusal) => (refusal, [0; 23]),
    };
    t.same(("figures", r1, r2, k), lq::figures(r1, r2, k), wanted);
    for kind in Cie94::ALL {
        t.same(("CIE94", r1, r2, k, kind), lq::cie94(r1, r2, k, kind), answer(calls::cie94(r1, r2, k, kind)));
    }
}

fn compare_verdict(t: &mut Tally, r1: [f32; 3], r2: [f32; 3], k: [f32; 3], tolerance: f32) {
    let wanted = match calls::verdict(r1, r2, k, tolerance) {
        Ok((millionths, within)) => (0, double(millionths).to_bits(), within as u8),
        Err(refusal) => (refusal, 0, 0),
    };
    t.same(("verdict", r1, r2, k, tolerance), lq::verdict(r1, r2, k, tolerance), wanted);
}

fn pairs(t: &mut Tally) {
    for r1 in samples() {
        for r2 in samples() {
            t.same(("CIE76", r1, r2), lq::cie76(r1, r2), answer(calls::cie76(r1, r2)));
            compare(t, r1, r2, [1.0; 3]);
            compare(t, r1, r2, [1.0, 1.0, 0.0]);
            compare_verdict(t, r1, r2, [1.0; 3], NAN);
        }
    }
    t.report("every combination of two samples");
    for r1 in few_samples() {
        for r2 in few_samples() {
            for k in few_weights() {
                compare(t, r1, r2, k);
                for tolerance in TOLERANCE {
                    compare_verdict(t, r1, r2, k, tolerance);
                }
            }
        }
    }
    t.report("combinations of samples, weights and tolerance");
    for k in all_weights() {
        compare(t, [40.0, 20.0, 20.0], [50.0, 20.0, 10.0], k);
        for tolerance in TOLERANCE {
            compare_verdict(t, [40.0, 20.0, 20.0], [50.0, 20.0, 10.0], k, tolerance);
        }
    }
    t.report("every combination of weights and tolerance");
}

/// Decks: valid, and refused in each way and in both.
fn decks() -> Vec<(&'static str, [Vec<i32>; 3])> {
    let valid = || [vec![300_000, 400_000, 400_000, 500_000], vec![200_000; 4], vec![200_000; 4]];
    let with = |column: usize, place: usize, value: i32| {
        let mut deck = valid();
        deck[column][place] = value;
        deck
    };
    let mut all = vec![
        ("valid", valid()),
        ("empty", [vec![], vec![], vec![]]),
        ("4,097 swatches", [vec![400_000; 4097], vec![200_000; 4097], vec![200_000; 4097]]),
        ("lightness falls", with(0, 2, 399_999)),
        ("lightness falls at the end", with(0, 3, 399_999)),
        ("lightness falls at the start", with(0, 0, 400_001)),
        ("L at 0", with(0, 0, 0)),
        ("L below 0", with(0, 0, -1)),
        ("L at 100", with(0, 3, 1_000_000)),
        ("L above 100", with(0, 3, 1_000_001)),
        ("L least", with(0, 0, i32::MIN)),
        ("L most", with(0, 3, i32::MAX)),
    ];
    for column in 0..3 {
        let mut short = valid();
        short[column].pop();
        all.push(("a column too short", short.clone()));
        // 6 and 7 at once
        short[0][0] = 1_000_001;
        all.push(("a column too short and L above 100", short));
        let mut long = valid();
        long[column].push(500_000);
        all.push(("a column too long", long));
        let mut without = valid();
        without[column].clear();
        all.push(("a column empty", without));
    }
    for column in 1..3 {
        for place in 0..4 {
            for value in [-1_280_000, 1_280_000, -1_280_001, 1_280_001, i32::MIN, i32::MAX] {
                all.push(("a or b at or past a limit", with(column, place, value)));
            }
        }
    }
    all
}

fn searches(t: &mut Tally) {
    let good = ([40.0, 20.0, 20.0], [1.0; 3], 5.0);
    let compare = |t: &mut Tally, name: &str, deck: &[Vec<i32>; 3], reading, k, tolerance, room: usize| {
        let columns = [&deck[0][..], &deck[1][..], &deck[2][..]];
        let before: Vec<u16> = (0..room).map(|i| 60_000 + i as u16).collect();
        let (mut list, mut wanted_list) = (before.clone(), before);
        let kept = deck.clone();
        let found = lq::search(columns, reading, k, tolerance, &mut list);
        let wanted = deck::search(columns, reading, k, tolerance, &mut wanted_list);
        t.same(("search", name, reading, k, tolerance, room), found, wanted);
        t.same(("list", name, reading, k, tolerance, room), list, wanted_list);
        t.same(("columns", name, reading, k, tolerance, room), deck, &kept);
    };
    for (name, deck) in decks() {
        for room in [0, 1, 2, 3, 4, 7] {
            compare(t, name, &deck, good.0, good.1, good.2, room);
            for tolerance in TOLERANCE {
                compare(t, name, &deck, good.0, [1.0, 0.0, 1.0], tolerance, room);
                compare(t, name, &deck, good.0, good.1, tolerance, room);
                compare(t, name, &deck, [40.0, 20.0, 200.0], good.1, tolerance, room);
            }
        }
    }
    t.report("every deck and room");
    let small: Vec<_> = decks().into_iter().filter(|(_, deck)| deck[0].len() < 10).step_by(5).collect();
    for (name, deck) in small {
        for reading in samples() {
            for k in few_weights().step_by(3) {
                compare(t, name, &deck, reading, k, NAN, 2);
            }
            compare(t, name, &deck, reading, good.1, good.2, 2);
        }
        for k in all_weights() {
            for tolerance in TOLERANCE {
                compare(t, name, &deck, good.0, k, tolerance, 2);
            }
        }
    }
    t.report("combinations of readings, weights, tolerances, decks and rooms");
}

fn main() {
    let mut t = Tally::new("refusals");
    pairs(&mut t);
    searches(&mut t);
    t.end();
}

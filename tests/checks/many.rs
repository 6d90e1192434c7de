//! Checks the call on many pairs: each pair bit for bit against the call on one pair and against the
//! reference, the number of pairs for lists of all small lengths, and everything lent before and after.

use interface as lq;
use reference::calls::{self, double};
use reference::cases::{self, KINDS};
use reference::random::Random;
use reference::tally::Tally;

/// Every sort of float that some argument refuses, and those at a limit.
const ODD: [f32; 20] = [
    f32::NAN,
    -f32::NAN,
    f32::INFINITY,
    f32::NEG_INFINITY,
    -0.0,
    0.0,
    1e-45,
    -1e-45,
    0.499_999_97,
    0.5,
    10.0,
    10.000001,
    100.0,
    100.00001,
    128.0,
    128.00002,
    -128.0,
    -128.00002,
    f32::MAX,
    f32::MIN,
];

/// What the lists of answers hold before a call: each entry its own, and the differences are no numbers.
fn difference_before(place: usize) -> u64 {
    0xfff8_5a5a_0000_0000 + place as u64
}

fn refusal_before(place: usize) -> u8 {
    200 + (place % 50) as u8
}

fn reading(floats: &[f32], pair: usize) -> [f32; 3] {
    [floats[3 * pair], floats[3 * pair + 1], floats[3 * pair + 2]]
}

fn bits(floats: &[f32]) -> Vec<u32> {
    floats.iter().map(|x| x.to_bits()).collect()
}

/// One call, with room for so many differences and so many refusals. Its pairs' refusals.
fn compare(t: &mut Tally, what: &str, standards: &[f32], samples: &[f32], k: [f32; 3], rooms: [usize; 2]) -> Vec<u8> {
    let kept = (bits(standards), bits(samples));
    let mut differences: Vec<f64> = (0..rooms[0]).map(difference_before).map(f64::from_bits).collect();
    let mut refusals: Vec<u8> = (0..rooms[1]).map(refusal_before).collect();
    let found = lq::ciede2000_many(standards, samples, k, &mut differences, &mut refusals);
    let pairs = (standards.len() / 3).min(samples.len() / 3).min(rooms[0]).min(rooms[1]);
    let lengths = (standards.len(), samples.len(), rooms);
    t.same((what, lengths, "number and pairs"), found, (0, pairs));
    for pair in 0..pairs {
        let (r1, r2) = (reading(standards, pair), reading(samples, pair));
        let wanted = match calls::ciede2000(r1, r2, k) {
            Ok(millionths) => (0, double(millionths).to_bits()),
            Err(refusal) => (refusal, 0),
        };
        let answer = (u32::from(refusals[pair]), differences[pair].to_bits());
        t.same((what, pair, r1, r2, k, "reference"), answer, wanted);
        t.same((what, pair, r1, r2, k, "one pair"), answer, lq::ciede2000(r1, r2, k));
    }
    for (place, difference) in differences.iter().enumerate().skip(pairs) {
        t.same((what, lengths, place, "difference kept"), difference.to_bits(), difference_before(place));
    }
    for (place, &refusal) in refusals.iter().enumerate().skip(pairs) {
        t.same((what, lengths, place, "refusal kept"), refusal, refusal_before(place));
    }
    t.same((what, lengths, "colours kept"), (bits(standards), bits(samples)), kept);
    refusals.truncate(pairs);
    refusals
}

/// The two lists of n pairs of all kinds; in one of `odd` pairs one float is an odd one or of any bits.
fn lists(n: usize, odd: usize, r: &mut Random) -> (Vec<f32>, Vec<f32>) {
    let (mut standards, mut samples) = (Vec::new(), Vec::new());
    for _ in 0..n {
        let (mut r1, mut r2) = cases::pair(r.pick(&KINDS), r);
        if r.one_in(odd) {
            let x = if r.one_in(3) { f32::from_bits(r.next() as u32) } else { r.pick(&ODD) };
            let place = r.below(3);
            if r.one_in(2) { r1[place] = x } else { r2[place] = x }
        }
        standards.extend(r1);
        samples.extend(r2);
    }
    (standards, samples)
}

/// Accepted weights, or in one of `odd` cases one that is odd.
fn weights(odd: usize, r: &mut Random) -> [f32; 3] {
    let mut k = cases::weights(r);
    if r.one_in(odd) {
        k[r.below(3)] = r.pick(&ODD);
    }
    k
}

/// Every combination of 0 to 8 floats in both lists and room for 0 to 8 answers in both.
fn small_lengths(t: &mut Tally, r: &mut Random) {
    let (standards, samples) = lists(3, 3, r);
    for a in 0..=8 {
        for b in 0..=8 {
            for c in 0..=8 {
                for d in 0..=8 {
                    compare(t, "small", &standards[..a], &samples[..b], weights(4, r), [c, d]);
                }
            }
        }
    }
    t.report("every combination of lengths from 0 to 8");
}

/// Long lists, each a random number of floats or answers longer than its pairs.
fn logs(t: &mut Tally, r: &mut Random) {
    const LOGS: usize = 1000;
    let mut pairs_of = [0; 5];
    for i in 0..LOGS {
        let n = 1 + r.below(500);
        let (mut standards, mut samples) = lists(n, 4, r);
        let longer = |r: &mut Random| if r.one_in(2) { 0 } else { r.below(12) };
        standards.extend((0..longer(r)).map(|_| 50.0));
        samples.extend((0..longer(r)).map(|_| 50.0));
        let rooms = [n + longer(r), n + longer(r)];
        let k = weights(if i % 4 == 0 { 1 } else { 20 }, r);
        for refusal in compare(t, "log", &standards, &samples, k, rooms) {
            pairs_of[usize::from(refusal)] += 1;
        }
    }
    t.same("some pairs of each refusal", pairs_of.iter().all(|&n| n > 1000), true);
    t.report(&format!("{LOGS} logs, {} pairs, {pairs_of:?} with refusals 0 to 4", pairs_of.iter().sum::<usize>()));
}

/// Every float that lies exactly between two whole numbers of 1/10,000, in every place of a pair.
fn ties(t: &mut Tally) {
    for place in 0..6 {
        let (mut standards, mut samples) = (Vec::new(), Vec::new());
        for tie in cases::ties() {
            for x in [tie, -tie] {
                let mut pair = [50.0, 3.0, -4.0, 49.0, 5.0, 12.0];
                pair[place] = x;
                standards.extend(&pair[..3]);
                samples.extend(&pair[3..]);
            }
        }
        let n = standards.len() / 3;
        compare(t, "ties", &standards, &samples, [1.0; 3], [n, n]);
    }
    t.report("ties in every place of a pair");
}

fn main() {
    let mut t = Tally::new("many");
    let mut r = Random::new(12);
    small_lengths(&mut t, &mut r);
    logs(&mut t, &mut r);
    ties(&mut t);
    t.end();
}

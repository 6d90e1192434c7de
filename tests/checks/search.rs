//! Checks the search of random decks against a plain scan: the answer, the list's contents, and
//! that the columns stay.

use interface as lq;
use reference::calls;
use reference::cases::{float, reading};
use reference::deck::{self, Columns, LARGEST};
use reference::random::Random;
use reference::tally::Tally;
use reference::working::{Lab, ciede2000};

#[derive(Clone, Copy, Debug)]
enum Sort {
    /// Anywhere in the whole range.
    Wide,
    /// Around one sample.
    Crowded,
    /// A few swatches, many times each.
    Duplicates,
    Greys,
    OneLightness,
}

const SORTS: [Sort; 5] = [Sort::Wide, Sort::Crowded, Sort::Duplicates, Sort::Greys, Sort::OneLightness];

const MOST: i64 = 1_280_000;

fn anywhere(r: &mut Random) -> [i32; 3] {
    [r.from(0, 1_000_000), r.from(-MOST, MOST), r.from(-MOST, MOST)].map(|x| x as i32)
}

/// Within `size` of a swatch in every coordinate.
fn near(s: [i32; 3], size: i64, r: &mut Random) -> [i32; 3] {
    let [l, a, b] = s.map(|x| i64::from(x) + r.from(-size, size));
    [l.clamp(0, 1_000_000), a.clamp(-MOST, MOST), b.clamp(-MOST, MOST)].map(|x| x as i32)
}

/// A deck in rising lightness.
fn random_deck(sort: Sort, size: usize, r: &mut Random) -> Vec<[i32; 3]> {
    let middle = anywhere(r);
    let few: Vec<[i32; 3]> = (0..4).map(|_| near(middle, 60_000, r)).collect();
    let width = r.pick(&[1000, 50_000, 300_000]);
    let mut deck: Vec<[i32; 3]> = (0..size)
        .map(|_| match sort {
            Sort::Wide => anywhere(r),
            Sort::Crowded => near(middle, width, r),
            Sort::Duplicates => r.pick(&few),
            Sort::Greys => [near(middle, width, r)[0], 0, 0],
            Sort::OneLightness => {
                let [_, a, b] = near(middle, width, r);
                [middle[0], a, b]
            }
        })
        .collect();
    deck.sort_by_key(|s| s[0]);
    deck
}

/// A swatch of the deck, one near it, or any sample.
fn random_reading(deck: &[[i32; 3]], r: &mut Random) -> Lab {
    let from = if deck.is_empty() || r.one_in(8) { anywhere(r) } else { r.pick(deck) };
    let size = r.pick(&[0, 100, 20_000]);
    let [l, a, b] = near(from, size, r).map(i128::from);
    Lab { l, a, b }
}

fn random_weights(r: &mut Random) -> [f32; 3] {
    if r.one_in(2) { [1.0; 3] } else { [0; 3].map(|_| float(i128::from(r.from(5_000, 100_000)))) }
}

/// A usual tolerance, a limit, or the difference of some swatch to within one grid unit.
fn random_tolerance(columns: Columns, reading: Lab, k: [f32; 3], r: &mut Random) -> f32 {
    match r.below(4) {
        0 => r.pick(&[0.0, 0.5, 2.0, 5.0, 100.0]),
        1 => float(i128::from(r.from(0, 100_000))),
        _ if columns[0].is_empty() => 1.0,
        _ => {
            let place = r.below(columns[0].len());
            let at = ciede2000(deck::swatch(columns, place), reading, calls::weights(k).expect("accepted")) / 100;
            float((at + i128::from(r.from(-1, 1))).clamp(0, 1_000_000))
        }
    }
}

/// One deck, searched with several rooms.
fn compare(t: &mut Tally, sort: Sort, swatches: &[[i32; 3]], r: &mut Random) {
    let columns: [Vec<i32>; 3] = [0, 1, 2].map(|i| swatches.iter().map(|s| s[i]).collect());
    let kept = columns.clone();
    let lent = [&columns[0][..], &columns[1][..], &columns[2][..]];
    let wanted_reading = random_reading(swatches, r);
    let reading = reading(wanted_reading);
    let k = random_weights(r);
    let tolerance = random_tolerance(lent, wanted_reading, k, r);
    let about = (sort, swatches.len(), reading, k, tolerance);
    // the scan is made once, with room for everything
    let mut all = vec![0; swatches.len()];
    let (refusal, count) = deck::search(lent, reading, k, tolerance, &mut all);
    for room in [count, count.saturating_sub(1), 0, count + 3, swatches.len() + 1] {
        let mut list: Vec<u16> = (0..room).map(|_| r.next() as u16).collect();
        let mut wanted_list = list.clone();
        let wanted = match refusal {
            0 if count > room => (8, count),
            0 => {
                wanted_list[..count].copy_from_slice(&all[..count]);
                (0, count)
            }
            _ => (refusal, 0),
        };
        let found = lq::search(lent, reading, k, tolerance, &mut list);
        t.same(("search", about, room), found, wanted);
        t.same(("list", about, room), list, wanted_list);
    }
    t.same(("columns", about), &columns, &kept);
}

fn main() {
    let mut t = Tally::new("search");
    let mut r = Random::new(6);
    for (sizes, decks) in [(0..=0, 100), (1..=1, 1000), (2..=2, 1000), (3..=100, 3000), (101..=1000, 200)] {
        for i in 0..decks {
            let size = r.from(*sizes.start(), *sizes.end()) as usize;
            let sort = SORTS[i % SORTS.len()];
            let swatches = random_deck(sort, size, &mut r);
            compare(&mut t, sort, &swatches, &mut r);
        }
        t.report(&format!("{decks} decks of {} to {} swatches", sizes.start(), sizes.end()));
    }
    for (size, decks) in [(LARGEST - 1, 20), (LARGEST, 100), (LARGEST + 1, 20)] {
        for i in 0..decks {
            let sort = SORTS[i % SORTS.len()];
            let swatches = random_deck(sort, size, &mut r);
            compare(&mut t, sort, &swatches, &mut r);
        }
        t.report(&format!("{decks} decks of {size} swatches"));
    }
    t.end();
}

//! "The deck": a plain scan, with refusals 1 to 8.

use crate::calls::{Reading, is_within, sample, tolerance, weights};
use crate::working::{Lab, Weights, ciede2000};

pub const LARGEST: usize = 4096;

/// The columns L, a, b.
pub type Columns<'a> = [&'a [i32]; 3];

pub fn swatch(deck: Columns, place: usize) -> Lab {
    let [l, a, b] = deck.map(|column| i128::from(column[place]));
    Lab { l, a, b }
}

/// Refusals 6 and 7.
pub fn refused(deck: Columns) -> Option<u32> {
    let [l, a, b] = deck;
    if l.len() != a.len() || l.len() != b.len() || l.len() > LARGEST {
        return Some(6);
    }
    let inside = |s: Lab| {
        (0..=1_000_000).contains(&s.l)
            && (-1_280_000..=1_280_000).contains(&s.a)
            && (-1_280_000..=1_280_000).contains(&s.b)
    };
    let valid = (0..l.len()).all(|i| inside(swatch(deck, i)) && (i == 0 || l[i - 1] <= l[i]));
    if valid { None } else { Some(7) }
}

/// The places whose difference is within the tolerance, in rising order.
pub fn matches(deck: Columns, reading: Lab, k: Weights, tolerance: i128) -> Vec<u16> {
    let listed = |&i: &usize| is_within(ciede2000(swatch(deck, i), reading, k), tolerance);
    (0..deck[0].len()).filter(listed).map(|i| i as u16).collect()
}

/// What a search gives: the refusal number (0 for none), the count, and the list's contents.
pub fn search(deck: Columns, reading: Reading, k: [f32; 3], t: f32, list: &mut [u16]) -> (u32, usize) {
    let accepted = || Ok::<_, u32>((sample(reading)?, weights(k)?, tolerance(t)?));
    let (reading, k, t) = match accepted() {
        Ok(all) => all,
        Err(refusal) => return (refusal, 0),
    };
    if let Some(refusal) = refused(deck) {
        return (refusal, 0);
    }
    let found = matches(deck, reading, k, t);
    if found.len() > list.len() {
        return (8, found.len());
    }
    list[..found.len()].copy_from_slice(&found);
    (0, found.len())
}

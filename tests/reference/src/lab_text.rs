//! The lab's text: a plain reader by lines and words, with refusals 6, 7 and 13 to 16, and what the
//! program `lab_import` writes.

use crate::deck::LARGEST;

#[derive(Clone, PartialEq, Debug)]
pub struct Swatch {
    pub code: u32,
    /// L, a and b in 1/10,000.
    pub lab: [i32; 3],
}

pub const NAMES: [&str; 4] = ["SAMPLE_ID", "LAB_L", "LAB_A", "LAB_B"];

/// The number that one to `most` digits show.
fn number(word: &str, most: usize) -> Option<i64> {
    if !(1..=most).contains(&word.len()) {
        return None;
    }
    let digits: Option<Vec<u32>> = word.chars().map(|c| c.to_digit(10)).collect();
    Some(digits?.into_iter().fold(0, |n, digit| 10 * n + i64::from(digit)))
}

/// A decimal in 1/10,000.
fn decimal(word: &str) -> Option<i32> {
    let size = word.strip_prefix('-').unwrap_or(word);
    let sign = if size.len() < word.len() { -1 } else { 1 };
    let (whole, fraction) = size.split_once('.').unwrap_or((size, "0"));
    let places = fraction.len() as u32;
    let size = 10_000 * number(whole, 3)? + 10_000 * number(fraction, 4)? / 10i64.pow(places);
    Some(sign * size as i32)
}

/// A row; `order` tells where the words of code, L, a and b stand.
fn row(line: &str, order: [usize; 4]) -> Option<Swatch> {
    let words: [&str; 4] = line.split(' ').collect::<Vec<_>>().try_into().ok()?;
    let [code, l, a, b] = order.map(|at| words[at]);
    let code = number(code, 10)?.try_into().ok()?;
    Some(Swatch { code, lab: [decimal(l)?, decimal(a)?, decimal(b)?] })
}

/// Where each of the four names stands among the words of the line.
fn order(line: &str) -> Option<[usize; 4]> {
    let words: Vec<&str> = line.split(' ').collect();
    let found = NAMES.map(|name| words.iter().position(|&word| word == name));
    match found {
        [Some(code), Some(l), Some(a), Some(b)] if words.len() == 4 => Some([code, l, a, b]),
        _ => None,
    }
}

/// Where the words of a row stand, the number of sets, and the lines of the rows.
fn parts(text: &str) -> Option<([usize; 4], i64, Vec<&str>)> {
    // the text without its last newline, so that no empty line follows the last one
    let lines: Vec<&str> = text.strip_suffix('\n')?.split('\n').collect();
    let ["BEGIN_DATA_FORMAT", names, "END_DATA_FORMAT", sets, "BEGIN_DATA", rows @ .., "END_DATA"] = &lines[..] else {
        return None;
    };
    // an earlier END_DATA ends the rows, and then something follows it
    if rows.contains(&"END_DATA") {
        return None;
    }
    let sets = number(sets.strip_prefix("NUMBER_OF_SETS ")?, 5)?;
    Some((order(names)?, sets, rows.to_vec()))
}

fn within_limits(swatch: &Swatch) -> bool {
    let [l, a, b] = swatch.lab;
    (0..=1_000_000).contains(&l) && [a, b].iter().all(|x| (-1_280_000..=1_280_000).contains(x))
}

/// The swatches in rising lightness, equal lightness in row order; or the refusal number.
pub fn read(text: &[u8]) -> Result<Vec<Swatch>, u32> {
    // a character a byte, whatever the bytes are
    let text: String = text.iter().map(|&byte| char::from(byte)).collect();
    let (order, sets, rows) = parts(&text).ok_or(14u32)?;
    let swatches: Option<Vec<Swatch>> = rows.iter().map(|line| row(line, order)).collect();
    let mut swatches = swatches.ok_or(15u32)?;
    if swatches.len() as i64 != sets {
        return Err(16);
    }
    if swatches.len() > LARGEST {
        return Err(6);
    }
    if !swatches.iter().all(within_limits) {
        return Err(7);
    }
    swatches.sort_by_key(|swatch| swatch.lab[0]);
    Ok(swatches)
}

/// What an import to columns with these rooms gives.
pub fn import(text: &[u8], rooms: [usize; 4]) -> Result<Vec<Swatch>, u32> {
    let swatches = read(text)?;
    if rooms.iter().any(|&room| room < swatches.len()) { Err(13) } else { Ok(swatches) }
}

/// A number of 1/10,000 with four decimals.
fn shown(grid: i32) -> String {
    let (size, sign) = (grid.abs(), if grid < 0 { "-" } else { "" });
    format!("{sign}{}.{:04}", size / 10_000, size % 10_000)
}

/// What the program `lab_import` writes.
pub fn listing(text: &[u8]) -> String {
    match read(text) {
        Ok(swatches) => {
            swatches.iter().map(|Swatch { code, lab }| format!("{code} {}\n", lab.map(shown).join(" "))).collect()
        }
        Err(refusal) => format!("refused {refusal}\n"),
    }
}

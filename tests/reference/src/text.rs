//! "Text program": the bytes that the program writes for the bytes that it reads.

use crate::working::{Cie94, EVEN, FIGURES, Lab, cie76, cie94, figures};

pub const HEADER: &[u8] = b"de76 de94 de00 dl dc dh\n";

/// One decimal as a grid number: an optional minus, one to three digits, and optionally a point
/// and one to four digits.
fn decimal(word: &[u8]) -> Option<i128> {
    let (negative, word) = match word {
        [b'-', rest @ ..] => (true, rest),
        _ => (false, word),
    };
    let (whole, fraction) = match word.iter().position(|&c| c == b'.') {
        Some(point) => (&word[..point], Some(&word[point + 1..])),
        None => (word, None),
    };
    let digits = |part: &[u8], most: usize| (1..=most).contains(&part.len()) && part.iter().all(u8::is_ascii_digit);
    if !digits(whole, 3) || !fraction.is_none_or(|f| digits(f, 4)) {
        return None;
    }
    let mut number = 0;
    let shown = fraction.unwrap_or(b"");
    let zeros = &b"0000"[shown.len()..];
    for digit in whole.iter().chain(shown).chain(zeros) {
        number = 10 * number + i128::from(digit - b'0');
    }
    Some(if negative { -number } else { number })
}

/// The six grid numbers of a line, without its newline.
fn line(bytes: &[u8]) -> Option<[i128; 6]> {
    if bytes.len() > 96 {
        return None;
    }
    let words: Option<Vec<i128>> = bytes.split(|&c| c == b' ').map(decimal).collect();
    words?.try_into().ok()
}

/// Refusals 2 and 3 of a sample.
fn sample(l: i128, a: i128, b: i128) -> Result<Lab, u32> {
    if !(0..=1_000_000).contains(&l) {
        Err(2)
    } else if a.abs() > 1_280_000 || b.abs() > 1_280_000 {
        Err(3)
    } else {
        Ok(Lab { l, a, b })
    }
}

/// A number of millionths with six decimals.
fn shown(millionths: i128) -> String {
    let (size, sign) = (millionths.abs(), if millionths < 0 { "-" } else { "" });
    format!("{sign}{}.{:06}", size / 1_000_000, size % 1_000_000)
}

/// The answer to one line, without the newline.
fn answer(bytes: &[u8]) -> String {
    let samples = || {
        let [l1, a1, b1, l2, a2, b2] = line(bytes).ok_or(9u32)?;
        Ok::<_, u32>((sample(l1, a1, b1)?, sample(l2, a2, b2)?))
    };
    match samples() {
        Err(refusal) => format!("refused {refusal}"),
        Ok((s1, s2)) => {
            let f = figures(s1, s2, EVEN);
            let (l, c, h, de00) = (f[FIGURES - 4], f[FIGURES - 3], f[FIGURES - 2], f[FIGURES - 1]);
            let de94 = cie94(s1, s2, EVEN, Cie94 { textile: false, standard: true });
            [cie76(s1, s2), de94, de00, l, c, h].map(shown).join(" ")
        }
    }
}

pub fn text_of(input: &[u8]) -> Vec<u8> {
    let mut output = HEADER.to_vec();
    let ended = input.strip_suffix(b"\n").unwrap_or(input);
    if !input.is_empty() {
        for bytes in ended.split(|&c| c == b'\n') {
            output.extend(answer(bytes).bytes());
            output.push(b'\n');
        }
    }
    output
}

//! Checks the tables in the code, entry by entry, against the series; and the parabolas of the integer
//! square root against the root, and the polynomial of the hue against the arctangent: an error there
//! would show in no answer, only in the time.
//! Arguments: the source files with the sines, the bell, the parabolas and the polynomial.

use reference::tables::{BELL, SINE};
use reference::tally::Tally;

/// The entries of the one constant array of this many numbers in a source file.
fn entries(file: &str, count: usize) -> Vec<i128> {
    let source = std::fs::read_to_string(file).unwrap_or_else(|e| panic!("{file}: {e}"));
    let start = format!("[u32; {count}] = [");
    let parts: Vec<&str> = source.split(&start).collect();
    assert!(parts.len() == 2, "{file}: {} constants of the form '{start}', not one", parts.len() - 1);
    let body = parts[1].split(']').next().expect("a closing bracket");
    let words = body.split(',').map(str::trim).filter(|word| !word.is_empty());
    words.map(|word| word.parse().unwrap_or_else(|_| panic!("{file}: '{word}' is not an entry"))).collect()
}

/// The first estimate of a root: for parts from 8 to 31 start + rise × t - bend × t² is
/// 2^24 × √((part + t) / 32), at most 4 millionths off.
fn parabolas(t: &mut Tally, file: &str) {
    let source = std::fs::read_to_string(file).unwrap_or_else(|e| panic!("{file}: {e}"));
    let mut part = 8;
    for line in source.lines() {
        let Some((number, figures)) = line.trim().split_once(" => Parabola(") else { continue };
        let Ok(number) = number.parse::<u32>() else { continue };
        let figures = figures.strip_suffix("),").expect("one parabola to a line");
        let figures: Vec<f64> = figures.split(", ").map(|word| word.parse().expect("a figure")).collect();
        let [start, rise, bend] = figures[..] else { panic!("{file}: part {number} has not three figures") };
        t.same((file, "part"), number, part);
        for step in 0..=1 << 16 {
            let x = f64::from(step) / 65_536.0;
            let root = (1 << 24) as f64 * ((f64::from(part) + x) / 32.0).sqrt();
            let off = ((start + rise * x - bend * x * x) / root - 1.0).abs();
            t.same((file, "part", part, "at", x, "off by", off), off <= 4e-6, true);
        }
        part += 1;
    }
    t.same((file, "end of the parts"), part, 32);
    t.report(&format!("{file}, parabolas against the root"));
}

/// The estimate of a hue: the polynomial in u is the arctangent of u in tenths of a degree, at most 0.36
/// off. The tenth below the hue is then the nearest one or the one before it, as the code takes it.
fn polynomial(t: &mut Tally, file: &str) {
    let source = std::fs::read_to_string(file).unwrap_or_else(|e| panic!("{file}: {e}"));
    let body = source.split("fn arctangent(").nth(1).and_then(|rest| rest.split("\n{\n").nth(1)).expect("a body");
    let body = body.split("\n}\n").next().expect("an end");
    let words = body.split(|c: char| !c.is_ascii_digit()).filter(|word| !word.is_empty());
    let figures: Vec<f64> = words.map(|word| word.parse().expect("a figure")).collect();
    let [third, fifth, first] = figures[..] else { panic!("{file}: {figures:?} are not three figures") };
    for step in 0..=1 << 16 {
        let u = f64::from(step) / 65_536.0;
        let found = u * (first - u * u * (third - u * u * fifth)) / 65_536.0;
        let off = (found - 10.0 * u.atan().to_degrees()).abs();
        t.same((file, "arctangent of", u, "off by", off), off <= 0.36, true);
    }
    t.report(&format!("{file}, the polynomial against the arctangent"));
}

fn main() {
    let mut t = Tally::new("tables");
    let files: Vec<String> = std::env::args().skip(1).collect();
    let [sines, bell, root, hue] = &files[..] else { panic!("four source files are needed") };
    for (file, series) in [(sines, &*SINE), (bell, &*BELL)] {
        let found = entries(file, series.len());
        t.same(("number of entries", file), found.len(), series.len());
        for (k, (found, entry)) in found.iter().zip(series).enumerate() {
            t.same((file, "entry", k), found, entry);
        }
        t.report(&format!("{file} against the series"));
    }
    parabolas(&mut t, root);
    polynomial(&mut t, hue);
    t.end();
}

//! The lab's texts on which the checks compare: whole ones of every form, and damages.

use crate::lab_text::NAMES;
use crate::random::Random;

/// The words of a row: code, L, a, b.
pub type Row = [String; 4];

/// The lines of a text, without their newlines.
pub type Lines = Vec<Vec<u8>>;

/// A text by hand, with two rows of one lightness.
pub const BY_HAND: &[u8] = b"BEGIN_DATA_FORMAT
LAB_B SAMPLE_ID LAB_L LAB_A
END_DATA_FORMAT
NUMBER_OF_SETS 004
BEGIN_DATA
-0.5 7 50.0001 128
-128.0 4294967295 50 -0
012.34 0000000012 0.1 -0.0001
5 3 050.0000 -000.00
END_DATA
";

/// All 24 orders of the four names: which of them stands first, second, third, last.
pub fn orders() -> Vec<[usize; 4]> {
    let all = (0..256).map(|n| [n / 64, n / 16 % 4, n / 4 % 4, n % 4]);
    all.filter(|order| (0..4).all(|name| order.contains(&name))).collect()
}

/// The lines of a text whose names and rows stand in an order; `sets` follows NUMBER_OF_SETS.
pub fn lines(order: [usize; 4], sets: &str, rows: &[Row]) -> Lines {
    let head = ["BEGIN_DATA_FORMAT".to_string(), order.map(|i| NAMES[i]).join(" "), "END_DATA_FORMAT".to_string()];
    let sets = [format!("NUMBER_OF_SETS {sets}"), "BEGIN_DATA".to_string()];
    let rows = rows.iter().map(|row| order.each_ref().map(|&i| row[i].as_str()).join(" "));
    let all = head.into_iter().chain(sets).chain(rows).chain(["END_DATA".to_string()]);
    all.map(String::into_bytes).collect()
}

/// The text of lines, each ended by a newline.
pub fn text(lines: &[Vec<u8>]) -> Vec<u8> {
    lines.iter().flat_map(|line| line.iter().copied().chain([b'\n'])).collect()
}

/// A text with the right number of sets.
pub fn whole(order: [usize; 4], rows: &[Row]) -> Vec<u8> {
    text(&lines(order, &rows.len().to_string(), rows))
}

/// The decimal of a number of 1/10,000 with this sign, so many digits and so many decimals.
fn form(grid: i32, sign: &str, digits: usize, places: usize) -> String {
    let (whole, fraction) = (grid.abs() / 10_000, format!("{:04}", grid.abs() % 10_000));
    let point = if places == 0 { "" } else { "." };
    format!("{sign}{whole:0digits$}{point}{}", &fraction[..places])
}

/// The signs, and the fewest digits and decimals, that a number of 1/10,000 may have.
fn fewest(grid: i32) -> (&'static [&'static str], usize, usize) {
    let signs: &[&str] = match grid {
        ..0 => &["-"],
        0 => &["", "-"],
        _ => &[""],
    };
    let digits = 1 + (grid.abs() >= 100_000) as usize + (grid.abs() >= 1_000_000) as usize;
    let places = [10_000, 1_000, 100, 10, 1].iter().position(|unit| grid % unit == 0).expect("1 divides it");
    (signs, digits, places)
}

/// Every decimal that shows a number of 1/10,000.
pub fn decimals(grid: i32) -> Vec<String> {
    let (signs, digits, places) = fewest(grid);
    let lengths = (digits..=3).flat_map(|digits| (places..=4).map(move |places| (digits, places)));
    lengths.flat_map(|(digits, places)| signs.iter().map(move |sign| form(grid, sign, digits, places))).collect()
}

/// One of them.
pub fn decimal(grid: i32, r: &mut Random) -> String {
    let (signs, digits, places) = fewest(grid);
    let sign = r.pick(signs);
    form(grid, sign, digits + r.below(4 - digits), places + r.below(5 - places))
}

/// A code, often with leading zeros.
pub fn code(r: &mut Random) -> String {
    let code = r.next() as u32 >> r.below(32);
    let code = r.pick(&[code, code, code, code, 0, u32::MAX]);
    let digits = if r.one_in(2) { 1 } else { 1 + r.below(10) };
    format!("{code:0digits$}")
}

#[derive(Clone, Copy, Debug)]
pub enum Sort {
    Anywhere,
    /// At the limits and next to them.
    Limits,
    /// Of few lightnesses, so that many are equal.
    Ties,
    /// Of few decimals, so that the short forms come up.
    Round,
}

pub const SORTS: [Sort; 4] = [Sort::Anywhere, Sort::Limits, Sort::Ties, Sort::Round];

/// A row within the limits.
pub fn row(sort: Sort, r: &mut Random) -> Row {
    const LIGHTEST: i32 = 1_000_000;
    const MOST: i32 = 1_280_000;
    let mut from = |low: i32, high: i32| r.from(low.into(), high.into()) as i32;
    let lab = match sort {
        Sort::Anywhere => [from(0, LIGHTEST), from(-MOST, MOST), from(-MOST, MOST)],
        Sort::Limits => {
            let plane = [-MOST, 1 - MOST, -1, 0, 1, MOST - 1, MOST];
            [r.pick(&[0, 1, LIGHTEST - 1, LIGHTEST]), r.pick(&plane), r.pick(&plane)]
        }
        Sort::Ties => [500_000 + from(0, 2), from(-MOST, MOST), from(-9, 9)],
        Sort::Round => {
            let unit = [1_000, 10_000, 100_000][from(0, 2) as usize];
            [(0, LIGHTEST), (-MOST, MOST), (-MOST, MOST)].map(|(low, high)| unit * from(low / unit, high / unit))
        }
    };
    let [l, a, b] = lab.map(|grid| decimal(grid, r));
    [code(r), l, a, b]
}

pub fn rows(sort: Sort, count: usize, r: &mut Random) -> Vec<Row> {
    (0..count).map(|_| row(sort, r)).collect()
}

/// Words that are no decimal. Some of them are codes.
#[rustfmt::skip]
pub const NO_DECIMALS: [&str; 36] = [
    "", "-", ".", "-.", "+1", "1.", "-1.", ".5", "-.5", "1.23456", "0.00000", "1000", "0000", "-0000", "-1000",
    "1000.0", "1e1", "1,5", "--1", "1-", "1.2.3", "1..2", "0x1", "1_0", "nan", "inf", "-inf", "1\t", "\t1", "1\0",
    "1\r", "\u{bd}", "\u{663}", "5.-1", "-0.", "1:",
];

/// Words that are no code. Some of them are decimals.
#[rustfmt::skip]
pub const NO_CODES: [&str; 24] = [
    "", "-1", "+1", "-0", "1.0", "1.", ".", "00000000000", "00000000001", "12345678901", "4294967296", "4294967300",
    "5000000000", "9999999999", "99999999999", "04294967295", "18446744073709551617", "1e3", "0x10", "1_0", "1\t",
    "1\0", "\u{661}", "1/",
];

/// Lines that stand in a text, or nearly.
#[rustfmt::skip]
pub const LINES: [&str; 29] = [
    "BEGIN_DATA_FORMAT", "SAMPLE_ID LAB_L LAB_A LAB_B", "END_DATA_FORMAT", "NUMBER_OF_SETS 1", "NUMBER_OF_SETS 2",
    "BEGIN_DATA", "END_DATA", "1 2 3 4", "9 100.0001 0 0", "", " ", "\r", "END_DATA ", " END_DATA", "END_DATA\r",
    "END_DATA\0", "END_DATA_", "END_DAT", "end_data", "END_DATA END_DATA", "BEGIN_DATA ", "begin_data", "BEGIN_DATA\t",
    "BEGIN_DATA_FORMAT ", "END_DATA_FORMAT ", "NUMBER_OF_SETS", "NUMBER_OF_SETS  1", "NUMBER_OF_SETS\t1", "CGATS.17",
];

/// Bytes that do something in a text, or nearly.
pub const BYTES: &[u8] = b" \n\r\t-.0129_AaEBL+,:/\0\x0b\x0c\x1f\x7f\x80\xa0\xff";

/// Damages a text in its lines or words.
pub fn damage_lines(lines: &mut Lines, r: &mut Random) {
    if lines.is_empty() {
        return;
    }
    let (at, other) = (r.below(lines.len()), r.below(lines.len()));
    match r.below(10) {
        0 => {
            lines.remove(at);
        }
        1 => lines.insert(at, lines[at].clone()),
        2 => lines.insert(at, lines[other].clone()),
        3 => lines.swap(at, other),
        4 => lines[at] = r.pick(&LINES).into(),
        5 => lines.insert(at, r.pick(&LINES).into()),
        6 => lines[at].make_ascii_lowercase(),
        _ => damage_words(&mut lines[at], r),
    }
}

/// Damages a line in its words.
fn damage_words(line: &mut Vec<u8>, r: &mut Random) {
    let mut words: Vec<Vec<u8>> = line.split(|&byte| byte == b' ').map(<[u8]>::to_vec).collect();
    let (at, other) = (r.below(words.len()), r.below(words.len()));
    match r.below(8) {
        0 => {
            words.remove(at);
        }
        1 => words.insert(at, words[at].clone()),
        2 => words.swap(at, other),
        3 => words[at] = r.pick(&NAMES).into(),
        4 => words[at] = r.pick(&NO_DECIMALS).into(),
        5 => words[at] = r.pick(&NO_CODES).into(),
        6 => words[at] = decimal(r.from(-9_999_999, 9_999_999) as i32, r).into_bytes(),
        _ => {
            words[at] =
                r.pick(&["0", "1", "2", "00003", "000004", "128", "-128", "100", "128.0001", "4294967295"]).into()
        }
    }
    *line = words.join(&b' ');
}

/// Damages a text in one place.
pub fn damage_bytes(text: &mut Vec<u8>, r: &mut Random) {
    if text.is_empty() {
        return;
    }
    let (at, other) = (r.below(text.len()), r.below(text.len()));
    match r.below(9) {
        0 => text[at] = r.pick(BYTES),
        1 => text.insert(at, r.pick(BYTES)),
        2 => {
            text.remove(at);
        }
        3 => text.insert(at, text[at]),
        4 => text.swap(at, other),
        5 => text.truncate(at),
        6 => {
            text.extend_from_slice(r.pick(&[b"\n".as_slice(), b" ", b"\r\n", b"0", b"END_DATA\n", b"1 2 3 4\n", b"\0"]))
        }
        7 => drop(text.drain(at..(at + 1 + r.below(6)).min(text.len()))),
        _ => text[at] = r.next() as u8,
    }
}

/// A text of up to `most` rows, its names in one of the orders, with none to three damages.
pub fn damaged(orders: &[[usize; 4]], most: usize, r: &mut Random) -> Vec<u8> {
    let (sort, count) = (r.pick(&SORTS), r.below(most + 1));
    let (order, mut rows) = (orders[r.below(orders.len())], rows(sort, count, r));
    if count > 0 && r.one_in(10) {
        let beyond = r.pick(&[-9_999_999, -1_280_001, 1_280_001, 2_000_000, 9_999_999]);
        rows[r.below(count)][1 + r.below(3)] = decimal(beyond, r);
    }
    let digits = r.pick(&[1, 1, 1, 2, 5]);
    let sets = if r.one_in(20) { r.below(count + 3) } else { count };
    let mut lines = lines(order, &format!("{sets:0digits$}"), &rows);
    let damages = r.pick(&[0, 0, 1, 1, 1, 2, 3]);
    let in_lines = r.below(damages + 1);
    for _ in 0..in_lines {
        damage_lines(&mut lines, r);
    }
    let mut text = text(&lines);
    for _ in in_lines..damages {
        damage_bytes(&mut text, r);
    }
    text
}

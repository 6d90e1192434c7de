//! Checks the import of the lab's text against the reference: the answer, and everything that was
//! lent, whole. The first text on which they differ is shown, and ends the program.

use interface as lq;
use reference::deck::LARGEST;
use reference::deck_file;
use reference::lab_cases::{self as cases, LINES, Lines, NO_CODES, NO_DECIMALS, Row, SORTS, Sort};
use reference::lab_text::{self, NAMES, Swatch};
use reference::random::Random;
use reference::tally::Tally;
use std::fmt::Debug;

/// The order of the names in which they are numbered.
const PLAIN: [usize; 4] = [0, 1, 2, 3];

/// What is lent to a call.
#[derive(PartialEq)]
struct Lists {
    code: Vec<u32>,
    lab: [Vec<i32>; 3],
}

impl Lists {
    /// What the rooms hold before a call: numbers that no deck has.
    fn before([code, l, a, b]: [usize; 4]) -> Lists {
        let code = (0..code).map(|i| 3_000_000_000 + i as u32).collect();
        let lab = [l, a, b].map(|room| (0..room).map(|i| -2_000_000_000 + i as i32).collect());
        Lists { code, lab }
    }

    fn put(&mut self, swatches: &[Swatch]) {
        for (place, swatch) in swatches.iter().enumerate() {
            self.code[place] = swatch.code;
            for (column, value) in self.lab.iter_mut().zip(swatch.lab) {
                column[place] = value;
            }
        }
    }

    /// A list's name and the first place where two lists of that name differ, with what they hold there.
    fn difference(&self, other: &Lists) -> Option<(&'static str, usize, i64, i64)> {
        let wide = |list: &Lists| -> [Vec<i64>; 4] {
            let [l, a, b] = list.lab.each_ref().map(|column| column.iter().map(|&x| x.into()).collect());
            [list.code.iter().map(|&x| x.into()).collect(), l, a, b]
        };
        let (these, those) = (wide(self), wide(other));
        let differing = NAMES.iter().zip(these.iter().zip(&those)).find_map(|(name, (this, that))| {
            let place = this.iter().zip(that).position(|(x, y)| x != y)?;
            Some((*name, place, this[place], that[place]))
        });
        if self == other { None } else { differing }
    }
}

/// Shows a text, long ones in part, and keeps it in a file beside this program.
fn show(text: &[u8]) {
    let lines: Vec<&[u8]> = text.split_inclusive(|&byte| byte == b'\n').collect();
    let left_out = if lines.len() > 40 { 20..lines.len() - 10 } else { 0..0 };
    for (i, line) in lines.iter().enumerate().filter(|(i, _)| !left_out.contains(i)) {
        let (end, cut) = if line.len() > 200 { (200, "...") } else { (line.len(), "") };
        eprintln!("{:>6}  {}{cut}", i + 1, line[..end].escape_ascii());
    }
    let kept = std::env::current_exe().map(|program| program.with_extension("txt"));
    if let Ok(file) = kept.and_then(|file| std::fs::write(&file, text).map(|()| file)) {
        eprintln!("lab_import: the text has {} bytes and is kept as {}", text.len(), file.display());
    }
}

/// Imports a text and gives the refusal number.
fn import(t: &mut Tally, what: impl Debug, text: &[u8], rooms: [usize; 4]) -> u32 {
    let about = (what, "rooms", rooms);
    let (mut lists, mut wanted_lists) = (Lists::before(rooms), Lists::before(rooms));
    let imported = lab_text::import(text, rooms);
    let wanted = match &imported {
        Ok(swatches) => {
            wanted_lists.put(swatches);
            (0, swatches.len())
        }
        Err(refusal) => (*refusal, 0),
    };
    let kept = text.to_vec();
    let found = lq::import(text, &mut lists.code, &mut lists.lab);
    t.same(("answer", &about), found, wanted);
    t.same(("lists", &about), lists.difference(&wanted_lists), None);
    t.same(("text kept", &about), text == kept, true);
    if found != wanted || lists != wanted_lists || text != kept {
        show(text);
        t.fail();
    }
    if found.0 == 0 {
        // the columns are a deck
        let deck = lists.lab.each_ref().map(|column| &column[..found.1]);
        let mut file = vec![0; deck_file::HEAD + deck_file::SWATCH * found.1];
        let written = lq::deck_write(deck, &mut file);
        t.same(("as a deck", &about), (written, file == deck_file::bytes(deck)), ((0, file.len()), true));
    }
    found.0
}

/// Imports a text whose refusal is known by hand.
fn holds(t: &mut Tally, what: impl Debug, text: &[u8], rooms: [usize; 4], refusal: u32) {
    let found = import(t, &what, text, rooms);
    t.same(("refusal by hand", &what, rooms), found, refusal);
    if found != refusal {
        show(text);
        t.fail();
    }
}

fn by_hand(t: &mut Tally) {
    let mut lists = Lists::before([6, 4, 5, 4]);
    let answer = lq::import(cases::BY_HAND, &mut lists.code, &mut lists.lab);
    let code = vec![12, 4_294_967_295, 3, 7, 3_000_000_004, 3_000_000_005];
    let l = vec![1_000, 500_000, 500_000, 500_001];
    let a = vec![-1, 0, 0, 1_280_000, -1_999_999_996];
    let b = vec![123_400, -1_280_000, 50_000, -5_000];
    t.same("a text by hand, imported", answer, (0, 4));
    t.same("a text by hand, columns", (lists.code, lists.lab), (code, [l, a, b]));
    import(t, "a text by hand", cases::BY_HAND, [4; 4]);
    t.report("a text by hand");
}

/// What follows NUMBER_OF_SETS, and the rows, with the refusal by hand.
#[rustfmt::skip]
const ROWS: &[(&str, &str, u32)] = &[
    ("0", "", 0), ("1", "1 2 3 4\n", 0), ("00001", "1 2 3 4\n", 0), ("2", "1 2 3 4\n1 2 3 4\n", 0),
    ("1", "4294967295 100.0000 -128.0 128\n", 0), ("1", "0000000000 -0 -000.0000 -0.0\n", 0),
    // 14
    ("", "", 14), ("000000", "", 14), ("000001", "1 2 3 4\n", 14), ("100000", "", 14), ("0 ", "", 14), (" 0", "", 14),
    ("+0", "", 14), ("-0", "", 14), ("0.0", "", 14), ("0\r", "", 14), ("0\t", "", 14), ("x", "", 14), ("0 0", "", 14),
    ("0", "END_DATA\n", 14), ("1", "1 2 3 4\nEND_DATA\n", 14), ("1", "END_DATA\n1 2 3 4\n", 14),
    ("1", "x\nEND_DATA\n", 14), ("0", "END_DATA\n\n", 14),
    // 15
    ("1", "\n", 15), ("1", " \n", 15), ("1", "\r\n", 15), ("1", "1 2 3\n", 15), ("1", "1 2 3 4 5\n", 15),
    ("1", "1 2 3 4 \n", 15), ("1", " 1 2 3 4\n", 15), ("1", "1  2 3 4\n", 15), ("1", "1\t2 3 4\n", 15),
    ("1", "1 2 3 4\r\n", 15), ("1", "1 2 3 4\0\n", 15), ("2", "1 2 3 4\n\n", 15), ("2", "\n1 2 3 4\n", 15),
    ("1", "END_DATA \n", 15), ("1", " END_DATA\n", 15), ("1", "END_DATA\r\n", 15), ("1", "end_data\n", 15),
    ("1", "BEGIN_DATA\n", 15), ("1", "END_DATA_FORMAT\n", 15), ("1", "NUMBER_OF_SETS 1\n", 15),
    ("1", "4294967296 0 0 0\n", 15), ("1", "9999999999 0 0 0\n", 15), ("1", "00000000000 0 0 0\n", 15),
    ("1", "-1 0 0 0\n", 15), ("1", "+1 0 0 0\n", 15), ("1", "1.0 0 0 0\n", 15), ("1", " 0 0 0\n", 15),
    ("1", "1 1000 0 0\n", 15), ("1", "1 0000 0 0\n", 15), ("1", "1 0.00000 0 0\n", 15), ("1", "1 5. 0 0\n", 15),
    ("1", "1 .5 0 0\n", 15), ("1", "1 +5 0 0\n", 15), ("1", "1 - 0 0\n", 15), ("1", "1 --5 0 0\n", 15),
    ("1", "1 0 1e1 0\n", 15), ("1", "1 0 0 1,5\n", 15), ("1", "1 0 0 \n", 15),
    // 16
    ("0", "1 2 3 4\n", 16), ("2", "1 2 3 4\n", 16), ("1", "", 16), ("99999", "1 2 3 4\n", 16), ("01", "", 16),
    // 7
    ("1", "1 100.0001 0 0\n", 7), ("1", "1 -0.0001 0 0\n", 7), ("1", "1 0 128.0001 0\n", 7), ("1", "1 101 0 0\n", 7),
    ("1", "1 0 -128.0001 0\n", 7), ("1", "1 0 0 128.0001\n", 7), ("1", "1 0 0 -999.9999\n", 7),
    // several at once
    ("x", "x\n", 14), ("9", "1 2\n1 100.0001 0 0\n", 15), ("9", "1 100.0001 0 0\n", 16), ("0", "x\n", 15),
    ("1", "x\n1 101 0 0\n", 15),
];

/// The lines before the rows, where there are none.
const HEAD: &str = "BEGIN_DATA_FORMAT
SAMPLE_ID LAB_L LAB_A LAB_B
END_DATA_FORMAT
NUMBER_OF_SETS 0
BEGIN_DATA
";

/// Texts with the refusal by hand; @ stands for HEAD.
#[rustfmt::skip]
const TEXTS: &[(&str, u32)] = &[
    ("@END_DATA\n", 0),
    ("", 14), ("\n", 14), ("END_DATA\n", 14), ("END_DATA", 14), ("BEGIN_DATA_FORMAT\n", 14),
    ("BEGIN_DATA\nEND_DATA\n", 14),
    // no END_DATA line, also where a row is malformed
    ("@", 14), ("@END_DATA", 14), ("@x\n", 14), ("@x\nEND_DATA", 14), ("@END_DATA\r\n", 14), ("@END_DATA \n", 14),
    // something after it
    ("@END_DATA\n\n", 14), ("@END_DATA\n ", 14), ("@END_DATA\n\0", 14), ("@END_DATA\n\r\n", 14),
    ("@END_DATA\n1 2 3 4\n", 14), ("@x\nEND_DATA\nx\n", 14), ("@END_DATA\nEND_DATA\n", 14), ("@END_DATA\nEND_DATA", 14),
    ("@END_DATA\n@END_DATA\n", 14),
    // something before the first line
    ("\n@END_DATA\n", 14), (" @END_DATA\n", 14), ("CGATS.17\n@END_DATA\n", 14), ("\u{feff}@END_DATA\n", 14),
    ("END_DATA\n@END_DATA\n", 14), ("@@END_DATA\n", 15), ("@x\r\nEND_DATA\n", 15),
    // lines missing, doubled, or of another form
    ("SAMPLE_ID LAB_L LAB_A LAB_B\nEND_DATA_FORMAT\nNUMBER_OF_SETS 0\nBEGIN_DATA\nEND_DATA\n", 14),
    ("BEGIN_DATA_FORMAT\nEND_DATA_FORMAT\nNUMBER_OF_SETS 0\nBEGIN_DATA\nEND_DATA\n", 14),
    ("BEGIN_DATA_FORMAT\nSAMPLE_ID LAB_L LAB_A LAB_B\nNUMBER_OF_SETS 0\nBEGIN_DATA\nEND_DATA\n", 14),
    ("BEGIN_DATA_FORMAT\nSAMPLE_ID LAB_L LAB_A LAB_B\nEND_DATA_FORMAT\nBEGIN_DATA\nEND_DATA\n", 14),
    ("BEGIN_DATA_FORMAT\nSAMPLE_ID LAB_L LAB_A LAB_B\nEND_DATA_FORMAT\nNUMBER_OF_SETS 0\nEND_DATA\n", 14),
    ("BEGIN_DATA_FORMAT\n@END_DATA\n", 14),
    ("BEGIN_DATA_FORMAT\nEND_DATA\nEND_DATA_FORMAT\nNUMBER_OF_SETS 0\nBEGIN_DATA\nEND_DATA\n", 14),
    ("BEGIN_DATA_FORMAT\nSAMPLE_ID\nLAB_L\nLAB_A\nLAB_B\nEND_DATA_FORMAT\nNUMBER_OF_SETS 0\nBEGIN_DATA\nEND_DATA\n", 14),
    ("BEGIN_DATA_FORMAT\nSAMPLE_ID LAB_L LAB_A LAB_B\nNUMBER_OF_SETS 0\nEND_DATA_FORMAT\nBEGIN_DATA\nEND_DATA\n", 14),
    ("BEGIN_DATA_FORMAT\r\nSAMPLE_ID LAB_L LAB_A LAB_B\nEND_DATA_FORMAT\nNUMBER_OF_SETS 0\nBEGIN_DATA\nEND_DATA\n", 14),
];

fn refusals_by_hand(t: &mut Tally) {
    for (sets, rows, refusal) in ROWS {
        let head = "BEGIN_DATA_FORMAT\nSAMPLE_ID LAB_L LAB_A LAB_B\nEND_DATA_FORMAT\nNUMBER_OF_SETS";
        let text = format!("{head} {sets}\nBEGIN_DATA\n{rows}END_DATA\n");
        holds(t, "rows by hand", text.as_bytes(), [9; 4], *refusal);
        let without_room = if *refusal == 0 && !rows.is_empty() { 13 } else { *refusal };
        holds(t, "rows by hand", text.as_bytes(), [0; 4], without_room);
    }
    for (text, refusal) in TEXTS {
        let text = text.replace('@', HEAD);
        holds(t, "a text by hand", text.as_bytes(), [9; 4], *refusal);
        holds(t, "a text by hand", text.as_bytes(), [0; 4], *refusal);
    }
    t.report("refusals by hand");
}

/// Rows with these lightnesses, all of four decimals; the other words tell them apart.
fn sequence(lightness: impl IntoIterator<Item = i32>) -> Vec<Row> {
    let row = |(i, l): (usize, i32)| {
        let (whole, fraction) = (i / 10_000, i % 10_000);
        let (a, b) = (format!("{whole}.{fraction:04}"), format!("-{whole}.{fraction:04}"));
        [i.to_string(), format!("{}.{:04}", l / 10_000, l % 10_000), a, b]
    };
    lightness.into_iter().enumerate().map(row).collect()
}

/// A few rows, each of another form.
fn few_rows() -> Vec<Row> {
    [["17", "52.5", "-3.25", "17.0625"], ["0004", "48", "0", "-0.0"], ["4294967295", "100.0000", "-128", "128.00"]]
        .map(|row| row.map(str::to_string))
        .to_vec()
}

/// A text of a few rows, the second of which has another word.
fn with_word(order: [usize; 4], field: usize, word: &str) -> Vec<u8> {
    let mut rows = few_rows();
    rows[1][field] = word.to_string();
    cases::whole(order, &rows)
}

/// Every order of the names, and other lines in their place.
fn names(t: &mut Tally) {
    let rows = few_rows();
    for order in cases::orders() {
        holds(t, order, &cases::whole(order, &rows), [4; 4], 0);
        for word in ["1.5", "-1", "1", "12345678901", "x", "", "128.0001", "-100"] {
            for field in 0..4 {
                import(t, (order, field, word), &with_word(order, field, word), [4; 4]);
            }
        }
    }
    t.same("number of orders", cases::orders().len(), 24);
    // a row that is right in every order
    let rows = [["1", "2", "3", "4"].map(str::to_string)];
    let with_names = |line: &str| {
        let mut lines = cases::lines(PLAIN, "1", &rows);
        lines[1] = line.as_bytes().to_vec();
        cases::text(&lines)
    };
    let words =
        ["SAMPLE_ID", "LAB_L", "LAB_A", "LAB_B", "sample_id", "LAB_l", "LAB_C", "LAB_", "", "LAB_AB", "END_DATA"];
    // every line of none to five of these words
    for count in 0..=5 {
        for n in 0..words.len().pow(count) {
            let line: Vec<&str> = (0..count).map(|i| words[n / words.len().pow(i) % words.len()]).collect();
            let right = line.len() == 4 && NAMES.iter().all(|name| line.contains(name));
            // the lines of five words are many: those that hold all the names
            if count < 5 || NAMES.iter().all(|name| line.contains(name)) {
                holds(t, &line, &with_names(&line.join(" ")), [4; 4], if right { 0 } else { 14 });
            }
        }
    }
    for between in ["  ", "\t", "", ",", "\r", "\n", " \n", "\0", "\u{a0}"] {
        holds(t, ("between names", between), &with_names(&NAMES.join(between)), [4; 4], 14);
    }
    t.report("all 24 orders of the names, and every line of wrong, missing and doubled names");
}

/// Every word of up to so many of these characters.
fn all_words(characters: &str, most: u32) -> Vec<String> {
    let characters: Vec<char> = characters.chars().collect();
    let n = characters.len();
    let word = |count: u32, i: usize| (0..count).map(|place| characters[i / n.pow(place) % n]).collect();
    (0..=most).flat_map(|count| (0..n.pow(count)).map(move |i| (count, i))).map(|(count, i)| word(count, i)).collect()
}

fn digits(count: usize, r: &mut Random) -> String {
    (0..count).map(|_| char::from(b'0' + r.below(10) as u8)).collect()
}

/// Words in each field: right ones in every form, and wrong ones.
fn words(t: &mut Tally, r: &mut Random) {
    for word in all_words("-.019", 5) {
        for field in 0..4 {
            import(t, (field, &word), &with_word(PLAIN, field, &word), [4; 4]);
        }
    }
    t.report("every word of up to five of the characters '-.019', in each field");
    for word in NO_DECIMALS.iter().chain(&NO_CODES) {
        for field in 0..4 {
            import(t, (field, word), &with_word(PLAIN, field, word), [4; 4]);
        }
    }
    for word in NO_DECIMALS {
        (1..4).for_each(|field| holds(t, (field, word), &with_word(PLAIN, field, word), [4; 4], 15));
    }
    for word in NO_CODES {
        holds(t, word, &with_word(PLAIN, 0, word), [4; 4], 15);
    }
    for _ in 0..30 {
        for whole in 0..6 {
            for fraction in 0..8 {
                let point = if fraction == 0 { String::new() } else { format!(".{}", digits(fraction - 1, r)) };
                for minus in ["", "-"] {
                    let word = format!("{minus}{}{point}", digits(whole, r));
                    for field in 0..4 {
                        import(t, (field, &word), &with_word(PLAIN, field, &word), [4; 4]);
                    }
                }
            }
        }
        for count in 0..24 {
            let word = digits(count, r);
            import(t, ("code", &word), &with_word(PLAIN, 0, &word), [4; 4]);
        }
    }
    for near in [0, 1, 1 << 31, 4_294_967_295u64, 4_294_967_296, 9_999_999_999, 1 << 33, 1 << 34] {
        for code in near.saturating_sub(3)..=near + 3 {
            for length in 1..=22 {
                let word = format!("{code:0length$}");
                let refusal = if word.len() <= 10 && code <= u32::MAX.into() { 0 } else { 15 };
                holds(t, ("code", &word), &with_word(PLAIN, 0, &word), [4; 4], refusal);
            }
        }
    }
    t.report("words of every length and form, in each field");
}

/// Values at and next to the limits, in every form.
fn limits(t: &mut Tally) {
    for (field, low, high) in [(1, 0, 1_000_000), (2, -1_280_000, 1_280_000), (3, -1_280_000, 1_280_000)] {
        let beside = [low, -1, 0, 1, high].into_iter().flat_map(|x| [x - 1, x, x + 1]);
        for grid in beside.chain([-9_999_999, 9_999_999, low - 10_000, high + 10_000, high + 1000]) {
            let refusal = if (low..=high).contains(&grid) { 0 } else { 7 };
            for word in cases::decimals(grid) {
                holds(t, (field, &word), &with_word(PLAIN, field, &word), [4; 4], refusal);
            }
        }
    }
    t.report("values at and next to the limits, in every form");
    // every fraction of one to four digits, and every whole number, with and without a minus
    let fractions = (1..=4).flat_map(|places| (0..10usize.pow(places as u32)).map(move |n| format!("9.{n:0places$}")));
    let wholes = (1..=3).flat_map(|places| (0..=99).map(move |n| format!("{n:0places$}")));
    let all: Vec<String> = fractions.chain(wholes).flat_map(|word| [format!("-{word}"), word]).collect();
    for words in all.chunks(LARGEST) {
        let rows = words.iter().enumerate().map(|(i, word)| {
            let lightness = word.trim_start_matches('-').to_string();
            [i.to_string(), lightness, word.clone(), word.clone()]
        });
        let rows: Vec<Row> = rows.collect();
        holds(t, "every fraction", &cases::whole(PLAIN, &rows), [LARGEST; 4], 0);
    }
    t.report("every fraction of one to four digits");
}

/// NUMBER_OF_SETS beside the number of rows.
fn sets(t: &mut Tally) {
    for count in (0..=12usize).chain([99, 100, 101, 999, 1000, 1001]) {
        let rows = sequence((0..count).map(|i| i as i32));
        let mut words = vec![];
        for number in [count, count + 1, count.saturating_sub(1), 10 * count, count + 65_536, 99_999, 0] {
            words.extend((0..8).map(|length| format!("{number:0length$}")));
        }
        let numbers = words.clone();
        words.extend(NO_CODES.map(str::to_string));
        for (before, after) in
            [("+", ""), ("-", ""), (" ", ""), ("", " "), ("", "\r"), ("", "\t"), ("", ".0"), ("", " 1")]
        {
            words.push(format!("{before}{count}{after}"));
        }
        for word in &words {
            import(t, (count, word), &cases::text(&cases::lines(PLAIN, word, &rows)), [count; 4]);
        }
        for word in numbers {
            let number: usize = word.parse().expect("digits");
            let refusal = if word.len() > 5 {
                14
            } else if number == count {
                0
            } else {
                16
            };
            holds(t, (count, &word), &cases::text(&cases::lines(PLAIN, &word, &rows)), [count; 4], refusal);
        }
    }
    t.report("numbers of sets, right and wrong, of every length");
}

/// Two small texts, and the one by hand.
fn small_texts() -> [Vec<u8>; 3] {
    let row = ["7", "50", "-1.5", "0.25"].map(str::to_string);
    [cases::whole(PLAIN, &[]), cases::whole([1, 3, 2, 0], &[row]), cases::BY_HAND.to_vec()]
}

/// Small texts with every sort of damage in every place.
fn small_damages(t: &mut Tally) {
    for text in small_texts() {
        let rooms = [6, 4, 5, 7];
        for i in 0..=text.len() {
            import(t, ("prefix", i), &text[..i], rooms);
            import(t, ("suffix", i), &text[i..], rooms);
            for byte in 0..=255 {
                let mut changed = text.clone();
                changed.insert(i, byte);
                import(t, ("inserted", byte, "at", i), &changed, rooms);
                if i < text.len() {
                    changed.remove(i + 1);
                    import(t, ("byte", byte, "at", i), &changed, rooms);
                }
            }
            for j in i + 1..=text.len() {
                import(t, ("cut out", i, j), &[&text[..i], &text[j..]].concat(), rooms);
                import(t, ("doubled", i, j), &[&text[..j], &text[i..]].concat(), rooms);
            }
        }
    }
    t.report(
        "three small texts: every prefix and suffix, every byte in and between all places, parts cut out, doubled",
    );
}

/// Small texts with every two bytes, words or lines exchanged, and other lines in every two places.
fn small_exchanges(t: &mut Tally) {
    for text in small_texts() {
        let rooms = [5, 4, 4, 6];
        for (sort, separator) in [("lines", b'\n'), ("words", b' ')] {
            let parts: Vec<&[u8]> = text.split(|&byte| byte == separator).collect();
            for (i, j) in (0..parts.len()).flat_map(|j| (0..j).map(move |i| (i, j))) {
                let mut exchanged = parts.clone();
                exchanged.swap(i, j);
                import(t, (sort, i, j), &exchanged.join(&separator), rooms);
                // moved instead
                let mut moved = parts.clone();
                let part = moved.remove(i);
                moved.insert(j, part);
                import(t, (sort, "moved", i, j), &moved.join(&separator), rooms);
            }
        }
        for (i, j) in (0..text.len()).flat_map(|j| (0..j).map(move |i| (i, j))) {
            let mut exchanged = text.clone();
            exchanged.swap(i, j);
            import(t, ("bytes", i, j), &exchanged, rooms);
        }
        let lines: Lines = text.split(|&byte| byte == b'\n').map(<[u8]>::to_vec).collect();
        for (i, j) in (0..lines.len()).flat_map(|j| (0..=j).map(move |i| (i, j))) {
            for (first, second) in LINES.iter().flat_map(|first| LINES.map(|second| (*first, second))) {
                let mut replaced = lines.clone();
                replaced[i] = first.into();
                replaced[j] = second.into();
                import(t, ("lines", i, first, j, second), &replaced.join(&b'\n'), rooms);
            }
        }
        // every place before a line
        for (i, line) in (0..lines.len()).flat_map(|i| LINES.map(|line| (i, line))) {
            let mut inserted = lines.clone();
            inserted.insert(i, line.into());
            import(t, ("inserted", i, line), &inserted.join(&b'\n'), rooms);
        }
    }
    t.report("three small texts: every two bytes, words and lines exchanged, other lines in every two places");
}

/// Every newline, and every space, as something else; all of them too.
fn ends_and_spaces(t: &mut Tally) {
    let others: [&[u8]; 12] =
        [b"\r\n", b"\n\n", b"\r", b" \n", b"\n ", b"\t", b"  ", b" \t", b"", b"\0", b"\n\r", b"\xa0"];
    for text in small_texts() {
        for separator in [b'\n', b' '] {
            let parts: Vec<&[u8]> = text.split(|&byte| byte == separator).collect();
            for other in others {
                for at in 1..parts.len() {
                    let (before, after) = (parts[..at].join(&separator), parts[at..].join(&separator));
                    import(t, ("instead of", separator, at), &[&before, other, &after[..]].concat(), [5; 4]);
                }
                import(t, ("instead of all", separator), &parts.join(other), [5; 4]);
            }
        }
    }
    t.report("three small texts with other line ends and spaces");
}

/// Faults of every refusal at once, in every combination: the first in the order counts.
fn combinations(t: &mut Tally) {
    const HEADS: [(u32, fn(&mut Lines)); 9] = [
        (0, |_| ()),
        (14, |lines| lines[0].push(b' ')),
        (14, |lines| lines[1] = b"SAMPLE_ID LAB_L LAB_A LAB_A".to_vec()),
        (14, |lines| drop(lines.remove(2))),
        (14, |lines| lines[3] = b"NUMBER_OF_SETS".to_vec()),
        (14, |lines| lines[4].make_ascii_lowercase()),
        (14, |lines| drop(lines.pop())),
        (14, |lines| lines.push(b"1 2 3 4".to_vec())),
        (14, |lines| lines.push(b"END_DATA".to_vec())),
    ];
    for (count, heads) in [(3, &HEADS[..]), (LARGEST, &HEADS[..2]), (LARGEST + 1, &HEADS[..])] {
        let row = || ["1", "50", "2", "-3"].map(str::to_string);
        let places = [0, count / 2, count - 1];
        // malformed rows, values outside the limits
        let wrongs = [None].into_iter().chain(places.map(|place| Some((place, 3, "x"))));
        let wrongs = wrongs.chain([Some((count - 1, 0, "4294967296"))]);
        let outsides = [None, Some((0, 1, "100.0001")), Some((count / 3, 2, "-128.0001")), Some((count - 2, 3, "999"))];
        for ((wrong, outside), sets) in wrongs
            .flat_map(|wrong| outsides.map(|outside| (wrong, outside)))
            .flat_map(|both| [count, count - 1, count + 1].map(|sets| (both, sets)))
        {
            let mut rows = vec![row(); count];
            for (place, field, word) in [outside, wrong].into_iter().flatten() {
                rows[place][field] = word.to_string();
            }
            let lines = cases::lines(PLAIN, &sets.to_string(), &rows);
            for (head, damage) in heads {
                let mut lines = lines.clone();
                damage(&mut lines);
                let text = cases::text(&lines);
                for short in [None, Some(0), Some(2)] {
                    let mut rooms = [count; 4];
                    short.iter().for_each(|&column: &usize| rooms[column] = count - 1);
                    let faults = [
                        (*head == 14, 14),
                        (wrong.is_some(), 15),
                        (sets != count, 16),
                        (count > LARGEST, 6),
                        (outside.is_some(), 7),
                        (short.is_some(), 13),
                    ];
                    let first = faults.iter().find(|(there, _)| *there).map_or(0, |(_, refusal)| *refusal);
                    let about = (count, "rows", sets, "sets", wrong, outside);
                    holds(t, about, &text, rooms, first);
                }
            }
        }
    }
    t.report("several faults at once, in 3, 4,096 and 4,097 rows");
}

/// Numbers of rows about the largest, and those that are small in their low 16 bits.
fn large_counts(t: &mut Tally) {
    for count in [LARGEST - 1, LARGEST, LARGEST + 1, 2 * LARGEST, 65_535, 65_536, 65_540, 99_999, 100_000] {
        let rows = vec![["1", "50", "2", "-3"].map(str::to_string); count];
        for sets in [count, count - 1, count + 1, count % 65_536, count.min(LARGEST)] {
            let text = cases::text(&cases::lines(PLAIN, &sets.to_string(), &rows));
            let refusal = match (sets, count) {
                (100_000.., _) => 14,
                _ if sets != count => 16,
                _ if count > LARGEST => 6,
                _ => 0,
            };
            holds(t, (count, "rows", sets, "sets"), &text, [LARGEST + 2; 4], refusal);
            holds(t, (count, "rows", sets, "sets"), &text, [0; 4], if refusal == 0 { 13 } else { refusal });
        }
    }
    t.report("4,095, 4,096, 4,097 and more rows");
}

/// Room for a count of swatches: just enough, longer, and too short in one column or in all.
fn rooms(count: usize) -> Vec<[usize; 4]> {
    let short = count.saturating_sub(1);
    let mut all = vec![[count; 4], [0; 4], [short; 4], [count + 3, count + 1, count + 7, count], [count + 20; 4]];
    for column in 0..4 {
        for (room, others) in [(0, count), (0, count + 4), (short, count), (short, count + 4), (count, count + 4)] {
            let mut one = [others; 4];
            one[column] = room;
            all.push(one);
        }
    }
    all
}

fn every_room(t: &mut Tally, r: &mut Random) {
    for count in (0..=9).chain([100, 1000, LARGEST - 1, LARGEST]) {
        for sort in SORTS {
            let text = cases::whole(r.pick(&cases::orders()), &cases::rows(sort, count, r));
            for rooms in rooms(count) {
                let short = rooms.iter().any(|&room| room < count);
                holds(t, (count, sort), &text, rooms, if short { 13 } else { 0 });
            }
        }
    }
    t.report("texts of 0 to 4,096 rows in every sort of room");
}

/// Rows in every order, with many equal lightnesses.
fn sorting(t: &mut Tally, r: &mut Random) {
    let mut sorted = |what: &str, lightness: &[i32]| {
        let text = cases::whole(PLAIN, &sequence(lightness.iter().copied()));
        holds(t, (what, lightness.len()), &text, [lightness.len() + 1; 4], 0);
    };
    for (values, most) in [(3, 7), (2, 10), (6, 5)] {
        for count in 0..=most {
            for n in 0..i32::pow(values, count) {
                let all: Vec<i32> = (0..count).map(|i| n / values.pow(i) % values).collect();
                sorted("every sequence", &all);
            }
        }
    }
    for count in (1..130).chain([255, 256, 257, 1000, 1023, 1024, 1025, LARGEST - 1, LARGEST]) {
        let n = count as i32;
        let shape = |lightness: fn(i32, i32) -> i32| (0..n).map(|i| lightness(i, n)).collect::<Vec<i32>>();
        sorted("rising", &shape(|i, _| i));
        sorted("falling", &shape(|i, n| n - i));
        sorted("equal", &shape(|_, _| 7));
        sorted("rising by steps", &shape(|i, _| i / 5));
        sorted("falling by steps", &shape(|i, n| (n - i) / 5));
        sorted("saw", &shape(|i, _| i % 7));
        sorted("two runs", &shape(|i, n| i % (n / 2 + 1)));
        sorted("up and down", &shape(|i, n| i.min(n - i)));
        sorted("down and up", &shape(|i, n| i.max(n - i)));
        sorted("lowest last", &shape(|i, n| (i + 1) % n));
        sorted("highest first", &shape(|i, n| (i + n - 1) % n));
        sorted("alternating", &shape(|i, n| if i % 2 == 0 { i } else { n - i }));
        for most in [1, 2, 10, 100, 1_000_000] {
            let random: Vec<i32> = (0..count).map(|_| r.from(0, most) as i32).collect();
            sorted("random", &random);
        }
    }
    t.report("rows in every order, with many equal lightnesses");
}

/// Random texts, most of them damaged, in random rooms.
fn random_texts(t: &mut Tally, r: &mut Random) {
    const TEXTS: usize = 150_000;
    let orders = cases::orders();
    let mut answers = [0; 17];
    for i in 0..TEXTS {
        let text = cases::damaged(&orders, 8, r);
        let rooms = if r.one_in(4) { [0; 4].map(|_| r.below(12)) } else { [9; 4].map(|room| room + r.below(3)) };
        answers[import(t, i, &text, rooms) as usize] += 1;
    }
    let refused = [14, 15, 16, 7, 13].map(|refusal| format!("{} with {refusal}", answers[refusal])).join(", ");
    t.report(&format!("{TEXTS} random texts of 0 to 8 rows, {} accepted, refused {refused}", answers[0]));
    const LARGE: usize = 200;
    for i in 0..LARGE {
        let text = cases::damaged(&orders, LARGEST, r);
        import(t, i, &text, [LARGEST + 1; 4]);
    }
    t.report(&format!("{LARGE} random texts of up to {LARGEST} rows, most of them damaged"));
    const FULL: usize = 40;
    for i in 0..FULL {
        let rows = cases::rows(if i % 2 == 0 { Sort::Ties } else { Sort::Anywhere }, LARGEST, r);
        let text = cases::whole(r.pick(&orders), &rows);
        holds(t, i, &text, [LARGEST, LARGEST + 1, LARGEST, LARGEST + 2], 0);
    }
    t.report(&format!("{FULL} texts of {LARGEST} rows"));
}

fn main() {
    let mut t = Tally::new("lab_import");
    let mut r = Random::new(10);
    by_hand(&mut t);
    refusals_by_hand(&mut t);
    names(&mut t);
    words(&mut t, &mut r);
    limits(&mut t);
    sets(&mut t);
    small_damages(&mut t);
    small_exchanges(&mut t);
    ends_and_spaces(&mut t);
    combinations(&mut t);
    large_counts(&mut t);
    every_room(&mut t, &mut r);
    sorting(&mut t, &mut r);
    random_texts(&mut t, &mut r);
    t.end();
}

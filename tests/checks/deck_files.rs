//! Checks the writing and reading of deck files against the reference: the answer, and everything
//! that was lent, whole. What is accepted is also taken back again.

use interface as lq;
use reference::deck::{Columns, LARGEST};
use reference::deck_file::{self, HEAD, SWATCH};
use reference::random::Random;
use reference::tally::Tally;
use std::fmt::Debug;

const LIGHTEST: i32 = 1_000_000;
const MOST: i32 = 1_280_000;

type Deck = [Vec<i32>; 3];

fn lent(deck: &Deck) -> Columns<'_> {
    deck.each_ref().map(Vec::as_slice)
}

/// What a file's room holds before a call.
fn bytes_before(room: usize) -> Vec<u8> {
    (0..room).map(|i| (37 * i + 11) as u8).collect()
}

/// What a column's room holds before a call: numbers that no deck has.
fn numbers_before(room: usize) -> Vec<i32> {
    (0..room).map(|i| -2_000_000_000 + i as i32).collect()
}

/// Writes a deck, reads it back where it is accepted, and gives the refusal number.
fn write(t: &mut Tally, what: impl Debug, deck: Columns, room: usize) -> u32 {
    let about = ("write", what, deck.map(<[i32]>::len), room);
    let (mut file, mut wanted_file) = (bytes_before(room), bytes_before(room));
    let wanted = match deck_file::write(deck, room) {
        Ok(bytes) => {
            wanted_file[..bytes.len()].copy_from_slice(&bytes);
            (0, bytes.len())
        }
        Err(refusal) => (refusal, 0),
    };
    let kept = deck.map(<[i32]>::to_vec);
    let found = lq::deck_write(deck, &mut file);
    t.same(("answer", &about), found, wanted);
    t.same(("file", &about), &file, &wanted_file);
    t.same(("columns", &about), deck, lent(&kept));
    if found == wanted && found.0 == 0 {
        let mut again = deck.map(|column| numbers_before(column.len()));
        let answer = lq::deck_read(&file[..found.1], &mut again);
        t.same(("read back", &about), (answer, lent(&again)), ((0, deck[0].len()), deck));
    }
    found.0
}

/// Reads a file, writes it back where it is accepted, and gives the refusal number.
fn read(t: &mut Tally, what: impl Debug, file: &[u8], rooms: [usize; 3]) -> u32 {
    let about = ("read", what, &file[..file.len().min(HEAD)], file.len(), rooms);
    let (mut columns, mut wanted_columns) = (rooms.map(numbers_before), rooms.map(numbers_before));
    let wanted = match deck_file::read(file, rooms) {
        Ok(deck) => {
            for (column, read) in wanted_columns.iter_mut().zip(&deck) {
                column[..read.len()].copy_from_slice(read);
            }
            (0, deck[0].len())
        }
        Err(refusal) => (refusal, 0),
    };
    let kept = file.to_vec();
    let found = lq::deck_read(file, &mut columns);
    t.same(("answer", &about), found, wanted);
    t.same(("columns", &about), &columns, &wanted_columns);
    t.same(("file", &about), file, &kept);
    if found == wanted && found.0 == 0 {
        let deck = columns.each_ref().map(|column| &column[..found.1]);
        let mut again = bytes_before(file.len());
        let answer = lq::deck_write(deck, &mut again);
        t.same(("written back", &about), (answer, &again[..]), ((0, file.len()), file));
    }
    found.0
}

/// Room for a count of swatches: just enough, longer, and too short in one column or in all.
fn rooms(count: usize) -> Vec<[usize; 3]> {
    let short = count.saturating_sub(1);
    let mut all = vec![[count; 3], [0; 3], [short; 3], [count + 3, count + 1, count + 7]];
    for column in 0..3 {
        for (room, others) in [(0, count), (0, count + 4), (short, count), (short, count + 4), (count, count + 4)] {
            let mut one = [others; 3];
            one[column] = room;
            all.push(one);
        }
    }
    all
}

/// Writes a deck, and reads the file that it makes, in every sort of room. `refusal` is that of a deck
/// with room enough.
fn every_room(t: &mut Tally, what: &str, refusal: u32, deck: &Deck) {
    let size = deck[0].len();
    let length = HEAD + SWATCH * size;
    let or_short = |short: bool| if refusal == 0 && short { 13 } else { refusal };
    for room in [0, HEAD - 1, HEAD, length - 1, length, length + 1, length + 20] {
        let found = write(t, what, lent(deck), room);
        t.same(("refusal of the write", what, size, room), found, or_short(room < length));
    }
    if deck.iter().any(|column| column.len() != size) || size > 65_535 {
        return;
    }
    let file = deck_file::bytes(lent(deck));
    for rooms in rooms(size) {
        let found = read(t, what, &file, rooms);
        let short = rooms.iter().any(|&room| room < size);
        t.same(("refusal of the read", what, size, rooms), found, or_short(short));
    }
}

/// A file of two swatches by hand.
#[rustfmt::skip]
const FILE: [u8; 31] = [
    0x46, 0x41, 0x4e, 1, 0, 2, 0,
    0x00, 0x00, 0x00, 0x00, 0x00, 0x78, 0xec, 0xff, 0x00, 0x88, 0x13, 0x00,
    0x40, 0x42, 0x0f, 0x00, 0xff, 0xff, 0xff, 0xff, 0x02, 0x01, 0x00, 0x00,
];

/// Small files and their refusals by hand. They are read without any room, so that 13 shows to be last.
#[rustfmt::skip]
const HEADS: &[(&[u8], u32)] = &[
    (b"", 10), (b"F", 10), (b"FA", 10), (b"FAN", 11), (b"FAN\x01", 11), (b"FAN\x01\0", 12), (b"FAN\x01\0\0", 12),
    (b"FAN\x01\0\0\0", 0), (b"FAN\x01\0\0\0\0", 12), (b"FAN\x01\0\x01\0", 12), (b"FAN\x01\0\0\x01", 12),
    (b"fan\x01\0\0\0", 10), (b"NAF\x01\0\0\0", 10), (b"FAM\x01\0\0\0", 10), (b"\0FAN\x01\0\0", 10),
    (b"FAN\0\0\0\0", 11), (b"FAN\x02\0\0\0", 11), (b"FAN\0\x01\0\0", 11), (b"FAN\xff\xff\0\0", 11),
    // several faults at once
    (b"FA\x01", 10), (b"fan\x02\0\x01\0", 10), (b"FAN\x02", 11), (b"FAN\x02\0\x01\0", 11),
    (b"FAN\x01\0\x01\x10", 12), (b"FAN\x01\0\xff\xff", 12),
    // a swatch past the limits, cut and whole, and one within them
    (b"FAN\x01\0\x01\0\xff\xff\xff\xff\xff\xff\xff\xff\xff\xff\xff", 12),
    (b"FAN\x01\0\x01\0\xff\xff\xff\xff\xff\xff\xff\xff\xff\xff\xff\xff", 7),
    (b"FAN\x01\0\x01\0\0\0\0\0\xff\xff\xff\xff\xff\xff\xff\xff", 13),
];

fn by_hand(t: &mut Tally) {
    let deck = [vec![0, LIGHTEST], vec![-MOST, -1], vec![MOST, 258]];
    let mut file = bytes_before(FILE.len());
    let answer = lq::deck_write(lent(&deck), &mut file);
    t.same("a file by hand, written", (answer, &file[..]), ((0, FILE.len()), &FILE[..]));
    let mut columns = [2; 3].map(numbers_before);
    let answer = lq::deck_read(&FILE, &mut columns);
    t.same("a file by hand, read", (answer, columns), ((0, 2), deck));
    for (file, refusal) in HEADS {
        let found = read(t, "by hand", file, [0; 3]);
        t.same(("refusal by hand", file), found, *refusal);
    }
    t.report("a file and damaged heads by hand");
}

/// A valid deck: two swatches of each lightness, the lightness rising by one.
fn plain(size: usize) -> Deck {
    let column = |number: fn(i32) -> i32| (0..size as i32).map(number).collect();
    [column(|i| 1000 + i / 2), column(|i| i - 40_000), column(|i| 40_000 - i)]
}

fn with(mut deck: Deck, column: usize, place: usize, value: i32) -> Deck {
    deck[column][place] = value;
    deck
}

/// Decks of a size at and past the limits, with the refusal number of each.
fn limits(size: usize) -> Vec<(u32, Deck)> {
    let (valid, last) = (|| plain(size), size - 1);
    let mut all = vec![(0, valid()), (0, with(valid(), 0, 0, 0)), (0, with(valid(), 0, last, LIGHTEST))];
    for (column, low, high) in [(0, 0, LIGHTEST), (1, -MOST, MOST), (2, -MOST, MOST)] {
        for place in [0, size / 2, last] {
            for value in [low - 1, high + 1, i32::MIN, i32::MAX] {
                all.push((7, with(valid(), column, place, value)));
            }
            if column > 0 {
                all.extend([low, high].map(|value| (0, with(valid(), column, place, value))));
            }
        }
    }
    // one lightness throughout, so that it does not fall
    for (value, refusal) in [(0, 0), (LIGHTEST, 0), (-1, 7), (LIGHTEST + 1, 7)] {
        let [_, a, b] = valid();
        all.push((refusal, [vec![value; size], a, b]));
    }
    if size > 1 {
        let [l, ..] = valid();
        all.extend([(0, with(valid(), 0, 0, l[1])), (7, with(valid(), 0, 0, l[1] + 1))]);
        all.extend([(0, with(valid(), 0, last, l[last - 1])), (7, with(valid(), 0, last, l[last - 1] - 1))]);
    }
    all
}

/// Too many swatches, or columns of unequal length; many with a swatch for refusal 7 too.
fn refused_with_6() -> Vec<Deck> {
    let mut all = Vec::new();
    // 65,536 swatches and more, whose count in 16 bits would be a small one
    for size in [LARGEST + 1, 65_535, 65_536, 65_537, 65_541] {
        all.extend([plain(size), with(plain(size), 0, 0, -1), with(plain(size), 2, size - 1, MOST + 1)]);
    }
    for size in [1, 5, LARGEST] {
        for length in [0, size - 1, size + 1, 65_536 + size] {
            for column in 0..3 {
                // one column of another length, and the other two
                let (mut one, mut two) = (plain(size), plain(length));
                std::mem::swap(&mut one[column], &mut two[column]);
                for deck in [one, two] {
                    let longest = (0..3).max_by_key(|&c| deck[c].len()).expect("three columns");
                    all.extend([with(deck.clone(), longest, 0, i32::MIN), deck]);
                }
            }
        }
    }
    all
}

fn decks_by_hand(t: &mut Tally) {
    every_room(t, "empty", 0, &plain(0));
    for size in [1, 2, 5, LARGEST] {
        for (refusal, deck) in limits(size) {
            every_room(t, "limits", refusal, &deck);
        }
    }
    t.report("decks at and past the limits, in every sort of room");
    for deck in refused_with_6() {
        every_room(t, "too many or unequal", 6, &deck);
    }
    t.report("decks of too many swatches or unequal columns, in every sort of room");
}

/// A file with these in its head.
fn with_head(file: &[u8], mark: &[u8; 3], version: u16, count: u16) -> Vec<u8> {
    [mark, &version.to_le_bytes()[..], &count.to_le_bytes(), &file[HEAD..]].concat()
}

/// A file with the heads for n swatches, right and wrong in every combination.
fn with_heads(file: &[u8], n: u16) -> Vec<Vec<u8>> {
    let mut all = Vec::new();
    for mark in [b"FAN", b"fan", b"GAN", b"FBN", b"FAM"] {
        for version in [1, 0, 2, 256, 257, 65_535] {
            for count in [n, n + 1, n.wrapping_sub(1), n + 256, 256 * n, n + 4096, n + 16_384, 65_535] {
                all.push(with_head(file, mark, version, count));
            }
        }
    }
    all
}

/// Every combination of wrong heads, lengths, swatches and rooms.
fn combinations(t: &mut Tally) {
    for size in [0, 1, 2, 5] {
        // two swatches more, which a longer file then has
        let valid = plain(size + 2);
        let decks = [valid.clone(), with(valid.clone(), 1, 0, MOST + 1), with(valid, 0, size / 2, 900)];
        let files = decks.iter().flat_map(|deck| with_heads(&deck_file::bytes(lent(deck)), size as u16));
        let length = HEAD + SWATCH * size;
        for file in files {
            for length in length.saturating_sub(13)..=length + 13 {
                for rooms in [[9; 3], [9, 9, size], [size, size, 0], [0, size, size]] {
                    read(t, "combination", &file[..length], rooms);
                }
            }
        }
    }
    t.report("every combination of wrong marks, versions, counts, lengths, swatches and rooms");
}

/// Counts over 4,096 with the right length, and with other faults.
fn large_counts(t: &mut Tally) {
    for size in [LARGEST + 1, 65_535] {
        for deck in [plain(size), with(plain(size), 1, size - 1, MOST + 1), with(plain(size), 0, 0, 900_000)] {
            let file = deck_file::bytes(lent(&deck));
            let longer = [&file[..], &[0; SWATCH]].concat();
            let count = size as u16;
            for rooms in [[size; 3], [0; 3], [size, LARGEST, size]] {
                let mut holds = |file: &[u8], refusal| {
                    let found = read(t, "a count over 4,096", file, rooms);
                    t.same(("refusal of a count over 4,096", file.len(), rooms), found, refusal);
                };
                holds(&file, 6);
                holds(&file[..file.len() - 1], 12);
                holds(&file[..file.len() - SWATCH], 12);
                holds(&longer[..file.len() + 1], 12);
                holds(&longer, 12);
                holds(&with_head(&file, b"FAN", 2, count), 11);
                holds(&with_head(&file, b"FAn", 2, count), 10);
            }
        }
    }
    t.report("counts of 4,097 and 65,535");
}

#[derive(Clone, Copy, Debug)]
enum Sort {
    Anywhere,
    OneLightness,
    /// At the limits and next to them.
    Limits,
    NearZero,
}

const SORTS: [Sort; 4] = [Sort::Anywhere, Sort::OneLightness, Sort::Limits, Sort::NearZero];

fn random_swatch(sort: Sort, r: &mut Random) -> [i32; 3] {
    const L: [i32; 4] = [0, 1, LIGHTEST - 1, LIGHTEST];
    const PLANE: [i32; 7] = [-MOST, 1 - MOST, -1, 0, 1, MOST - 1, MOST];
    let mut from = |low: i32, high: i32| r.from(low.into(), high.into()) as i32;
    match sort {
        Sort::Anywhere | Sort::OneLightness => [from(0, LIGHTEST), from(-MOST, MOST), from(-MOST, MOST)],
        Sort::Limits => [r.pick(&L), r.pick(&PLANE), r.pick(&PLANE)],
        Sort::NearZero => [from(0, 3), from(-300, 300), from(-300, 300)],
    }
}

/// A valid deck.
fn random_deck(sort: Sort, size: usize, r: &mut Random) -> Deck {
    let mut swatches: Vec<[i32; 3]> = (0..size).map(|_| random_swatch(sort, r)).collect();
    if let (Sort::OneLightness, Some(&[l, ..])) = (sort, swatches.first()) {
        swatches.iter_mut().for_each(|s| s[0] = l);
    }
    swatches.sort_by_key(|s| s[0]);
    [0, 1, 2].map(|i| swatches.iter().map(|s| s[i]).collect())
}

/// The rooms for a damaged file of so many swatches: long enough, and too short in one column.
fn two_rooms(size: usize, r: &mut Random) -> [[usize; 3]; 2] {
    let mut short = [size + 2; 3];
    short[r.below(3)] = size.saturating_sub(1);
    [[size + 2, size, size + 1], short]
}

/// Every prefix, every bit changed, and up to 13 bytes more.
fn small_files(t: &mut Tally, r: &mut Random) {
    const FILES: usize = 480;
    for i in 0..FILES {
        let (size, sort) = (i % 6, SORTS[i / 6 % SORTS.len()]);
        let file = deck_file::bytes(lent(&random_deck(sort, size, r)));
        for rooms in two_rooms(size, r) {
            for length in 0..=file.len() {
                read(t, (i, "prefix"), &file[..length], rooms);
            }
            for bit in 0..8 * file.len() {
                let mut damaged = file.clone();
                damaged[bit / 8] ^= 1 << (bit % 8);
                read(t, (i, "bit", bit), &damaged, rooms);
            }
            let longer: Vec<u8> = file.iter().copied().chain((0..13).map(|_| r.next() as u8)).collect();
            for length in file.len() + 1..=longer.len() {
                read(t, (i, "longer"), &longer[..length], rooms);
            }
        }
    }
    t.report(&format!("{FILES} files of 0 to 5 swatches, every prefix, every bit changed, 1 to 13 bytes more"));
}

/// Every version, every count, and every byte in each place.
fn every_value(t: &mut Tally) {
    for size in [0, 1, 2, 5] {
        let file = deck_file::bytes(lent(&plain(size)));
        for number in 0..=65_535 {
            read(t, "version", &with_head(&file, b"FAN", number, size as u16), [size + 1; 3]);
            read(t, "count", &with_head(&file, b"FAN", 1, number), [size + 1; 3]);
        }
        for place in 0..file.len() {
            for byte in 0..=255 {
                let mut changed = file.clone();
                changed[place] = byte;
                read(t, ("byte", place, byte), &changed, [size + 1; 3]);
            }
        }
    }
    t.report("files of 0, 1, 2 and 5 swatches with every version, every count and every byte in each place");
}

/// Random bytes, after none, some or all of a right head.
fn random_bytes(t: &mut Tally, r: &mut Random) {
    const FILES: usize = 200_000;
    for _ in 0..FILES {
        let size = r.below(6);
        let right = deck_file::bytes(lent(&plain(size)));
        let (kept, length) = (r.pick(&[0, 3, 5, HEAD]), if r.one_in(2) { right.len() } else { r.below(90) });
        let file: Vec<u8> = (0..length).map(|i| if i < kept { right[i] } else { r.next() as u8 }).collect();
        read(t, ("random bytes after", kept), &file, [size + 1, size + 2, size]);
    }
    t.report(&format!("{FILES} files of random bytes"));
}

/// Random decks with one value changed, often to a limit or next to another swatch's.
fn changed_values(t: &mut Tally, r: &mut Random) {
    const DECKS: usize = 40_000;
    for i in 0..DECKS {
        let size = 1 + r.below(40);
        let mut deck = random_deck(SORTS[i % SORTS.len()], size, r);
        let (column, place) = (r.below(3), r.below(size));
        let limit = if column == 0 { r.pick(&[0, LIGHTEST]) } else { r.pick(&[-MOST, MOST]) };
        deck[column][place] = match r.below(4) {
            0 => r.next() as i32,
            1 => limit + r.from(-1, 1) as i32,
            2 => deck[column][r.below(size)] + r.from(-1, 1) as i32,
            _ => deck[column][(place + 1).min(size - 1)] + r.from(-1, 1) as i32,
        };
        let file = deck_file::bytes(lent(&deck));
        write(t, (i, "one value changed"), lent(&deck), file.len() + r.below(3) - 1);
        for rooms in two_rooms(size, r) {
            read(t, (i, "one value changed"), &file, rooms);
        }
    }
    t.report(&format!("{DECKS} decks with one value changed"));
}

/// Whole decks, both ways, in every sort of room.
fn whole_decks(t: &mut Tally, r: &mut Random) {
    for (sizes, decks) in [(0..=0, 4), (1..=1, 400), (2..=2, 400), (5..=5, 400), (3..=100, 800), (101..=4094, 80)] {
        for i in 0..decks {
            let size = r.from(*sizes.start(), *sizes.end()) as usize;
            every_room(t, "valid", 0, &random_deck(SORTS[i % SORTS.len()], size, r));
        }
        t.report(&format!("{decks} decks of {} to {} swatches", sizes.start(), sizes.end()));
    }
    for size in [LARGEST - 1, LARGEST] {
        const DECKS: usize = 60;
        for i in 0..DECKS {
            every_room(t, "valid", 0, &random_deck(SORTS[i % SORTS.len()], size, r));
        }
        t.report(&format!("{DECKS} decks of {size} swatches"));
    }
}

/// A full file cut, and with one bit changed.
fn large_files(t: &mut Tally, r: &mut Random) {
    for sort in SORTS {
        let file = deck_file::bytes(lent(&random_deck(sort, LARGEST, r)));
        let ends = (0..40).chain(file.len() - 40..file.len());
        let lengths: Vec<usize> = ends.chain((0..200).map(|_| r.below(file.len()))).collect();
        for length in lengths {
            read(t, (sort, "prefix"), &file[..length], [LARGEST; 3]);
        }
        for _ in 0..500 {
            let (mut damaged, bit) = (file.clone(), r.below(8 * file.len()));
            damaged[bit / 8] ^= 1 << (bit % 8);
            read(t, (sort, "bit", bit), &damaged, [LARGEST, LARGEST + 1, LARGEST]);
        }
    }
    t.report("files of 4,096 swatches, prefixes, and bits changed");
}

fn main() {
    let mut t = Tally::new("deck_files");
    let mut r = Random::new(9);
    by_hand(&mut t);
    decks_by_hand(&mut t);
    combinations(&mut t);
    large_counts(&mut t);
    small_files(&mut t, &mut r);
    every_value(&mut t);
    random_bytes(&mut t, &mut r);
    changed_values(&mut t, &mut r);
    whole_decks(&mut t, &mut r);
    large_files(&mut t, &mut r);
    t.end();
}

//! The C interface, as include/lahsufiq.h declares it, for the check programs. What a call is to
//! write holds something else before it, and its neighbours in memory are looked at after it.

use reference::calls::Reading;
use reference::deck::Columns;
use reference::working::{Cie94, FIGURES};

#[rustfmt::skip]
mod c {
    unsafe extern "C" {
        pub fn lq_cie76(l1: f32, a1: f32, b1: f32, l2: f32, a2: f32, b2: f32, difference: *mut f64) -> u32;
        pub fn lq_cie94(
            l1: f32, a1: f32, b1: f32, l2: f32, a2: f32, b2: f32, kl: f32, kc: f32, kh: f32, textile: bool,
            standard: bool, difference: *mut f64,
        ) -> u32;
        pub fn lq_ciede2000(
            l1: f32, a1: f32, b1: f32, l2: f32, a2: f32, b2: f32, kl: f32, kc: f32, kh: f32, difference: *mut f64,
        ) -> u32;
        pub fn lq_ciede2000_many(
            standards: *const f32, standards_len: usize, samples: *const f32, samples_len: usize, kl: f32, kc: f32,
            kh: f32, differences: *mut f64, differences_len: usize, refusals: *mut u8, refusals_len: usize,
            pairs: *mut usize,
        ) -> u32;
        pub fn lq_figures(
            l1: f32, a1: f32, b1: f32, l2: f32, a2: f32, b2: f32, kl: f32, kc: f32, kh: f32, figures: *mut i64,
        ) -> u32;
        pub fn lq_verdict(
            l1: f32, a1: f32, b1: f32, l2: f32, a2: f32, b2: f32, kl: f32, kc: f32, kh: f32, tolerance: f32,
            difference: *mut f64, within: *mut u8,
        ) -> u32;
        pub fn lq_search(
            l: *const i32, l_len: usize, a: *const i32, a_len: usize, b: *const i32, b_len: usize, rl: f32, ra: f32,
            rb: f32, kl: f32, kc: f32, kh: f32, tolerance: f32, places: *mut u16, room: usize, count: *mut usize,
        ) -> u32;
        pub fn lq_deck_write(
            l: *const i32, l_len: usize, a: *const i32, a_len: usize, b: *const i32, b_len: usize, file: *mut u8,
            room: usize, length: *mut usize,
        ) -> u32;
        pub fn lq_deck_read(
            file: *const u8, length: usize, l: *mut i32, l_room: usize, a: *mut i32, a_room: usize, b: *mut i32,
            b_room: usize, count: *mut usize,
        ) -> u32;
        pub fn lq_import(
            text: *const u8, length: usize, code: *mut u32, code_room: usize, l: *mut i32, l_room: usize, a: *mut i32,
            a_room: usize, b: *mut i32, b_room: usize, count: *mut usize,
        ) -> u32;
    }
}

/// What stands in a result before a call.
const BEFORE: f64 = -7.25;
const NUMBER_BEFORE: usize = 0xdead;

/// How many neighbours a list has on each side: enough to see a whole swatch written beside a file.
const NEIGHBOURS: usize = 16;

/// A copy of a list that is lent, between its neighbours.
struct Lent<T> {
    held: Vec<T>,
    around: T,
}

impl<T: Copy + PartialEq> Lent<T> {
    fn new(list: &[T], around: T) -> Lent<T> {
        let beside = [around; NEIGHBOURS];
        Lent { held: [&beside, list, &beside].concat(), around }
    }

    fn pointer(&mut self) -> *mut T {
        self.held[NEIGHBOURS..].as_mut_ptr()
    }

    fn give_back(self, call: &str, list: &mut [T]) {
        let (before, rest) = self.held.split_at(NEIGHBOURS);
        let (held, after) = rest.split_at(list.len());
        assert!(before.iter().chain(after).all(|&x| x == self.around), "{call} wrote beside its list");
        list.copy_from_slice(held);
    }
}

/// A refusal number and the bits of the double.
pub type Answer = (u32, u64);

pub fn cie76([l1, a1, b1]: Reading, [l2, a2, b2]: Reading) -> Answer {
    let mut difference = BEFORE;
    let refusal = unsafe { c::lq_cie76(l1, a1, b1, l2, a2, b2, &mut difference) };
    (refusal, difference.to_bits())
}

pub fn cie94([l1, a1, b1]: Reading, [l2, a2, b2]: Reading, [kl, kc, kh]: [f32; 3], kind: Cie94) -> Answer {
    let mut difference = BEFORE;
    let Cie94 { textile, standard } = kind;
    let refusal = unsafe { c::lq_cie94(l1, a1, b1, l2, a2, b2, kl, kc, kh, textile, standard, &mut difference) };
    (refusal, difference.to_bits())
}

pub fn ciede2000([l1, a1, b1]: Reading, [l2, a2, b2]: Reading, [kl, kc, kh]: [f32; 3]) -> Answer {
    let mut difference = BEFORE;
    let refusal = unsafe { c::lq_ciede2000(l1, a1, b1, l2, a2, b2, kl, kc, kh, &mut difference) };
    (refusal, difference.to_bits())
}

/// The number returned and the number of pairs; `differences` and `refusals` are lent.
pub fn ciede2000_many(
    standards: &[f32],
    samples: &[f32],
    [kl, kc, kh]: [f32; 3],
    differences: &mut [f64],
    refusals: &mut [u8],
) -> (u32, usize) {
    let mut pairs = NUMBER_BEFORE;
    let mut lent_differences = Lent::new(differences, BEFORE);
    let mut lent_refusals = Lent::new(refusals, 0xc3);
    let number = unsafe {
        c::lq_ciede2000_many(
            standards.as_ptr(),
            standards.len(),
            samples.as_ptr(),
            samples.len(),
            kl,
            kc,
            kh,
            lent_differences.pointer(),
            differences.len(),
            lent_refusals.pointer(),
            refusals.len(),
            &mut pairs,
        )
    };
    lent_differences.give_back("lq_ciede2000_many", differences);
    lent_refusals.give_back("lq_ciede2000_many", refusals);
    (number, pairs)
}

pub fn figures([l1, a1, b1]: Reading, [l2, a2, b2]: Reading, [kl, kc, kh]: [f32; 3]) -> (u32, [i64; FIGURES]) {
    let mut held = [-7; FIGURES + 2];
    let refusal = unsafe { c::lq_figures(l1, a1, b1, l2, a2, b2, kl, kc, kh, held[1..].as_mut_ptr()) };
    assert!(held[0] == -7 && held[FIGURES + 1] == -7, "lq_figures wrote beside its figures");
    (refusal, held[1..=FIGURES].try_into().expect("as many figures"))
}

pub fn verdict([l1, a1, b1]: Reading, [l2, a2, b2]: Reading, [kl, kc, kh]: [f32; 3], tolerance: f32) -> (u32, u64, u8) {
    let (mut difference, mut within) = (BEFORE, 0xee);
    let refusal = unsafe { c::lq_verdict(l1, a1, b1, l2, a2, b2, kl, kc, kh, tolerance, &mut difference, &mut within) };
    (refusal, difference.to_bits(), within)
}

/// The refusal number and the count; `list` is lent.
pub fn search(
    deck: Columns,
    [rl, ra, rb]: Reading,
    [kl, kc, kh]: [f32; 3],
    tolerance: f32,
    list: &mut [u16],
) -> (u32, usize) {
    let mut count = NUMBER_BEFORE;
    let mut lent = Lent::new(list, 0xa5c3);
    let [l, a, b] = deck;
    let refusal = unsafe {
        c::lq_search(
            l.as_ptr(),
            l.len(),
            a.as_ptr(),
            a.len(),
            b.as_ptr(),
            b.len(),
            rl,
            ra,
            rb,
            kl,
            kc,
            kh,
            tolerance,
            lent.pointer(),
            list.len(),
            &mut count,
        )
    };
    lent.give_back("lq_search", list);
    (refusal, count)
}

/// The refusal number and the length; `file` is lent.
pub fn deck_write([l, a, b]: Columns, file: &mut [u8]) -> (u32, usize) {
    let mut length = NUMBER_BEFORE;
    let mut lent = Lent::new(file, 0xc3);
    let (to, room) = (lent.pointer(), file.len());
    let refusal = unsafe {
        c::lq_deck_write(l.as_ptr(), l.len(), a.as_ptr(), a.len(), b.as_ptr(), b.len(), to, room, &mut length)
    };
    lent.give_back("lq_deck_write", file);
    (refusal, length)
}

/// The refusal number and the count; the columns are lent.
pub fn deck_read(file: &[u8], columns: &mut [Vec<i32>; 3]) -> (u32, usize) {
    let mut count = NUMBER_BEFORE;
    let [l_room, a_room, b_room] = columns.each_ref().map(Vec::len);
    let mut lent = columns.each_ref().map(|column| Lent::new(column, -0x5a3c_5a3c));
    let [l, a, b] = lent.each_mut().map(Lent::pointer);
    let refusal = unsafe { c::lq_deck_read(file.as_ptr(), file.len(), l, l_room, a, a_room, b, b_room, &mut count) };
    for (lent, column) in lent.into_iter().zip(columns) {
        lent.give_back("lq_deck_read", column);
    }
    (refusal, count)
}

/// The refusal number and the count; the columns are lent.
pub fn import(text: &[u8], code: &mut [u32], columns: &mut [Vec<i32>; 3]) -> (u32, usize) {
    let mut count = NUMBER_BEFORE;
    let (code_room, [l_room, a_room, b_room]) = (code.len(), columns.each_ref().map(Vec::len));
    let mut lent_code = Lent::new(code, 0x5a3c_5a3c);
    let mut lent = columns.each_ref().map(|column| Lent::new(column, -0x5a3c_5a3c));
    let (to, [l, a, b]) = (lent_code.pointer(), lent.each_mut().map(Lent::pointer));
    let (from, length) = (text.as_ptr(), text.len());
    let refusal = unsafe { c::lq_import(from, length, to, code_room, l, l_room, a, a_room, b, b_room, &mut count) };
    lent_code.give_back("lq_import", code);
    for (lent, column) in lent.into_iter().zip(columns) {
        lent.give_back("lq_import", column);
    }
    (refusal, count)
}

//! Checks the compiled integer square root by squares in 128-bit arithmetic, and how often its estimate
//! misses the root: an error there would show in no answer, only in the time.

use reference::random::Random;
use reference::tally::Tally;

unsafe extern "C" {
    safe fn isqrt_c(n: u64) -> u64;
    /// The root where the estimate is the root, else `MISSED`.
    safe fn isqrt_estimate_c(n: u64) -> u64;
}

const MISSED: u64 = u64::MAX;

/// The root is right exactly when n lies from its square up to the next one.
fn check(t: &mut Tally, n: u64) {
    let root = isqrt_c(n);
    let fits = u32::try_from(root).is_ok_and(|root| {
        let (root, n) = (u128::from(root), u128::from(n));
        root * root <= n && n < (root + 1) * (root + 1)
    });
    t.same(("root of", n, "found", root), fits, true);
}

/// n and its neighbours, as far as there are any.
fn around(t: &mut Tally, n: u64, width: u64) {
    for n in n.saturating_sub(width)..=n.saturating_add(width) {
        check(t, n);
    }
}

/// The roots of so many numbers; the estimate misses one in 500 at most.
fn estimated(t: &mut Tally, what: &str, count: usize, numbers: impl Iterator<Item = u64>) {
    let mut missed = 0;
    for n in numbers.take(count) {
        check(t, n);
        missed += usize::from(isqrt_estimate_c(n) == MISSED);
    }
    t.same(("estimates that miss the root,", what, missed, "of", count), missed <= count / 500, true);
}

fn main() {
    let mut t = Tally::new("roots");
    estimated(&mut t, "up to 2^24", (1 << 24) + 1, 0..);
    t.report("all numbers up to 2^24");

    around(&mut t, u64::MAX, 1 << 16);
    for bit in 0..64 {
        around(&mut t, 1 << bit, 1 << 10);
    }
    t.report("around 2^64 and every power of two");

    let mut r = Random::new(11);
    let mut of_bits = |bits: u32| r.next() >> (64 - bits) | 1 << (bits - 1);
    for i in 0..10_000_000 {
        let root = of_bits(1 + i % 32);
        around(&mut t, root * root, 1);
        check(&mut t, root * root + 2 * root);
    }
    for root in (u64::from(u32::MAX) - 1_000_000)..=u64::from(u32::MAX) {
        around(&mut t, root * root, 1);
    }
    t.report("squares and their neighbours");

    for bits in 1..=64 {
        let numbers = std::iter::repeat_with(|| of_bits(bits));
        estimated(&mut t, &format!("of {bits} bits"), 1_000_000, numbers);
    }
    t.report("random numbers of every bit length");
    t.end();
}

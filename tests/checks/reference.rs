//! Checks the reference against docs/WORKING.md: the proved table, source 001's Table I, both series,
//! an independent CIEDE2000 in double precision, and lines and texts by hand.

use reference::calls;
use reference::cases::{self, KINDS, Row};
use reference::deck;
use reference::double;
use reference::floats::{Value, limited, value};
use reference::lab_text;
use reference::random::Random;
use reference::tables;
use reference::tally::Tally;
use reference::text;
use reference::working::*;

fn lab(l: i128, a: i128, b: i128) -> Lab {
    Lab { l, a, b }
}

/// Every row of the proved table.
fn proved_table(t: &mut Tally) {
    t.same("float 0.03125", limited(0.03125, -256, 256), Some(312));
    t.same("float -0.03125", limited(-0.03125, -256, 256), Some(-312));
    t.same("negative zero", calls::sample([-0.0, -0.0, -0.0]), Ok(lab(0, 0, 0)));
    t.same("root of 0", root(0), 0);
    t.same("root of 3", root(3), 1);
    t.same("root of 2 × 10^18", root(2_000_000_000_000_000_000), 1_414_213_562);
    t.same("Z of 500,000,000", ratio(500_000_000), 707_106_781);
    for (a, b, degrees) in [(1, 0, 0), (0, 1, 90), (-1, 0, 180), (0, -1, 270)] {
        let s = lab(0, 10_000 * a, 10_000 * b);
        t.same("hue of an axis", hue(primed(s, ratio(2 * chroma(s)))), 1_000_000 * degrees);
    }
    let standard = lab(500_000, 24_900, -10);
    for (b, far, opposite) in [(9, false, false), (10, false, true), (11, true, false)] {
        let other = lab(500_000, -24_900, b);
        let found = side(standard, other);
        t.same("far", found.far, far);
        t.same("exactly opposite", found.opposite, opposite);
        t.same("far in the figures", figures(standard, other, EVEN)[11], far as i128);
        if opposite {
            t.same("H minus", figures(standard, other, EVEN)[12] < 0, true);
        }
    }
    let first = &cases::table_one()[0];
    t.same("CIE76 of pair 1", cie76(first.s1, first.s2), 4_001_063);
    let (fifty, forty) = (lab(500_000, 0, 0), lab(400_000, 0, 0));
    let found = figures(fifty, forty, EVEN);
    t.same("SL", found[15], 1_055_901_699);
    t.same("greys 50, 40", found[22], 9_470_578);
    t.same("greys 50, 40: l", found[19], -9_470_578);
    t.same("kL = 2", ciede2000(fifty, forty, Weights { l: 20_000, ..EVEN }), 4_735_289);
    t.same("greys 0, 100", ciede2000(lab(0, 0, 0), lab(1_000_000, 0, 0), EVEN), 100_000_000);
    let (l, zero) = ([400_000, 450_000, 500_000, 500_000, 600_000], [0; 5]);
    for (room, gives, holds) in [(5, (0, 3), vec![1, 2, 3, 9, 9]), (3, (0, 3), vec![1, 2, 3]), (2, (8, 3), vec![9, 9])]
    {
        let mut list = vec![9; room];
        t.same("deck", deck::search([&l, &zero, &zero], [50.0, 0.0, 0.0], [1.0; 3], 5.0, &mut list), gives);
        t.same("the deck's list", list, holds);
    }
    let (input, output) = (
        "50 0 0 40 0 0\n101 0 0 50 0 0\n",
        "de76 de94 de00 dl dc dh\n10.000000 10.000000 9.470578 -9.470578 0.000000 0.000000\nrefused 2\n",
    );
    t.same("text", text::text_of(input.as_bytes()), output.as_bytes().to_vec());
    let seventh = &cases::table_one()[6];
    t.same("mean hue of pair 7", four_decimals(figures(seventh.s1, seventh.s2, EVEN)[13]), 1_268_697);
    t.report("the proved table, the text example, the mean hue of pair 7");
}

/// Refusals 1 to 7 and the limits, from the table of refusals.
fn refusals(t: &mut Tally) {
    let (nan, infinite, past_100, past_128) = (f32::NAN, f32::INFINITY, 100.0f32.next_up(), 128.0f32.next_up());
    for (reading, wanted) in [
        ([nan, 0.0, 0.0], Err(1)),
        ([0.0, infinite, 0.0], Err(1)),
        ([-1.0, 0.0, -infinite], Err(1)),
        ([-1e-45, 0.0, 0.0], Err(2)),
        ([past_100, 200.0, 0.0], Err(2)),
        ([0.0, past_128, 0.0], Err(3)),
        ([0.0, 0.0, -past_128], Err(3)),
        ([100.0, -128.0, 128.0], Ok(lab(1_000_000, -1_280_000, 1_280_000))),
        ([1e-45, -1e-45, 0.00005], Ok(lab(0, 0, 0))),
        ([0.000050001, -0.000050001, 0.03125], Ok(lab(1, -1, 312))),
        // 937.5, and floats that are no halves: 1.50000007, 2.50000012
        ([0.09375, -0.00015, 0.00025], Ok(lab(938, -2, 3))),
    ] {
        t.same(("sample", reading), calls::sample(reading), wanted);
    }
    for (k, wanted) in [(nan, None), (infinite, None), (0.5f32.next_down(), None), (10.0f32.next_up(), None)]
        .into_iter()
        .chain([(0.5, Some(5_000)), (10.0, Some(100_000)), (1.0, Some(10_000))])
    {
        for i in 0..3 {
            let mut all = [1.0; 3];
            all[i] = k;
            let found = calls::weights(all).map(|w| [w.l, w.c, w.h][i]);
            t.same(("weight", i, k), found, wanted.ok_or(4));
        }
    }
    for (x, wanted) in [(nan, Err(5)), (-1e-45, Err(5)), (past_100, Err(5)), (0.0, Ok(0)), (100.0, Ok(1_000_000))] {
        t.same(("tolerance", x), calls::tolerance(x), wanted);
    }
    let first_bad = calls::verdict([50.0, 200.0, 0.0], [nan, 0.0, 0.0], [nan; 3], nan);
    t.same("sample 1 before sample 2", first_bad, Err(3));
    t.same("sample 2 before weights", calls::verdict([50.0; 3], [200.0, 0.0, 0.0], [nan; 3], nan), Err(2));
    t.same("weights before tolerance", calls::verdict([50.0; 3], [50.0; 3], [nan; 3], nan), Err(4));
    t.same("verdict at 0", calls::verdict([50.0; 3], [50.0; 3], [1.0; 3], 0.0), Ok((0, true)));
    let column = |size: usize, value: i32| vec![value; size];
    for (l, a, b, tolerance, wanted) in [
        (column(4096, 0), column(4096, 0), column(4096, 0), 5.0, (0, 4096)),
        (column(4097, 0), column(4097, 0), column(4097, 0), 5.0, (6, 0)),
        (column(1, -1), column(2, 0), column(1, 0), 5.0, (6, 0)),
        (column(1, -1), column(1, 0), column(1, 0), 5.0, (7, 0)),
        (column(1, 1_000_001), column(1, 0), column(1, 0), 5.0, (7, 0)),
        (column(1, 0), column(1, -1_280_001), column(1, 0), 5.0, (7, 0)),
        (column(1, 0), column(1, 0), column(1, 1_280_001), 5.0, (7, 0)),
        (vec![1, 0], column(2, 0), column(2, 0), 5.0, (7, 0)),
        (vec![1, 0], column(1, 0), column(2, 0), nan, (5, 0)),
        (vec![], vec![], vec![], 5.0, (0, 0)),
    ] {
        let found = deck::search([&l, &a, &b], [0.0; 3], [1.0; 3], tolerance, &mut [0; 4096]);
        t.same(("deck", l.len(), l.first(), tolerance), found, wanted);
    }
    t.report("refusals 1 to 7, limits, and their order");
}

/// Lines of the text program, each with what it is refused with.
fn lines(t: &mut Tally) {
    let accepted = ["0 0 0 0 0 0", "-0 -0.0 -0.0000 -000 0.0 0", "100 128 -128 100.0000 -128.0000 128.0"];
    let nine = [
        "",
        " ",
        "0 0 0 0 0",
        "0 0 0 0 0 0 0",
        " 0 0 0 0 0 0",
        "0 0 0 0 0 0 ",
        "0  0 0 0 0 0",
        "0\t0 0 0 0 0",
        "+1 0 0 0 0 0",
        ".5 0 0 0 0 0",
        "5. 0 0 0 0 0",
        "1.00000 0 0 0 0 0",
        "1000 0 0 0 0 0",
        "--1 0 0 0 0 0",
        "- 0 0 0 0 0",
        "1e1 0 0 0 0 0",
        "0 0 0 0 0 0\r",
        "101 0 0 0 0 0\r",
        "1.2.3 0 0 0 0 0",
        "0 0 0 0 0 0\0",
    ];
    let two = ["100.0001 129 0 0 0 0", "-0.0001 0 0 0 0 0", "999.9999 0 0 0 0 0", "0 0 0 101 200 0"];
    let three = ["0 128.0001 0 0 0 0", "0 0 -128.0001 101 0 0", "0 0 0 0 129 0", "0 0 0 0 0 -999"];
    let header = "de76 de94 de00 dl dc dh\n";
    for (lines, wanted) in [(&accepted[..], None), (&nine, Some(9)), (&two, Some(2)), (&three, Some(3))] {
        for line in lines {
            let output = String::from_utf8(text::text_of(format!("{line}\n").as_bytes())).expect("text");
            let refused = wanted.map(|n| format!("{header}refused {n}\n"));
            t.same(("line", line), output.contains("refused").then_some(output), refused);
        }
    }
    t.same("empty input", text::text_of(b""), header.as_bytes().to_vec());
    t.same("no last newline", text::text_of(b"0 0 0 0 0 0"), text::text_of(b"0 0 0 0 0 0\n"));
    t.same("two blank lines", text::text_of(b"\n\n"), format!("{header}refused 9\nrefused 9\n").into_bytes());
    t.report("lines of the text program");
}

/// Texts of the lab, with what they give.
fn lab_texts(t: &mut Tally) {
    let text = |names: &str, sets: &str, rows: &str| {
        format!("BEGIN_DATA_FORMAT\n{names}\nEND_DATA_FORMAT\nNUMBER_OF_SETS {sets}\nBEGIN_DATA\n{rows}END_DATA\n")
    };
    let (plain, mixed) = ("SAMPLE_ID LAB_L LAB_A LAB_B", "LAB_B SAMPLE_ID LAB_L LAB_A");
    for (names, sets, rows, wanted) in [
        (plain, "0", "", ""),
        (plain, "1", "4711 52.5 -3.25 17.0625\n", "4711 52.5000 -3.2500 17.0625\n"),
        (plain, "2", "2 50 0 0\n1 49.9999 -0 -0.0\n", "1 49.9999 0.0000 0.0000\n2 50.0000 0.0000 0.0000\n"),
        (plain, "00002", "2 50 1 1\n1 050.0 0 0\n", "2 50.0000 1.0000 1.0000\n1 50.0000 0.0000 0.0000\n"),
        (mixed, "1", "-128 0004294967 100.0 0.0001\n", "4294967 100.0000 0.0001 -128.0000\n"),
        (mixed, "1", "128.0 4294967295 0 -0.01\n", "4294967295 0.0000 -0.0100 128.0000\n"),
        (plain, "4096", &"1 2 3 4\n".repeat(4096), &"1 2.0000 3.0000 4.0000\n".repeat(4096)),
        // one for each refusal
        ("SAMPLE_ID LAB_L LAB_A", "1", "1 2 3 4\n", "refused 14\n"),
        ("SAMPLE_ID LAB_L LAB_A LAB_B LAB_B", "1", "1 2 3 4\n", "refused 14\n"),
        ("SAMPLE_ID LAB_L LAB_A LAB_L", "1", "1 2 3 4\n", "refused 14\n"),
        ("SAMPLE_ID  LAB_L LAB_A LAB_B", "1", "1 2 3 4\n", "refused 14\n"),
        (plain, "000001", "1 2 3 4\n", "refused 14\n"),
        (plain, "1", "1 2 3 4\nEND_DATA\n", "refused 14\n"),
        (plain, "1", "1 2 3 4.\n", "refused 15\n"),
        (plain, "1", "1 2 3 4\r\n", "refused 15\n"),
        (plain, "1", "4294967296 2 3 4\n", "refused 15\n"),
        (plain, "1", "00000000001 2 3 4\n", "refused 15\n"),
        (plain, "1", "END_DATA \n", "refused 15\n"),
        (plain, "2", "1 2 3 4\n", "refused 16\n"),
        (plain, "4097", &"1 2 3 4\n".repeat(4097), "refused 6\n"),
        (plain, "1", "1 100.0001 3 4\n", "refused 7\n"),
        (plain, "1", "1 0 -128.0001 4\n", "refused 7\n"),
        (plain, "1", "1 0 0 999\n", "refused 7\n"),
        // their order
        ("", "2", "1 2\n", "refused 14\n"),
        (plain, "1", "x\nEND_DATA\n", "refused 14\n"),
        (plain, "2", "x\n", "refused 15\n"),
        (plain, "2", "1 101 0 0\n", "refused 16\n"),
        (plain, "1", &"1 101 0 0\n".repeat(4097), "refused 16\n"),
        (plain, "4097", &"1 101 0 0\n".repeat(4097), "refused 6\n"),
    ] {
        let text = text(names, sets, rows);
        t.same(("lab text", names, sets, rows.lines().next()), lab_text::listing(text.as_bytes()), wanted.to_string());
    }
    let small = text(plain, "2", "7 50 0 0\n8 40 0 0\n");
    let swatches = lab_text::read(small.as_bytes()).expect("a whole text");
    t.same("codes", swatches.iter().map(|swatch| swatch.code).collect::<Vec<_>>(), vec![8, 7]);
    t.same("room", lab_text::import(small.as_bytes(), [2; 4]), Ok(swatches));
    t.same("no room", lab_text::import(small.as_bytes(), [2, 2, 1, 2]), Err(13));
    for length in 0..small.len() {
        t.same(("cut off", length), lab_text::read(&small.as_bytes()[..length]), Err(14));
    }
    t.same("something after it", lab_text::read(format!("{small}\n").as_bytes()), Err(14));
    t.report("texts of the lab");
}

/// Ten-thousandths of a number of millionths.
fn four_decimals(millionths: i128) -> i128 {
    (millionths + 50) / 100
}

/// CIE94 worked out apart, in the order of `Cie94::ALL`, and with the samples exchanged: the chromas 9 and
/// 4, whose geometric mean is 6, of one hue, and a quarter of a turn apart; a grey, beside which no chroma
/// weighs; the largest chromas; the smallest beside the largest.
fn cie94_cases(t: &mut Tally) {
    let plane = |a: i128, b: i128| lab(500_000, a, b);
    let (black, white) = (lab(0, -1_280_000, -1_280_000), lab(1_000_000, 1_280_000, 1_280_000));
    let rows = [
        (
            (plane(90_000, 0), plane(40_000, 0)),
            [3_558_718, 3_491_620, 3_937_007, 3_881_987],
            [4_237_288, 4_194_630, 3_937_007, 3_881_987],
        ),
        (
            (plane(0, 90_000), plane(40_000, 0)),
            [8_279_813, 8_305_376, 8_723_587, 8_737_476],
            [9_057_281, 9_064_272, 8_723_587, 8_737_476],
        ),
        (
            (plane(0, 0), plane(100_000, 0)),
            [10_000_000, 10_000_000, 10_000_000, 10_000_000],
            [6_896_551, 6_756_756, 10_000_000, 10_000_000],
        ),
        (
            (black, white),
            [139_626_806, 143_154_660, 139_626_806, 143_154_660],
            [139_626_806, 143_154_660, 139_626_806, 143_154_660],
        ),
        (
            (plane(1, 0), plane(1_280_000, 1_280_000)),
            [181_018_450, 181_018_396, 179_929_888, 179_857_728],
            [19_792_475, 18_683_124, 179_929_888, 179_857_728],
        ),
    ];
    for ((s1, s2), there, back) in rows {
        t.same(("CIE94", s1, s2), Cie94::ALL.map(|kind| cie94(s1, s2, EVEN, kind)), there);
        t.same(("CIE94", s2, s1), Cie94::ALL.map(|kind| cie94(s2, s1, EVEN, kind)), back);
    }
    t.report("CIE94 worked out apart, both ways round");
}

fn table_one(t: &mut Tally) {
    let rows = cases::table_one();
    t.same("rows of Table I", rows.len(), 34);
    let mut exact = 0;
    for (i, Row { pair, s1, s2, published }) in rows.into_iter().enumerate() {
        t.same("number of a pair", pair, i + 1);
        for (s1, s2) in [(s1, s2), (s2, s1)] {
            let off = (four_decimals(ciede2000(s1, s2, EVEN)) - published).abs();
            t.same(("pair, at most one unit off", pair), off <= 1, true);
            exact += (off == 0) as usize;
            t.same(("pair, in double precision", pair), deviations(s1, s2, EVEN)[0] < 0.001, true);
        }
    }
    println!("reference: Table I: {exact} of 68 differences equal the published one in all four decimals");
    t.report("Table I, both ways round");
}

/// The figures that Table I prints, to four decimals.
fn table_one_figures(t: &mut Tally) {
    const NAMES: [&str; 13] = ["a1'", "C1'", "h1'", "a2'", "C2'", "h2'", "mean hue", "G", "T", "SL", "SC", "SH", "RT"];
    // h2' of these pairs, and with it the mean, is not what the source's own equations give
    const MISPRINTED: [usize; 2] = [21, 23];
    for (row, published) in cases::table_one().iter().zip(cases::table_one_figures()) {
        let f = figures(row.s1, row.s2, EVEN);
        let in_units = |x: i128, unit: i128| x.signum() * ((x.abs() + unit / 2) / unit);
        let (lengths, hues) = (|i: usize| in_units(f[i], 1000), |i: usize| in_units(f[i], 100));
        let ratios = |x: i128| in_units(x, 100_000);
        let g = ratios((1_000_000_000 - f[10]) / 2);
        let found = [
            lengths(1),
            lengths(3),
            hues(4),
            lengths(6),
            lengths(8),
            hues(9),
            hues(13),
            g,
            ratios(f[14]),
            ratios(f[15]),
            ratios(f[16]),
            ratios(f[17]),
            ratios(-f[18]),
        ];
        for i in 0..NAMES.len() {
            let most = if MISPRINTED.contains(&row.pair) && (i == 5 || i == 6) { 12 } else { 1 };
            let off = (found[i] - published[i]).abs();
            t.same((NAMES[i], "of pair", row.pair, found[i], published[i]), off <= most, true);
        }
    }
    t.report("the figures that Table I prints");
}

/// How far CIEDE2000, and CIE94 in the order of `Cie94::ALL`, are from double precision.
fn deviations(s1: Lab, s2: Lab, k: Weights) -> [f64; 5] {
    let [d1, d2, dk] = double::doubles(s1, s2, k);
    let off = |exact: f64, found: i128| (exact - calls::double(found)).abs();
    let of94 = |i: usize| off(double::cie94(d1, d2, dk, Cie94::ALL[i]), cie94(s1, s2, k, Cie94::ALL[i]));
    [off(double::ciede2000(d1, d2, dk), ciede2000(s1, s2, k)), of94(0), of94(1), of94(2), of94(3)]
}

/// Symmetry, zero, and the deviation from double precision, on random pairs of every kind.
fn random_pairs(t: &mut Tally) {
    let mut r = Random::new(1);
    let mut largest = [(0.0, None); 5];
    let mut count = 0;
    for kind in KINDS.into_iter().cycle().take(1_200_000) {
        let (r1, r2) = cases::pair(kind, &mut r);
        let (s1, s2) = (calls::sample(r1).expect("within limits"), calls::sample(r2).expect("within limits"));
        let k = calls::weights(cases::weights(&mut r)).expect("within limits");
        if count % 4 == 0 {
            let (there, back) = (figures(s1, s2, k), figures(s2, s1, k));
            t.same(("symmetry", s1, s2, k), there[22], back[22]);
            let signed = |f: &[i128; FIGURES]| [f[12], f[19], f[20], f[21]];
            t.same(("signs turned round", s1, s2, k), signed(&there), signed(&back).map(|x| -x));
            t.same(("zero for equal samples", s1), ciede2000(s1, s1, k), 0);
            for kind in Cie94::ALL {
                t.same(("zero for equal samples", s1, kind), cie94(s1, s1, k, kind), 0);
                if !kind.standard {
                    t.same(("symmetry", s1, s2, k, kind), cie94(s1, s2, k, kind), cie94(s2, s1, k, kind));
                }
            }
        }
        for (largest, off) in largest.iter_mut().zip(deviations(s1, s2, k)) {
            if off > largest.0 {
                *largest = (off, Some((kind, s1, s2, k)));
            }
        }
        count += 1;
    }
    t.report("symmetry and zero, 12 kinds of pairs");
    let of94 = Cie94::ALL.map(|kind| format!("{kind:?}"));
    for (name, (off, at)) in ["CIEDE2000".to_string()].into_iter().chain(of94).zip(largest) {
        println!("reference: {name} of {count} pairs against double precision: largest deviation {off:.7}, at {at:?}");
        t.same((&name, "deviation below 0.001"), off < 0.001, true);
    }
}

/// Sines of any angle, and the bell, against double precision.
fn sines(t: &mut Tally) {
    let mut r = Random::new(8);
    for _ in 0..100_000 {
        let angle = i128::from(r.from(-400_000_000, 1_500_000_000));
        let exact = (angle as f64 / 1e6).to_radians().sin() * 1e9;
        t.same(("sine", angle), (sine(angle) as f64 - exact).abs() < 3.0, true);
        t.same(("cosine", angle), cosine(angle), sine(angle + 90_000_000));
        let distance = i128::from(r.from(0, 130_000_000));
        let exact = (-(distance as f64 / 25e6).powi(2)).exp() * 1e9;
        t.same(("bell", distance), (bell(distance) as f64 - exact).abs() < 5_000.0, true);
    }
    t.report("sines and the bell against double precision");
}

/// The halving against a plain scan of all 900 tenths, and the root against the library's.
fn halving(t: &mut Tally) {
    let mut r = Random::new(2);
    for _ in 0..20_000 {
        let (x, y) = (i128::from(r.from(1, 1_920_000_000)), i128::from(r.from(0, 1_920_000_000)));
        let (x, y) = if r.one_in(3) { (x, x) } else { (x, y) };
        t.same("tenth of a degree", tenth(x, y), tenth_by_scan(x, y));
        let n = i128::from(r.next() >> r.below(64));
        let square = root(n) * root(n);
        for n in [n, square, (square - 1).max(0)] {
            t.same("root", root(n), (n as u128).isqrt() as i128);
        }
    }
    t.report("tenths of a degree against a scan, roots against isqrt");
}

/// The reading of bits against doubles, in which a float times 10,000 is exact: random floats, and
/// all that lie exactly between two whole numbers of 1/10,000.
fn floats(t: &mut Tally) {
    let mut r = Random::new(3);
    let random = (0..2_000_000).map(|i| {
        let bits = r.next() as u32;
        if i % 2 == 0 { bits } else { 0x3c00_0000 + (bits & 0x87ff_ffff) }
    });
    let ties = cases::ties().flat_map(|x| [x, -x]).map(f32::to_bits);
    for bits in random.chain(ties) {
        let x = f32::from_bits(bits);
        let wide = f64::from(x);
        for (low, high) in [(0, 200), (-256, 256), (1, 20)] {
            let inside = f64::from(low) / 2.0 <= wide && wide <= f64::from(high) / 2.0;
            t.same(("float", bits), limited(x, low, high), inside.then(|| (wide * 10_000.0).round_ties_even() as i128));
        }
        t.same("not a number", matches!(value(x), Value::NotANumber), x.is_nan());
        t.same("infinite", matches!(value(x), Value::Infinite), x.is_infinite());
    }
    t.report("floats from their bits against double precision");
}

fn main() {
    let mut t = Tally::new("reference");
    t.same("tables do not depend on dropped remainders", tables::steady(), true);
    t.same("sine of 30 degrees", tables::SINE[300], 500_000_000);
    t.same("bell of 25 degrees", tables::BELL[250], 367_879_441);
    proved_table(&mut t);
    refusals(&mut t);
    lines(&mut t);
    lab_texts(&mut t);
    cie94_cases(&mut t);
    table_one(&mut t);
    table_one_figures(&mut t);
    sines(&mut t);
    halving(&mut t);
    floats(&mut t);
    random_pairs(&mut t);
    t.end();
}

//! Checks the search at the tightest tolerance of each swatch, the least that its difference allows: there
//! the swatch is listed, and one step of 1/10,000 below it is not. A test that rules swatches out before
//! they are worked in full has to let all of these pass.

use interface as lq;
use reference::calls::{self, Reading};
use reference::cases::{self, KINDS, Kind, float};
use reference::random::Random;
use reference::tally::Tally;
use reference::working::{Lab, ciede2000};

/// Of each sort.
const PAIRS: usize = 25_000;

/// The greatest tolerance.
const MOST: i128 = 1_000_000;

#[derive(Clone, Copy, Debug)]
enum Sort {
    Cases(Kind),
    /// Near each other, saturated, hues around 275 degrees: the parts of chroma and hue there cancel each
    /// other most, so that a small difference goes with a large distance in a and b.
    Blues,
}

fn blues(r: &mut Random) -> (Reading, Reading) {
    let lightness = float(i128::from(r.from(0, 1_000_000)));
    let (hue, chroma) = (r.from(270, 280) as f64, r.from(300_000, 1_200_000) as f64);
    let (sine, cosine) = hue.to_radians().sin_cos();
    let size = r.pick(&[1_000, 30_000, 100_000]);
    let mut near = |x: f64| float(((chroma * x) as i64 + r.from(-size, size)).clamp(-1_280_000, 1_280_000).into());
    let mut blue = || [lightness, near(cosine), near(sine)];
    (blue(), blue())
}

/// The search of a deck of one swatch.
#[derive(Clone, Copy, Debug)]
struct Search {
    swatch: Lab,
    reading: Reading,
    k: [f32; 3],
}

impl Search {
    /// In three of four the reading's lightness is that of the swatch or near it, so that a and b make the
    /// difference.
    fn random(sort: Sort, r: &mut Random) -> Search {
        let (swatch, mut reading) = match sort {
            Sort::Cases(kind) => cases::pair(kind, r),
            Sort::Blues => blues(r),
        };
        let swatch = calls::sample(swatch).expect("accepted");
        let size = r.pick(&[0, 1, 20_000, 1_000_000]);
        if size < 1_000_000 {
            reading[0] = float((swatch.l + i128::from(r.from(-size, size))).clamp(0, 1_000_000));
        }
        Search { swatch, reading, k: weights(r) }
    }

    fn millionths(self) -> i128 {
        let reading = calls::sample(self.reading).expect("accepted");
        ciede2000(self.swatch, reading, calls::weights(self.k).expect("accepted"))
    }

    /// Whether the swatch is listed at a tolerance in 1/10,000.
    fn compare(self, t: &mut Tally, sort: Sort, tolerance: i128, listed: bool) {
        assert_eq!(calls::tolerance(float(tolerance)), Ok(tolerance), "the float counts as another tolerance");
        let columns = [self.swatch.l, self.swatch.a, self.swatch.b].map(|x| [x as i32]);
        let lent = [&columns[0][..], &columns[1][..], &columns[2][..]];
        let mut list = [7];
        let found = lq::search(lent, self.reading, self.k, float(tolerance), &mut list);
        let (what, wanted) = if listed { ("listed", ((0, 1), [0])) } else { ("not listed", ((0, 0), [7])) };
        t.same((what, sort, self, "tolerance", tolerance), (found, list), wanted);
    }
}

/// Weights, each its own; all 1 in one of four cases.
fn weights(r: &mut Random) -> [f32; 3] {
    if r.one_in(4) {
        return [1.0; 3];
    }
    [0; 3].map(|_| match r.below(8) {
        0 => 0.5,
        1 => 10.0,
        _ => float(i128::from(r.from(5_000, 100_000))),
    })
}

/// Whether there is such a tolerance; if not, the swatch is not listed at the greatest.
fn compare(t: &mut Tally, sort: Sort, r: &mut Random) -> bool {
    let search = Search::random(sort, r);
    let tightest = (search.millionths() + 99) / 100;
    if tightest <= MOST {
        search.compare(t, sort, tightest, true);
    }
    if tightest > 0 {
        search.compare(t, sort, MOST.min(tightest - 1), false);
    }
    tightest <= MOST
}

fn main() {
    let mut t = Tally::new("tightest");
    let mut r = Random::new(15);
    let sorts: Vec<Sort> = KINDS.map(Sort::Cases).into_iter().chain([Sort::Blues]).collect();
    let mut listed = 0;
    for &sort in &sorts {
        listed += (0..PAIRS).filter(|_| compare(&mut t, sort, &mut r)).count();
    }
    let pairs = PAIRS * sorts.len();
    t.report(&format!("{pairs} decks of one swatch, {listed} at their tightest tolerance and one step below"));
    t.end();
}

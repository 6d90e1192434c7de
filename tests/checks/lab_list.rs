//! Checks the program `lab_import` (its path is the argument) through a pipe: whole and damaged texts,
//! whole and in chunks of every small size, and inputs as long as its buffer and longer.

use reference::lab_cases as cases;
use reference::lab_text::listing;
use reference::program::{self, Ended};
use reference::random::Random;
use reference::tally::Tally;

/// The bytes that the program's buffer holds.
const BUFFER: usize = 1 << 20;

/// Compares line by line, so that a failure names its line. The text is shown as far as it is short.
fn compare(t: &mut Tally, program: &str, input: &[u8], chunk: usize) {
    let found = String::from_utf8_lossy(&program::output(program, input, chunk)).into_owned();
    let wanted = listing(input);
    let shown = input[..input.len().min(400)].escape_ascii().to_string();
    for (i, (found, wanted)) in found.lines().zip(wanted.lines()).enumerate() {
        t.same(("line", i, "of", &shown, "in chunks of", chunk), found, wanted);
    }
    t.same(("number of lines of", &shown, "in chunks of", chunk), found.lines().count(), wanted.lines().count());
    t.same(("every byte of", &shown, "in chunks of", chunk), found == wanted, true);
}

/// An input that is too long: something on standard error, nothing on standard output.
fn too_long(t: &mut Tally, program: &str, input: &[u8], chunk: usize) {
    let Ended { output, errors, .. } = program::run(program, input, chunk);
    t.same(("output for too many bytes", input.len(), chunk), output, Vec::new());
    t.same(("message for too many bytes", input.len(), chunk), errors.is_empty(), false);
}

fn by_hand(t: &mut Tally, program: &str) {
    let text = cases::BY_HAND;
    let wanted = "12 0.1000 -0.0001 12.3400
4294967295 50.0000 0.0000 -128.0000
3 50.0000 0.0000 5.0000
7 50.0001 128.0000 -0.5000
";
    let found = program::output(program, text, usize::MAX);
    t.same("a text by hand", String::from_utf8_lossy(&found).into_owned(), wanted.to_string());
    for length in 0..=text.len() {
        compare(t, program, &text[..length], usize::MAX);
    }
    for chunk in [1, 2, 3, 7, 64] {
        compare(t, program, text, chunk);
    }
    t.report("a text by hand, and every prefix of it");
}

/// A text of so many bytes, with right rows. `more` is added to the number of sets.
fn of_length(length: usize, more: usize) -> Vec<u8> {
    let row = |code: &str| [code, "050.0000", "-12", "12.0"].map(str::to_string);
    let (short, long) = (row("0001"), row("00001"));
    let bytes = |rows: &[cases::Row]| cases::text(&cases::lines([0, 1, 2, 3], "00000", rows)).len();
    let (empty, a_row) = (bytes(&[]), bytes(&[short.clone()]) - bytes(&[]));
    // as many of the short rows as fit, and some of them a byte longer
    let (count, left) = ((length - empty) / a_row, (length - empty) % a_row);
    let rows: Vec<cases::Row> = (0..count).map(|i| if i < left { long.clone() } else { short.clone() }).collect();
    let text = cases::text(&cases::lines([0, 1, 2, 3], &format!("{:05}", count + more), &rows));
    assert!(text.len() == length, "a text of {} bytes, not {length}", text.len());
    text
}

fn lengths(t: &mut Tally, program: &str) {
    for length in [BUFFER - 1, BUFFER, BUFFER + 1, BUFFER + 2, BUFFER + 65_536, 2 * BUFFER] {
        let right = of_length(length, 0);
        let mut malformed = right.clone();
        // the last byte of the last row
        malformed[length - "END_DATA\n".len() - 2] = b'x';
        let inputs =
            [&right, &of_length(length, 1), &malformed, &[&right[..length - 1], b" "].concat(), &vec![b'\n'; length]];
        for (input, refusal) in inputs.into_iter().zip([6, 16, 15, 14, 14]) {
            for chunk in [usize::MAX, 4096, 65_536, 50_001] {
                if length > BUFFER {
                    too_long(t, program, input, chunk);
                } else {
                    compare(t, program, input, chunk);
                    t.same("refusal of a long text", listing(input), format!("refused {refusal}\n"));
                }
            }
        }
    }
    t.report("inputs as long as the buffer, shorter and longer");
}

fn random_texts(t: &mut Tally, program: &str, r: &mut Random) {
    const TEXTS: usize = 1000;
    let orders = cases::orders();
    for &order in &orders {
        let sort = r.pick(&cases::SORTS);
        compare(t, program, &cases::whole(order, &cases::rows(sort, 20, r)), usize::MAX);
    }
    for _ in 0..TEXTS {
        compare(t, program, &cases::damaged(&orders, 8, r), usize::MAX);
    }
    t.report(&format!("{TEXTS} random texts of 0 to 8 rows, most of them damaged"));
    for chunk in 1..=100 {
        compare(t, program, &cases::damaged(&orders, 30, r), chunk);
    }
    t.report("100 random texts of 0 to 30 rows, most of them damaged, in chunks of 1 to 100 bytes");
    for sort in cases::SORTS {
        for count in [1000, 4095, 4096, 4097] {
            let text = cases::whole(r.pick(&orders), &cases::rows(sort, count, r));
            compare(t, program, &text, usize::MAX);
            compare(t, program, &text, 4096);
        }
    }
    t.report("texts of 1,000, 4,095, 4,096 and 4,097 rows");
}

fn main() {
    let program = std::env::args().nth(1).expect("the path of the program");
    let mut t = Tally::new("lab_list");
    by_hand(&mut t, &program);
    lengths(&mut t, &program);
    random_texts(&mut t, &program, &mut Random::new(11));
    t.end();
}

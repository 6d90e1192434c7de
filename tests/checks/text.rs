//! Checks the program `pairs` (its path is the argument): random valid and damaged lines, and
//! edges, through a pipe, whole and in chunks of every small size.

use reference::program;
use reference::random::Random;
use reference::tally::Tally;
use reference::text::text_of;

/// Compares line by line, so that a failure names its line.
fn compare(t: &mut Tally, program: &str, input: &[u8], chunk: usize) {
    let (found, wanted) = (program::output(program, input, chunk), text_of(input));
    let lines = |bytes: &[u8]| bytes.split(|&c| c == b'\n').map(|l| String::from_utf8_lossy(l).into_owned()).collect();
    let (found_lines, wanted_lines): (Vec<String>, Vec<String>) = (lines(&found), lines(&wanted));
    let shown: Vec<String> = lines(input);
    for (i, (found, wanted)) in found_lines.iter().zip(&wanted_lines).enumerate() {
        let line: String = shown.get(i.wrapping_sub(1)).map_or(String::new(), |l| l.chars().take(120).collect());
        t.same(("line", i, line, "chunks of", chunk), found, wanted);
    }
    t.same(("number of lines", "chunks of", chunk), found_lines.len(), wanted_lines.len());
    t.same(("every byte", "chunks of", chunk), found == wanted, true);
}

/// A decimal of a line: mostly within limits, of every form.
fn decimal(lightness: bool, r: &mut Random) -> String {
    let most = if lightness { 100 } else { 128 };
    let whole = match r.below(40) {
        0 => r.from(0, 999),
        1 => most,
        _ => r.from(0, most - 1),
    };
    let minus = if lightness { r.one_in(40) } else { r.one_in(2) };
    let mut word = if minus { "-".to_string() } else { String::new() };
    match r.below(6) {
        0 => word += &format!("{whole:03}"),
        _ => word += &whole.to_string(),
    }
    let places = r.below(5);
    if places > 0 {
        let fraction = if r.one_in(6) { 0 } else { r.below(10usize.pow(places as u32)) };
        word += &format!(".{fraction:0places$}");
    }
    word
}

fn line(r: &mut Random) -> Vec<u8> {
    let mut words: Vec<String> = (0..6).map(|i| decimal(i % 3 == 0, r)).collect();
    // a sample near the first, so that small differences come up too
    if r.one_in(3) {
        words = [&words[..3], &words[..3]].concat();
        let changed = 3 + r.below(3);
        words[changed] = decimal(changed == 3, r);
    }
    words.join(" ").into_bytes()
}

/// Damages a line in one place.
fn damage(line: &mut Vec<u8>, r: &mut Random) {
    const BYTES: &[u8] = b" -.0123456789+,\r\t\0eE\x7f\x80\xff";
    let at = r.below(line.len());
    match r.below(6) {
        0 => line[at] = r.pick(BYTES),
        1 => line.insert(at, r.pick(BYTES)),
        2 => {
            line.remove(at);
        }
        3 => line.truncate(at),
        4 => line.extend_from_slice(r.pick(&[b" 0".as_slice(), b" ", b"\r", b"0", b".", b".5"])),
        _ => line[at] = r.next() as u8,
    }
}

/// Lines, some damaged; the last one with or without its newline.
fn random_lines(count: usize, r: &mut Random) -> Vec<u8> {
    let mut input = Vec::new();
    for _ in 0..count {
        let mut line = line(r);
        for _ in 0..r.pick(&[0, 0, 0, 1, 1, 2]) {
            if !line.is_empty() {
                damage(&mut line, r);
            }
        }
        input.extend(line);
        input.push(b'\n');
    }
    if r.one_in(2) {
        input.pop();
    }
    input
}

/// Inputs on the borders of the form.
fn edges() -> Vec<Vec<u8>> {
    let mut all: Vec<Vec<u8>> = [
        "",
        "\n",
        "\n\n\n",
        "\r\n",
        " ",
        "50 0 0 40 0 0\n101 0 0 50 0 0\n",
        "50 0 0 40 0 0",
        "50 0 0 40 0 0\n\n",
        "50 0 0 40 0 0\r\n",
        "-0 -0.0 -0.0000 -0.00 -000 -000.0000\n",
        "0 0 0 0 0 0",
        "100 128 128 100.0000 -128 -128.0000",
        "100.0001 0 0 0 0 0",
        "-0.0001 0 0 0 0 0",
        "0 128.0001 0 0 0 0",
        "0 0 -128.0001 0 0 0",
        "0 0 0 100.0001 0 0",
        "0 0 0 -0.0001 0 0",
        "0 0 0 0 -128.0001 0",
        "0 0 0 0 0 128.0001",
        "0 129 0 101 0 0",
        "101 129 0 101 0 0",
        "0 0 0 101 129 0",
        " 0 0 0 0 0 0",
        "0 0 0 0 0 0 ",
        "0  0 0 0 0 0",
        "0\t0 0 0 0 0",
        "+1 0 0 0 0 0",
        ".5 0 0 0 0 0",
        "5. 0 0 0 0 0",
        "1.00000 0 0 0 0 0",
        "1000 0 0 0 0 0",
        "0000 0 0 0 0 0",
        "- 0 0 0 0 0",
        "-. 0 0 0 0 0",
        "--1 0 0 0 0 0",
        "1-1 0 0 0 0 0",
        "1.1.1 0 0 0 0 0",
        "0 0 0 0 0",
        "0 0 0 0 0 0 0",
        "1e1 0 0 0 0 0",
        "0 0 0 0 0 0\0",
        "٣ 0 0 0 0 0",
        "999 0 0 0 0 0",
        "1000 0 0 101 0 0",
        "999.9999 -999.9999 999.9999 999.9999 999.9999 999.9999",
        "50 2.4900 -0.0010 50 -2.4900 0.0009\n50 2.4900 -0.0010 50 -2.4900 0.0010\n50 2.4900 -0.0010 50 -2.4900 0.0011",
    ]
    .iter()
    .map(|text| text.as_bytes().to_vec())
    .collect();
    // no line of the form is near 96 bytes, so that limit shows in refusals alone
    for length in [58, 59, 60, 95, 96, 97, 98, 192, 4095, 4096, 4097, 65_535, 65_536, 65_537, 1 << 20] {
        for filler in [b' ', b'0', b'x'] {
            let mut long = b"50 0 0 40 0 0".to_vec();
            long.resize(length, filler);
            long.extend(b"\n50 0 0 40 0 0\n");
            all.push(long);
        }
    }
    for byte in 0..=255u8 {
        let mut line = b"50 0 0 40 0 0\n".to_vec();
        line[4] = byte;
        all.push(line);
    }
    all
}

fn main() {
    let program = std::env::args().nth(1).expect("the path of the program");
    let mut t = Tally::new("text");
    let edges = edges();
    let count = edges.len();
    for (i, input) in edges.iter().enumerate() {
        compare(&mut t, &program, input, 1 << 16);
        if i < 60 && input.len() < 100 {
            compare(&mut t, &program, input, 1);
        }
    }
    // all of them in one input, each ended by a newline
    let joined: Vec<u8> = edges.iter().flat_map(|e| [e.as_slice(), b"\n"].concat()).collect();
    compare(&mut t, &program, &joined, 1 << 16);
    t.report(&format!("{count} inputs on the borders of the form"));
    let mut r = Random::new(7);
    compare(&mut t, &program, &random_lines(20_000, &mut r), usize::MAX);
    compare(&mut t, &program, &random_lines(20_000, &mut r), 4096);
    t.report("40000 random lines, some damaged");
    for chunk in 1..=100 {
        compare(&mut t, &program, &random_lines(60, &mut r), chunk);
    }
    t.report("6000 random lines, some damaged, in chunks of 1 to 100 bytes");
    t.end();
}

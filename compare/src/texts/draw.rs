//! Drawn texts: some lines, many, very long ones, any bytes.

use crate::random::Random;
use crate::texts::lines::{good, long, strange, PADDINGS};
use crate::texts::wording::LONGEST_LINE;
use crate::texts::Text;

/// A text, and how it is given to a program: whole, or in pieces.
pub fn text(random: &mut Random) -> Text {
    let bytes = match random.below(100) {
        0 => lines(random, short),
        1..=3 => lines(random, large),
        4..=7 => noise(random),
        8..=17 => lines(random, with_long),
        _ => lines(random, some),
    };
    let piece = piece(random, bytes.len());
    Text { bytes, piece }
}

/// Drawn lines as a text, at times with a strange one at the end.
fn lines(random: &mut Random, draw: fn(&mut Random) -> Vec<Vec<u8>>) -> Vec<u8> {
    let mut lines = draw(random);
    if random.percent(30) {
        lines.push(strange(random));
    }
    // The last line has its line feed where an empty one follows it.
    if random.percent(60) {
        lines.push(Vec::new());
    }
    lines.join(&b'\n')
}

/// All at once, or so many bytes that there are not more than some hundreds of pieces.
fn piece(random: &mut Random, length: usize) -> usize {
    let piece = match random.below(8) {
        0 => 1 + random.below(16) as usize,
        1 => 1 + random.below(5_000) as usize,
        2 => 4_096,
        _ => length,
    };
    piece.max(length / 300)
}

/// A few lines or some tens, any of them strange.
fn some(random: &mut Random) -> Vec<Vec<u8>> {
    let (count, bad) = match random.below(10) {
        0 => (random.below(300), 1),
        1..=3 => (random.below(40), 4),
        _ => (random.below(8), 25),
    };
    let line = |_| match random.percent(bad) {
        true => strange(random),
        false => good(random),
    };
    (0..count).map(line).collect()
}

/// Good lines of some tens of thousands of bytes.
fn large(random: &mut Random) -> Vec<Vec<u8>> {
    let size = 10_000 + random.below(90_000) as usize;
    let mut bytes = 0;
    let mut lines = Vec::new();
    while bytes < size {
        let line = good(random);
        bytes += line.len() + 1;
        lines.push(line);
    }
    lines
}

/// Thousands of short lines.
fn short(random: &mut Random) -> Vec<Vec<u8>> {
    let count = 2_000 + random.below(8_000);
    let kinds: [&[u8]; 8] = [
        b"init", b"init", b"init", b"byte 7", b"read 0", b"", b"#", b"\r",
    ];
    (0..count).map(|_| random.pick(&kinds).to_vec()).collect()
}

/// Good lines, one or more of them as long as they may be or a little longer.
fn with_long(random: &mut Random) -> Vec<Vec<u8>> {
    let mut lines: Vec<_> = (0..random.below(12)).map(|_| good(random)).collect();
    for _ in 0..1 + random.below(3) {
        let length = match random.below(6) {
            0 => LONGEST_LINE - random.below(6) as usize,
            1 => LONGEST_LINE + 1 + random.below(3) as usize,
            2 => random.pick(&[100, 2_000, 8_190, 8_191, 8_192, 20_000]),
            _ => LONGEST_LINE,
        };
        let padding = match random.percent(80) {
            true => random.pick(&PADDINGS[..4]),
            false => random.pick(&PADDINGS),
        };
        let at = random.below(lines.len() as u32 + 1) as usize;
        lines.insert(at, long(padding, length));
    }
    lines
}

/// Any bytes, or only such as lines have.
fn noise(random: &mut Random) -> Vec<u8> {
    let length = random.below(200);
    let of_lines = b"init byte 0123 777\r\t\n\n#+-";
    match random.percent(50) {
        true => (0..length).map(|_| random.word() as u8).collect(),
        false => (0..length).map(|_| random.pick(of_lines)).collect(),
    }
}

//! Drawn lines, good and strange, without their line feeds.

use crate::random::Random;
use crate::texts::fields::{bytes, right, strange as strange_word, twist, Field, NAMES, WORDS};

/// A good line: a name and its fields, or no word at all.
pub fn good(random: &mut Random) -> Vec<u8> {
    let (name, fields) = random_name(random);
    let mut words = words(random, name, fields);
    if random.percent(10) {
        words.clear();
    }
    laid_out(random, &words)
}

/// A line that is hardly ever good.
pub fn strange(random: &mut Random) -> Vec<u8> {
    let (name, fields) = random_name(random);
    let mut words = words(random, name, fields);
    let at = random.below(fields.len() as u32 + 1) as usize;
    match random.below(8) {
        0 | 1 => words.truncate(1 + at),
        2 => words.push(extra(random)),
        3 => words[0] = random.pick(&WORDS).as_bytes().to_vec(),
        4 => twist(random, &mut words[at]),
        5 => return bytes(random),
        _ => match fields.get(at) {
            Some(field) => words[1 + at] = strange_word(random, field),
            None => words.push(extra(random)),
        },
    }
    laid_out(random, &words)
}

fn random_name(random: &mut Random) -> (&'static str, &'static [Field]) {
    // A reference has the most fields to go wrong.
    match random.percent(20) {
        true => NAMES[0],
        false => random.pick(&NAMES),
    }
}

fn words(random: &mut Random, name: &str, fields: &[Field]) -> Vec<Vec<u8>> {
    let mut words = vec![name.as_bytes().to_vec()];
    words.extend(fields.iter().map(|field| right(random, field)));
    words
}

/// A word after the last field.
fn extra(random: &mut Random) -> Vec<u8> {
    match random.below(3) {
        0 => b"0".to_vec(),
        1 => random.pick(&WORDS).as_bytes().to_vec(),
        _ => bytes(random),
    }
}

/// Words with blanks between and around them, and at times a comment.
fn laid_out(random: &mut Random, words: &[Vec<u8>]) -> Vec<u8> {
    let mut line = Vec::new();
    blanks(random, &mut line, 0);
    for (at, word) in words.iter().enumerate() {
        if at > 0 {
            blanks(random, &mut line, 1);
        }
        line.extend(word);
    }
    blanks(random, &mut line, 0);
    if random.percent(15) {
        line.push(b'#');
        let length = random.pick(&[0, 1, 10, 40, 300]);
        let any = (0..length).map(|_| random.word() as u8);
        line.extend(any.filter(|&byte| byte != b'\n'));
    }
    line
}

/// So many blanks, mostly spaces, and at times some more.
fn blanks(random: &mut Random, line: &mut Vec<u8>, least: u32) {
    let more = match random.percent(25) {
        true => random.below(4),
        false => 0,
    };
    for _ in 0..least + more {
        line.push(random.pick(b"    \t\r"));
    }
}

/// How a line comes to its length.
#[derive(Clone, Copy)]
pub enum Padding {
    Comment,
    Before,
    After,
    Zeros,
    OneWord,
    BadWord,
}

pub const PADDINGS: [Padding; 6] = [
    Padding::Comment,
    Padding::Before,
    Padding::After,
    Padding::Zeros,
    Padding::OneWord,
    Padding::BadWord,
];

/// A line of so many bytes; good, if it is not too long, but for the last two paddings.
pub fn long(padding: Padding, length: usize) -> Vec<u8> {
    let (before, with, after) = match padding {
        Padding::Comment => ("read 1 #", b'c', ""),
        Padding::Before => ("", b' ', "init"),
        Padding::After => ("interrupt 4", b'\t', "\r"),
        Padding::Zeros => ("change 1 -", b'0', "200"),
        Padding::OneWord => ("i", b'n', "it"),
        Padding::BadWord => ("byte 400 ", b' ', "#"),
    };
    let mut line = before.as_bytes().to_vec();
    line.resize(length - after.len(), with);
    line.extend(after.as_bytes());
    line
}

#[cfg(test)]
mod tests {
    use super::*;
    use crate::texts::wording::LONGEST_LINE;
    use peer::{read_line, Line};

    fn is_bad(line: &[u8]) -> bool {
        matches!(read_line(line), Line::Bad(_))
    }

    #[test]
    fn good_lines_are_good_and_strange_ones_mostly_bad() {
        let mut random = Random::new(1);
        for _ in 0..20_000 {
            let line = good(&mut random);
            assert!(!is_bad(&line), "{}", line.escape_ascii());
        }
        let strange: Vec<_> = (0..20_000).map(|_| strange(&mut random)).collect();
        assert!(strange.iter().all(|line| !line.contains(&b'\n')));
        assert!(strange.iter().filter(|line| is_bad(line)).count() > 14_000);
    }

    #[test]
    fn long_lines_have_their_length() {
        for padding in PADDINGS {
            let line = long(padding, LONGEST_LINE);
            assert_eq!(line.len(), LONGEST_LINE);
            let bad = matches!(padding, Padding::OneWord | Padding::BadWord);
            assert_eq!(is_bad(&line), bad);
        }
    }
}

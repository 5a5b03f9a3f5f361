//! The eight names and their fields as docs/NOTATION.md has them, and words for a field.

use crate::random::Random;

/// A field: its own words, the largest number, and whether it may have a sign.
#[derive(Clone, Copy)]
pub struct Field {
    pub own: &'static [&'static str],
    pub limit: u32,
    pub signed: bool,
}

const fn words(own: &'static [&'static str]) -> Field {
    Field {
        own,
        ..number(0o377)
    }
}

const fn number(limit: u32) -> Field {
    Field {
        own: &[],
        limit,
        signed: false,
    }
}

const MODE: Field = words(&["kernel", "supervisor", "illegal", "user"]);
const SPACE: Field = words(&["instruction", "data"]);
const ACCESS: Field = words(&["read", "write"]);
const PHASE: Field = words(&["instruction", "trap"]);
const WORD: Field = number(0o177777);
const ADDRESS: Field = number(0o77777777);
const BYTE: Field = number(0o377);
const AMOUNT: Field = Field {
    signed: true,
    ..number(0o177)
};

pub const NAMES: [(&str, &[Field]); 8] = [
    ("reference", &[MODE, SPACE, ACCESS, PHASE, WORD]),
    ("read", &[ADDRESS]),
    ("write", &[ADDRESS, WORD]),
    ("instruction", &[WORD]),
    ("interrupt", &[WORD]),
    ("change", &[BYTE, AMOUNT]),
    ("init", &[]),
    ("byte", &[BYTE]),
];

/// Every word that is a name's or a field's own, and two that are nearly so.
pub const WORDS: [&str; 16] = [
    "reference",
    "read",
    "write",
    "instruction",
    "interrupt",
    "change",
    "init",
    "byte",
    "kernel",
    "supervisor",
    "illegal",
    "user",
    "data",
    "trap",
    "kerne",
    "users",
];

/// Words that are no field's, or only that of one with a sign.
const ODD: [&str; 20] = [
    "8", "9", "18", "78", "7a", "0x7", "0o7", "7.", "1_0", "-", "+", "-1", "+1", "--1", "+-1",
    "-+1", "1-", "-8", "Kernel", "READ",
];

/// A word that fits the field, often at its limit, with zeros in front at times.
pub fn right(random: &mut Random, field: &Field) -> Vec<u8> {
    if !field.own.is_empty() && random.percent(60) {
        return random.pick(field.own).as_bytes().to_vec();
    }
    let minus = field.signed && random.percent(50);
    let plus = field.signed && random.percent(30);
    let limit = field.limit + u32::from(minus);
    let number = match random.below(5) {
        0 => 0,
        1 => limit,
        2 => limit - random.below(4),
        _ => random.below(limit + 1),
    };
    let sign = match (minus, plus) {
        (true, _) => "-",
        (false, true) => "+",
        (false, false) => "",
    };
    let zeros = match random.below(10) {
        0 => random.below(60),
        1 | 2 => random.below(4),
        _ => 0,
    };
    format!("{sign}{}{number:o}", "0".repeat(zeros as usize)).into_bytes()
}

/// A word that hardly ever fits: a number too large, another field's word, something near a word, any bytes.
pub fn strange(random: &mut Random, field: &Field) -> Vec<u8> {
    match random.below(6) {
        0 => format!("{:o}", field.limit + 1).into_bytes(),
        1 => large(random, field),
        2 => random.pick(&WORDS).as_bytes().to_vec(),
        3 => random.pick(&ODD).as_bytes().to_vec(),
        4 => bytes(random),
        _ => {
            let mut word = right(random, field);
            twist(random, &mut word);
            word
        }
    }
}

/// A number past the limit, often small in its low bits.
fn large(random: &mut Random, field: &Field) -> Vec<u8> {
    let low = u128::from(random.below(field.limit + 1));
    let number = match random.below(3) {
        0 => u128::from(field.limit) + 1 + u128::from(random.below(8)),
        1 => low | 1 << random.pick(&[24, 31, 32, 63, 64, 96]),
        _ => low + 8 * (u128::from(field.limit) + 1),
    };
    let sign = match field.signed {
        true => random.pick(&["", "-", "+"]),
        false => "",
    };
    format!("{sign}{number:o}").into_bytes()
}

/// One byte of a word changed, dropped or added.
pub fn twist(random: &mut Random, word: &mut Vec<u8>) {
    let at = random.below(word.len() as u32 + 1) as usize;
    let other = random.pick(b"01789+-aeiknrtKR_.#\0\x0b\x0c\x7f\x80\xff");
    match (random.below(4), word.get_mut(at)) {
        (0, Some(byte)) => *byte = other,
        (1, Some(byte)) => *byte ^= 0x20,
        (2, Some(_)) => {
            word.remove(at);
        }
        _ => word.insert(at, other),
    }
}

/// Any bytes but a line feed.
pub fn bytes(random: &mut Random) -> Vec<u8> {
    let length = 1 + random.below(8);
    let any = (0..length).map(|_| random.word() as u8);
    any.filter(|&byte| byte != b'\n').collect()
}

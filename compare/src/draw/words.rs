//! Register words and whole stores.

use crate::fields::{PDR, SR0, SR1, SR2, SR3, WORDS};
use crate::random::Random;

/// A store to begin a history with: of 100 words, and rarely of another number.
pub fn store(random: &mut Random) -> Vec<u16> {
    if random.percent(3) {
        let length = random.pick(&[0, 1, 99, 101, 200]);
        return (0..length).map(|_| random.word()).collect();
    }
    if random.percent(5) {
        let same = random.pick(&[0, 0o177777, 0o077406, 0o000001]);
        return vec![same; WORDS];
    }
    let junk = random.percent(40);
    let mut words: Vec<u16> = (0..WORDS).map(|place| word(random, place)).collect();
    if junk {
        for (place, word) in words.iter_mut().enumerate() {
            *word |= random.word() & unimplemented(place);
        }
    }
    words
}

/// A word for the register at a place, unimplemented bits mostly clear.
pub fn word(random: &mut Random, place: usize) -> u16 {
    if random.percent(6) {
        return random.word();
    }
    match place {
        0..PDR => par(random),
        PDR..SR0 => pdr(random),
        SR0 => sr0(random),
        SR1 => sr1(random),
        SR2 => random.word(),
        SR3 => random.below(16) as u16,
        _ => random.word(),
    }
}

fn unimplemented(place: usize) -> u16 {
    match place {
        0..PDR => 0o170000,
        PDR..SR0 => 0o100060,
        SR0 => 0o006000,
        SR3 => 0o177760,
        _ => 0,
    }
}

/// Often near the top, where granted bytes come to the registers or past the last block.
fn par(random: &mut Random) -> u16 {
    let registers = [0o7722, 0o7723, 0o7725, 0o7775, 0o7776];
    match random.below(8) {
        0 => 0,
        1 => 0o7600,
        2 => 0o7777,
        3 | 4 => random.pick(&registers) - random.below(0o200) as u16,
        5 => random.pick(&registers),
        _ => random.word() & 0o7777,
    }
}

fn pdr(random: &mut Random) -> u16 {
    let length = match random.below(4) {
        0 => random.pick(&[0, 1, 0o51, 0o126, 0o176]),
        1 | 2 => random.pick(&[0, 0o177]),
        _ => random.below(0o200) as u16,
    };
    let ed = random.below(2) as u16;
    let marks = random.below(4) as u16;
    let key = random.below(8) as u16;
    length << 8 | marks << 6 | ed << 3 | key
}

/// Relocation mostly on; frozen now and then.
fn sr0(random: &mut Random) -> u16 {
    let relocate = u16::from(random.percent(90));
    let frozen = if random.percent(20) {
        random.below(8) as u16
    } else {
        0
    };
    frozen << 13 | random.word() & 0o011776 | relocate
}

/// Empty, low byte in use, high byte in use, both in use.
fn sr1(random: &mut Random) -> u16 {
    let low = random.word() & 0o000377 | 1;
    let high = random.word() & 0o177400 | 0o400;
    random.pick(&[0, low, high, low | high])
}

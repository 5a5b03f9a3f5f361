//! Numbers beyond their range, and amounts.

use crate::random::Random;

/// A number from `limit` up: just past it, at the ends of bytes and words, anything.
pub fn beyond(random: &mut Random, limit: u32) -> u32 {
    match random.below(4) {
        0 => limit,
        1 => limit + random.below(8),
        2 => {
            let one = 1 << random.pick(&[8, 16, 24, 31]);
            one | random.below(limit)
        }
        _ => random.pick(&[255, u32::MAX, u32::MAX - 1, i32::MAX as u32]),
    }
}

/// An amount of a noted change, 0 and out of range included.
pub fn amount(random: &mut Random) -> i32 {
    match random.below(10) {
        0 => random.pick(&[i32::MIN, i32::MIN + 1, i32::MAX, i32::MAX - 1]),
        1 => random.pick(&[-17, -16, -15, -1, 0, 1, 14, 15, 16]),
        // Small in its low bits only.
        2 => random.between(-20, 20) + (1 << random.pick(&[5, 8, 16, 24])),
        _ => random.between(-20, 20),
    }
}

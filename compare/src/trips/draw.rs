//! Events to be recorded, with more than their share at the ends of a field's bytes.

use peer::Event;

use crate::random::Random;

/// An event whose fields fit their bytes.
pub fn fitting(random: &mut Random) -> Event {
    event(random, 0)
}

/// An event whose fields fit, or of which one, some or all are too large.
pub fn any(random: &mut Random) -> Event {
    let large = random.pick(&[0, 0, 10, 30, 60, 100]);
    event(random, large)
}

/// An event of one of the seven kinds; each field is too large so many times in a hundred.
fn event(random: &mut Random, large: u32) -> Event {
    match random.below(10) {
        0..=2 => Event::Reference {
            mode: byte(random, large),
            space: byte(random, large),
            access: byte(random, large),
            phase: byte(random, large),
            va: word(random),
        },
        3 => Event::Read {
            address: address(random, large),
        },
        4 => Event::Write {
            address: address(random, large),
            value: word(random),
        },
        5 => Event::Instruction { va: word(random) },
        6 => Event::Interrupt {
            vector: word(random),
        },
        7 | 8 => Event::Change {
            register: byte(random, large),
            amount: amount(random, large),
        },
        _ => Event::Init,
    }
}

fn byte(random: &mut Random, large: u32) -> u32 {
    match (random.percent(large), random.below(3)) {
        (true, 0) => 256,
        (true, 1) => random.pick(&[257, 511, 65_536, 1 << 24, 1 << 31, u32::MAX]),
        // A byte in its low bits only.
        (true, _) => random.below(256) | 1 << random.between(8, 31),
        (false, 0) => 255,
        (false, 1) => random.pick(&[0, 1, 3, 4, 127, 128, 254]),
        (false, _) => random.below(256),
    }
}

fn address(random: &mut Random, large: u32) -> u32 {
    match (random.percent(large), random.below(3)) {
        (true, 0) => 1 << 24,
        (true, 1) => random.pick(&[(1 << 24) + 1, 1 << 25, 1 << 31, u32::MAX]),
        (true, _) => random.below(1 << 24) | 1 << random.between(24, 31),
        (false, 0) => (1 << 24) - 1,
        (false, 1) => random.pick(&[0, 1, 255, 256, 65_535, 65_536, 0o777572, 0o1000000]),
        (false, _) => random.below(1 << 24),
    }
}

fn amount(random: &mut Random, large: u32) -> i32 {
    match (random.percent(large), random.below(3)) {
        (true, 0) => random.pick(&[-129, 128]),
        (true, 1) => random.pick(&[-130, 129, -256, 255, 256, i32::MIN, i32::MAX]),
        (true, _) => random.between(-128, 127) ^ 1 << random.between(8, 31),
        (false, 0) => random.pick(&[-128, 127]),
        (false, 1) => random.pick(&[-127, -16, -1, 0, 1, 15, 126]),
        (false, _) => random.between(-128, 127),
    }
}

fn word(random: &mut Random) -> u16 {
    match random.below(4) {
        0 => random.pick(&[0, 1, 0xff, 0x100, 0xff00, 0x7fff, 0x8000, 0xffff]),
        _ => random.word(),
    }
}

#[cfg(test)]
mod tests {
    use super::*;

    #[test]
    fn fitting_events_fit() {
        let mut random = Random::new(1);
        for _ in 0..100_000 {
            let event = fitting(&mut random);
            assert!(
                peer::write_record(&mut [0; 7], 0, event).is_ok(),
                "{event:?}"
            );
        }
    }

    #[test]
    fn fields_meant_to_be_too_large_are() {
        let mut random = Random::new(1);
        for _ in 0..100_000 {
            assert!(byte(&mut random, 100) > 255);
            assert!(address(&mut random, 100) >= 1 << 24);
            assert!(i8::try_from(amount(&mut random, 100)).is_err());
        }
    }
}

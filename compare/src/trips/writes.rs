//! Single writes: an event after the used bytes of a buffer, by both sides.

use peer::Event;

use crate::met::Met;
use crate::print::{event_text, hex};
use crate::proved::Written;
use crate::random::Random;
use crate::trips::sides::{written_text, Side, PEER, PROVED};
use crate::trips::write_edges::{add, WRITES};
use crate::trips::{draw, length, FILL};

/// The bytes kept before and after a buffer, to see that they stay.
const GUARD: usize = 16;

/// A buffer, how many of its bytes are used, and the event to write.
pub struct Write {
    pub buffer: Vec<u8>,
    pub used: usize,
    pub event: Event,
}

/// Compares so many drawn writes; none at the first difference, which is printed.
pub fn check(count: u64, seed: u64) -> Option<Met> {
    let mut random = Random::new(seed);
    let mut met = Met::new(WRITES);
    for number in 1..=count {
        let write = drawn(&mut random);
        match write.same(&PROVED, &PEER) {
            Some(answer) => add(&mut met, &write, answer),
            None => {
                println!("a difference, in write {number} from seed {seed}:");
                write.print();
                return None;
            }
        }
    }
    Some(met)
}

/// A write into up to 40 bytes, often with just the room it needs or a byte too little.
fn drawn(random: &mut Random) -> Write {
    let event = draw::any(random);
    let room = random.below(41) as usize;
    let used = match random.below(10) {
        0 => random.pick(&[usize::MAX, usize::MAX - 1, usize::MAX - 6, 1 << 63, 1 << 32]),
        1 => room + random.below(9) as usize,
        2 | 3 => room.saturating_sub(length(event)),
        4 | 5 => (room + 1).saturating_sub(length(event)),
        _ => random.below(room as u32 + 1) as usize,
    };
    Write {
        buffer: (0..room).map(|_| random.word() as u8).collect(),
        used,
        event,
    }
}

impl Write {
    /// The answer, if both sides give the same and leave the same bytes.
    pub fn same(&self, ours: &Side, theirs: &Side) -> Option<Result<usize, u8>> {
        let (answer, bytes) = self.by(theirs);
        match self.by(ours) == (answer, bytes) {
            true => answer.ok(),
            false => None,
        }
    }

    /// A side's answer, and every byte afterwards, with those around the buffer.
    fn by(&self, side: &Side) -> (Written, Vec<u8>) {
        let around = [FILL; GUARD];
        let mut bytes = [&around[..], &self.buffer, &around].concat();
        let lent = &mut bytes[GUARD..GUARD + self.buffer.len()];
        let answer = (side.write)(lent, self.used, self.event);
        (answer, bytes)
    }

    /// Prints the write and what both sides make of it.
    fn print(&self) {
        println!("  {}", event_text(self.event));
        println!("  {} bytes, {} used", self.buffer.len(), self.used);
        println!("  {}", hex(&self.buffer));
        for side in [PROVED, PEER] {
            let (answer, bytes) = self.by(&side);
            println!("{}: {}", side.name, written_text(answer));
            let (before, rest) = bytes.split_at(GUARD);
            let (buffer, after) = rest.split_at(self.buffer.len());
            println!("  {}", hex(buffer));
            if before.iter().chain(after).any(|&byte| byte != FILL) {
                println!("  and {} before it, {} after it", hex(before), hex(after));
            }
        }
    }
}

#[cfg(test)]
mod tests {
    use super::*;

    fn write(used: usize, event: Event) -> Write {
        let buffer = vec![0x11; 8];
        Write {
            buffer,
            used,
            event,
        }
    }

    fn peer_but(change: fn(&mut [u8], usize, Event) -> Written) -> Side {
        Side {
            write: change,
            ..PEER
        }
    }

    #[test]
    fn the_same_side_twice_is_the_same() {
        assert_eq!(write(7, Event::Init).same(&PEER, &PEER), Some(Ok(8)));
        assert_eq!(write(8, Event::Init).same(&PEER, &PEER), Some(Err(14)));
    }

    #[test]
    fn another_answer_is_a_difference() {
        let more = peer_but(|buffer, used, event| {
            Ok(peer::write_record(buffer, used, event).map(|used| used + 1))
        });
        let stray = peer_but(|_, _, _| Err(crate::codes::Stray(0)));
        assert_eq!(write(0, Event::Init).same(&more, &PEER), None);
        assert_eq!(write(0, Event::Init).same(&stray, &PEER), None);
        assert_eq!(write(0, Event::Init).same(&stray, &stray), None);
    }

    #[test]
    fn another_byte_is_a_difference() {
        let last = peer_but(|buffer, used, event| {
            buffer[buffer.len() - 1] ^= 1;
            Ok(peer::write_record(buffer, used, event))
        });
        let first = peer_but(|buffer, used, event| {
            buffer[0] ^= 1;
            Ok(peer::write_record(buffer, used, event))
        });
        for used in [1, 3, 9] {
            assert_eq!(write(used, Event::Init).same(&last, &PEER), None);
            assert_eq!(write(used, Event::Init).same(&first, &PEER), None);
        }
    }

    #[test]
    fn a_byte_around_the_buffer_is_a_difference() {
        let past = peer_but(|buffer, used, event| {
            // SAFETY: the byte is one of those kept after the buffer.
            unsafe { *buffer.as_mut_ptr().add(buffer.len()) = 0 };
            Ok(peer::write_record(buffer, used, event))
        });
        assert_eq!(write(0, Event::Init).same(&past, &PEER), None);
    }
}

//! Round trips: a recording written by both sides, read back by both, and written again.

use peer::Event;

use crate::met::Met;
use crate::print::{event_text, hex, print_runs};
use crate::random::Random;
use crate::record_codes::Here;
use crate::shrink::shrink_list;
use crate::trips::sides::{standing_text, written_text, Side, PEER, PROVED};
use crate::trips::{draw, kind, length, FILL, KINDS};

/// What there is to meet beside every kind of event.
const ROUNDS: [&str; 5] = [
    "a recording of no event",
    "a recording of one event",
    "a recording over 4,096 bytes",
    "a buffer with no byte to spare",
    "a buffer with bytes to spare",
];

/// Compares round trips of so many drawn events or more; none at the first difference, which is printed.
pub fn check(events: u64, seed: u64) -> Option<Met> {
    let mut random = Random::new(seed);
    let mut met = Met::new(&[&KINDS[..], &ROUNDS].concat());
    let (mut number, mut done) = (0, 0);
    while done < events {
        number += 1;
        let trip = drawn(&mut random);
        match trip.whole(&PROVED, &PEER) {
            Ok(bytes) => trip.add(&mut met, bytes.len()),
            Err(_) => {
                println!("a difference, in round trip {number} from seed {seed}:");
                trip.shrink().print();
                return None;
            }
        }
        done += trip.events.len() as u64;
    }
    Some(met)
}

/// Events that fit, and how many bytes more than they need the buffer has.
struct Trip {
    events: Vec<Event>,
    spare: usize,
}

/// Mostly some tens of events, rarely thousands.
fn drawn(random: &mut Random) -> Trip {
    let count = match random.below(200) {
        0 => 8_000 + random.below(8_000),
        1..=20 => random.below(3),
        _ => random.below(80),
    };
    Trip {
        events: (0..count).map(|_| draw::fitting(random)).collect(),
        spare: random.pick(&[0, 0, 1, 6, 7, 100]),
    }
}

/// A recording's bytes, and the place after each record.
type Recording = (Vec<u8>, Vec<usize>);

impl Trip {
    /// The recording, if both sides write it, both read it back to the same events at the same
    /// places, and what the other side reads is written to the same bytes again.
    fn whole(&self, ours: &Side, theirs: &Side) -> Result<Vec<u8>, String> {
        let (bytes, places) = written(ours, &self.events, self.spare)?;
        let also = written(theirs, &self.events, self.spare)?;
        agree(also == (bytes.clone(), places.clone()), "the writers")?;
        let (events, read) = read_back(theirs, &bytes)?;
        agree(
            events == self.events && read == places,
            "what the peer reads and the events",
        )?;
        agree(
            read_back(ours, &bytes)? == (events.clone(), read),
            "the readers",
        )?;
        let again = written(ours, &events, self.spare)?;
        agree(
            again.0 == bytes,
            "the bytes written and those written again",
        )?;
        Ok(bytes)
    }

    fn add(&self, met: &mut Met, bytes: usize) {
        for words in KINDS {
            let of_kind = self.events.iter().any(|event| kind(*event) == words);
            met.when(words, of_kind);
        }
        met.when("a recording of no event", self.events.is_empty());
        met.when("a recording of one event", self.events.len() == 1);
        met.when("a recording over 4,096 bytes", bytes > 4_096);
        met.when("a buffer with no byte to spare", self.spare == 0);
        met.when("a buffer with bytes to spare", self.spare > 0);
    }

    /// The shortest trip found that still differs.
    fn shrink(&self) -> Trip {
        let mut events = self.events.clone();
        let spare = self.spare;
        let trip = |events: &[Event]| Trip {
            events: events.to_vec(),
            spare,
        };
        shrink_list(&mut events, |some| {
            trip(some).whole(&PROVED, &PEER).is_err()
        });
        trip(&events)
    }

    /// Prints the events, what both sides write of them and read back, and what is wrong.
    fn print(&self) {
        print_runs(self.events.iter().map(|event| event_text(*event)));
        println!("  in a buffer with {} bytes to spare", self.spare);
        for side in [PROVED, PEER] {
            if let Err(message) = self.print_by(&side) {
                println!("{message}");
            }
        }
        if let Err(message) = self.whole(&PROVED, &PEER) {
            println!("{message}");
        }
    }

    fn print_by(&self, side: &Side) -> Result<(), String> {
        let (bytes, _) = written(side, &self.events, self.spare)?;
        println!("{} writes {}, and reads", side.name, hex(&bytes));
        let (events, places) = read_back(side, &bytes)?;
        let read = events.iter().zip(places);
        print_runs(
            read.map(|(event, after)| format!("{}, then place {after}", event_text(*event))),
        );
        Ok(())
    }
}

fn agree(same: bool, who: &str) -> Result<(), String> {
    same.then_some(())
        .ok_or_else(|| format!("{who} are not the same"))
}

/// Writes the events one after the other into a buffer that has room for them and some bytes more.
fn written(side: &Side, events: &[Event], spare: usize) -> Result<Recording, String> {
    let room = events.iter().map(|event| length(*event)).sum::<usize>() + spare;
    let mut bytes = vec![FILL; room];
    let mut places = Vec::with_capacity(events.len());
    let mut used = 0;
    for (at, &event) in events.iter().enumerate() {
        used = match (side.write)(&mut bytes, used, event) {
            Ok(Ok(next)) if next <= room => next,
            answer => {
                let answer = written_text(answer);
                return Err(format!("{}, event {}: {answer}", side.name, at + 1));
            }
        };
        places.push(used);
    }
    if bytes[used..].iter().any(|&byte| byte != FILL) {
        return Err(format!("{} changes a byte past its records", side.name));
    }
    bytes.truncate(used);
    Ok((bytes, places))
}

/// Reads a recording from place 0 to its end: the events, and the place after each.
fn read_back(side: &Side, bytes: &[u8]) -> Result<(Vec<Event>, Vec<usize>), String> {
    let (mut events, mut places) = (Vec::new(), Vec::new());
    let mut at = 0;
    loop {
        let standing = (side.read)(bytes, at);
        match standing.here {
            Ok(Here::Event(event)) if standing.after > at => {
                at = standing.after;
                events.push(event);
                places.push(at);
            }
            Ok(Here::End) if at == bytes.len() && standing.after == at => {
                return Ok((events, places));
            }
            _ => {
                let found = standing_text(standing);
                return Err(format!("{} at place {at}: {found}", side.name));
            }
        }
    }
}

#[cfg(test)]
mod tests {
    use super::*;
    use crate::proved::Written;
    use crate::record_codes::Standing;

    fn trip() -> Trip {
        let (register, amount) = (255, -128);
        let events = vec![
            Event::Instruction { va: 0x0102 },
            Event::Change { register, amount },
            Event::Init,
        ];
        Trip { events, spare: 1 }
    }

    fn writer(write: fn(&mut [u8], usize, Event) -> Written) -> Side {
        Side { write, ..PEER }
    }

    fn reader(read: fn(&[u8], usize) -> Standing) -> Side {
        Side { read, ..PEER }
    }

    /// Whether a trip goes wrong with this side in place of the proved one, of the other, and of both.
    fn caught(side: Side) -> bool {
        let pairs = [(&side, &PEER), (&PEER, &side), (&side, &side)];
        pairs.iter().all(|(a, b)| trip().whole(a, b).is_err())
    }

    #[test]
    fn a_trip_gives_the_recording() {
        let bytes = Ok(vec![4, 2, 1, 6, 255, 128, 7]);
        assert_eq!(trip().whole(&PEER, &PEER), bytes);
        assert_eq!(trip().whole(&PROVED, &PEER), bytes);
    }

    #[test]
    fn a_writer_that_errs_is_caught() {
        assert!(caught(writer(|buffer, used, event| {
            let answer = peer::write_record(buffer, used, event);
            buffer[used..].reverse();
            Ok(answer)
        })));
        assert!(caught(writer(|buffer, used, event| {
            *buffer.last_mut().unwrap() = 0;
            Ok(peer::write_record(buffer, used, event))
        })));
        assert!(caught(writer(|_, _, _| Ok(Err(14)))));
    }

    #[test]
    fn a_reader_that_does_not_move_or_goes_too_far_is_caught() {
        assert!(caught(reader(|recording, at| Standing {
            after: at,
            ..(PEER.read)(recording, at)
        })));
        assert!(caught(reader(|recording, at| {
            match (PEER.read)(recording, at) {
                Standing { here, after: 3 } => Standing { here, after: 6 },
                standing => standing,
            }
        })));
        assert!(caught(reader(|recording, at| {
            match (PEER.read)(recording, at) {
                Standing { here, after: 7 } => Standing { here, after: 8 },
                standing => standing,
            }
        })));
    }

    /// It says 2 for the first record's end, and finds the second one there.
    #[test]
    fn a_reader_of_the_right_events_at_another_place_is_caught() {
        assert!(caught(reader(|recording, at| {
            match (PEER.read)(recording, at + usize::from(at == 2)) {
                Standing { here, after: 3 } => Standing { here, after: 2 },
                standing => standing,
            }
        })));
    }

    #[test]
    fn a_reader_of_another_event_is_caught() {
        assert!(caught(reader(|recording, at| {
            match (PEER.read)(recording, at) {
                Standing { after: 3, .. } => Standing {
                    here: Ok(Here::Event(Event::Instruction { va: 0x0201 })),
                    after: 3,
                },
                standing => standing,
            }
        })));
    }
}

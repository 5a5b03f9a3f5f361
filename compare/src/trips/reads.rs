//! Reading at every place of a recording, whole, damaged or of any bytes, by both sides.

use crate::met::Met;
use crate::print::hex;
use crate::random::Random;
use crate::record_codes::Here;
use crate::recordings::{damage, record};
use crate::trips::sides::{standing_text, Side, PEER, PROVED};
use crate::trips::{draw, kind, length, KINDS};

/// What there is to meet beside every kind of event.
const READS: [&str; 9] = [
    "refused 11",
    "refused 12",
    "the end",
    "one beyond the end",
    "two beyond the end",
    "the last place there can be",
    "a record that ends the recording",
    "a record cut by one byte",
    "a recording of 0 bytes",
];

/// Bytes of which the first `length` are the recording: a reader that goes on past its end finds more.
struct Bytes {
    bytes: Vec<u8>,
    length: usize,
}

/// Compares so many drawn recordings; none at the first difference, which is printed.
pub fn check(count: u64, seed: u64) -> Option<Met> {
    let mut random = Random::new(seed);
    let mut met = Met::new(&[&KINDS[..], &READS].concat());
    for number in 1..=count {
        let bytes = drawn(&mut random);
        let recording = &bytes.bytes[..bytes.length];
        for at in places(recording) {
            if !same(recording, at, &PROVED, &PEER) {
                println!("a difference, in reading recording {number} from seed {seed}:");
                print(&bytes, at);
                return None;
            }
            add(&mut met, &bytes, at);
        }
        met.when("a recording of 0 bytes", recording.is_empty());
    }
    Some(met)
}

/// Every place of a recording, its end, two beyond, and the last ones there can be.
fn places(recording: &[u8]) -> impl Iterator<Item = usize> {
    (0..=recording.len() + 2).chain([1 << 32, 1 << 63, usize::MAX - 6, usize::MAX - 1, usize::MAX])
}

/// Any bytes, small ones, or records with one byte changed, dropped or added; then cut somewhere or not.
fn drawn(random: &mut Random) -> Bytes {
    let count = random.below(60);
    let mut bytes: Vec<u8> = match random.below(8) {
        0 => (0..count).map(|_| random.word() as u8).collect(),
        1 => (0..count).map(|_| random.below(9) as u8).collect(),
        _ => records(random, count / 4),
    };
    if random.percent(75) && !bytes.is_empty() {
        damage(random, &mut bytes);
    }
    let length = match random.below(3) {
        0 => random.below(bytes.len() as u32 + 1) as usize,
        _ => bytes.len(),
    };
    Bytes { bytes, length }
}

fn records(random: &mut Random, count: u32) -> Vec<u8> {
    let events = (0..count).map(|_| draw::fitting(random));
    events.flat_map(record).collect()
}

/// Whether both sides find the same at a place.
fn same(recording: &[u8], at: usize, ours: &Side, theirs: &Side) -> bool {
    let found = (theirs.read)(recording, at);
    found.here.is_ok() && (ours.read)(recording, at) == found
}

fn add(met: &mut Met, bytes: &Bytes, at: usize) {
    let recording = &bytes.bytes[..bytes.length];
    let found = (PEER.read)(recording, at);
    match found.here {
        Ok(Here::Event(event)) => {
            met.when(kind(event), true);
            let last = found.after == recording.len();
            met.when("a record that ends the recording", last);
        }
        Ok(Here::Refused(number)) => met.when(&format!("refused {number}"), true),
        Ok(Here::End) => {
            let beyond = at - recording.len();
            met.when("the end", beyond == 0);
            met.when("one beyond the end", beyond == 1);
            met.when("two beyond the end", beyond == 2);
        }
        Err(_) => {}
    }
    met.when("the last place there can be", at == usize::MAX);
    let more = bytes.bytes.get(..bytes.length + 1);
    if let (Ok(Here::Refused(12)), Some(more)) = (found.here, more) {
        if let Ok(Here::Event(event)) = (PEER.read)(more, at).here {
            let short = at + length(event) == more.len();
            met.when("a record cut by one byte", short);
        }
    }
}

/// Prints a recording, the place and what both sides find there.
fn print(bytes: &Bytes, at: usize) {
    let (recording, past) = bytes.bytes.split_at(bytes.length);
    println!("  {} bytes: {}", recording.len(), hex(recording));
    println!("  and past them: {}", hex(past));
    println!("at place {at}");
    for side in [PROVED, PEER] {
        let found = standing_text((side.read)(recording, at));
        println!("  {:6}  {found}", side.name);
    }
}

#[cfg(test)]
mod tests {
    use super::*;
    use crate::record_codes::Standing;

    #[test]
    fn every_place_is_looked_at() {
        let found: Vec<usize> = places(&[7, 7]).collect();
        assert_eq!(found[..5], [0, 1, 2, 3, 4]);
        assert_eq!(found.last(), Some(&usize::MAX));
    }

    #[test]
    fn what_stands_and_the_place_after_are_both_compared() {
        let moved = Side {
            read: |recording, at| Standing {
                after: at + 1,
                ..(PEER.read)(recording, at)
            },
            ..PEER
        };
        let cut = Side {
            read: |recording, at| match (PEER.read)(recording, at) {
                Standing { after, .. } if after == at => Standing {
                    here: Ok(Here::Refused(12)),
                    after,
                },
                standing => standing,
            },
            ..PEER
        };
        let recording = [7, 8];
        let same_at = |side: &Side| [0, 1, 2].map(|at| same(&recording, at, side, &PEER));
        assert_eq!(same_at(&PEER), [true, true, true]);
        assert_eq!(same_at(&PROVED), [true, true, true]);
        assert_eq!(same_at(&moved), [true, false, false]);
        assert_eq!(same_at(&cut), [true, false, false]);
    }
}

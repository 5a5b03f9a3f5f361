//! Small recordings, cut at every place.

use peer::Event;

use crate::cuts::{pieces, Cut, End, NEAR};
use crate::draw;
use crate::fields::{address_of, SR0, WORDS};
use crate::random::Random;
use crate::recordings::{fixed, record, whole_case, REFERENCE, SR0_READ};

/// A recording of at most so many bytes is cut at every pair of places too.
const PAIRS: usize = 30;

/// Cuts of one recording from the same store and into the same rooms.
struct Cuts<'a> {
    near_limit: bool,
    store: &'a [u16],
    cuts: &'a [Vec<Vec<u8>>],
    rooms: &'a [usize],
}

/// Compares every small recording in every cut; how many there are, or the first that differs.
pub fn check(random: &mut Random) -> Result<u64, Cut> {
    let mut count = 0;
    for recording in recordings() {
        let cuts = cuts(&recording);
        let rooms = rooms(random);
        for store in [vec![0; WORDS], draw::store(random), vec![0o177777; 99]] {
            for rooms in &rooms {
                let all = Cuts {
                    near_limit: false,
                    store: &store,
                    cuts: &cuts,
                    rooms,
                };
                count += all.check()?;
            }
        }
    }
    Ok(count)
}

/// Compares recordings that have the limit at each of their places, in every cut.
pub fn check_near_limit() -> Result<u64, Cut> {
    let mut count = 0;
    let stopped = [&SR0_READ[..], &[8], &REFERENCE, &[7]].concat();
    for recording in [kinds(), whole_case(), stopped] {
        for inside in 0..=recording.len() {
            let mut cuts = cuts(&recording);
            for pieces in &mut cuts {
                pieces[0].splice(..0, vec![7; NEAR - inside]);
            }
            for rooms in [&[0][..], &[14], &[4_096], &[2, 9, 30]] {
                let all = Cuts {
                    near_limit: true,
                    store: &[0; WORDS],
                    cuts: &cuts,
                    rooms,
                };
                count += all.check()?;
            }
        }
    }
    Ok(count)
}

impl Cuts<'_> {
    /// Each cut, its end said in both ways.
    fn check(&self) -> Result<u64, Cut> {
        for pieces in self.cuts {
            for end in [End::With, End::After] {
                let cut = Cut {
                    near_limit: self.near_limit,
                    store: self.store.to_vec(),
                    pieces: pieces.clone(),
                    rooms: self.rooms.to_vec(),
                    end,
                };
                if cut.same().is_err() {
                    return Err(cut);
                }
            }
        }
        Ok(2 * self.cuts.len() as u64)
    }
}

/// The pieces of every cut: uncut, at each place, at each pair of places, into single bytes,
/// and into single bytes with empty pieces between them.
fn cuts(recording: &[u8]) -> Vec<Vec<Vec<u8>>> {
    let length = recording.len();
    let mut places = vec![Vec::new()];
    for first in 0..=length {
        places.push(vec![first]);
        if length <= PAIRS {
            places.extend((first..=length).map(|second| vec![first, second]));
        }
    }
    places.push((1..length).collect());
    places.push((0..=length).flat_map(|place| [place, place]).collect());
    places
        .iter()
        .map(|places| pieces(recording, places))
        .collect()
}

/// Rooms too short for any line at first, of the longest line, of a buffer, and drawn ones.
fn rooms(random: &mut Random) -> Vec<Vec<usize>> {
    let mut rooms = vec![vec![0], vec![14], vec![4_096]];
    for most in [14, 20, 60] {
        let count = 1 + random.below(4);
        rooms.push((0..count).map(|_| random.below(most) as usize).collect());
    }
    rooms
}

/// The short ones of those that every run begins with, every kind, every refusal, and the
/// examples.
pub fn recordings() -> Vec<Vec<u8>> {
    let mut all = fixed();
    all.retain(|recording| recording.len() <= PAIRS);
    all.push(kinds());
    all.extend(refusals().map(|record| [&record[..], &SR0_READ, &[7]].concat()));
    for kind in [0, 8, 9, 0x80, 0xff] {
        all.push([&SR0_READ[..], &[kind], &REFERENCE].concat());
    }
    all.extend(EXAMPLES.map(<[u8]>::to_vec));
    all
}

/// A record of every kind.
fn kinds() -> Vec<u8> {
    let address = address_of(SR0);
    let (register, amount) = (6, -2);
    let events = [
        Event::Write { address, value: 1 },
        Event::Instruction { va: 0o001000 },
        Event::Change { register, amount },
        Event::Read {
            address: address + 2,
        },
        Event::Interrupt { vector: 0o250 },
    ];
    let mut bytes = events.map(record).concat();
    bytes.extend(REFERENCE);
    bytes.push(7);
    bytes
}

/// A recording for each refusal from 2 to 10, and for both reasons of 9.
fn refusals() -> [Vec<u8>; 10] {
    [
        vec![1, 4, 0, 0, 0, 0, 0],
        vec![1, 0, 2, 0, 0, 0, 0],
        vec![1, 0, 0, 2, 0, 0, 0],
        vec![1, 0, 0, 0, 2, 0, 0],
        vec![2, 0, 0, 4],
        vec![3, 0x7b, 0xff, 0x03, 1, 0],
        vec![2, 0x78, 0xff, 0x03],
        vec![6, 8, 1],
        vec![6, 0, 0],
        vec![6, 6, 0xfe, 6, 1, 2, 6, 1, 2],
    ]
}

const EXAMPLES: [&[u8]; 9] = [
    include_bytes!("../../../examples/damaged.rec"),
    include_bytes!("../../../examples/freeze.rec"),
    include_bytes!("../../../examples/length-abort.rec"),
    include_bytes!("../../../examples/mill.rec"),
    include_bytes!("../../../examples/page-served.rec"),
    include_bytes!("../../../examples/register-write.rec"),
    include_bytes!("../../../examples/shared-block.rec"),
    include_bytes!("../../../examples/trap.rec"),
    include_bytes!("../../../examples/whole-case.rec"),
];

#[cfg(test)]
mod tests {
    use super::*;

    #[test]
    fn each_refusal_is_met() {
        let numbers = [2, 3, 4, 5, 6, 7, 8, 9, 9, 10];
        for (recording, number) in refusals().iter().zip(numbers) {
            let text = peer::replay(&mut [0; WORDS], recording);
            let line = format!("X {number:02}\n");
            assert!(text.ends_with(line.as_bytes()), "{number}");
        }
    }

    #[test]
    fn each_kind_is_met_and_answered() {
        let text = peer::replay(&mut [0; WORDS], &kinds());
        let lines = "D\nD\nD\nR 000366\nD\nA 110\nD\n";
        assert_eq!(String::from_utf8_lossy(&text), lines);
    }

    #[test]
    fn a_recording_is_cut_at_every_place_and_pair() {
        let cuts = cuts(&[7, 8]);
        let three = |a: &[u8], b: &[u8], c: &[u8]| vec![a.to_vec(), b.to_vec(), c.to_vec()];
        assert_eq!(cuts.len(), 1 + 3 + 6 + 2);
        assert!(cuts.contains(&vec![vec![7], vec![8]]));
        assert!(cuts.contains(&three(&[7], &[], &[8])));
        assert!(cuts.contains(&three(&[], &[7, 8], &[])));
        assert!(cuts.iter().all(|pieces| pieces.concat() == [7, 8]));
    }
}

//! A recording replayed by both sides: the text, the store afterwards, and what is around the output.

use peer::RECORDING_LIMIT;

use crate::fields::{name_of, WORDS};
use crate::print::{hex, print_runs};
use crate::proved::{self, room_for};
use crate::recordings::{beginning, each, split};
use crate::shrink::{shrink_end, shrink_list, LONG};

/// What fills an output before the call, and stands around it.
const FILL: u8 = 0xa5;
const GUARD: usize = 16;

/// One replay: a recording from a place on, from a store, into an output of so many bytes.
#[derive(Clone)]
pub struct Replay {
    pub store: Vec<u16>,
    pub recording: Vec<u8>,
    pub at: usize,
    pub room: usize,
}

/// The text of a replay, and the store afterwards.
type Outcome = (Vec<u8>, Vec<u16>);

impl Replay {
    /// The whole recording at once, from all registers 0.
    pub fn whole(recording: Vec<u8>) -> Replay {
        Replay {
            store: vec![0; WORDS],
            at: 0,
            room: room_for(recording.len()),
            recording,
        }
    }

    /// The text, if both sides give the same.
    pub fn same(&self) -> Option<Vec<u8>> {
        let (text, store) = self.peer();
        (self.proved() == Some((text.clone(), store))).then_some(text)
    }

    /// None where a byte is changed beyond the text.
    fn proved(&self) -> Option<Outcome> {
        let mut bytes = vec![FILL; GUARD + self.room + GUARD];
        let mut store = self.store.clone();
        let out = &mut bytes[GUARD..GUARD + self.room];
        let written = proved::replay(&mut store, &self.recording, self.at, out);
        let (before, rest) = bytes.split_at(GUARD);
        let (text, after) = rest.split_at(written.min(self.room));
        let kept = before.iter().chain(after).all(|&byte| byte == FILL);
        (kept && written <= self.room).then(|| (text.to_vec(), store))
    }

    /// The other side replays what is left from the place on; where its text is longer
    /// than the output, only the records whose lines fit.
    fn peer(&self) -> Outcome {
        let mut store = self.store.clone();
        let left = self.recording.get(self.at..).unwrap_or(&[]);
        let mut text = peer_after(&mut store, self.at, left);
        if text.len() > self.room {
            let fitting = text[..self.room].iter().filter(|&&byte| byte == b'\n');
            let records = beginning(left, fitting.count());
            store = self.store.clone();
            text = match records {
                [] => Vec::new(),
                _ => peer::replay(&mut store, records),
            };
        }
        (text, store)
    }

    /// The smallest replay found that still differs: fewer records, then fewer bytes,
    /// then words of the store set to 0.
    pub fn shrink(&self) -> Replay {
        let mut small = self.clone();
        let differs = |small: &Replay, recording: Vec<u8>| {
            let replay = Replay {
                recording,
                ..small.clone()
            };
            replay.same().is_none()
        };
        if small.recording.len() > LONG {
            let mut bytes = small.recording.clone();
            shrink_end(&mut bytes, |some| differs(&small, some.to_vec()));
            small.recording = bytes;
        }
        if small.recording.len() > LONG {
            return small;
        }
        let mut records = split(&small.recording);
        shrink_list(&mut records, |some| differs(&small, some.concat()));
        small.recording = records.concat();
        let mut bytes = small.recording.clone();
        shrink_list(&mut bytes, |some| differs(&small, some.to_vec()));
        small.recording = bytes;
        for place in 0..small.store.len() {
            let mut cleared = small.clone();
            cleared.store[place] = 0;
            if cleared.same().is_none() {
                small = cleared;
            }
        }
        small
    }

    /// Prints the replay and what both sides make of it.
    pub fn print(&self) {
        let Replay { at, room, .. } = self;
        println!(
            "  {} bytes from place {at} into {room}:",
            self.recording.len()
        );
        for (place, word) in self.store.iter().enumerate() {
            if *word != 0 {
                println!("  {} {word:06o}", name_of(place));
            }
        }
        print_runs(each(&self.recording).map(hex));
        let (text, store) = self.peer();
        match self.proved() {
            None => println!("proved writes beyond its text"),
            Some((written, left)) => {
                print_runs_of("proved", &written);
                for place in 0..store.len() {
                    if left[place] != store[place] {
                        let name = name_of(place);
                        println!("  {name} {:06o}, peer {:06o}", left[place], store[place]);
                    }
                }
            }
        }
        print_runs_of("peer", &text);
    }
}

/// The peer's text for what is left of a recording after so many bytes, which count towards
/// the limit: where some beyond it are left, refusal 13 is the last line, unless an unknown
/// kind or the store stopped the run before.
pub fn peer_after(store: &mut [u16], before: usize, left: &[u8]) -> Vec<u8> {
    if before == 0 {
        return peer::replay(store, left);
    }
    let inside = left.len().min(RECORDING_LIMIT.saturating_sub(before));
    let mut text = peer::replay(store, &left[..inside]);
    let stopped = text.ends_with(b"X 11\n") || text.ends_with(b"X 01\n");
    if left.len() > inside && !stopped {
        if text.ends_with(b"X 12\n") {
            text.truncate(text.len() - 5);
        }
        text.extend(b"X 13\n");
    }
    text
}

fn print_runs_of(name: &str, text: &[u8]) {
    println!("{name} writes");
    print_runs(String::from_utf8_lossy(text).lines().map(str::to_string));
}

#[cfg(test)]
mod tests {
    use super::*;
    use crate::recordings::{REFERENCE, SR0_READ};

    /// The text of what is left so many bytes before the limit.
    #[track_caller]
    fn gives(before: usize, left: &[u8], text: &str) {
        let before = RECORDING_LIMIT - before;
        let found = peer_after(&mut [0; WORDS], before, left);
        assert_eq!(String::from_utf8_lossy(&found), text);
    }

    #[test]
    fn the_bytes_before_a_place_count_towards_the_limit() {
        gives(4, &SR0_READ, "R 000000\n");
        gives(3, &SR0_READ, "X 13\n");
        gives(5, &[7, 2, 0x7a, 0xff, 0x03, 7], "D\nR 000000\nX 13\n");
        gives(6, &REFERENCE, "X 13\n");
        gives(6, &REFERENCE[..6], "X 12\n");
        gives(2, &[7, 8, 7], "D\nX 11\n");
        gives(1, &[7, 8], "D\nX 13\n");
        gives(0, &[8], "X 13\n");
        gives(0, &[], "");
    }

    #[test]
    fn no_store_gives_refusal_13_before_1() {
        let text = peer_after(&mut [0; 99], RECORDING_LIMIT, &[7]);
        assert_eq!(text, b"X 01\n");
    }

    #[test]
    fn a_replay_from_the_first_place_is_the_whole_one() {
        let recording = [SR0_READ.to_vec(), vec![7]].concat();
        let text = peer_after(&mut [0; WORDS], 0, &recording);
        assert_eq!(text, b"R 000000\nD\n");
        assert_eq!(Replay::whole(recording).same(), Some(text));
    }
}

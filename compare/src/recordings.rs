//! Drawn recordings, whole and damaged.

use peer::Event;

use crate::draw;
use crate::fields::{address_of, WORDS};
use crate::random::Random;

/// The bytes of a long one among the drawn recordings, and of a raced one.
pub const USUAL: usize = 32_768;

/// The bytes of a record; numbers are cut to what its body holds.
pub fn record(event: Event) -> Vec<u8> {
    match event {
        Event::Reference {
            mode,
            space,
            access,
            phase,
            va,
        } => {
            let [low, high] = va.to_le_bytes();
            let small = [mode, space, access, phase].map(|number| number as u8);
            [&[1], &small[..], &[low, high]].concat()
        }
        Event::Read { address } => [&[2], &address.to_le_bytes()[..3]].concat(),
        Event::Write { address, value } => {
            [&[3], &address.to_le_bytes()[..3], &value.to_le_bytes()].concat()
        }
        Event::Instruction { va } => [&[4], &va.to_le_bytes()[..]].concat(),
        Event::Interrupt { vector } => [&[5], &vector.to_le_bytes()[..]].concat(),
        Event::Change { register, amount } => vec![6, register as u8, amount as u8],
        Event::Init => vec![7],
    }
}

/// The recordings that every run begins with: 01's whole case, long ones of one
/// kind, every first byte alone, every kind cut at every place.
pub fn fixed() -> Vec<Vec<u8>> {
    let mut all = vec![
        whole_case(),
        Vec::new(),
        SR0_READ.repeat(USUAL / 4),
        REFERENCE.repeat(USUAL / 7),
        vec![7; USUAL],
    ];
    all.extend((0..=255).map(|kind| vec![kind]));
    for (kind, body) in [(1, 6), (2, 3), (3, 5), (4, 2), (5, 2), (6, 2)] {
        for length in 0..=body {
            let mut cut = vec![7, kind];
            cut.resize(2 + length, 0xff);
            all.push(cut);
        }
    }
    all
}

/// A read of SR0.
pub const SR0_READ: [u8; 4] = [2, 0x7a, 0xff, 0x03];

/// A reference: Kernel, instruction stream, read, VA 167456.
pub const REFERENCE: [u8; 7] = [1, 0, 0, 0, 0, 0x2e, 0xef];

/// 01's "Whole case".
pub fn whole_case() -> Vec<u8> {
    vec![
        0x03, 0xee, 0xf4, 0x03, 0x2e, 0x07, 0x03, 0xce, 0xf4, 0x03, 0x06, 0x7f, 0x03, 0x7a, 0xff,
        0x03, 0x01, 0x00, 0x01, 0x00, 0x00, 0x00, 0x00, 0x2e, 0xef, 0x02, 0xce, 0xf4, 0x03,
    ]
}

/// The text that 01 gives for it, with the page of request E1.
pub const WHOLE_CASE_TEXT: &str = "D\nD\nD\nG 355256 - 07\nR 077406\n";

/// A recording: mostly some hundreds of records, whole or damaged.
pub fn recording(random: &mut Random) -> Vec<u8> {
    let length = match random.below(20) {
        0 => random.pick(&[0, 1, USUAL - 1, USUAL, USUAL + 1, 40_000]),
        1 => USUAL - random.below(12) as usize,
        2..=5 => random.below(20) as usize,
        _ => random.below(3_000) as usize,
    };
    let mut bytes = match random.below(12) {
        0 => (0..length).map(|_| random.word() as u8).collect(),
        1 => (0..length).map(|_| random.below(9) as u8).collect(),
        _ => {
            let cut = random.percent(50);
            records(random, length, cut)
        }
    };
    if random.percent(30) && !bytes.is_empty() {
        damage(random, &mut bytes);
    }
    bytes
}

/// Records of drawn events up to a length: the last one is cut there, or INITs
/// stand in its place.
pub fn records(random: &mut Random, length: usize, cut: bool) -> Vec<u8> {
    let mut store = [0; 100];
    let mut bytes = Vec::new();
    let mut opening = if random.percent(60) {
        opening(random)
    } else {
        Vec::new()
    };
    while bytes.len() < length {
        if random.percent(1) {
            bytes.resize(bytes.len() + random.below(200) as usize, 7);
            peer::init(&mut store);
        }
        let event = opening.pop().unwrap_or_else(|| draw::event(random, &store));
        peer::apply(&mut store, event);
        let record = record(event);
        if !cut && bytes.len() + record.len() > length {
            bytes.resize(length.max(bytes.len()), 7);
        } else {
            bytes.extend(record);
        }
    }
    bytes.truncate(length);
    bytes
}

/// Writes that fill the registers.
fn opening(random: &mut Random) -> Vec<Event> {
    let words = draw::store(random);
    let places = words.into_iter().enumerate().take(WORDS);
    places
        .map(|(place, value)| Event::Write {
            address: address_of(place),
            value,
        })
        .collect()
}

/// One damage to bytes that are not empty.
pub fn damage(random: &mut Random, bytes: &mut Vec<u8>) {
    let at = random.below(bytes.len() as u32) as usize;
    match random.below(5) {
        0 => bytes.truncate(at),
        1 => bytes[at] = random.word() as u8,
        2 => bytes[at] = random.pick(&[0, 8, 9, 0x80, 0xff]),
        3 => bytes.insert(at, random.word() as u8),
        _ => {
            bytes.remove(at);
        }
    }
}

/// The records of a recording; what is left from the first bad one stays whole.
pub fn each(mut bytes: &[u8]) -> impl Iterator<Item = &[u8]> {
    std::iter::from_fn(move || {
        let length = match bytes.first()? {
            1 => 7,
            2 => 4,
            3 => 6,
            4..=6 => 3,
            7 => 1,
            _ => bytes.len(),
        };
        let (record, rest) = bytes.split_at(length.min(bytes.len()));
        bytes = rest;
        Some(record)
    })
}

/// The records of a recording, each with bytes of its own.
pub fn split(bytes: &[u8]) -> Vec<Vec<u8>> {
    each(bytes).map(<[u8]>::to_vec).collect()
}

/// So many records from the start of a recording.
pub fn beginning(bytes: &[u8], records: usize) -> &[u8] {
    let length = each(bytes).take(records).map(<[u8]>::len).sum();
    &bytes[..length]
}

#[cfg(test)]
mod tests {
    use super::*;

    #[test]
    fn a_recording_is_split_at_its_records() {
        let case = whole_case();
        let lengths: Vec<usize> = each(&case).map(<[u8]>::len).collect();
        assert_eq!(lengths, [6, 6, 6, 7, 4]);
        assert_eq!(split(&case).concat(), case);
        assert_eq!(split(&[7, 6, 1]), [vec![7], vec![6, 1]]);
        assert_eq!(split(&[7, 0, 7, 7]), [vec![7], vec![0, 7, 7]]);
    }

    #[test]
    fn a_beginning_has_so_many_records() {
        let case = whole_case();
        assert_eq!(beginning(&case, 0), []);
        assert_eq!(beginning(&case, 2), &case[..12]);
        assert_eq!(beginning(&case, 5), case);
        assert_eq!(beginning(&case, 6), case);
    }

    #[test]
    fn drawn_records_that_are_not_cut_are_whole() {
        let mut random = Random::new(1);
        for length in 0..500 {
            let bytes = records(&mut random, length, false);
            let text = peer::replay(&mut [0; WORDS], &bytes);
            assert_eq!(bytes.len(), length);
            assert!(!text.ends_with(b"X 11\n") && !text.ends_with(b"X 12\n"));
        }
    }
}

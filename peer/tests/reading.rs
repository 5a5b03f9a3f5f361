//! Request E2's reader: what stands at each place of a recording.

use peer::{read_record, Event, Found};

/// A recording with one record of each kind, and the place after each.
const RECORDING: [u8; 27] = [
    1, 3, 1, 0, 1, 0x2E, 0xEF, // to 7
    2, 0xCE, 0xF4, 0x03, // to 11
    3, 0xEE, 0xF4, 0x03, 0x2E, 0x07, // to 17
    4, 0x9C, 0x02, // to 20
    5, 0xA8, 0x00, // to 23
    6, 6, 0xFE, // to 26
    7,
];

#[test]
fn each_kind_gives_its_event_and_the_place_after_it() {
    let reference = Event::Reference {
        mode: 3,
        space: 1,
        access: 0,
        phase: 1,
        va: 0o167456,
    };
    let read = Event::Read { address: 0o772316 };
    let (address, value) = (0o772356, 0o003456);
    let write = Event::Write { address, value };
    let instruction = Event::Instruction { va: 0o001234 };
    let interrupt = Event::Interrupt { vector: 0o250 };
    let (register, amount) = (6, -2);
    let change = Event::Change { register, amount };
    for (at, event, after) in [
        (0, reference, 7),
        (7, read, 11),
        (11, write, 17),
        (17, instruction, 20),
        (20, interrupt, 23),
        (23, change, 26),
        (26, Event::Init, 27),
    ] {
        assert_eq!(read_record(&RECORDING, at), Found::Event(event, after));
    }
}

#[test]
fn the_end_is_at_the_recordings_length_and_beyond_it() {
    for at in [27, 28, 1000, usize::MAX] {
        assert_eq!(read_record(&RECORDING, at), Found::End);
    }
    for at in [0, 1, usize::MAX] {
        assert_eq!(read_record(&[], at), Found::End);
    }
}

#[test]
fn an_unknown_kind_is_refusal_11_even_as_the_last_byte() {
    for kind in (0..=255).filter(|kind| !(1..=7).contains(kind)) {
        let recording = [7, kind, 7, 7, 7, 7, 7, 7, 7];
        assert_eq!(read_record(&recording, 1), Found::Refused(11));
        assert_eq!(read_record(&recording[..2], 1), Found::Refused(11));
    }
}

#[test]
fn a_record_cut_short_is_refusal_12() {
    for (kind, body) in [(1, 6), (2, 3), (3, 5), (4, 2), (5, 2), (6, 2)] {
        for length in 0..body {
            let mut recording = vec![7, kind];
            // Bytes the unit would refuse: 12 comes before an event's own.
            recording.resize(2 + length, 255);
            assert_eq!(read_record(&recording, 1), Found::Refused(12));
        }
    }
}

#[test]
fn numbers_the_unit_would_refuse_are_read() {
    let all_ones = [255; 6];
    let kind = |kind| [&[kind][..], &all_ones].concat();
    let reference = Event::Reference {
        mode: 255,
        space: 255,
        access: 255,
        phase: 255,
        va: 0o177777,
    };
    assert_eq!(read_record(&kind(1), 0), Found::Event(reference, 7));
    let address = 0o77777777;
    let read = Event::Read { address };
    assert_eq!(read_record(&kind(2), 0), Found::Event(read, 4));
    let value = 0o177777;
    let write = Event::Write { address, value };
    assert_eq!(read_record(&kind(3), 0), Found::Event(write, 6));
    let (register, amount) = (255, -1);
    let change = Event::Change { register, amount };
    assert_eq!(read_record(&kind(6), 0), Found::Event(change, 3));
}

#[test]
fn an_amount_is_a_twos_complement_byte() {
    for (byte, amount) in [(0, 0), (1, 1), (0x7F, 127), (0x80, -128), (0xFF, -1)] {
        let register = 5;
        let event = Event::Change { register, amount };
        assert_eq!(read_record(&[6, 5, byte], 0), Found::Event(event, 3));
    }
}

#[test]
fn a_recording_too_long_to_be_replayed_is_read() {
    let recording = vec![7; 16_800_000];
    for at in [0, 16_777_215, 16_777_216, 16_799_999] {
        let found = read_record(&recording, at);
        assert_eq!(found, Found::Event(Event::Init, at + 1));
    }
    assert_eq!(read_record(&recording, 16_800_000), Found::End);
}

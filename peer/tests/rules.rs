//! The rules of 01 away from its readings: freezing, sets, kept bits, refusals.

use peer::{
    apply, init, instruction_start, interrupt_start, note_change, read_register, reference, replay,
    write_register, Answer, Event,
};

const PDR: usize = 48;
const SR0: usize = 96;
const SR1: usize = 97;
const SR2: usize = 98;
const SR3: usize = 99;

/// A resident page of all blocks, read and written freely.
const FREE: u16 = 0o077406;

/// A grant that the page at this place served.
fn granted(byte: u32, page: u8, trap: bool) -> Answer {
    let page = Some(page);
    Answer::Granted { byte, page, trap }
}

/// Relocation on, each page free, its PAR (octal) ten times the page number.
fn mapped() -> [u16; 100] {
    let mut store = [0; 100];
    for page in 0..48 {
        store[page] = 8 * page as u16;
        store[PDR + page] = FREE;
    }
    store[SR0] = 0o000001;
    store
}

#[test]
fn each_mode_and_space_uses_its_own_set() {
    // Mode, SR3 bit of its D space, first page of its I set.
    for (mode, enable, first) in [(0, 0o4, 0), (1, 0o2, 16), (3, 0o1, 32)] {
        for sr3 in 0..0o20 {
            for space in 0..=1 {
                let mut store = mapped();
                store[SR3] = sr3;
                let d = space == 1 && sr3 & enable != 0;
                let page = first + if d { 8 } else { 0 } + 3;
                let answer = reference(&mut store, mode, space, 1, 0, 0o060021);
                let byte = 0o1000 * u32::from(page) + 0o21;
                assert_eq!(answer, granted(byte, page, false));
                let mut expected = mapped();
                expected[SR3] = sr3;
                expected[PDR + usize::from(page)] |= 0o100;
                assert_eq!(store, expected);
            }
        }
    }
}

#[test]
fn a_frozen_sr0_takes_flags_but_no_cause() {
    for frozen in [0o100000, 0o040000, 0o020000] {
        let mut store = mapped();
        store[SR0] = frozen | 0o007253;
        store[PDR] = 0o077404;
        assert_eq!(reference(&mut store, 0, 0, 0, 1, 0), granted(0, 0, true));
        assert_eq!(store[SR0], frozen | 0o017253);
        store[PDR] = 0o000000;
        reference(&mut store, 3, 0, 0, 0, 0o160000);
        reference(&mut store, 0, 0, 0, 0, 0o000100);
        assert_eq!(store[SR0], frozen | 0o157253);
    }
}

#[test]
fn frozen_status_words_stay() {
    let mut store = mapped();
    store[SR0] = 0o020001;
    store[SR1] = 0o177777;
    store[SR2] = 0o1111;
    let before = store;
    assert_eq!(instruction_start(&mut store, 5), Answer::Done);
    assert_eq!(interrupt_start(&mut store, 0o250), Answer::Done);
    assert_eq!(note_change(&mut store, 7, 2), Answer::Done);
    assert_eq!(note_change(&mut store, 8, 2), Answer::Refused(9));
    assert_eq!(store, before);
}

#[test]
fn references_keep_unnamed_bits_of_sr0_and_pdr() {
    let mut store = mapped();
    store[SR0] = 0o007777;
    store[PDR] = 0o177464;
    assert_eq!(reference(&mut store, 0, 0, 1, 0, 0), granted(0, 0, true));
    assert_eq!(store[SR0], 0o017401);
    assert_eq!(store[PDR], 0o177764);
    assert_eq!(read_register(&store, 0o777572), Answer::Word(0o011401));
    assert_eq!(read_register(&store, 0o772300), Answer::Word(0o077704));
}

#[test]
fn register_writes_of_status_words() {
    let mut store = [0o177777; 100];
    write_register(&mut store, 0o777572, 0);
    assert_eq!(store[SR0], 0o000376);
    write_register(&mut store, 0o777574, 0);
    write_register(&mut store, 0o777576, 0);
    assert_eq!(store[SR1..=SR2], [0o177777; 2]);
    write_register(&mut store, 0o772516, 0o177765);
    assert_eq!(store[SR3], 0o000005);
    assert_eq!(init(&mut store), Answer::Done);
    assert_eq!(store[SR0..], [0; 4]);
    assert_eq!(store[..SR0], [0o177777; 96]);
}

#[test]
fn starts_set_sr2_and_clear_sr1() {
    let mut store = mapped();
    store[SR1] = 0o177777;
    assert_eq!(instruction_start(&mut store, 0o177776), Answer::Done);
    assert_eq!(store[SR1..=SR2], [0, 0o177776]);
    store[SR1] = 0o000001;
    assert_eq!(interrupt_start(&mut store, 0o250), Answer::Done);
    assert_eq!(store[SR1..=SR2], [0, 0o250]);
}

#[test]
fn a_change_fills_an_empty_low_byte_first() {
    let mut store = [0; 100];
    store[SR1] = 0o010400;
    assert_eq!(note_change(&mut store, 7, -16), Answer::Done);
    assert_eq!(store[SR1], 0o010607);
    let before = store;
    assert_eq!(note_change(&mut store, 7, 1), Answer::Refused(10));
    for (register, amount) in [(8, 1), (0, 0), (0, 16), (0, -17), (u32::MAX, 1)] {
        let answer = note_change(&mut store, register, amount);
        assert_eq!(answer, Answer::Refused(9));
    }
    for amount in [i32::MIN, i32::MAX, 0x10001] {
        assert_eq!(note_change(&mut store, 0, amount), Answer::Refused(9));
    }
    assert_eq!(store, before);
}

#[test]
fn the_lowest_refusal_of_a_reference_is_given() {
    let mut store = mapped();
    let before = store;
    let mut refused = |mode, space, access, phase, number| {
        let answer = reference(&mut store, mode, space, access, phase, 0);
        assert_eq!(answer, Answer::Refused(number));
    };
    refused(4, 2, 2, 2, 2);
    refused(2, 2, 2, 2, 3);
    refused(2, 1, 2, 2, 4);
    refused(2, 1, 1, 2, 5);
    refused(u32::MAX, 0, 0, 0, 2);
    assert_eq!(store, before);
    // Also with relocation off.
    store[SR0] = 0;
    assert_eq!(reference(&mut store, 0, 0, 0, 2, 0), Answer::Refused(5));
}

#[test]
fn the_lowest_refusal_of_a_register_address_is_given() {
    let mut store = mapped();
    let before = store;
    for (address, number) in [
        (0o1000000, 6),
        (0o1772341, 6),
        (u32::MAX, 6),
        (0o777777, 7),
        (0o772341, 7),
        (0o777776, 8),
        (0o777570, 8),
        (0o777700, 8),
        (0o772400, 8),
        (0o772176, 8),
        (0o772520, 8),
        (0, 8),
    ] {
        let refused = Answer::Refused(number);
        assert_eq!(read_register(&store, address), refused, "{address:o}");
        assert_eq!(write_register(&mut store, address, 1), refused);
    }
    assert_eq!(store, before);
}

#[test]
fn a_store_of_another_length_is_refused_first() {
    let refused = Answer::Refused(1);
    let too_long = vec![7; 16_777_217];
    for length in [0, 99, 101] {
        let mut words = vec![0o177777; length];
        let store = &mut words[..];
        assert_eq!(reference(store, 4, 2, 2, 2, 0), refused);
        assert_eq!(read_register(store, u32::MAX), refused);
        assert_eq!(write_register(store, u32::MAX, 0), refused);
        assert_eq!(instruction_start(store, 0), refused);
        assert_eq!(interrupt_start(store, 0), refused);
        assert_eq!(note_change(store, 8, 0), refused);
        assert_eq!(init(store), refused);
        assert_eq!(apply(store, Event::Init), refused);
        assert_eq!(replay(store, &[]), b"X 01\n");
        assert_eq!(replay(store, &too_long), b"X 01\n");
        assert_eq!(words, vec![0o177777; length]);
    }
}

//! Request E1: a grant says which of the 48 pages served, and so does its line.

use peer::{reference, replay, Answer};

const PDR: usize = 48;
const SR0: usize = 96;
const SR3: usize = 99;

const KERNEL: u32 = 0;
const SUPERVISOR: u32 = 1;
const USER: u32 = 3;

const INSTRUCTION: u32 = 0;
const DATA: u32 = 1;

/// D space enabled for User, Supervisor and Kernel.
const ALL_D: u16 = 0o000007;

/// A resident page of all blocks, read and written freely.
const FREE: u16 = 0o077406;

/// The first address of each page number, VA 15:13.
const PAGE_STARTS: [u16; 8] = [
    0o000000, 0o020000, 0o040000, 0o060000, 0o100000, 0o120000, 0o140000, 0o160000,
];

/// A grant without a trap.
fn granted(byte: u32, page: Option<u8>) -> Answer {
    Answer::Granted {
        byte,
        page,
        trap: false,
    }
}

/// Relocation on, and every page non-resident but the free one at this place.
fn only_page(place: u8, sr3: u16) -> [u16; 100] {
    let mut store = [0; 100];
    store[PDR + usize::from(place)] = FREE;
    store[SR0] = 0o000001;
    store[SR3] = sr3;
    store
}

/// A read in phase 0.
fn read(store: &mut [u16], mode: u32, space: u32, va: u16) -> Answer {
    reference(store, mode, space, 0, 0, va)
}

/// Replays the records from a store of zeros.
#[track_caller]
fn text(records: &[&[u8]], expected: &str) {
    let text = replay(&mut [0; 100], &records.concat());
    assert_eq!(String::from_utf8(text).unwrap(), expected);
}

#[test]
fn each_set_gives_its_eight_places() {
    for (mode, space, places) in [
        (KERNEL, INSTRUCTION, [0, 1, 2, 3, 4, 5, 6, 7]),
        (KERNEL, DATA, [8, 9, 10, 11, 12, 13, 14, 15]),
        (SUPERVISOR, INSTRUCTION, [16, 17, 18, 19, 20, 21, 22, 23]),
        (SUPERVISOR, DATA, [24, 25, 26, 27, 28, 29, 30, 31]),
        (USER, INSTRUCTION, [32, 33, 34, 35, 36, 37, 38, 39]),
        (USER, DATA, [40, 41, 42, 43, 44, 45, 46, 47]),
    ] {
        for (start, place) in PAGE_STARTS.into_iter().zip(places) {
            let mut store = only_page(place, ALL_D);
            let first = read(&mut store, mode, space, start);
            assert_eq!(first, granted(0, Some(place)));
            let last = read(&mut store, mode, space, start + 0o17777);
            assert_eq!(last, granted(0o17777, Some(place)));
        }
    }
}

#[test]
fn data_without_d_gives_the_i_sets_place() {
    // SR3 has every bit but the mode's own enable, unimplemented ones included.
    for (mode, sr3, first_place, last_place) in [
        (KERNEL, 0o177773, 0, 7),
        (SUPERVISOR, 0o177775, 16, 23),
        (USER, 0o177776, 32, 39),
    ] {
        let mut store = only_page(first_place, sr3);
        let answer = read(&mut store, mode, DATA, 0o000021);
        assert_eq!(answer, granted(0o21, Some(first_place)));
        let mut store = only_page(last_place, sr3);
        let answer = read(&mut store, mode, DATA, 0o160021);
        assert_eq!(answer, granted(0o21, Some(last_place)));
    }
}

#[test]
fn the_place_is_the_same_for_every_access_phase_and_key() {
    // Supervisor D page 6: reads, writes, with a trap and without, also frozen.
    for (pdr, access, trap) in [
        (0o077401, 0, true),
        (0o077402, 0, false),
        (0o077404, 0, true),
        (0o077404, 1, true),
        (0o077405, 0, false),
        (0o077405, 1, true),
        (0o077406, 0, false),
        (0o077406, 1, false),
    ] {
        for sr0 in [0o001001, 0o021001] {
            for phase in 0..=1 {
                let mut store = only_page(30, ALL_D);
                store[PDR + 30] = pdr;
                store[SR0] = sr0;
                let answer = reference(&mut store, SUPERVISOR, DATA, access, phase, 0o140123);
                let (byte, page) = (0o123, Some(30));
                assert_eq!(answer, Answer::Granted { byte, page, trap });
            }
        }
    }
}

#[test]
fn the_place_is_the_virtual_pages_whatever_the_par() {
    // User I pages 1 and 2 both lead to byte 040000, the block of PAR 400.
    let mut store = only_page(33, 0);
    store[PDR + 34] = FREE;
    store[33] = 0o400;
    store[34] = 0o400;
    let by_page_1 = read(&mut store, USER, INSTRUCTION, 0o020000);
    assert_eq!(by_page_1, granted(0o040000, Some(33)));
    let by_page_2 = read(&mut store, USER, INSTRUCTION, 0o040000);
    assert_eq!(by_page_2, granted(0o040000, Some(34)));
}

#[test]
fn relocation_off_gives_no_page_in_any_mode() {
    for mode in 0..=3 {
        for space in [INSTRUCTION, DATA] {
            let mut store = [FREE; 100];
            store[SR0] = 0o001000;
            let before = store;
            for (va, byte) in [
                (0o000000, 0o000000),
                (0o157777, 0o157777),
                (0o160000, 0o760000),
                (0o177777, 0o777777),
            ] {
                assert_eq!(read(&mut store, mode, space, va), granted(byte, None));
            }
            assert_eq!(store, before);
        }
    }
}

#[test]
fn lines_with_relocation_off_end_in_two_dashes() {
    // VA 157777, then VA 160000, in each mode.
    for mode in 0..=3 {
        let low = [1, mode, 0, 0, 0, 0xFF, 0xDF];
        let high = [1, mode, 1, 1, 1, 0x00, 0xE0];
        text(&[&low, &high], "G 157777 - --\nG 760000 - --\n");
    }
}

#[test]
fn place_0_is_not_no_page() {
    let mut store = only_page(0, 0);
    let by_page_0 = read(&mut store, KERNEL, INSTRUCTION, 0);
    assert_eq!(by_page_0, granted(0, Some(0)));
    store[SR0] = 0;
    let by_no_page = read(&mut store, KERNEL, INSTRUCTION, 0);
    assert_eq!(by_no_page, granted(0, None));
    assert_ne!(by_page_0, by_no_page);

    // PDR 772300 gets 077406; VA 0 before and after SR0 gets 000001.
    let records: [&[u8]; 4] = [
        &[3, 0xC0, 0xF4, 0x03, 0x06, 0x7F],
        &[1, 0, 0, 0, 0, 0, 0],
        &[3, 0x7A, 0xFF, 0x03, 0x01, 0x00],
        &[1, 0, 0, 0, 0, 0, 0],
    ];
    text(&records, "D\nG 000000 - --\nD\nG 000000 - 00\n");
}

#[test]
fn the_line_of_place_47() {
    // PAR 777676 gets 7600, PDR 777636 077406, SR3 000001; VA 177777 as User
    // data before and after SR0 gets 000001.
    let records: [&[u8]; 6] = [
        &[3, 0xBE, 0xFF, 0x03, 0x80, 0x0F],
        &[3, 0x9E, 0xFF, 0x03, 0x06, 0x7F],
        &[3, 0x4E, 0xF5, 0x03, 0x01, 0x00],
        &[1, 3, 1, 0, 0, 0xFF, 0xFF],
        &[3, 0x7A, 0xFF, 0x03, 0x01, 0x00],
        &[1, 3, 1, 0, 0, 0xFF, 0xFF],
    ];
    text(&records, "D\nD\nD\nG 777777 - --\nD\nG 777777 - 47\n");
}

#[test]
fn the_line_of_a_trap_at_place_12() {
    // Kernel D page 4: PDR 772330 gets 077404, SR3 000004, SR0 001001; a data
    // read at VA 100007, then SR0 and the PDR are read.
    let records: [&[u8]; 6] = [
        &[3, 0xD8, 0xF4, 0x03, 0x04, 0x7F],
        &[3, 0x4E, 0xF5, 0x03, 0x04, 0x00],
        &[3, 0x7A, 0xFF, 0x03, 0x01, 0x02],
        &[1, 0, 1, 0, 0, 0x07, 0x80],
        &[2, 0x7A, 0xFF, 0x03],
        &[2, 0xD8, 0xF4, 0x03],
    ];
    text(&records, "D\nD\nD\nG 000007 T 12\nR 011031\nR 077604\n");
}

#[test]
fn an_abort_names_no_page() {
    // User I page 0 is non-resident: the line is as 01 has it.
    let records: [&[u8]; 2] = [
        &[3, 0x7A, 0xFF, 0x03, 0x01, 0x00],
        &[1, 3, 0, 0, 0, 0x40, 0x00],
    ];
    text(&records, "D\nA 110\n");
}

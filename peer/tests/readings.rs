//! 01's "Readings to check by", its whole case, and its "Slips we have seen";
//! each grant with its page as request E1 has it.

use peer::{
    init, instruction_start, note_change, read_register, reference, replay, write_register, Answer,
};

const PDR: usize = 48;
const SR0: usize = 96;
const SR1: usize = 97;
const SR2: usize = 98;
const SR3: usize = 99;

/// First page of the User I set.
const USER_I: usize = 32;

const READ: u32 = 0;
const WRITE: u32 = 1;

/// A grant that the page at this place served.
fn granted(byte: u32, page: u8, trap: bool) -> Answer {
    let page = Some(page);
    Answer::Granted { byte, page, trap }
}

/// A grant of rule 1: no page, no trap.
fn unrelocated(byte: u32) -> Answer {
    Answer::Granted {
        byte,
        page: None,
        trap: false,
    }
}

fn aborted(nonresident: bool, length: bool, readonly: bool) -> Answer {
    Answer::Aborted {
        nonresident,
        length,
        readonly,
    }
}

/// All registers 0 but SR0 and one page.
fn with_page(sr0: u16, page: usize, par: u16, pdr: u16) -> [u16; 100] {
    let mut store = [0; 100];
    store[SR0] = sr0;
    store[page] = par;
    store[PDR + page] = pdr;
    store
}

/// A Kernel reference in the instruction stream and phase 0.
fn kernel(store: &mut [u16], access: u32, va: u16) -> Answer {
    reference(store, 0, 0, access, 0, va)
}

#[test]
fn the_manuals_own_example() {
    let mut store = with_page(0o000001, 7, 0o3456, 0o077406);
    let grant = granted(0o355256, 7, false);
    assert_eq!(kernel(&mut store, READ, 0o167456), grant);
}

#[test]
fn upward_length_051_allows_42_blocks() {
    let mut store = with_page(0o000001, 0, 0, 0o051 << 8 | 0o6);
    let grant = granted(0o005177, 0, false);
    assert_eq!(kernel(&mut store, READ, 0o005177), grant);
    let past = aborted(false, true, false);
    assert_eq!(kernel(&mut store, READ, 0o005200), past);
    assert_eq!(store[SR0], 0o040001);
}

#[test]
fn downward_length_126_allows_42_blocks() {
    let mut store = with_page(0o000001, 0, 0, 0o126 << 8 | 0o16);
    let grant = granted(0o012600, 0, false);
    assert_eq!(kernel(&mut store, READ, 0o012600), grant);
    let past = aborted(false, true, false);
    assert_eq!(kernel(&mut store, READ, 0o012577), past);
    assert_eq!(store[SR0], 0o040001);
}

#[test]
fn length_0_allows_one_block_upward_and_all_downward() {
    for block in 0..0o200 {
        let va = block << 6 | 0o5;
        let grant = granted(u32::from(va), 0, false);
        let mut up = with_page(0o000001, 0, 0, 0o000006);
        let past = aborted(false, true, false);
        let expected = if block == 0 { grant } else { past };
        assert_eq!(kernel(&mut up, READ, va), expected);
        let mut down = with_page(0o000001, 0, 0, 0o000016);
        assert_eq!(kernel(&mut down, READ, va), grant);
    }
}

#[test]
fn the_carry_is_dropped() {
    let mut store = with_page(0o000001, 0, 0o7777, 0o077406);
    assert_eq!(kernel(&mut store, READ, 0o000100), granted(0, 0, false));
}

#[test]
fn relocation_off() {
    for mode in 0..=3 {
        let mut store = with_page(0o001000, 7, 0o1234, 0o077404);
        let before = store;
        let mut ask = |va| reference(&mut store, mode, 1, WRITE, 1, va);
        assert_eq!(ask(0o157777), unrelocated(0o157777));
        assert_eq!(ask(0o160000), unrelocated(0o760000));
        assert_eq!(ask(0o177777), unrelocated(0o777777));
        assert_eq!(store, before);
    }
}

#[test]
fn two_flags_together() {
    let mut absent = with_page(0o000001, 0, 0, 0o000000);
    let answer = kernel(&mut absent, WRITE, 0o000100);
    assert_eq!(answer, aborted(true, true, false));
    assert_eq!(absent[SR0] & 0o160000, 0o140000);

    let mut readonly = with_page(0o000001, 0, 0, 0o000002);
    let answer = kernel(&mut readonly, WRITE, 0o000100);
    assert_eq!(answer, aborted(false, true, true));
    assert_eq!(readonly[SR0] & 0o160000, 0o060000);
}

#[test]
fn mode_2_aborts() {
    let mut store = with_page(0o000001, USER_I + 7, 0, 0o077406);
    store[SR3] = 0o17;
    let answer = reference(&mut store, 2, 1, READ, 0, 0o160000);
    assert_eq!(answer, aborted(true, false, false));
    assert_eq!(store[SR0], 0o100117);
}

#[test]
fn a_trap_says_where_it_was() {
    let mut store = with_page(0o001001, USER_I + 3, 0, 0o077404);
    let answer = reference(&mut store, 3, 0, READ, 0, 0o060000);
    assert_eq!(answer, granted(0, 35, true));
    assert_eq!(store[SR0], 0o011147);
    assert_eq!(store[PDR + USER_I + 3], 0o077604);
}

#[test]
fn a_write_at_a_registers_address_leaves_w_clear() {
    let mut store = with_page(0o000001, 7, 0o7600, 0o077406);
    let before = store;
    let at_register = granted(0o772340, 7, false);
    assert_eq!(kernel(&mut store, WRITE, 0o172340), at_register);
    let high_byte = granted(0o772377, 7, false);
    assert_eq!(kernel(&mut store, WRITE, 0o172377), high_byte);
    assert_eq!(store, before);
    let beside = granted(0o772400, 7, false);
    assert_eq!(kernel(&mut store, WRITE, 0o172400), beside);
    assert_eq!(store[PDR + 7], 0o077506);
}

#[test]
fn a_trap_at_a_registers_address_still_traps() {
    let mut store = with_page(0o001001, 7, 0o7600, 0o077404);
    let at_register = granted(0o772340, 7, true);
    assert_eq!(kernel(&mut store, WRITE, 0o172340), at_register);
    assert_eq!(store[PDR + 7], 0o077404);
    assert_eq!(store[SR0], 0o011017);
}

#[test]
fn two_changes_fill_sr1() {
    let mut store = [0; 100];
    assert_eq!(note_change(&mut store, 6, -2), Answer::Done);
    assert_eq!(store[SR1], 0o000366);
    assert_eq!(note_change(&mut store, 1, 2), Answer::Done);
    assert_eq!(store[SR1], 0o010766);
    assert_eq!(note_change(&mut store, 0, 1), Answer::Refused(10));
    assert_eq!(store[SR1], 0o010766);
}

#[test]
fn writing_all_ones_to_sr0() {
    let mut store = [0; 100];
    let done = write_register(&mut store, 0o777572, 0o177777);
    assert_eq!(done, Answer::Done);
    assert_eq!(store[SR0], 0o171401);
}

#[test]
fn the_whole_case() {
    let recording = [
        0x03, 0xEE, 0xF4, 0x03, 0x2E, 0x07, 0x03, 0xCE, 0xF4, 0x03, 0x06, 0x7F, 0x03, 0x7A, 0xFF,
        0x03, 0x01, 0x00, 0x01, 0x00, 0x00, 0x00, 0x00, 0x2E, 0xEF, 0x02, 0xCE, 0xF4, 0x03,
    ];
    let text = replay(&mut [0; 100], &recording);
    assert_eq!(text, b"D\nD\nD\nG 355256 - 07\nR 077406\n");
}

#[test]
fn slip_a_downward_length_is_no_count_of_blocks() {
    let allowed: Vec<u16> = (0..0o200)
        .filter(|block| {
            let mut store = with_page(0o000001, 0, 0, 0o126 << 8 | 0o16);
            let grant = granted(u32::from(block << 6), 0, false);
            kernel(&mut store, READ, block << 6) == grant
        })
        .collect();
    assert_eq!(allowed, (0o126..0o200).collect::<Vec<u16>>());
    assert_eq!(allowed.len(), 42);
}

#[test]
fn slip_an_aborted_write_leaves_w_clear() {
    for pdr in [0o077402, 0o077401, 0o077400, 0o000006, 0o077416] {
        let mut store = with_page(0o001001, 0, 0, pdr);
        let answer = kernel(&mut store, WRITE, 0o000100);
        assert!(matches!(answer, Answer::Aborted { .. }));
        assert_eq!(store[PDR], pdr);
    }
}

#[test]
fn slip_bit_9_holds_back_the_trap_but_not_a() {
    let mut store = with_page(0o000001, 0, 0, 0o077405);
    let grant = granted(0o100, 0, false);
    assert_eq!(kernel(&mut store, WRITE, 0o000100), grant);
    assert_eq!(store[PDR], 0o077705);
    assert_eq!(store[SR0], 0o000001);
}

#[test]
fn slip_a_trap_does_not_freeze() {
    let mut store = with_page(0o001001, 0, 0, 0o077404);
    store[PDR + 5] = 0o077401;
    assert_eq!(kernel(&mut store, READ, 0o000000), granted(0, 0, true));
    assert_eq!(store[SR0], 0o011001);
    // SR1 and SR2 still follow, and a second trap loads 7:1 anew.
    assert_eq!(instruction_start(&mut store, 0o1234), Answer::Done);
    assert_eq!(store[SR2], 0o1234);
    let second = reference(&mut store, 0, 0, READ, 1, 0o120000);
    assert_eq!(second, granted(0, 5, true));
    assert_eq!(store[SR0], 0o011213);
}

#[test]
fn slip_a_data_reference_in_the_i_set_records_space_0() {
    let mut store = with_page(0o000001, USER_I + 2, 0, 0o000000);
    store[SR3] = 0o16;
    reference(&mut store, 3, 1, READ, 0, 0o040000);
    assert_eq!(store[SR0], 0o100145);
    // With User D enabled the same reference uses the D set and says so.
    init(&mut store);
    store[SR0] = 0o000001;
    store[SR3] = 0o01;
    reference(&mut store, 3, 1, READ, 0, 0o040000);
    assert_eq!(store[SR0], 0o100165);
}

#[test]
fn slip_a_par_write_clears_a_and_w_too() {
    let mut store = with_page(0, 7, 0o1111, 0o177777);
    write_register(&mut store, 0o772356, 0o173456);
    assert_eq!(store[7], 0o003456);
    assert_eq!(store[PDR + 7], 0o177477);
    store[PDR + 7] = 0o177777;
    write_register(&mut store, 0o772316, 0o177777);
    assert_eq!(store[PDR + 7], 0o077417);
    assert_eq!(read_register(&store, 0o772316), Answer::Word(0o077417));
}

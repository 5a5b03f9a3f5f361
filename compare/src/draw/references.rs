//! References, their addresses drawn for the pages that the store has.

use peer::Event;

use crate::draw::numbers::beyond;
use crate::fields::{address_of, length_of, page_of, PDR, SR3, WORDS};
use crate::random::Random;

/// A reference to a store, which is looked at to come near its pages' edges.
pub fn reference(random: &mut Random, store: &[u16]) -> Event {
    let mode = random.pick(&[0, 0, 0, 1, 1, 1, 3, 3, 3, 2]);
    let space = random.below(2);
    let va = address(random, store, mode, space);
    let mut numbers = [mode, space, random.below(2), random.below(2)];
    if random.percent(6) {
        spoil(random, &mut numbers);
    }
    let [mode, space, access, phase] = numbers;
    Event::Reference {
        mode,
        space,
        access,
        phase,
        va,
    }
}

/// Puts one number, and perhaps others, out of its range.
fn spoil(random: &mut Random, numbers: &mut [u32; 4]) {
    let first = random.below(4) as usize;
    for (at, number) in numbers.iter_mut().enumerate() {
        if at == first || random.percent(25) {
            *number = beyond(random, if at == 0 { 4 } else { 2 });
        }
    }
}

fn address(random: &mut Random, store: &[u16], mode: u32, space: u32) -> u16 {
    let va = random.word();
    if store.len() != WORDS {
        return va;
    }
    match random.below(8) {
        0 => near(random, va & 0o160000),
        1 => near(random, va & 0o177700),
        2..=4 => at_length(random, store, mode, space, va),
        5 | 6 => at_register(random, store, mode, space, va),
        _ => va,
    }
}

/// Up to two bytes to either side.
fn near(random: &mut Random, va: u16) -> u16 {
    va.wrapping_add(random.between(-2, 2) as u16)
}

/// In the block of the page's length field or one beside it.
fn at_length(random: &mut Random, store: &[u16], mode: u32, space: u32, va: u16) -> u16 {
    let pdr = store[PDR + page_of(store[SR3], mode, space, va)];
    let block = length_of(pdr).wrapping_add(random.between(-1, 1) as u16) & 0o177;
    let offset = random.pick(&[0, 1, 0o76, 0o77, va & 0o77]);
    va & 0o160000 | block << 6 | offset
}

/// In a register's word or beside it, where one of the mode's pages comes there.
fn at_register(random: &mut Random, store: &[u16], mode: u32, space: u32, va: u16) -> u16 {
    let register = address_of(random.below(WORDS as u32) as usize);
    let byte = register - 2 + random.below(6);
    for turn in 0..8 {
        let top = (va & 0o160000).wrapping_add(turn << 13);
        let par = store[page_of(store[SR3], mode, space, top)];
        let block = ((byte >> 6) as u16).wrapping_sub(par) & 0o7777;
        if block < 0o200 {
            return top | block << 6 | byte as u16 & 0o77;
        }
    }
    va
}

//! The sides of the race, each a table of the C functions of include/kt11c.h.
//! They are called through pointers, so none is inlined into the timing loop.

use std::convert::identity;
use std::slice::{from_raw_parts, from_raw_parts_mut};

use peer::Answer;

use crate::codes::encode;
use crate::proved::raw;

/// The functions of a side. Each is owed a pointer to as many words as it is told.
#[derive(Clone, Copy)]
pub struct Side<A> {
    pub reference: unsafe extern "C" fn(*mut u16, usize, u32, u32, u32, u32, u16) -> A,
    pub read: unsafe extern "C" fn(*const u16, usize, u32) -> A,
    pub write: unsafe extern "C" fn(*mut u16, usize, u32, u16) -> A,
    pub instruction: unsafe extern "C" fn(*mut u16, usize, u16) -> A,
    pub interrupt: unsafe extern "C" fn(*mut u16, usize, u16) -> A,
    pub change: unsafe extern "C" fn(*mut u16, usize, u32, i32) -> A,
    pub init: unsafe extern "C" fn(*mut u16, usize) -> A,
}

/// The independent version's functions, each answer put through `$finish`.
macro_rules! peer_side {
    ($answer:ty, $finish:path) => {{
        #[allow(improper_ctypes_definitions)]
        unsafe extern "C" fn reference(
            store: *mut u16,
            words: usize,
            mode: u32,
            space: u32,
            access: u32,
            phase: u32,
            va: u16,
        ) -> $answer {
            let store = from_raw_parts_mut(store, words);
            $finish(peer::reference(store, mode, space, access, phase, va))
        }
        #[allow(improper_ctypes_definitions)]
        unsafe extern "C" fn read(store: *const u16, words: usize, address: u32) -> $answer {
            $finish(peer::read_register(from_raw_parts(store, words), address))
        }
        #[allow(improper_ctypes_definitions)]
        unsafe extern "C" fn write(
            store: *mut u16,
            words: usize,
            address: u32,
            value: u16,
        ) -> $answer {
            let store = from_raw_parts_mut(store, words);
            $finish(peer::write_register(store, address, value))
        }
        #[allow(improper_ctypes_definitions)]
        unsafe extern "C" fn instruction(store: *mut u16, words: usize, va: u16) -> $answer {
            let store = from_raw_parts_mut(store, words);
            $finish(peer::instruction_start(store, va))
        }
        #[allow(improper_ctypes_definitions)]
        unsafe extern "C" fn interrupt(store: *mut u16, words: usize, vector: u16) -> $answer {
            let store = from_raw_parts_mut(store, words);
            $finish(peer::interrupt_start(store, vector))
        }
        #[allow(improper_ctypes_definitions)]
        unsafe extern "C" fn change(
            store: *mut u16,
            words: usize,
            register: u32,
            amount: i32,
        ) -> $answer {
            let store = from_raw_parts_mut(store, words);
            $finish(peer::note_change(store, register, amount))
        }
        #[allow(improper_ctypes_definitions)]
        unsafe extern "C" fn init(store: *mut u16, words: usize) -> $answer {
            $finish(peer::init(from_raw_parts_mut(store, words)))
        }
        Side {
            reference,
            read,
            write,
            instruction,
            interrupt,
            change,
            init,
        }
    }};
}

/// The proved library.
pub const PROVED: Side<u32> = Side {
    reference: raw::kt11c_reference,
    read: raw::kt11c_read,
    write: raw::kt11c_write,
    instruction: raw::kt11c_instruction,
    interrupt: raw::kt11c_interrupt,
    change: raw::kt11c_change,
    init: raw::kt11c_init,
};

/// The independent version behind the same functions, answering the same numbers.
pub const PEER: Side<u32> = peer_side!(u32, encode);

/// The independent version answering its own enum, which costs it no encoding.
pub const OWN: Side<Answer> = peer_side!(Answer, identity);

/// Functions that do nothing: the cost of the loop and the call.
pub const EMPTY: Side<u32> = Side {
    reference: empty_reference,
    read: empty_read,
    write: empty_write,
    instruction: empty_start,
    interrupt: empty_start,
    change: empty_change,
    init: empty_init,
};

unsafe extern "C" fn empty_reference(
    _: *mut u16,
    _: usize,
    _: u32,
    _: u32,
    _: u32,
    _: u32,
    _: u16,
) -> u32 {
    0
}

unsafe extern "C" fn empty_read(_: *const u16, _: usize, _: u32) -> u32 {
    0
}

unsafe extern "C" fn empty_write(_: *mut u16, _: usize, _: u32, _: u16) -> u32 {
    0
}

unsafe extern "C" fn empty_start(_: *mut u16, _: usize, _: u16) -> u32 {
    0
}

unsafe extern "C" fn empty_change(_: *mut u16, _: usize, _: u32, _: i32) -> u32 {
    0
}

unsafe extern "C" fn empty_init(_: *mut u16, _: usize) -> u32 {
    0
}

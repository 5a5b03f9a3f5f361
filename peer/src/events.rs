//! Events, their answers, and the application of one to the other.

use crate::reference::refer;
use crate::register_words::{read, write};
use crate::registers::Store;
use crate::status;

/// One event, its numbers as the caller gives them.
#[derive(Clone, Copy, Debug, PartialEq, Eq)]
pub enum Event {
    /// A reference: mode (0 Kernel, 1 Supervisor, 2 illegal, 3 User), space
    /// (0 instruction, 1 data), access (0 read, 1 write), phase
    /// (0 instruction, 1 interrupt or trap sequence) and virtual address.
    Reference {
        mode: u32,
        space: u32,
        access: u32,
        phase: u32,
        va: u16,
    },
    /// Register read.
    Read { address: u32 },
    /// Register write.
    Write { address: u32, value: u16 },
    /// Instruction start.
    Instruction { va: u16 },
    /// Interrupt start.
    Interrupt { vector: u16 },
    /// Register change noted.
    Change { register: u32, amount: i32 },
    /// INIT.
    Init,
}

/// The answer to one event.
#[derive(Clone, Copy, Debug, PartialEq, Eq)]
pub enum Answer {
    /// A grant.
    Granted {
        /// The physical byte.
        byte: u32,
        /// Request E1: the place among the 48, 0 to 47, of the page that
        /// served; `None` where rule 1 grants.
        page: Option<u8>,
        /// Whether the grant says "trap".
        trap: bool,
    },
    /// An abort, with each flag by its own test.
    Aborted {
        nonresident: bool,
        length: bool,
        readonly: bool,
    },
    /// The implemented bits of a register.
    Word(u16),
    /// Done, with nothing to give.
    Done,
    /// The refusal of this number.
    Refused(u8),
}

/// Applies one event to the store.
#[inline(always)]
pub fn apply(store: &mut Store, event: Event) -> Answer {
    match event {
        Event::Reference {
            mode,
            space,
            access,
            phase,
            va,
        } => refer(store, mode, space, access, phase, va),
        Event::Read { address } => read(store, address),
        Event::Write { address, value } => write(store, address, value),
        Event::Instruction { va } => status::start(store, va),
        Event::Interrupt { vector } => status::start(store, vector),
        Event::Change { register, amount } => status::note_change(store, register, amount),
        Event::Init => status::init(store),
    }
}

//! Which edges of 01's rules the events have met: counted, so that one sees they are met.

use peer::{Answer, Event};

use crate::fields::{
    block_of, d_enabled, downward, in_registers, key_of, length_of, page_of, place_of, FROZEN, PDR,
    RELOCATE, SR0, SR1, SR3, TRAPS, WORDS,
};

/// Declares the edges, each with the words it is printed with.
macro_rules! edges {
    ($($edge:ident $words:literal)*) => {
        #[derive(Clone, Copy)]
        enum Edge { $($edge),* }
        pub const EDGES: &[&str] = &[$($words),*];
    };
}

edges! {
    StoreOfNone "store of 0 words"
    StoreOfOne "store of 1 word"
    StoreOf99 "store of 99 words"
    StoreOf101 "store of 101 words"
    StoreOf200 "store of 200 words"
    ManyWrong "two or more numbers of a reference wrong"
    OffLow "relocation off, below 160000"
    OffHigh "relocation off, 160000 and up"
    OffMode2 "relocation off, mode 2"
    Mode2 "relocation on, mode 2"
    SetI "I set, instruction stream"
    SetIData "I set, data, D not enabled"
    SetDKernel "D set, Kernel"
    SetDSupervisor "D set, Supervisor"
    SetDUser "D set, User"
    PageFirst "first byte of a page"
    PageLast "last byte of a page"
    BlockFirst "first byte of a block"
    BlockLast "last byte of a block"
    UpBelow "ED 0, block one below the length"
    UpAt "ED 0, block at the length"
    UpAbove "ED 0, block one above the length"
    DownBelow "ED 1, block one below the length"
    DownAt "ED 1, block at the length"
    DownAbove "ED 1, block one above the length"
    Junk "page with unimplemented bits set"
    Carry "grant whose sum passes 7777"
    InRegister "grant of a write in a register's word"
    InRegisterTrap "trap in a register's word"
    BesideRegister "grant of a write beside a register's word"
    Held "trap condition with bit 9 clear"
    TrapFree "trap, not frozen"
    TrapFrozen "trap, frozen"
    AbortFree "abort, not frozen"
    AbortFrozen "abort, frozen"
    Flags100 "flags 100"
    Flags010 "flags 010"
    Flags001 "flags 001"
    Flags110 "flags 110"
    Flags011 "flags 011"
    StartFree "start, not frozen"
    StartFrozen "start, frozen"
    ChangeEmpty "change with SR1 empty"
    ChangeLow "change with SR1's low byte in use"
    ChangeHigh "change with SR1's high byte in use"
    ChangeFull "change with SR1 full"
    ChangeFrozen "change, frozen"
    WritePar "PAR write, A or W set before"
    WritePdr "PDR write, A or W set before"
    WriteSr0 "SR0 write"
    WriteSr1 "SR1 or SR2 write"
    WriteSr3 "SR3 write"
    ReadPar "PAR read"
    ReadPdr "PDR read"
    ReadStatus "SR read"
    InitAny "INIT"
}

/// How often each answer, each key's use and each edge has come.
pub struct Counts {
    pub answers: [u64; 5],
    pub refusals: [u64; 11],
    /// By key, access, and whether granted.
    pub keys: [[[u64; 2]; 2]; 8],
    /// Grants by the page that served, and last by none.
    pub pages: [u64; PDR + 1],
    pub edges: [u64; EDGES.len()],
}

impl Counts {
    pub fn new() -> Counts {
        Counts {
            answers: [0; 5],
            refusals: [0; 11],
            keys: [[[0; 2]; 2]; 8],
            pages: [0; PDR + 1],
            edges: [0; EDGES.len()],
        }
    }

    fn met(&mut self, edge: Edge, when: bool) {
        self.edges[edge as usize] += u64::from(when);
    }

    /// Counts one event by the store before it and the answer.
    pub fn add(&mut self, store: &[u16], event: Event, answer: Answer) {
        match answer {
            Answer::Granted { page, trap, .. } => {
                self.answers[usize::from(trap)] += 1;
                self.pages[page.map_or(PDR, usize::from)] += 1;
            }
            Answer::Aborted { .. } => self.answers[2] += 1,
            Answer::Word(_) => self.answers[3] += 1,
            Answer::Done => self.answers[4] += 1,
            Answer::Refused(number) => self.refusals[usize::from(number)] += 1,
        }
        if store.len() != WORDS {
            self.other_store(store.len());
            return;
        }
        let frozen = store[SR0] & FROZEN != 0;
        match event {
            Event::Reference { .. } => self.reference(store, event, answer),
            Event::Read { address } => self.read(address),
            Event::Write { address, .. } => self.write(store, address),
            Event::Instruction { .. } | Event::Interrupt { .. } => {
                self.met(Edge::StartFree, !frozen);
                self.met(Edge::StartFrozen, frozen);
            }
            Event::Change { .. } if answer != Answer::Refused(9) => self.change(store[SR1], frozen),
            Event::Change { .. } => {}
            Event::Init => self.met(Edge::InitAny, true),
        }
    }

    fn other_store(&mut self, length: usize) {
        self.met(Edge::StoreOfNone, length == 0);
        self.met(Edge::StoreOfOne, length == 1);
        self.met(Edge::StoreOf99, length == 99);
        self.met(Edge::StoreOf101, length == 101);
        self.met(Edge::StoreOf200, length == 200);
    }

    fn change(&mut self, sr1: u16, frozen: bool) {
        let (low, high) = (sr1 & 0o000377 != 0, sr1 & 0o177400 != 0);
        self.met(Edge::ChangeFrozen, frozen);
        self.met(Edge::ChangeEmpty, !frozen && !low && !high);
        self.met(Edge::ChangeLow, !frozen && low && !high);
        self.met(Edge::ChangeHigh, !frozen && !low && high);
        self.met(Edge::ChangeFull, !frozen && low && high);
    }

    fn read(&mut self, address: u32) {
        let place = place_of(address);
        self.met(Edge::ReadPar, matches!(place, Some(0..PDR)));
        self.met(Edge::ReadPdr, matches!(place, Some(PDR..SR0)));
        self.met(Edge::ReadStatus, matches!(place, Some(SR0..)));
    }

    fn write(&mut self, store: &[u16], address: u32) {
        let Some(place) = place_of(address) else {
            return;
        };
        let marked = |pdr: usize| store[pdr] & 0o000300 != 0;
        self.met(Edge::WritePar, place < PDR && marked(PDR + place));
        self.met(Edge::WritePdr, (PDR..SR0).contains(&place) && marked(place));
        self.met(Edge::WriteSr0, place == SR0);
        self.met(Edge::WriteSr1, (SR1..SR3).contains(&place));
        self.met(Edge::WriteSr3, place == SR3);
    }

    fn reference(&mut self, store: &[u16], event: Event, answer: Answer) {
        let Event::Reference {
            mode,
            space,
            access,
            phase,
            va,
        } = event
        else {
            return;
        };
        if let Answer::Refused(_) = answer {
            let wrong = [mode > 3, space > 1, access > 1, phase > 1];
            self.met(
                Edge::ManyWrong,
                wrong.into_iter().filter(|w| *w).count() > 1,
            );
        } else if store[SR0] & RELOCATE == 0 {
            self.met(Edge::OffLow, va < 0o160000);
            self.met(Edge::OffHigh, va >= 0o160000);
            self.met(Edge::OffMode2, mode == 2);
        } else if mode == 2 {
            self.met(Edge::Mode2, true);
        } else {
            self.set(store[SR3], mode, space);
            let page = page_of(store[SR3], mode, space, va);
            self.page(store[page], store[PDR + page], va);
            self.ruled(store, page, access, va, answer);
        }
    }

    fn set(&mut self, sr3: u16, mode: u32, space: u32) {
        let d = d_enabled(sr3, mode);
        self.met(Edge::SetI, space == 0);
        self.met(Edge::SetIData, space == 1 && !d);
        self.met(Edge::SetDKernel, space == 1 && d && mode == 0);
        self.met(Edge::SetDSupervisor, space == 1 && d && mode == 1);
        self.met(Edge::SetDUser, space == 1 && d && mode == 3);
    }

    fn page(&mut self, par: u16, pdr: u16, va: u16) {
        self.met(Edge::PageFirst, va & 0o017777 == 0);
        self.met(Edge::PageLast, va & 0o017777 == 0o017777);
        self.met(Edge::BlockFirst, va & 0o77 == 0);
        self.met(Edge::BlockLast, va & 0o77 == 0o77);
        let (block, length) = (block_of(va), length_of(pdr));
        let (below, at, above) = (block + 1 == length, block == length, block == length + 1);
        self.met(Edge::UpBelow, !downward(pdr) && below);
        self.met(Edge::UpAt, !downward(pdr) && at);
        self.met(Edge::UpAbove, !downward(pdr) && above);
        self.met(Edge::DownBelow, downward(pdr) && below);
        self.met(Edge::DownAt, downward(pdr) && at);
        self.met(Edge::DownAbove, downward(pdr) && above);
        self.met(Edge::Junk, par & 0o170000 != 0 || pdr & 0o100060 != 0);
    }

    fn ruled(&mut self, store: &[u16], page: usize, access: u32, va: u16, answer: Answer) {
        let (frozen, key) = (store[SR0] & FROZEN != 0, key_of(store[PDR + page]));
        let is_granted = matches!(answer, Answer::Granted { .. });
        self.keys[usize::from(key)][access as usize][usize::from(is_granted)] += 1;
        match answer {
            Answer::Granted { byte, trap, .. } => {
                let inside = in_registers(byte);
                let beside =
                    !inside && (in_registers(byte + 2) || in_registers(byte - byte.min(2)));
                let condition = matches!((key, access), (1, 0) | (4, _) | (5, 1));
                self.met(Edge::Carry, (store[page] & 0o7777) + block_of(va) > 0o7777);
                self.met(Edge::InRegister, inside && access == 1);
                self.met(Edge::InRegisterTrap, inside && trap);
                self.met(Edge::BesideRegister, beside && access == 1);
                self.met(Edge::Held, condition && store[SR0] & TRAPS == 0);
                self.met(Edge::TrapFree, trap && !frozen);
                self.met(Edge::TrapFrozen, trap && frozen);
            }
            Answer::Aborted {
                nonresident,
                length,
                readonly,
            } => {
                let flags = (nonresident, length, readonly);
                self.met(Edge::AbortFree, !frozen);
                self.met(Edge::AbortFrozen, frozen);
                self.met(Edge::Flags100, flags == (true, false, false));
                self.met(Edge::Flags010, flags == (false, true, false));
                self.met(Edge::Flags001, flags == (false, false, true));
                self.met(Edge::Flags110, flags == (true, true, false));
                self.met(Edge::Flags011, flags == (false, true, true));
            }
            _ => {}
        }
    }
}

impl Default for Counts {
    fn default() -> Counts {
        Counts::new()
    }
}

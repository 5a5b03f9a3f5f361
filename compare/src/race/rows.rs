//! A row of the race: a store, and events of one kind or of all.

use peer::Event;

use crate::fields::WORDS;
use crate::race::sides::Side;

/// A reference's numbers.
#[derive(Clone, Copy)]
pub struct Reference {
    pub mode: u32,
    pub space: u32,
    pub access: u32,
    pub phase: u32,
    pub va: u16,
}

impl Reference {
    pub fn event(self) -> Event {
        Event::Reference {
            mode: self.mode,
            space: self.space,
            access: self.access,
            phase: self.phase,
            va: self.va,
        }
    }
}

/// What is done in a row. Each arm has a loop of its own, with one call in it.
pub enum Work {
    References(Vec<Reference>),
    Reads(Vec<u32>),
    Writes(Vec<(u32, u16)>),
    Starts(Vec<u16>),
    Changes(Vec<(u32, i32)>),
    Events(Vec<Event>),
}

/// A row; `before` is a word put into its place ahead of each event.
pub struct Row {
    pub name: &'static str,
    pub store: [u16; WORDS],
    pub before: Option<(usize, u16)>,
    pub work: Work,
}

impl Row {
    pub fn count(&self) -> usize {
        match &self.work {
            Work::References(list) => list.len(),
            Work::Reads(list) => list.len(),
            Work::Writes(list) => list.len(),
            Work::Starts(list) => list.len(),
            Work::Changes(list) => list.len(),
            Work::Events(list) => list.len(),
        }
    }

    /// Runs every event once on a side; the sum of what `taken` makes of the answers.
    #[inline(always)]
    pub fn run<A>(
        &self,
        side: &Side<A>,
        store: &mut [u16; WORDS],
        taken: impl Fn(A) -> u32 + Copy,
    ) -> u32 {
        // SAFETY, for each call: `s` is the store, of as many words as are told.
        match &self.work {
            Work::References(list) => self.each(list, store, taken, |s, r| unsafe {
                (side.reference)(
                    s.as_mut_ptr(),
                    WORDS,
                    r.mode,
                    r.space,
                    r.access,
                    r.phase,
                    r.va,
                )
            }),
            Work::Reads(list) => self.each(list, store, taken, |s, &address| unsafe {
                (side.read)(s.as_ptr(), WORDS, address)
            }),
            Work::Writes(list) => self.each(list, store, taken, |s, &(address, value)| unsafe {
                (side.write)(s.as_mut_ptr(), WORDS, address, value)
            }),
            Work::Starts(list) => self.each(list, store, taken, |s, &va| unsafe {
                (side.instruction)(s.as_mut_ptr(), WORDS, va)
            }),
            Work::Changes(list) => self.each(list, store, taken, |s, &(register, amount)| unsafe {
                (side.change)(s.as_mut_ptr(), WORDS, register, amount)
            }),
            Work::Events(list) => self.each(list, store, taken, |s, &event| any(side, s, event)),
        }
    }

    /// The timing loop.
    #[inline(always)]
    fn each<T, A>(
        &self,
        list: &[T],
        store: &mut [u16; WORDS],
        taken: impl Fn(A) -> u32,
        call: impl Fn(&mut [u16; WORDS], &T) -> A,
    ) -> u32 {
        let mut sum = 0u32;
        match self.before {
            None => {
                for item in list {
                    sum = sum.wrapping_add(taken(call(store, item)));
                }
            }
            Some((place, word)) => {
                for item in list {
                    store[place] = word;
                    sum = sum.wrapping_add(taken(call(store, item)));
                }
            }
        }
        sum
    }
}

/// One event of any kind.
#[inline(always)]
pub fn any<A>(side: &Side<A>, store: &mut [u16; WORDS], event: Event) -> A {
    let s = store.as_mut_ptr();
    // SAFETY: as in `run`.
    unsafe {
        match event {
            Event::Reference {
                mode,
                space,
                access,
                phase,
                va,
            } => (side.reference)(s, WORDS, mode, space, access, phase, va),
            Event::Read { address } => (side.read)(s, WORDS, address),
            Event::Write { address, value } => (side.write)(s, WORDS, address, value),
            Event::Instruction { va } => (side.instruction)(s, WORDS, va),
            Event::Interrupt { vector } => (side.interrupt)(s, WORDS, vector),
            Event::Change { register, amount } => (side.change)(s, WORDS, register, amount),
            Event::Init => (side.init)(s, WORDS),
        }
    }
}

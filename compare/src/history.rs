//! A history run on both sides, each event's answer and the whole store compared.

use peer::{Answer, Event};

use crate::proved::{self, Answered};

/// A store to begin with, and the events that follow.
#[derive(Clone)]
pub struct History {
    pub store: Vec<u16>,
    pub events: Vec<Event>,
}

/// What came out otherwise: both answers, and the words that differ as place,
/// proved side, peer. Places below 0 and past the end are words that were not lent.
pub struct Difference {
    pub proved: Answered,
    pub peer: Answer,
    pub words: Vec<(isize, u16, u16)>,
}

/// The words kept before and after the lent ones, to see that they stay.
const GUARD: usize = 4;
const GUARD_WORD: u16 = 0o125252;

/// The same store, lent to each side.
pub struct Pair {
    proved: Vec<u16>,
    peer: Vec<u16>,
}

impl Pair {
    pub fn new(store: &[u16]) -> Pair {
        let mut words = vec![GUARD_WORD; GUARD];
        words.extend_from_slice(store);
        words.extend_from_slice(&[GUARD_WORD; GUARD]);
        Pair {
            proved: words.clone(),
            peer: words,
        }
    }

    /// The store as it is after the events so far.
    pub fn store(&self) -> &[u16] {
        &self.peer[GUARD..self.peer.len() - GUARD]
    }

    /// Applies one event on both sides: the answer, if nothing differs.
    pub fn step(&mut self, event: Event) -> Result<Answer, Difference> {
        let proved = proved::apply(lent(&mut self.proved), event);
        let peer = peer::apply(lent(&mut self.peer), event);
        if proved == Ok(peer) && self.proved == self.peer {
            return Ok(peer);
        }
        Err(Difference {
            proved,
            peer,
            words: self.differing(),
        })
    }

    fn differing(&self) -> Vec<(isize, u16, u16)> {
        let both = self.proved.iter().zip(&self.peer).enumerate();
        both.filter(|(_, (a, b))| a != b)
            .map(|(at, (a, b))| (at as isize - GUARD as isize, *a, *b))
            .collect()
    }
}

fn lent(words: &mut [u16]) -> &mut [u16] {
    let end = words.len() - GUARD;
    &mut words[GUARD..end]
}

impl History {
    /// The first event after which something differs, and what.
    pub fn difference(&self) -> Option<(usize, Difference)> {
        let mut pair = Pair::new(&self.store);
        self.events
            .iter()
            .enumerate()
            .find_map(|(at, &event)| pair.step(event).err().map(|difference| (at, difference)))
    }
}

//! One run over the pieces of a recording, each call looked at.

use std::iter::Cycle;
use std::slice::Iter;

use crate::cuts::{state_near_limit, Cut, Feed};
use crate::proved::{is_over, taken, State, LONGEST_LINE};

/// What fills an output before a call, and stands around it.
const FILL: u8 = 0xa5;
const GUARD: usize = 16;

pub struct Run<'a> {
    feed: Feed,
    rooms: Cycle<Iter<'a, usize>>,
    store: Vec<u16>,
    state: State,
    /// How many bytes of the recording were taken, those before the pieces included.
    taken: u64,
    /// The text of the whole recording, and how much of it was written.
    text: &'a [u8],
    written: usize,
}

impl<'a> Run<'a> {
    pub fn new(cut: &'a Cut, feed: Feed, text: &'a [u8]) -> Run<'a> {
        let state = match cut.near_limit {
            true => state_near_limit(),
            false => [0; 11],
        };
        Run {
            feed,
            rooms: cut.rooms.iter().cycle(),
            store: cut.store.clone(),
            taken: state[8],
            state,
            text,
            written: 0,
        }
    }

    /// Gives a piece, and again what was not taken of it, to its end; the last one until the
    /// run is over. After a call that gets no further the room is at least a byte larger.
    pub fn piece(&mut self, piece: &[u8], last: bool) -> Result<(), String> {
        let mut rest = piece;
        let mut least = 0;
        loop {
            let room = *self.rooms.next().expect("a cut has a room");
            let room = room.max(least);
            let (taken, written) = self.call(rest, last, room)?;
            rest = &rest[taken..];
            if rest.is_empty() && (!last || is_over(&self.state)) {
                return Ok(());
            }
            let stalled = taken == 0 && written == 0;
            if stalled && room >= LONGEST_LINE {
                return Err(format!("gets no further with a room of {room}"));
            }
            least = if stalled { room + 1 } else { 0 };
        }
    }

    /// One call: how many bytes it took and wrote.
    fn call(&mut self, piece: &[u8], last: bool, room: usize) -> Result<(usize, usize), String> {
        let (store, state) = (self.store.clone(), self.state);
        let mut bytes = vec![FILL; GUARD + room + GUARD];
        let out = &mut bytes[GUARD..GUARD + room];
        let written = (self.feed)(&mut self.store, &mut self.state, piece, last, out);
        let (taken, offered) = (taken(&self.state), piece.len());
        if written > room || taken > offered as u64 {
            return Err(format!(
                "takes {taken} bytes of {offered}, and writes {written} into {room}"
            ));
        }
        self.look_at_text(&bytes, written)?;
        if written == 0 && store != self.store {
            return Err("a call that writes nothing changes the store".to_string());
        }
        let (taken, left) = (taken as usize, room - written);
        let idle = taken == offered && written == 0 && state[..10] == self.state[..10];
        if is_over(&state) && !idle {
            return Err("a call does something after the run is over".to_string());
        }
        self.taken += taken as u64;
        self.look_at_state(taken == offered && !last, left)?;
        Ok((taken, written))
    }

    /// While the run is not over, the state is of as many bytes as were taken. A call that has
    /// more to do had no room left for the next line.
    fn look_at_state(&self, done: bool, left: usize) -> Result<(), String> {
        if is_over(&self.state) {
            return Ok(());
        }
        let (kept, before, taken) = (self.state[7], self.state[8], self.taken);
        if kept.wrapping_add(before) != taken {
            return Err(format!(
                "the state has {kept} bytes after {before}, not {taken}"
            ));
        }
        match done || self.next_line() > left {
            true => Ok(()),
            false => Err(format!(
                "stops, but the next line fits the {left} bytes left"
            )),
        }
    }

    /// What was written goes on with the text, and nothing around it is changed.
    fn look_at_text(&mut self, bytes: &[u8], written: usize) -> Result<(), String> {
        let (before, rest) = bytes.split_at(GUARD);
        let (text, after) = rest.split_at(written);
        if before.iter().chain(after).any(|&byte| byte != FILL) {
            return Err("a byte beyond the text is changed".to_string());
        }
        if !self.text[self.written..].starts_with(text) {
            let place = self.written;
            let text = String::from_utf8_lossy(&text[..written.min(60)]).into_owned();
            return Err(format!("{text:?} is written at place {place} of the text"));
        }
        self.written += written;
        Ok(())
    }

    /// The bytes of the line to come, 0 if there is none.
    fn next_line(&self) -> usize {
        let mut left = self.text[self.written..].iter();
        left.position(|&byte| byte == b'\n').map_or(0, |at| at + 1)
    }

    /// Calls that come after the end.
    pub fn further(&mut self) -> Result<(), String> {
        for (piece, last, room) in [
            (&[][..], false, 40),
            (&[7, 7, 0, 3][..], false, 0),
            (&[7, 1, 0][..], true, 40),
            (&[][..], true, 0),
        ] {
            self.call(piece, last, room)?;
        }
        Ok(())
    }

    /// The whole text is written, and this is the store.
    pub fn ended(&self, store: &[u16]) -> Result<(), String> {
        let (written, wanted) = (self.written, self.text.len());
        if written != wanted {
            return Err(format!("the text ends after {written} bytes of {wanted}"));
        }
        match self.stands_at(wanted, store) {
            true => Ok(()),
            false => Err("the store is another at the end".to_string()),
        }
    }

    /// Whether so much of the text was written, and this is the store.
    pub fn stands_at(&self, written: usize, store: &[u16]) -> bool {
        self.written == written && self.store == store
    }
}

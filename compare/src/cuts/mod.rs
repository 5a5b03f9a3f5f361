//! Recordings given to the proved side in pieces. However one is cut, the text and the store
//! are those that the peer gives for the uncut recording.

pub mod draw;
pub mod every;
mod run;
mod small;

use std::sync::OnceLock;

use peer::RECORDING_LIMIT;

use crate::proved::{self, State};
use crate::replays::peer_after;
use run::Run;

/// A function that replays a piece: a store, a state, the piece, whether it is the last, an output.
pub type Feed = fn(&mut [u16], &mut State, &[u8], bool, &mut [u8]) -> usize;

/// How the end of a recording is said.
#[derive(Clone, Copy, Debug, PartialEq)]
pub enum End {
    /// With the last piece.
    With,
    /// After it, with an empty one.
    After,
}

/// A recording in pieces, from a store.
#[derive(Clone, Debug, PartialEq)]
pub struct Cut {
    /// Whether `BEFORE` INITs came before it.
    pub near_limit: bool,
    pub store: Vec<u16>,
    pub pieces: Vec<Vec<u8>>,
    /// The rooms of the calls, one after another and then from the first again.
    pub rooms: Vec<usize>,
    pub end: End,
}

/// A recording of at most so many bytes is compared at every cut too.
const SHORT: usize = 100;

/// The bytes that what comes near the limit has inside it, and those before them.
pub const NEAR: usize = 60;
pub const BEFORE: usize = RECORDING_LIMIT - NEAR;

/// What is kept after so many INITs.
fn state_near_limit() -> State {
    static STATE: OnceLock<State> = OnceLock::new();
    *STATE.get_or_init(|| {
        let (mut store, mut state, mut out) = ([0; 100], [0; 11], [0; 8_192]);
        let mut left = BEFORE;
        while left > 0 {
            let piece = &[7; 4_096][..left.min(4_096)];
            proved::feed(&mut store, &mut state, piece, false, &mut out);
            left -= piece.len();
        }
        state
    })
}

impl Cut {
    /// The text, or what differs.
    pub fn same(&self) -> Result<Vec<u8>, String> {
        self.replay(proved::feed)
    }

    /// The text that a function writes, if it and the store are the peer's.
    fn replay(&self, feed: Feed) -> Result<Vec<u8>, String> {
        let recording = self.pieces.concat();
        let mut store = self.store.clone();
        let text = self.peer(&mut store, &recording);
        let mut run = Run::new(self, feed, &text);
        let (last, others) = match self.pieces.split_last() {
            Some((last, others)) => (last.as_slice(), others),
            None => (&[][..], &[][..]),
        };
        let mut place = 0;
        for piece in others {
            run.piece(piece, false)?;
            place += piece.len();
            if place > 0 && recording.len() <= SHORT {
                self.so_far(&run, &recording[..place])?;
            }
        }
        match self.end {
            End::With => run.piece(last, true)?,
            End::After => {
                run.piece(last, false)?;
                run.piece(&[], true)?;
            }
        }
        run.further()?;
        run.ended(&store)?;
        Ok(text)
    }

    /// The peer's text for some bytes of it from the first on.
    fn peer(&self, store: &mut [u16], bytes: &[u8]) -> Vec<u8> {
        let before = if self.near_limit { BEFORE } else { 0 };
        peer_after(store, before, bytes)
    }

    /// What was fed so far gives the peer's text and store, but for the refusal of a last
    /// record that lacks bytes: they may still come.
    fn so_far(&self, run: &Run, fed: &[u8]) -> Result<(), String> {
        let mut store = self.store.clone();
        let text = self.peer(&mut store, fed);
        let text = text.strip_suffix(b"X 12\n").unwrap_or(&text);
        match run.stands_at(text.len(), &store) {
            true => Ok(()),
            false => {
                let place = fed.len();
                Err(format!(
                    "the lines or the store are others at place {place}"
                ))
            }
        }
    }
}

/// A recording cut at places that rise; where two are the same a piece is empty.
pub fn pieces(recording: &[u8], places: &[usize]) -> Vec<Vec<u8>> {
    let starts = std::iter::once(0).chain(places.iter().copied());
    let ends = places.iter().copied().chain([recording.len()]);
    starts
        .zip(ends)
        .map(|(start, end)| recording[start..end].to_vec())
        .collect()
}

#[cfg(test)]
mod tests;

//! A recording and its replay, whole or in pieces.

use std::io::{self, Write};

use crate::events::{apply, Answer};
use crate::lines::Lines;
use crate::reading::first_record;
use crate::refusals;
use crate::registers::Store;
use crate::writing::LONGEST_RECORD;

/// The most bytes a recording may have; one more is refusal 13.
pub const RECORDING_LIMIT: usize = 16_777_216;

/// Request E4: the replay of a recording that comes in pieces. However it is
/// cut, the lines and the registers are those of the uncut recording. What is
/// kept from one piece to the next is the first bytes of at most one record, and
/// at most 4,096 bytes of lines that the writer hasn't been given.
///
/// Lines that the writer hasn't been given are lost if the replay isn't finished.
/// Once the writer has failed, the replay is of no use.
#[derive(Debug)]
pub struct Replay<'a, W> {
    store: &'a mut Store,
    lines: Lines<W>,
    /// How many bytes the limit leaves for the pieces still to come.
    room: usize,
    /// A record's bytes so far, while some of them are still to come.
    begun: [u8; LONGEST_RECORD],
    /// How many bytes of `begun` are in use; 0 between records.
    begun_length: usize,
    over: bool,
}

impl<'a, W: Write> Replay<'a, W> {
    /// A replay at the start of its recording.
    pub fn new(store: &'a mut Store, writer: W) -> Replay<'a, W> {
        Replay {
            store,
            lines: Lines::new(writer),
            room: RECORDING_LIMIT,
            begun: [0; LONGEST_RECORD],
            begun_length: 0,
            over: false,
        }
    }

    /// Replays the recording's next piece, which may be empty: one line for each
    /// record that ends in it. Refusal 11 ends the run, and so does 13, which is
    /// given when the piece has a byte beyond the limit.
    pub fn feed(&mut self, piece: &[u8]) -> io::Result<()> {
        if self.over {
            return Ok(());
        }
        let (inside, beyond) = piece.split_at(piece.len().min(self.room));
        self.room -= inside.len();
        let rest = self.go_on_with_begun(inside)?;
        self.replay_records(rest)?;
        if !self.over && !beyond.is_empty() {
            self.stop(refusals::RECORDING_TOO_LONG)?;
        }
        Ok(())
    }

    /// Whether a refusal has ended the run: what is left of the recording then
    /// has no effect and need not be fed.
    pub fn is_over(&self) -> bool {
        self.over
    }

    /// The real end of the recording: refusal 12 if it cuts a record short. The
    /// writer is given the last lines, and is given back.
    pub fn finish(mut self) -> io::Result<W> {
        if !self.over && self.begun_length > 0 {
            self.stop(refusals::RECORD_CUT_SHORT)?;
        }
        self.lines.finish()
    }

    /// Gives the begun record, if there is one, its bytes from the piece, and
    /// replays it if that makes it whole. What it doesn't take is left.
    fn go_on_with_begun<'p>(&mut self, piece: &'p [u8]) -> io::Result<&'p [u8]> {
        if self.begun_length == 0 {
            return Ok(piece);
        }
        // Its length isn't looked up: it is given as much as any record can have,
        // and what follows it goes back.
        let added = piece.len().min(LONGEST_RECORD - self.begun_length);
        let end = self.begun_length + added;
        self.begun[self.begun_length..end].copy_from_slice(&piece[..added]);
        match first_record(&self.begun[..end]) {
            Ok((event, after)) => {
                let taken = added - after.len();
                self.begun_length = 0;
                self.lines.push(apply(self.store, event))?;
                Ok(&piece[taken..])
            }
            // Its kind is known, so it still lacks bytes, and the piece has no more.
            Err(_) => {
                self.begun_length = end;
                Ok(&[])
            }
        }
    }

    /// Replays whole records straight from the piece, and keeps the bytes of a
    /// last one that lacks some.
    fn replay_records(&mut self, piece: &[u8]) -> io::Result<()> {
        let store = &mut *self.store;
        let mut rest = piece;
        while !rest.is_empty() {
            match first_record(rest) {
                Ok((event, after)) => {
                    self.lines.push(apply(store, event))?;
                    rest = after;
                }
                Err(refusals::RECORD_CUT_SHORT) => {
                    self.begun[..rest.len()].copy_from_slice(rest);
                    self.begun_length = rest.len();
                    break;
                }
                Err(number) => return self.stop(number),
            }
        }
        Ok(())
    }

    /// Ends the run with a refusal's line.
    fn stop(&mut self, number: u8) -> io::Result<()> {
        self.over = true;
        self.lines.push(Answer::Refused(number))
    }
}

/// Replays a whole recording: a single piece, then the end.
pub fn replay(store: &mut Store, recording: &[u8]) -> Vec<u8> {
    // A line is under three times as long as its record, save a last `X 11`,
    // `X 12` or `X 13`.
    let text = Vec::with_capacity(3 * recording.len().min(RECORDING_LIMIT) + 5);
    let mut replay = Replay::new(store, text);
    replay
        .feed(recording)
        .and_then(|()| replay.finish())
        .expect("a vector takes every line")
}

/// The text of a recording refused as a whole.
pub fn refusal_text(number: u8) -> Vec<u8> {
    let mut lines = Lines::new(Vec::new());
    lines
        .push(Answer::Refused(number))
        .and_then(|()| lines.finish())
        .expect("a vector takes every line")
}

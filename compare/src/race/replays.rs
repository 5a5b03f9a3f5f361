//! Whole recordings timed on the sides in turns.

use std::hint::black_box;
use std::time::Instant;

use crate::fields::WORDS;
use crate::proved::{raw, room_for};
use crate::race::recordings::Tape;
use crate::race::timing::{spread, Spread, TURNS};
use crate::recordings::USUAL;

/// What the rounds of a row gave: bytes of recording a microsecond, and the ratios of the times:
/// the proved side with a lent output, and with an output allocated as the peer's is.
pub struct Speeds {
    pub lent: f64,
    pub allocated: f64,
    pub peer: f64,
    pub lent_to_peer: Spread,
    pub allocated_to_peer: Spread,
}

/// Times a row for so many rounds.
pub fn time(tape: &Tape, rounds: usize) -> Speeds {
    let mut out = Vec::with_capacity(room_for(USUAL));
    let rounds: Vec<Round> = (0..rounds).map(|_| round(tape, &mut out)).collect();
    let over = |number: fn(&Round) -> f64| spread(rounds.iter().map(number).collect());
    let bytes = tape.bytes() as f64;
    let speed = |time: fn(&Round) -> f64| bytes * 1e-6 / over(time).median;
    Speeds {
        lent: speed(|round| round.lent),
        allocated: speed(|round| round.allocated),
        peer: speed(|round| round.peer),
        lent_to_peer: over(|round| round.lent / round.peer),
        allocated_to_peer: over(|round| round.allocated / round.peer),
    }
}

/// The least seconds of each side.
struct Round {
    lent: f64,
    allocated: f64,
    peer: f64,
}

/// The sides take turns, and must do the same.
fn round(tape: &Tape, out: &mut Vec<u8>) -> Round {
    let mut least = Round {
        lent: f64::INFINITY,
        allocated: f64::INFINITY,
        peer: f64::INFINITY,
    };
    for _ in 0..TURNS {
        let lent = once(tape, |store, recording| {
            proved(store, recording, out);
            out.len()
        });
        let allocated = once(tape, |store, recording| {
            // as many bytes as the peer allocates
            let mut text = Vec::with_capacity(3 * recording.len() + 5);
            proved(store, recording, &mut text);
            black_box(&text).len()
        });
        let peer = once(tape, |store, recording| {
            let text =
                black_box(peer::replay as fn(&mut [u16], &[u8]) -> Vec<u8>)(store, recording);
            black_box(&text).len()
        });
        for other in [&allocated, &peer] {
            assert!(lent.written == other.written, "the texts differ in length");
            assert!(lent.store == other.store, "the stores differ");
        }
        least.lent = least.lent.min(lent.seconds);
        least.allocated = least.allocated.min(allocated.seconds);
        least.peer = least.peer.min(peer.seconds);
    }
    least
}

/// A whole recording into what a buffer has room for; none of it is cleared before.
fn proved(store: &mut [u16; WORDS], recording: &[u8], out: &mut Vec<u8>) {
    let replay = black_box(raw::kt11c_replay);
    // SAFETY: each pointer is of as many words or bytes as are told, and those written are the text.
    unsafe {
        let written = replay(
            store.as_mut_ptr(),
            WORDS,
            recording.as_ptr(),
            recording.len(),
            0,
            out.as_mut_ptr(),
            out.capacity(),
        );
        out.set_len(written);
    }
}

struct Once {
    seconds: f64,
    written: usize,
    store: [u16; WORDS],
}

/// One timing of a side, from the row's own store.
fn once(tape: &Tape, mut replay: impl FnMut(&mut [u16; WORDS], &[u8]) -> usize) -> Once {
    let mut store = tape.store;
    let mut written = 0;
    let begin = Instant::now();
    for recording in &tape.recordings {
        written += replay(&mut store, recording);
    }
    Once {
        seconds: begin.elapsed().as_secs_f64(),
        written,
        store,
    }
}

//! A row timed on the sides in turns.

use std::hint::black_box;
use std::time::Instant;

use crate::fields::WORDS;
use crate::race::rows::Row;
use crate::race::sides::{Side, EMPTY, OWN, PEER, PROVED};

/// How often each side is timed in a round; the least time counts, as what else
/// the machine does can only add to it.
pub const TURNS: usize = 5;

/// What the rounds of a row gave: nanoseconds an event, and the ratios of the
/// proved side to the peer, and to the peer answering its own enum.
pub struct Times {
    pub proved: f64,
    pub peer: f64,
    pub own: f64,
    pub empty: f64,
    pub to_peer: Spread,
    pub to_own: Spread,
}

/// Least, middle and greatest.
pub struct Spread {
    pub min: f64,
    pub median: f64,
    pub max: f64,
}

/// Times a row for so many rounds.
pub fn time(row: &Row, rounds: usize) -> Times {
    let rounds: Vec<Round> = (0..rounds).map(|_| round(row)).collect();
    let over = |number: fn(&Round) -> f64| spread(rounds.iter().map(number).collect());
    Times {
        proved: over(|round| round.proved).median,
        peer: over(|round| round.peer).median,
        own: over(|round| round.own).median,
        empty: over(|round| round.empty).median,
        to_peer: over(|round| round.proved / round.peer),
        to_own: over(|round| round.proved / round.own),
    }
}

/// The least nanoseconds an event of each side.
struct Round {
    proved: f64,
    peer: f64,
    own: f64,
    empty: f64,
}

/// The sides take turns, and must do the same.
fn round(row: &Row) -> Round {
    let mut least = Round {
        proved: f64::INFINITY,
        peer: f64::INFINITY,
        own: f64::INFINITY,
        empty: f64::INFINITY,
    };
    for _ in 0..TURNS {
        let proved = once(row, &PROVED, |code| code);
        let peer = once(row, &PEER, |code| code);
        let own = once(row, &OWN, |answer| {
            black_box(answer);
            0
        });
        let empty = once(row, &EMPTY, |code| code);
        assert!(proved.sum == peer.sum, "the answers differ");
        assert!(
            proved.store == peer.store && peer.store == own.store,
            "the stores differ"
        );
        least.proved = least.proved.min(proved.nanoseconds);
        least.peer = least.peer.min(peer.nanoseconds);
        least.own = least.own.min(own.nanoseconds);
        least.empty = least.empty.min(empty.nanoseconds);
    }
    least
}

struct Once {
    nanoseconds: f64,
    sum: u32,
    store: [u16; WORDS],
}

/// One timing of a side, from the row's own store.
fn once<A: Copy>(row: &Row, side: &Side<A>, taken: impl Fn(A) -> u32 + Copy) -> Once {
    let side = black_box(*side);
    let mut store = row.store;
    let begin = Instant::now();
    let sum = black_box(row.run(&side, &mut store, taken));
    let time = begin.elapsed();
    Once {
        nanoseconds: time.as_nanos() as f64 / row.count() as f64,
        sum,
        store,
    }
}

pub fn spread(mut numbers: Vec<f64>) -> Spread {
    numbers.sort_by(f64::total_cmp);
    Spread {
        min: numbers[0],
        median: numbers[numbers.len() / 2],
        max: numbers[numbers.len() - 1],
    }
}

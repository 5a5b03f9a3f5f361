//! Runs the proved libraries and the independent version side by side: 01's readings,
//! then drawn events, the answer and every word compared after each, then
//! recordings, whole and in pieces, the text and every word compared.

use std::process::ExitCode;

use compare::cuts::{self, Cut, End, BEFORE, NEAR};
use compare::draw;
use compare::edges::Counts;
use compare::fields::WORDS;
use compare::history::{History, Pair};
use compare::limits::edges;
use compare::options::Options;
use compare::print::print_history;
use compare::proved::{room_for, LONGEST_TEXT};
use compare::random::Random;
use compare::readings::{readings, run};
use compare::recordings::{fixed, recording};
use compare::replays::Replay;
use compare::shrink::shrink;
use compare::slips::{slips, whole_case};
use compare::tally::Tally;
use peer::RECORDING_LIMIT as LIMIT;

const USAGE: &str = "compare [--events N] [--recordings N] [--seed N]";
const EVENTS: u64 = 2_000_000;
const RECORDINGS: u64 = 5_000;
/// A history is begun anew, with another store, after this many events.
const HISTORY: u64 = 300;
/// Replays from places near the limit.
const PLACES: u64 = 20_000;

fn main() -> ExitCode {
    let mut options = Options::new(USAGE);
    let events = options.number("--events", EVENTS);
    let drawn = options.number("--recordings", RECORDINGS);
    let seed = options.number("--seed", 1);
    options.rest(0);

    let mut tally = Tally::default();
    check_readings(&mut tally);
    check_events(&mut tally, events, seed);
    check_recordings(&mut tally, drawn, seed);
    check_places(&mut tally, seed);
    check_cuts(&mut tally, drawn, seed);
    check_edges(&mut tally, seed);
    println!("{} passed, {} failed", tally.passed, tally.failed);
    ExitCode::from(u8::from(tally.failed != 0))
}

fn check_readings(tally: &mut Tally) {
    let mut all = readings();
    all.push(whole_case());
    all.extend(slips());
    for reading in &all {
        match run(reading) {
            Ok(()) => tally.passed += 1,
            Err(message) => {
                tally.failed += 1;
                println!("reading \"{}\": {message}", reading.name);
            }
        }
    }
    println!(
        "{} readings on both sides, {} wrong",
        all.len(),
        tally.failed
    );
}

/// Drawn histories, up to the first difference.
fn check_events(tally: &mut Tally, events: u64, seed: u64) {
    let mut random = Random::new(seed);
    let mut counts = Counts::new();
    let mut left = events;
    while left > 0 {
        let count = left.min(HISTORY);
        if let Err(history) = drawn_history(&mut random, count, &mut counts) {
            tally.failed += 1;
            println!("a difference, from seed {seed}:");
            print_history(&shrink(&history));
            return;
        }
        tally.passed += count;
        left -= count;
    }
    counts.print();
    println!("{events} events from seed {seed}: every answer and every word the same");
    check_counts(tally, &counts, events);
}

/// One history of so many events; the history itself where something differs.
fn drawn_history(random: &mut Random, count: u64, counts: &mut Counts) -> Result<(), History> {
    let store = draw::store(random);
    let mut pair = Pair::new(&store);
    let mut events = Vec::with_capacity(count as usize);
    for _ in 0..count {
        let before = pair.store().to_vec();
        let event = draw::event(random, &before);
        events.push(event);
        match pair.step(event) {
            Ok(answer) => counts.add(&before, event, answer),
            Err(_) => return Err(History { store, events }),
        }
    }
    Ok(())
}

/// In a run of the usual length or more every count must be above 0.
fn check_counts(tally: &mut Tally, counts: &Counts, events: u64) {
    let (met, missed) = counts.met_and_missed();
    if events >= EVENTS {
        tally.passed += met;
        tally.failed += missed.len() as u64;
    }
    for words in missed {
        println!("never met: {words}");
    }
}

/// Recordings, fixed and drawn, up to the first difference: each whole from all registers 0,
/// then from a drawn store, from a drawn place and into an output that may be short.
fn check_recordings(tally: &mut Tally, drawn: u64, seed: u64) {
    let mut random = Random::new(seed);
    let all = fixed();
    for at in 0..all.len() as u64 + drawn {
        let bytes = match all.get(at as usize) {
            Some(bytes) => bytes.clone(),
            None => recording(&mut random),
        };
        for replay in [Replay::whole(bytes.clone()), part(&mut random, bytes)] {
            if !tally.replay(&replay, seed) {
                return;
            }
        }
    }
    println!(
        "{} recordings ({drawn} drawn from seed {seed}), each whole and in part: every text and every word the same",
        all.len() as u64 + drawn
    );
}

/// A replay from a drawn store and place, half of them into an output that is short.
fn part(random: &mut Random, recording: Vec<u8>) -> Replay {
    let at = match random.below(4) {
        0 => 0,
        1 => recording.len() + random.below(3) as usize,
        _ => random.below(recording.len() as u32 + 1) as usize,
    };
    let room = match random.below(4) {
        0 => random.below(40) as usize,
        1 => random.below(4_000) as usize,
        _ => room_for(recording.len()),
    };
    Replay {
        store: draw::store(random),
        recording,
        at,
        room,
    }
}

/// Recordings that end near the limit, from drawn places near it, up to the first difference.
fn check_places(tally: &mut Tally, seed: u64) {
    let mut random = Random::new(seed);
    let mut replay = Replay::whole(vec![7; LIMIT + NEAR]);
    for _ in 0..PLACES {
        near_the_limit(&mut random, &mut replay);
        if !tally.replay(&replay, seed) {
            return;
        }
    }
    println!("{PLACES} places near the limit from seed {seed}: every text and every word the same");
}

/// Draws the bytes around the limit, and the rest of a replay.
fn near_the_limit(random: &mut Random, replay: &mut Replay) {
    let length = NEAR + random.below(20) as usize - 10;
    let mut bytes = recording(random);
    bytes.resize(length, 7);
    replay.recording.truncate(BEFORE);
    replay.recording.extend(bytes);
    replay.store = draw::store(random);
    replay.at = match random.below(3) {
        0 => BEFORE + random.below(NEAR as u32 + 15) as usize,
        _ => BEFORE,
    };
    replay.room = match random.below(3) {
        0 => random.below(100) as usize,
        _ => room_for(length),
    };
}

/// Recordings in pieces, up to the first difference: small ones in every cut, then drawn ones.
fn check_cuts(tally: &mut Tally, drawn: u64, seed: u64) {
    let mut random = Random::new(seed);
    let mut check = || -> Result<u64, Cut> {
        let every = cuts::every::check(&mut random)? + cuts::every::check_near_limit()?;
        cuts::draw::check(&mut random, drawn)?;
        Ok(every + drawn)
    };
    match check() {
        Ok(count) => {
            tally.passed += count;
            println!(
                "{count} cuts ({drawn} drawn from seed {seed}): every text and every word that of the uncut recording"
            );
        }
        Err(cut) => tally.cut(&cut, seed),
    }
}

/// Recordings at the edges of the limit: each whole, in part and in pieces, its text held to
/// what was counted by hand.
fn check_edges(tally: &mut Tally, seed: u64) {
    let mut random = Random::new(seed);
    let (all, mut longest) = (edges(), 0);
    for edge in &all {
        let bytes = (edge.make)();
        let cuts = [
            in_pieces(&bytes, 4_096, End::After),
            in_pieces(&bytes, 4_093, End::With),
        ];
        for cut in cuts {
            match cut.same() {
                Ok(text) => {
                    tally.edge(edge, &text);
                    longest = longest.max(text.len());
                }
                Err(_) => {
                    println!("at the limit, {}:", edge.name);
                    return tally.cut(&cut, seed);
                }
            }
        }
        for replay in [Replay::whole(bytes.clone()), part(&mut random, bytes)] {
            if !tally.replay(&replay, seed) {
                return;
            }
        }
    }
    println!(
        "{} recordings at the limit, each in pieces of 4,096 and of 4,093 bytes, whole and in part: every text and every word the same",
        all.len()
    );
    tally.check(longest == LONGEST_TEXT, || {
        format!("the longest text has {longest} bytes, not {LONGEST_TEXT}")
    });
}

/// A recording in pieces of so many bytes, from all registers 0, into outputs of 4,096 bytes.
fn in_pieces(recording: &[u8], length: usize, end: End) -> Cut {
    Cut {
        near_limit: false,
        store: vec![0; WORDS],
        pieces: recording.chunks(length).map(<[u8]>::to_vec).collect(),
        rooms: vec![4_096],
        end,
    }
}

//! 01's readings, and some of request E1, worked out by hand: what is in the store,
//! what happens, what is answered, and which words are other than before.

use peer::{Answer, Event};

use crate::fields::{PDR, SR0, SR1, SR3};
use crate::history::Pair;
use crate::print::answer_text;

/// One event of a reading, its answer, and the words it changes.
pub struct Step {
    pub event: Event,
    pub answer: Answer,
    pub changed: Vec<(usize, u16)>,
}

/// A reading: the words that are not 0 at first, and its steps.
pub struct Reading {
    pub name: &'static str,
    pub words: Vec<(usize, u16)>,
    pub steps: Vec<Step>,
}

pub fn step(event: Event, answer: Answer, changed: &[(usize, u16)]) -> Step {
    Step {
        event,
        answer,
        changed: changed.to_vec(),
    }
}

pub fn reading(name: &'static str, words: &[(usize, u16)], steps: Vec<Step>) -> Reading {
    Reading {
        name,
        words: words.to_vec(),
        steps,
    }
}

pub const READ: u32 = 0;
pub const WRITE: u32 = 1;

/// A Kernel reference in the instruction stream and phase 0.
pub fn kernel(access: u32, va: u16) -> Event {
    reference(0, 0, access, 0, va)
}

pub fn reference(mode: u32, space: u32, access: u32, phase: u32, va: u16) -> Event {
    Event::Reference {
        mode,
        space,
        access,
        phase,
        va,
    }
}

/// A grant by the page at a place.
pub fn granted(byte: u32, place: u8) -> Answer {
    grant(byte, Some(place), false)
}

pub fn trapped(byte: u32, place: u8) -> Answer {
    grant(byte, Some(place), true)
}

/// A grant of rule 1, by no page.
pub fn unrelocated(byte: u32) -> Answer {
    grant(byte, None, false)
}

fn grant(byte: u32, page: Option<u8>, trap: bool) -> Answer {
    Answer::Granted { byte, page, trap }
}

pub fn aborted(nonresident: bool, length: bool, readonly: bool) -> Answer {
    Answer::Aborted {
        nonresident,
        length,
        readonly,
    }
}

/// "Readings to check by".
pub fn readings() -> Vec<Reading> {
    let mut all = addresses();
    all.extend(lengths());
    all.extend(two_flags());
    all.extend(status());
    all.extend(pages_served());
    all
}

fn addresses() -> Vec<Reading> {
    let on = (SR0, 0o000001);
    let top = |par| [on, (7, par), (PDR + 7, 0o077406)];
    vec![
        reading(
            "PAR 3456, VA 167456: byte 355256",
            &top(0o3456),
            vec![step(kernel(READ, 0o167456), granted(0o355256, 7), &[])],
        ),
        reading(
            "PAR 7777, VA 000100: byte 000000",
            &[on, (0, 0o7777), (PDR, 0o077406)],
            vec![step(kernel(READ, 0o000100), granted(0o000000, 0), &[])],
        ),
        reading(
            "relocation off: 157777 stays",
            &[],
            vec![step(kernel(READ, 0o157777), unrelocated(0o157777), &[])],
        ),
        reading(
            "relocation off: 160000 gives 760000",
            &[],
            vec![step(kernel(READ, 0o160000), unrelocated(0o760000), &[])],
        ),
        reading(
            "PAR 7600, VA 172340, key 6, write: byte 772340, W stays clear",
            &top(0o7600),
            vec![step(kernel(WRITE, 0o172340), granted(0o772340, 7), &[])],
        ),
    ]
}

fn lengths() -> Vec<Reading> {
    let page = |pdr| [(SR0, 0o000001), (PDR, pdr)];
    let past = aborted(false, true, false);
    let (up, down) = (0o051 << 8 | 0o6, 0o126 << 8 | 0o16);
    let all_blocks = || (0..0o200).map(|block| block << 6);
    vec![
        reading(
            "ED 0, length 051: VA 005177 granted, 005200 aborted",
            &page(up),
            vec![
                step(kernel(READ, 0o005177), granted(0o005177, 0), &[]),
                step(kernel(READ, 0o005200), past, &[(SR0, 0o040001)]),
            ],
        ),
        reading(
            "ED 1, length 126: VA 012600 granted, 012577 aborted",
            &page(down),
            vec![
                step(kernel(READ, 0o012600), granted(0o012600, 0), &[]),
                step(kernel(READ, 0o012577), past, &[(SR0, 0o040001)]),
            ],
        ),
        reading(
            "length 0, ED 0 allows block 0 only",
            &page(0o000006),
            all_blocks()
                .map(|va| match va {
                    0 => step(kernel(READ, va), granted(0, 0), &[]),
                    _ => step(kernel(READ, va), past, &[(SR0, 0o040001)]),
                })
                .collect(),
        ),
        reading(
            "length 0, ED 1 allows all",
            &page(0o000016),
            all_blocks()
                .map(|va| step(kernel(READ, va), granted(u32::from(va), 0), &[]))
                .collect(),
        ),
    ]
}

fn two_flags() -> Vec<Reading> {
    let page = |pdr| [(SR0, 0o000001), (PDR, pdr)];
    vec![
        reading(
            "key 0 past the length: flags 140000",
            &page(0o000000),
            vec![step(
                kernel(READ, 0o000100),
                aborted(true, true, false),
                &[(SR0, 0o140001)],
            )],
        ),
        reading(
            "key 2, write past the length: 060000",
            &page(0o000002),
            vec![step(
                kernel(WRITE, 0o000100),
                aborted(false, true, true),
                &[(SR0, 0o060001)],
            )],
        ),
    ]
}

fn status() -> Vec<Reading> {
    let user_3 = PDR + 32 + 3;
    let change = |register, amount| Event::Change { register, amount };
    let all_ones = Event::Write {
        address: 0o777572,
        value: 0o177777,
    };
    vec![
        reading(
            "SR0 000001, mode 2, phase 0, VA 160000: SR0 100117",
            &[(SR0, 0o000001)],
            vec![step(
                reference(2, 0, READ, 0, 0o160000),
                aborted(true, false, false),
                &[(SR0, 0o100117)],
            )],
        ),
        reading(
            "SR0 001001, User I page 3, key 4, permitted read: SR0 011147",
            &[(SR0, 0o001001), (user_3, 0o077404)],
            vec![step(
                reference(3, 0, READ, 0, 0o060000),
                trapped(0, 35),
                &[(SR0, 0o011147), (user_3, 0o077604)],
            )],
        ),
        reading(
            "from SR1 0, register 6 by -2: 000366; then 1 by +2: 010766",
            &[],
            vec![
                step(change(6, -2), Answer::Done, &[(SR1, 0o000366)]),
                step(change(1, 2), Answer::Done, &[(SR1, 0o010766)]),
            ],
        ),
        reading(
            "SR0 holding 0, write 177777: 171401",
            &[],
            vec![step(all_ones, Answer::Done, &[(SR0, 0o171401)])],
        ),
    ]
}

/// Request E1: the page that served.
fn pages_served() -> Vec<Reading> {
    let on = (SR0, 0o000001);
    let data = reference(3, 1, READ, 0, 0o160000);
    vec![
        reading(
            "data, D enabled for User: User D 7, place 47",
            &[on, (SR3, 0o000001), (PDR + 47, 0o077406)],
            vec![step(data, granted(0, 47), &[])],
        ),
        reading(
            "data, D enabled for the others only: User I 7, place 39",
            &[on, (SR3, 0o000016), (PDR + 39, 0o077406)],
            vec![step(data, granted(0, 39), &[])],
        ),
        reading(
            "relocation off, mode 2: no page",
            &[(PDR, 0o077406)],
            vec![step(reference(2, 0, READ, 0, 0), unrelocated(0), &[])],
        ),
    ]
}

/// Runs a reading on both sides; what is wrong, if anything.
pub fn run(reading: &Reading) -> Result<(), String> {
    let mut store = [0; 100];
    for &(place, word) in &reading.words {
        store[place] = word;
    }
    let mut pair = Pair::new(&store);
    for (at, step) in reading.steps.iter().enumerate() {
        let Ok(answer) = pair.step(step.event) else {
            return Err(format!("step {}: the two sides differ", at + 1));
        };
        if answer != step.answer {
            let (is, wanted) = (answer_text(answer), answer_text(step.answer));
            return Err(format!("step {}: {is}, not {wanted}", at + 1));
        }
        for &(place, word) in &step.changed {
            store[place] = word;
        }
        if pair.store() != store {
            return Err(format!(
                "step {}: both stores are other than 01 says",
                at + 1
            ));
        }
    }
    Ok(())
}

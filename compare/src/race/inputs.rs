//! The rows and their events, drawn from a seed.

use peer::{Answer, Event};

use crate::draw;
use crate::fields::{address_of, PDR, SR0, SR1, SR3, WORDS};
use crate::race::rows::{any, Reference, Row, Work};
use crate::race::sides::OWN;
use crate::random::Random;

/// Events in a row.
const EVENTS: usize = 1 << 15;

pub fn rows(seed: u64) -> Vec<Row> {
    let random = &mut Random::new(seed);
    let mut rows = vec![
        in_order(random),
        row(
            "references granted",
            open(random, 0o6, 0o000001),
            None,
            list(random, valid),
        ),
        at_registers(random),
        trapped(random),
        aborted(random, "references aborted, frozen", Some((SR0, 0o100001))),
        aborted(
            random,
            "references aborted, not frozen",
            Some((SR0, 0o000001)),
        ),
        row("relocation off", [0; WORDS], None, list(random, valid)),
        row(
            "references, mixed",
            pages(random),
            Some((SR0, 0o001001)),
            list(random, mixed),
        ),
    ];
    rows.extend(registers(random));
    rows.extend(starts(random));
    rows.push(everything(random));
    rows
}

fn row(
    name: &'static str,
    store: [u16; WORDS],
    before: Option<(usize, u16)>,
    references: Vec<Reference>,
) -> Row {
    Row {
        name,
        store,
        before,
        work: Work::References(references),
    }
}

fn list<T>(random: &mut Random, draw: impl Fn(&mut Random) -> T) -> Vec<T> {
    (0..EVENTS).map(|_| draw(random)).collect()
}

/// Every page whole with one key, below the I/O page; D space for all.
pub fn open(random: &mut Random, key: u16, sr0: u16) -> [u16; WORDS] {
    let mut store = [0; WORDS];
    for page in 0..PDR {
        store[page] = random.below(0o7000) as u16;
        store[PDR + page] = 0o077400 | key;
    }
    store[SR0] = sr0;
    store[SR3] = 0o7;
    store
}

/// Pages of every key and length.
pub fn pages(random: &mut Random) -> [u16; WORDS] {
    let mut store = [0; WORDS];
    for page in 0..PDR {
        store[page] = random.word() & 0o7777;
        store[PDR + page] = random.word() & 0o077417;
    }
    store[SR0] = 0o001001;
    store[SR3] = 0o7;
    store
}

pub fn valid(random: &mut Random) -> Reference {
    Reference {
        mode: random.pick(&[0, 1, 3]),
        space: random.below(2),
        access: random.below(2),
        phase: random.below(2),
        va: random.word(),
    }
}

/// One mode runs through its addresses, every fourth time to data that it writes:
/// the branches of both sides are foreseen.
fn in_order(random: &mut Random) -> Row {
    let references = (0..EVENTS).map(|n| {
        let data = u32::from(n % 4 == 3);
        Reference {
            mode: 3,
            space: data,
            access: data,
            phase: 0,
            va: (2 * n) as u16,
        }
    });
    let store = open(random, 0o6, 0o000001);
    row(
        "references granted, in order",
        store,
        None,
        references.collect(),
    )
}

/// Mode 2 among the others, and now and then a number that is refused.
fn mixed(random: &mut Random) -> Reference {
    let wrong = u32::from(random.percent(2));
    Reference {
        mode: random.below(4) + 4 * wrong,
        ..valid(random)
    }
}

/// Every page comes to the last 8192 bytes; the references go to registers there.
fn at_registers(random: &mut Random) -> Row {
    let mut store = open(random, 0o6, 0o000001);
    store[..PDR].fill(0o7600);
    let draw = |random: &mut Random| {
        let mut reference = valid(random);
        let byte = address_of(random.below(WORDS as u32) as usize);
        reference.va = reference.va & 0o160000 | byte as u16 & 0o017777;
        reference
    };
    row(
        "references granted, in registers",
        store,
        None,
        list(random, draw),
    )
}

fn trapped(random: &mut Random) -> Row {
    let store = open(random, 0o4, 0o001001);
    let before = Some((SR0, 0o001001));
    row(
        "references granted, trap",
        store,
        before,
        list(random, valid),
    )
}

/// References that are aborted, for every reason there is.
fn aborted(random: &mut Random, name: &'static str, before: Option<(usize, u16)>) -> Row {
    let store = pages(random);
    let draw = |random: &mut Random| loop {
        let r = valid(random);
        if let Answer::Aborted { .. } = any(&OWN, &mut store.clone(), r.event()) {
            return r;
        }
    };
    row(name, store, before, list(random, draw))
}

fn registers(random: &mut Random) -> Vec<Row> {
    let register = |random: &mut Random| address_of(random.below(WORDS as u32) as usize);
    let nowhere = |random: &mut Random| match random.below(3) {
        0 => register(random) + 1,
        1 => register(random) | 1 << 18,
        _ => random.below(0o772200) & !1,
    };
    let write = |random: &mut Random| (register(random), random.word());
    let store = pages(random);
    let named = |name, work| Row {
        name,
        store,
        before: None,
        work,
    };
    let in_order = (0..EVENTS).map(|n| address_of(n % WORDS)).collect();
    vec![
        named("register reads, in order", Work::Reads(in_order)),
        named("register reads", Work::Reads(list(random, register))),
        named("register reads refused", Work::Reads(list(random, nowhere))),
        named("register writes", Work::Writes(list(random, write))),
    ]
}

fn starts(random: &mut Random) -> Vec<Row> {
    let change = |random: &mut Random| (random.below(8), random.pick(&[-2, -1, 1, 2]));
    let named = |name, before, work| Row {
        name,
        store: [0; WORDS],
        before,
        work,
    };
    let triples = list(random, |random| {
        let (register, amount) = change(random);
        match random.below(3) {
            0 => Event::Instruction { va: random.word() },
            1 => Event::Interrupt {
                vector: random.word(),
            },
            _ => Event::Change { register, amount },
        }
    });
    vec![
        named("starts", None, Work::Starts(list(random, Random::word))),
        named(
            "noted changes",
            Some((SR1, 0)),
            Work::Changes(list(random, change)),
        ),
        named("starts and noted changes", None, Work::Events(triples)),
    ]
}

/// Drawn events of every kind, one after another on one store.
fn everything(random: &mut Random) -> Row {
    let store = pages(random);
    let mut now = store;
    let mut events = Vec::with_capacity(EVENTS);
    for _ in 0..EVENTS {
        let event = draw::event(random, &now);
        any(&OWN, &mut now, event);
        events.push(event);
    }
    Row {
        name: "events of every kind",
        store,
        before: None,
        work: Work::Events(events),
    }
}

//! 01's whole case and its "Slips we have seen", as readings.

use peer::{Answer, Event};

use crate::fields::{PDR, SR0, SR2, SR3};
use crate::readings::{
    aborted, granted, kernel, reading, reference, step, trapped, Reading, READ, WRITE,
};

const USER_I: usize = 32;
const ON: (usize, u16) = (SR0, 0o000001);
const ON_WITH_TRAPS: (usize, u16) = (SR0, 0o001001);

fn write(address: u32, value: u16) -> Event {
    Event::Write { address, value }
}

/// The recording of 01's "Whole case", record by record.
pub fn whole_case() -> Reading {
    let read = Event::Read { address: 0o772316 };
    reading(
        "the whole case",
        &[],
        vec![
            step(write(0o772356, 0o003456), Answer::Done, &[(7, 0o003456)]),
            step(
                write(0o772316, 0o077406),
                Answer::Done,
                &[(PDR + 7, 0o077406)],
            ),
            step(write(0o777572, 0o000001), Answer::Done, &[ON]),
            step(kernel(READ, 0o167456), granted(0o355256, 7), &[]),
            step(read, Answer::Word(0o077406), &[]),
        ],
    )
}

pub fn slips() -> Vec<Reading> {
    let mut all = vec![downward_length(), aborted_write(), bit_9(), trap_freezes()];
    all.extend([space_recorded(), par_write()]);
    all
}

fn downward_length() -> Reading {
    let pdr = 0o126 << 8 | 0o16;
    reading(
        "slip: a downward length of 126 is no count of blocks",
        &[ON, (PDR, pdr)],
        (0..0o200)
            .map(|block| match block {
                0o126.. => step(
                    kernel(READ, block << 6),
                    granted(u32::from(block) << 6, 0),
                    &[],
                ),
                _ => step(
                    kernel(READ, block << 6),
                    aborted(false, true, false),
                    &[(SR0, 0o040001)],
                ),
            })
            .collect(),
    )
}

fn aborted_write() -> Reading {
    reading(
        "slip: an aborted write leaves W clear",
        &[ON, (PDR, 0o077402), (PDR + 1, 0o000006)],
        vec![
            step(
                kernel(WRITE, 0o000100),
                aborted(false, false, true),
                &[(SR0, 0o020001)],
            ),
            step(
                kernel(WRITE, 0o020100),
                aborted(false, true, false),
                &[(SR0, 0o060001)],
            ),
        ],
    )
}

fn bit_9() -> Reading {
    reading(
        "slip: bit 9 clear holds back the trap but not A",
        &[ON, (PDR, 0o077405)],
        vec![step(
            kernel(WRITE, 0o000100),
            granted(0o000100, 0),
            &[(PDR, 0o077705)],
        )],
    )
}

fn trap_freezes() -> Reading {
    let second = reference(0, 0, READ, 1, 0o120000);
    let (page_0, page_5) = ((PDR, 0o077604), (PDR + 5, 0o077601));
    reading(
        "slip: a trap does not freeze",
        &[ON_WITH_TRAPS, (PDR, 0o077404), (PDR + 5, 0o077401)],
        vec![
            step(kernel(READ, 0), trapped(0, 0), &[(SR0, 0o011001), page_0]),
            step(
                Event::Instruction { va: 0o001234 },
                Answer::Done,
                &[(SR2, 0o001234)],
            ),
            step(second, trapped(0, 5), &[(SR0, 0o011213), page_5]),
        ],
    )
}

fn space_recorded() -> Reading {
    let data = reference(3, 1, READ, 0, 0o040000);
    let absent = aborted(true, false, false);
    reading(
        "slip: a data reference that used the I set records 0",
        &[ON, (SR3, 0o000016), (USER_I + 2, 0o000100)],
        vec![
            step(data, absent, &[(SR0, 0o100145)]),
            step(Event::Init, Answer::Done, &[(SR0, 0), (SR3, 0)]),
            step(write(0o777572, 0o000001), Answer::Done, &[ON]),
            step(write(0o772516, 0o000001), Answer::Done, &[(SR3, 0o000001)]),
            step(data, absent, &[(SR0, 0o100165)]),
        ],
    )
}

fn par_write() -> Reading {
    reading(
        "slip: a PAR write clears A and W, as a PDR write does",
        &[(7, 0o001111), (PDR + 7, 0o177777)],
        vec![
            step(
                write(0o772356, 0o173456),
                Answer::Done,
                &[(7, 0o003456), (PDR + 7, 0o177477)],
            ),
            step(
                write(0o772316, 0o177777),
                Answer::Done,
                &[(PDR + 7, 0o077417)],
            ),
        ],
    )
}

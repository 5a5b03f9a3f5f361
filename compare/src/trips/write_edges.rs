//! What single writes must have met.

use peer::Event;

use crate::met::Met;
use crate::trips::writes::Write;
use crate::trips::{kind, length};

pub const WRITES: &[&str] = &[
    "reference written",
    "read written",
    "write written",
    "instruction written",
    "interrupt written",
    "change written",
    "init written",
    "refused 2",
    "refused 3",
    "refused 4",
    "refused 5",
    "refused 6",
    "refused 9",
    "refused 14",
    "refused 2, and no room either",
    "refused 3, and no room either",
    "refused 4, and no room either",
    "refused 5, and no room either",
    "refused 6, and no room either",
    "refused 9, and no room either",
    "refused 2, another field too large",
    "refused 3, another field too large",
    "refused 4, another field too large",
    "refused 9, both fields too large",
    "255 written",
    "256 refused",
    "77777777 (octal) written",
    "100000000 (octal) refused",
    "-128 written",
    "-129 refused",
    "127 written",
    "128 refused",
    "exactly fitting",
    "one byte short",
    "a buffer of 0 bytes",
    "a full buffer",
    "used beyond the buffer",
    "used as large as can be",
];

/// Counts a write by its answer.
pub fn add(met: &mut Met, write: &Write, answer: Result<usize, u8>) {
    let large = too_large(write.event);
    let needs = length(write.event);
    let room = write.buffer.len().checked_sub(write.used);
    match answer {
        Ok(_) => met.when(&format!("{} written", kind(write.event)), true),
        Err(number) => {
            let refused = format!("refused {number}");
            met.when(&refused, true);
            if number != 14 {
                let tight = room.unwrap_or(0) < needs;
                met.when(&format!("{refused}, and no room either"), tight);
            }
            if let [_, _, ..] = large[..] {
                let other = match number {
                    9 => "both fields",
                    _ => "another field",
                };
                met.when(&format!("{refused}, {other} too large"), true);
            }
        }
    }
    met.when("exactly fitting", answer.is_ok() && room == Some(needs));
    met.when(
        "one byte short",
        answer == Err(14) && room == Some(needs - 1),
    );
    met.when("a buffer of 0 bytes", write.buffer.is_empty());
    met.when("a full buffer", room == Some(0));
    met.when("used beyond the buffer", room.is_none());
    met.when("used as large as can be", write.used == usize::MAX);
    ends(met, write.event, answer.is_ok());
}

/// Counts the fields at the ends of what their bytes hold.
fn ends(met: &mut Met, event: Event, written: bool) {
    match event {
        Event::Reference {
            mode,
            space,
            access,
            phase,
            ..
        } => {
            let fields = [mode, space, access, phase];
            met.when("255 written", written && fields.contains(&255));
            met.when("256 refused", !written && fields.contains(&256));
        }
        Event::Read { address } | Event::Write { address, .. } => {
            let (last, next) = (0o77777777, 0o100000000);
            met.when("77777777 (octal) written", written && address == last);
            met.when("100000000 (octal) refused", !written && address == next);
        }
        Event::Change { amount, .. } => {
            met.when("-128 written", written && amount == -128);
            met.when("127 written", written && amount == 127);
            met.when("-129 refused", !written && amount == -129);
            met.when("128 refused", !written && amount == 128);
        }
        Event::Instruction { .. } | Event::Interrupt { .. } | Event::Init => {}
    }
}

/// The refusals of the fields that are too large, in the order of the fields.
fn too_large(event: Event) -> Vec<u8> {
    let fields = match event {
        Event::Reference {
            mode,
            space,
            access,
            phase,
            ..
        } => vec![
            (2, mode > 255),
            (3, space > 255),
            (4, access > 255),
            (5, phase > 255),
        ],
        Event::Read { address } | Event::Write { address, .. } => vec![(6, address >= 1 << 24)],
        Event::Change { register, amount } => {
            vec![(9, register > 255), (9, !(-128..=127).contains(&amount))]
        }
        Event::Instruction { .. } | Event::Interrupt { .. } | Event::Init => vec![],
    };
    let large = fields.into_iter().filter(|(_, large)| *large);
    large.map(|(number, _)| number).collect()
}

#[cfg(test)]
mod tests {
    use super::*;

    /// Checks which things, and no others, are met by a write into 8 bytes.
    #[track_caller]
    fn meets(used: usize, event: Event, answer: Result<usize, u8>, things: &[&str]) {
        let mut buffer = vec![0; 8];
        assert_eq!(peer::write_record(&mut buffer, used, event), answer);
        let mut met = Met::new(WRITES);
        let write = Write {
            buffer,
            used,
            event,
        };
        add(&mut met, &write, answer);
        let (count, missed) = met.met_and_missed();
        assert_eq!(count as usize, things.len());
        assert!(things.iter().all(|thing| !missed.contains(thing)));
    }

    #[test]
    fn a_write_meets_what_is_in_it() {
        let change = |register, amount| Event::Change { register, amount };
        let read = |address| Event::Read { address };
        meets(0, Event::Init, Ok(1), &["init written"]);
        meets(7, Event::Init, Ok(8), &["init written", "exactly fitting"]);
        let full = ["refused 14", "one byte short", "a full buffer"];
        meets(8, Event::Init, Err(14), &full);
        meets(
            9,
            Event::Init,
            Err(14),
            &["refused 14", "used beyond the buffer"],
        );
        let short = ["refused 9", "refused 9, and no room either", "128 refused"];
        meets(6, change(0, 128), Err(9), &short);
        let both = ["refused 9", "refused 9, both fields too large"];
        meets(0, change(256, 500), Err(9), &both);
        let last = ["read written", "77777777 (octal) written"];
        meets(0, read((1 << 24) - 1), Ok(4), &last);
        meets(0, read(u32::MAX), Err(6), &["refused 6"]);
    }
}

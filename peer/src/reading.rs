//! Reading: the record that stands at a place of a recording.

use crate::events::Event;
use crate::refusals;

/// What stands at a place of a recording.
#[derive(Clone, Copy, Debug, PartialEq, Eq)]
pub enum Found {
    /// An event, and the place after its record.
    Event(Event, usize),
    /// Refusal 11 or 12.
    Refused(u8),
    /// The end of the recording.
    End,
}

/// Request E2: reads the record at a place; at or beyond the end there is none.
/// The recording may have any length: refusal 13 belongs to a replay.
pub fn read_record(recording: &[u8], at: usize) -> Found {
    match recording.get(at..) {
        None | Some([]) => Found::End,
        Some(rest) => match first_record(rest) {
            Ok((event, after)) => Found::Event(event, recording.len() - after.len()),
            Err(number) => Found::Refused(number),
        },
    }
}

/// The first record of a recording not yet at its end, and what follows it; or
/// refusal 11 or 12.
#[inline(always)]
pub fn first_record(recording: &[u8]) -> Result<(Event, &[u8]), u8> {
    let (&[kind], rest) = split(recording)?;
    match kind {
        1 => {
            let (&[mode, space, access, phase, v0, v1], rest) = split(rest)?;
            let event = Event::Reference {
                mode: u32::from(mode),
                space: u32::from(space),
                access: u32::from(access),
                phase: u32::from(phase),
                va: u16::from_le_bytes([v0, v1]),
            };
            Ok((event, rest))
        }
        2 => {
            let (&[a0, a1, a2], rest) = split(rest)?;
            let address = u32::from_le_bytes([a0, a1, a2, 0]);
            Ok((Event::Read { address }, rest))
        }
        3 => {
            let (&[a0, a1, a2, v0, v1], rest) = split(rest)?;
            let address = u32::from_le_bytes([a0, a1, a2, 0]);
            let value = u16::from_le_bytes([v0, v1]);
            Ok((Event::Write { address, value }, rest))
        }
        4 => {
            let (&bytes, rest) = split(rest)?;
            let va = u16::from_le_bytes(bytes);
            Ok((Event::Instruction { va }, rest))
        }
        5 => {
            let (&bytes, rest) = split(rest)?;
            let vector = u16::from_le_bytes(bytes);
            Ok((Event::Interrupt { vector }, rest))
        }
        6 => {
            let (&[register, amount], rest) = split(rest)?;
            let register = u32::from(register);
            let amount = i32::from(amount as i8);
            Ok((Event::Change { register, amount }, rest))
        }
        7 => Ok((Event::Init, rest)),
        _ => Err(refusals::RECORD_KIND),
    }
}

/// The first `N` bytes and what follows them; or refusal 12.
#[inline(always)]
fn split<const N: usize>(bytes: &[u8]) -> Result<(&[u8; N], &[u8]), u8> {
    bytes.split_first_chunk().ok_or(refusals::RECORD_CUT_SHORT)
}

//! Writing: an event's record, appended to a lent buffer.

use crate::events::Event;
use crate::refusals;

/// The bytes of the longest record, a reference's.
pub const LONGEST_RECORD: usize = 7;

/// Request E2: appends the event's record after the bytes already used and gives
/// the new number of used bytes. A field too large for its bytes is refused
/// first, by its number, then a record that doesn't fit, by 14; a refusal leaves
/// the buffer alone.
pub fn write_record(buffer: &mut [u8], used: usize, event: Event) -> Result<usize, u8> {
    match event {
        Event::Reference {
            mode,
            space,
            access,
            phase,
            va,
        } => {
            let mode = byte(mode, refusals::MODE)?;
            let space = byte(space, refusals::SPACE)?;
            let access = byte(access, refusals::ACCESS)?;
            let phase = byte(phase, refusals::PHASE)?;
            let [v0, v1] = va.to_le_bytes();
            append(buffer, used, [1, mode, space, access, phase, v0, v1])
        }
        Event::Read { address } => {
            let [a0, a1, a2] = three_bytes(address)?;
            append(buffer, used, [2, a0, a1, a2])
        }
        Event::Write { address, value } => {
            let [a0, a1, a2] = three_bytes(address)?;
            let [v0, v1] = value.to_le_bytes();
            append(buffer, used, [3, a0, a1, a2, v0, v1])
        }
        Event::Instruction { va } => {
            let [v0, v1] = va.to_le_bytes();
            append(buffer, used, [4, v0, v1])
        }
        Event::Interrupt { vector } => {
            let [v0, v1] = vector.to_le_bytes();
            append(buffer, used, [5, v0, v1])
        }
        Event::Change { register, amount } => {
            let register = byte(register, refusals::CHANGE)?;
            let amount = i8::try_from(amount).map_err(|_| refusals::CHANGE)?;
            append(buffer, used, [6, register, amount as u8])
        }
        Event::Init => append(buffer, used, [7]),
    }
}

/// A field of one byte; the refusal of this number if it is too large.
fn byte(field: u32, number: u8) -> Result<u8, u8> {
    u8::try_from(field).map_err(|_| number)
}

/// A register address in its three bytes, low byte first.
fn three_bytes(address: u32) -> Result<[u8; 3], u8> {
    match address.to_le_bytes() {
        [a0, a1, a2, 0] => Ok([a0, a1, a2]),
        _ => Err(refusals::ADDRESS_TOO_HIGH),
    }
}

/// Puts a record's bytes after the used ones, or gives refusal 14.
fn append<const N: usize>(buffer: &mut [u8], used: usize, record: [u8; N]) -> Result<usize, u8> {
    let room = buffer
        .get_mut(used..)
        .and_then(|free| free.first_chunk_mut())
        .ok_or(refusals::NO_ROOM)?;
    *room = record;
    Ok(used + N)
}

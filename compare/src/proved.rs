//! The proved libraries: the functions of include/kt11c.h, each behind a safe one.

use peer::{Answer, Event};

use crate::codes::{decode, Stray};
use crate::record_codes::{decode_found, decode_written, Standing};

/// The functions as C sees them. Each is owed a pointer to as many words, or bytes, as it is told.
pub mod raw {
    extern "C" {
        pub fn kt11c_reference(
            store: *mut u16,
            words: usize,
            mode: u32,
            space: u32,
            access: u32,
            phase: u32,
            va: u16,
        ) -> u32;
        pub fn kt11c_read(store: *const u16, words: usize, address: u32) -> u32;
        pub fn kt11c_write(store: *mut u16, words: usize, address: u32, value: u16) -> u32;
        pub fn kt11c_instruction(store: *mut u16, words: usize, va: u16) -> u32;
        pub fn kt11c_interrupt(store: *mut u16, words: usize, vector: u16) -> u32;
        pub fn kt11c_change(store: *mut u16, words: usize, register: u32, amount: i32) -> u32;
        pub fn kt11c_init(store: *mut u16, words: usize) -> u32;
        pub fn kt11c_feed(
            store: *mut u16,
            words: usize,
            state: *mut u64,
            piece: *const u8,
            bytes: usize,
            last: bool,
            out: *mut u8,
            room: usize,
        ) -> usize;
        pub fn kt11c_replay(
            store: *mut u16,
            words: usize,
            recording: *const u8,
            bytes: usize,
            at: usize,
            out: *mut u8,
            room: usize,
        ) -> usize;
        pub fn kt11c_record_reference(
            buffer: *mut u8,
            room: usize,
            used: usize,
            mode: u32,
            space: u32,
            access: u32,
            phase: u32,
            va: u16,
        ) -> u32;
        pub fn kt11c_record_read(buffer: *mut u8, room: usize, used: usize, address: u32) -> u32;
        pub fn kt11c_record_write(
            buffer: *mut u8,
            room: usize,
            used: usize,
            address: u32,
            value: u16,
        ) -> u32;
        pub fn kt11c_record_instruction(buffer: *mut u8, room: usize, used: usize, va: u16) -> u32;
        pub fn kt11c_record_interrupt(
            buffer: *mut u8,
            room: usize,
            used: usize,
            vector: u16,
        ) -> u32;
        pub fn kt11c_record_change(
            buffer: *mut u8,
            room: usize,
            used: usize,
            register: u32,
            amount: i32,
        ) -> u32;
        pub fn kt11c_record_init(buffer: *mut u8, room: usize, used: usize) -> u32;
        pub fn kt11c_event_at(recording: *const u8, bytes: usize, at: usize) -> u64;
        pub fn kt11c_place_after(recording: *const u8, bytes: usize, at: usize) -> usize;
    }
}

pub type Answered = Result<Answer, Stray>;

/// A reference: granted, aborted or refused.
pub fn reference(
    store: &mut [u16],
    mode: u32,
    space: u32,
    access: u32,
    phase: u32,
    va: u16,
) -> Answered {
    let words = store.len();
    // SAFETY: the slice is `words` words that only this call reaches.
    decode(unsafe {
        raw::kt11c_reference(store.as_mut_ptr(), words, mode, space, access, phase, va)
    })
}

/// Register read.
pub fn read_register(store: &[u16], address: u32) -> Answered {
    // SAFETY: as above, and the words are only read.
    decode(unsafe { raw::kt11c_read(store.as_ptr(), store.len(), address) })
}

/// Register write.
pub fn write_register(store: &mut [u16], address: u32, value: u16) -> Answered {
    // SAFETY: as above.
    decode(unsafe { raw::kt11c_write(store.as_mut_ptr(), store.len(), address, value) })
}

/// Instruction start at a virtual address.
pub fn instruction_start(store: &mut [u16], va: u16) -> Answered {
    // SAFETY: as above.
    decode(unsafe { raw::kt11c_instruction(store.as_mut_ptr(), store.len(), va) })
}

/// Interrupt start with a vector.
pub fn interrupt_start(store: &mut [u16], vector: u16) -> Answered {
    // SAFETY: as above.
    decode(unsafe { raw::kt11c_interrupt(store.as_mut_ptr(), store.len(), vector) })
}

/// Register change noted.
pub fn note_change(store: &mut [u16], register: u32, amount: i32) -> Answered {
    // SAFETY: as above.
    decode(unsafe { raw::kt11c_change(store.as_mut_ptr(), store.len(), register, amount) })
}

/// INIT.
pub fn init(store: &mut [u16]) -> Answered {
    // SAFETY: as above.
    decode(unsafe { raw::kt11c_init(store.as_mut_ptr(), store.len()) })
}

/// The longest line: a grant's.
pub const LONGEST_LINE: usize = 14;

/// The longest transcript: 4,194,304 register reads, and a byte beyond the limit.
pub const LONGEST_TEXT: usize = 37_748_741;

/// A room that holds the text of any recording of so many bytes.
pub fn room_for(bytes: usize) -> usize {
    LONGEST_TEXT.min(3 * bytes + 5)
}

/// What is kept between two pieces of a recording.
pub type State = [u64; 11];

/// Whether the run is over.
pub fn is_over(state: &State) -> bool {
    state[9] != 0
}

/// How many bytes of its piece the last call took.
pub fn taken(state: &State) -> u64 {
    state[10]
}

/// A piece of a recording replayed as far as whole lines fit; how many bytes were written.
pub fn feed(
    store: &mut [u16],
    state: &mut State,
    piece: &[u8],
    last: bool,
    out: &mut [u8],
) -> usize {
    // SAFETY: as above; the piece is only read, and the state and the output are this call's alone.
    unsafe {
        raw::kt11c_feed(
            store.as_mut_ptr(),
            store.len(),
            state.as_mut_ptr(),
            piece.as_ptr(),
            piece.len(),
            last,
            out.as_mut_ptr(),
            out.len(),
        )
    }
}

/// A recording replayed from a place on, as far as whole lines fit; how many bytes were written.
pub fn replay(store: &mut [u16], recording: &[u8], at: usize, out: &mut [u8]) -> usize {
    // SAFETY: as above; the recording is only read, and the output is this call's alone.
    unsafe {
        raw::kt11c_replay(
            store.as_mut_ptr(),
            store.len(),
            recording.as_ptr(),
            recording.len(),
            at,
            out.as_mut_ptr(),
            out.len(),
        )
    }
}

/// Applies one event.
pub fn apply(store: &mut [u16], event: Event) -> Answered {
    match event {
        Event::Reference {
            mode,
            space,
            access,
            phase,
            va,
        } => reference(store, mode, space, access, phase, va),
        Event::Read { address } => read_register(store, address),
        Event::Write { address, value } => write_register(store, address, value),
        Event::Instruction { va } => instruction_start(store, va),
        Event::Interrupt { vector } => interrupt_start(store, vector),
        Event::Change { register, amount } => note_change(store, register, amount),
        Event::Init => init(store),
    }
}

/// The new number of used bytes, or the refusal's number.
pub type Written = Result<Result<usize, u8>, Stray>;

/// An event's record appended to the used bytes of a buffer.
pub fn write_record(buffer: &mut [u8], used: usize, event: Event) -> Written {
    let (start, room) = (buffer.as_mut_ptr(), buffer.len());
    // SAFETY: the slice is `room` bytes that only this call reaches.
    let code = unsafe {
        match event {
            Event::Reference {
                mode,
                space,
                access,
                phase,
                va,
            } => raw::kt11c_record_reference(start, room, used, mode, space, access, phase, va),
            Event::Read { address } => raw::kt11c_record_read(start, room, used, address),
            Event::Write { address, value } => {
                raw::kt11c_record_write(start, room, used, address, value)
            }
            Event::Instruction { va } => raw::kt11c_record_instruction(start, room, used, va),
            Event::Interrupt { vector } => raw::kt11c_record_interrupt(start, room, used, vector),
            Event::Change { register, amount } => {
                raw::kt11c_record_change(start, room, used, register, amount)
            }
            Event::Init => raw::kt11c_record_init(start, room, used),
        }
    };
    decode_written(code).map(|written| written.map(|appended| used.wrapping_add(appended)))
}

/// What stands at a place of a recording, and the place after it.
pub fn read_record(recording: &[u8], at: usize) -> Standing {
    let (start, bytes) = (recording.as_ptr(), recording.len());
    // SAFETY: as above, and the bytes are only read.
    let (code, after) = unsafe {
        (
            raw::kt11c_event_at(start, bytes, at),
            raw::kt11c_place_after(start, bytes, at),
        )
    };
    Standing {
        here: decode_found(code),
        after,
    }
}

#[cfg(test)]
mod tests {
    use super::*;

    /// The number that include/kt11c.h gives a name.
    fn header(name: &str) -> usize {
        let header = include_str!("../../include/kt11c.h");
        let define = format!("#define {name} ");
        let mut lines = header.lines();
        let number = lines.find_map(|line| line.strip_prefix(&define));
        let number = number.unwrap_or_else(|| panic!("no {name}"));
        number.trim_end_matches('u').parse().expect("a number")
    }

    #[test]
    fn the_sizes_are_the_headers() {
        assert_eq!(header("KT11C_STATE"), State::default().len());
        assert_eq!(header("KT11C_LINE"), LONGEST_LINE);
        assert_eq!(header("KT11C_TRANSCRIPT"), LONGEST_TEXT);
    }
}

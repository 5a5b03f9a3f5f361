//! The numbers that the writing and reading of recordings answer (include/kt11c.h): a bit that the
//! header does not name makes a number that can't be.

use peer::Event;

use crate::codes::Stray;

/// What stands at a place of a recording.
#[derive(Clone, Copy, Debug, PartialEq, Eq)]
pub enum Here {
    Event(Event),
    Refused(u8),
    End,
}

/// What stands at a place, and the place after it: the same where no whole record stands.
#[derive(Clone, Copy, Debug, PartialEq, Eq)]
pub struct Standing {
    pub here: Result<Here, Stray>,
    pub after: usize,
}

/// A write's answer: how many bytes were appended, or the refusal's number.
pub fn decode_written(code: u32) -> Result<Result<usize, u8>, Stray> {
    match (code >> 28, code & 0x0fff_ffff) {
        (6, appended @ 1..=7) => Ok(Ok(appended as usize)),
        (5, number @ (2..=6 | 9 | 14)) => Ok(Err(number as u8)),
        _ => Err(Stray(code.into())),
    }
}

/// What an answer says stands at a place.
pub fn decode_found(code: u64) -> Result<Here, Stray> {
    match (code >> 60, code & 0x0fff_ffff_ffff_ffff) {
        (0, 0) => Ok(Here::End),
        (5, number @ (11 | 12)) => Ok(Here::Refused(number as u8)),
        (7, fields) => event(fields).map(Here::Event).ok_or(Stray(code)),
        _ => Err(Stray(code)),
    }
}

/// The event of a kind and its fields; none where a bit is set that is no field's.
fn event(code: u64) -> Option<Event> {
    let byte = |shift: u32| (code >> shift) as u32 & 0xff;
    let address = code as u32 & 0xff_ffff;
    let word = (code >> 32) as u16;
    let (named, event) = match code >> 56 {
        1 => {
            let event = Event::Reference {
                mode: byte(0),
                space: byte(8),
                access: byte(16),
                phase: byte(24),
                va: word,
            };
            (0xffff_ffff_ffff, event)
        }
        2 => (0xff_ffff, Event::Read { address }),
        3 => {
            let value = word;
            (0xffff_00ff_ffff, Event::Write { address, value })
        }
        4 => (0xffff_0000_0000, Event::Instruction { va: word }),
        5 => (0xffff_0000_0000, Event::Interrupt { vector: word }),
        6 => {
            let (register, amount) = (byte(8), byte(0) as i32 - 128);
            (0xffff, Event::Change { register, amount })
        }
        7 => (0, Event::Init),
        _ => return None,
    };
    let fields = code & 0x00ff_ffff_ffff_ffff;
    (fields & !named == 0).then_some(event)
}

#[cfg(test)]
mod tests {
    use super::*;

    #[test]
    fn writes_answers_of_the_header() {
        assert_eq!(decode_written(0x6000_0001), Ok(Ok(1)));
        assert_eq!(decode_written(0x6000_0007), Ok(Ok(7)));
        for number in [2, 3, 4, 5, 6, 9, 14] {
            assert_eq!(decode_written(0x5000_0000 | number), Ok(Err(number as u8)));
        }
    }

    #[test]
    fn stray_bits_are_no_writes_answer() {
        let mut codes = vec![0, 0x4000_0000, 0x6000_0000, 0x7000_0001, u32::MAX];
        codes.extend([0, 1, 7, 8, 10, 11, 12, 13, 15].map(|number| 0x5000_0000 | number));
        for bit in 3..28 {
            codes.push(0x6000_0001 | 1 << bit);
        }
        for bit in 4..28 {
            codes.push(0x5000_000e | 1 << bit);
        }
        for code in codes {
            assert_eq!(decode_written(code), Err(Stray(code.into())), "{code:08x}");
        }
    }

    /// One number of each kind, every field's bits set otherwise than the next field's.
    fn numbers() -> [(u64, Event); 7] {
        let reference = Event::Reference {
            mode: 0x12,
            space: 0x34,
            access: 0x56,
            phase: 0x78,
            va: 0x9abc,
        };
        let (address, value) = (0x56_789a, 0x1234);
        let (register, amount) = (0xfe, -128);
        [
            (0x7100_9abc_7856_3412, reference),
            (0x7200_0000_0056_789a, Event::Read { address }),
            (0x7300_1234_0056_789a, Event::Write { address, value }),
            (0x7400_9abc_0000_0000, Event::Instruction { va: 0x9abc }),
            (0x7500_9abc_0000_0000, Event::Interrupt { vector: 0x9abc }),
            (0x7600_0000_0000_fe00, Event::Change { register, amount }),
            (0x7700_0000_0000_0000, Event::Init),
        ]
    }

    #[test]
    fn events_of_the_header() {
        for (code, event) in numbers() {
            assert_eq!(decode_found(code), Ok(Here::Event(event)), "{code:016x}");
        }
        let (register, amount) = (0, 127);
        let change = Here::Event(Event::Change { register, amount });
        assert_eq!(decode_found(0x7600_0000_0000_00ff), Ok(change));
        assert_eq!(decode_found(0), Ok(Here::End));
        assert_eq!(decode_found(0x5000_0000_0000_000b), Ok(Here::Refused(11)));
        assert_eq!(decode_found(0x5000_0000_0000_000c), Ok(Here::Refused(12)));
    }

    /// A bit more or less makes another event, or no number that can be.
    #[test]
    fn every_bit_of_an_event_tells() {
        let fields = [48, 24, 40, 16, 16, 16, 0];
        for ((code, event), fields) in numbers().into_iter().zip(fields) {
            let other = |bit: &u32| match decode_found(code ^ 1 << bit) {
                Ok(Here::Event(found)) => found != event,
                _ => false,
            };
            assert_eq!((0..56).filter(other).count(), fields, "{code:016x}");
            let stray = |bit: &u32| decode_found(code ^ 1 << bit) == Err(Stray(code ^ 1 << bit));
            assert_eq!((0..56).filter(stray).count(), 56 - fields, "{code:016x}");
        }
    }

    #[test]
    fn stray_bits_stand_for_nothing() {
        let mut codes = vec![
            0x1000_0000_0000_0000,
            0x6000_0000_0000_0001,
            0x7000_0000_0000_0000,
            0x7800_0000_0000_0000,
            0x7f00_0000_0000_0000,
            u64::MAX,
        ];
        codes.extend((0..60).map(|bit| 1 << bit));
        codes.extend((4..60).map(|bit| 0x5000_0000_0000_000b | 1 << bit));
        codes.extend([0, 1, 10, 13, 14, 15].map(|number| 0x5000_0000_0000_0000 | number));
        for code in codes {
            assert_eq!(decode_found(code), Err(Stray(code)), "{code:016x}");
        }
    }
}

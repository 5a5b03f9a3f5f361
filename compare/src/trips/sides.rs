//! The two sides as the same pair of functions, and their answers as text.

use peer::{Event, Found};

use crate::codes::Stray;
use crate::print::event_text;
use crate::proved::{self, Written};
use crate::record_codes::{Here, Standing};

/// One side's writing and reading of a record.
pub struct Side {
    pub name: &'static str,
    pub write: fn(&mut [u8], usize, Event) -> Written,
    pub read: fn(&[u8], usize) -> Standing,
}

pub const PROVED: Side = Side {
    name: "proved",
    write: proved::write_record,
    read: proved::read_record,
};

pub const PEER: Side = Side {
    name: "peer",
    write: |buffer, used, event| Ok(peer::write_record(buffer, used, event)),
    read: |recording, at| standing(peer::read_record(recording, at), at),
};

/// What the peer found at a place; the place after it is the same where no whole record stands.
fn standing(found: Found, at: usize) -> Standing {
    let (here, after) = match found {
        Found::Event(event, after) => (Here::Event(event), after),
        Found::Refused(number) => (Here::Refused(number), at),
        Found::End => (Here::End, at),
    };
    let here = Ok(here);
    Standing { here, after }
}

pub fn written_text(written: Written) -> String {
    match written {
        Ok(Ok(used)) => format!("written up to {used}"),
        Ok(Err(number)) => format!("refused {number}"),
        Err(Stray(code)) => format!("no answer: {code:#010x}"),
    }
}

pub fn standing_text(standing: Standing) -> String {
    let here = match standing.here {
        Ok(Here::Event(event)) => event_text(event),
        Ok(Here::Refused(number)) => format!("refused {number}"),
        Ok(Here::End) => "the end".to_string(),
        Err(Stray(code)) => format!("no answer: {code:#018x}"),
    };
    format!("{here}, then place {}", standing.after)
}

#[cfg(test)]
mod tests {
    use super::*;

    /// The proved side itself gives what include/kt11c.h says, so that none of its functions stands for another.
    #[test]
    fn each_kind_is_written_and_read_as_itself() {
        let reference = Event::Reference {
            mode: 1,
            space: 2,
            access: 3,
            phase: 4,
            va: 0x0605,
        };
        let (address, value) = (0x03_0201, 0x0504);
        let (register, amount) = (1, -2);
        let records: [(Event, &[u8]); 7] = [
            (reference, &[1, 1, 2, 3, 4, 5, 6]),
            (Event::Read { address }, &[2, 1, 2, 3]),
            (Event::Write { address, value }, &[3, 1, 2, 3, 4, 5]),
            (Event::Instruction { va: 0x0201 }, &[4, 1, 2]),
            (Event::Interrupt { vector: 0x0201 }, &[5, 1, 2]),
            (Event::Change { register, amount }, &[6, 1, 0xfe]),
            (Event::Init, &[7]),
        ];
        for side in [PROVED, PEER] {
            for (event, record) in records {
                let mut buffer = vec![0; record.len()];
                let after = record.len();
                assert_eq!((side.write)(&mut buffer, 0, event), Ok(Ok(after)));
                assert_eq!(buffer, record);
                let here = Ok(Here::Event(event));
                assert_eq!((side.read)(record, 0), Standing { here, after });
            }
        }
    }
}

//! The one number of an answer (include/kt11c.h), both ways.

use peer::Answer;

/// A number that is no answer's: an unknown kind, or a bit its kind does not have.
#[derive(Clone, Copy, Debug, PartialEq, Eq)]
pub struct Stray(pub u64);

const GRANTED: u32 = 1 << 28;
const ABORTED: u32 = 2 << 28;
const WORD: u32 = 3 << 28;
const DONE: u32 = 4 << 28;
const REFUSED: u32 = 5 << 28;

/// In a grant's place bits: no page served.
const NO_PAGE: u8 = 63;

/// The number of an answer.
#[inline(always)]
pub fn encode(answer: Answer) -> u32 {
    match answer {
        Answer::Granted { byte, page, trap } => {
            let place = u32::from(page.unwrap_or(NO_PAGE));
            GRANTED | u32::from(trap) << 24 | place << 18 | byte
        }
        Answer::Aborted {
            nonresident,
            length,
            readonly,
        } => ABORTED | u32::from(nonresident) << 2 | u32::from(length) << 1 | u32::from(readonly),
        Answer::Word(word) => WORD | u32::from(word),
        Answer::Done => DONE,
        Answer::Refused(number) => REFUSED | u32::from(number),
    }
}

/// The answer of a number. The fields are read, and must make the whole number again.
pub fn decode(code: u32) -> Result<Answer, Stray> {
    let answer = match code & 0xf000_0000 {
        GRANTED => Answer::Granted {
            byte: code & 0o777777,
            page: match (code >> 18) as u8 & 0o77 {
                NO_PAGE => None,
                place => Some(place),
            },
            trap: code >> 24 & 1 == 1,
        },
        ABORTED => Answer::Aborted {
            nonresident: code >> 2 & 1 == 1,
            length: code >> 1 & 1 == 1,
            readonly: code & 1 == 1,
        },
        WORD => Answer::Word(code as u16),
        DONE => Answer::Done,
        REFUSED => Answer::Refused((code & 0xf) as u8),
        _ => return Err(Stray(code.into())),
    };
    if encode(answer) == code && has_meaning(answer) {
        Ok(answer)
    } else {
        Err(Stray(code.into()))
    }
}

/// A page is one of the 48, an abort has a flag, and an event's refusal is 1 to 10.
fn has_meaning(answer: Answer) -> bool {
    match answer {
        Answer::Granted { page, .. } => matches!(page, None | Some(0..48)),
        Answer::Aborted {
            nonresident,
            length,
            readonly,
        } => nonresident | length | readonly,
        Answer::Refused(number) => (1..=10).contains(&number),
        _ => true,
    }
}

#[cfg(test)]
mod tests {
    use super::*;

    #[test]
    fn numbers_of_the_header() {
        let granted = |byte, page, trap| Answer::Granted { byte, page, trap };
        let last = granted(0o777777, Some(47), true);
        assert_eq!(decode(0x11bf_ffff), Ok(last));
        assert_eq!(decode(0x1000_0000), Ok(granted(0, Some(0), false)));
        assert_eq!(decode(0x10fc_0000), Ok(granted(0, None, false)));
        assert_eq!(decode(0x3000_7f06), Ok(Answer::Word(0o077406)));
        assert_eq!(decode(0x4000_0000), Ok(Answer::Done));
        assert_eq!(decode(0x5000_000a), Ok(Answer::Refused(10)));
    }

    #[test]
    fn stray_bits_are_no_answer() {
        for code in [
            0x0000_0000,
            0x10c0_0000,
            0x10f8_0000,
            0x1200_0000,
            0x2000_0000,
            0x2000_0008,
            0x3001_0000,
            0x4000_0001,
            0x5000_0000,
            0x5000_000b,
            0x5000_0011,
            0x6000_0000,
            0xffff_ffff,
        ] {
            assert_eq!(decode(code), Err(Stray(code.into())), "{code:08x}");
        }
    }
}

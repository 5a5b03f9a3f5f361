//! One line of the text notation: NOTATION.md's "Lines".

use crate::events::Event;
use crate::fields;

/// What a line means.
#[derive(Clone, Copy, Debug, PartialEq, Eq)]
pub enum Line {
    /// No word: the line is passed over.
    Blank,
    /// One event.
    Event(Event),
    /// One byte as it is, for a damaged recording.
    Byte(u8),
    /// A bad line, with what was expected at the first word that doesn't fit.
    Bad(Expected),
}

/// What a bad line lacks: one of the eight names, a field, or the line's end.
#[derive(Clone, Copy, Debug, PartialEq, Eq)]
pub enum Expected {
    Name,
    Mode,
    Space,
    Access,
    Phase,
    Va,
    Value,
    Vector,
    Address,
    Register,
    Amount,
    Byte,
    End,
}

/// Reads one line, given without its line feed and of any length.
pub fn read_line(line: &[u8]) -> Line {
    let mut words = words(line);
    match words.next() {
        None => Line::Blank,
        Some(name) => named(name, words).unwrap_or_else(Line::Bad),
    }
}

/// The words of a line: up to a comment, parted by blanks.
fn words(line: &[u8]) -> impl Iterator<Item = &[u8]> {
    let comment = line.iter().position(|&byte| byte == b'#');
    line[..comment.unwrap_or(line.len())]
        .split(|byte| matches!(byte, b' ' | b'\t' | b'\r'))
        .filter(|word| !word.is_empty())
}

/// The line of this name: its fields in their order, and nothing after them.
fn named<'a>(name: &[u8], mut words: impl Iterator<Item = &'a [u8]>) -> Result<Line, Expected> {
    let words = &mut words;
    let line = match name {
        b"reference" => Line::Event(Event::Reference {
            mode: field(words, fields::mode, Expected::Mode)?,
            space: field(words, fields::space, Expected::Space)?,
            access: field(words, fields::access, Expected::Access)?,
            phase: field(words, fields::phase, Expected::Phase)?,
            va: field(words, fields::sixteen_bits, Expected::Va)?,
        }),
        b"read" => Line::Event(Event::Read {
            address: field(words, fields::address, Expected::Address)?,
        }),
        b"write" => Line::Event(Event::Write {
            address: field(words, fields::address, Expected::Address)?,
            value: field(words, fields::sixteen_bits, Expected::Value)?,
        }),
        b"instruction" => Line::Event(Event::Instruction {
            va: field(words, fields::sixteen_bits, Expected::Va)?,
        }),
        b"interrupt" => Line::Event(Event::Interrupt {
            vector: field(words, fields::sixteen_bits, Expected::Vector)?,
        }),
        b"change" => Line::Event(Event::Change {
            register: field(words, fields::register, Expected::Register)?,
            amount: field(words, fields::amount, Expected::Amount)?,
        }),
        b"init" => Line::Event(Event::Init),
        b"byte" => Line::Byte(field(words, fields::byte, Expected::Byte)?),
        _ => return Err(Expected::Name),
    };
    match words.next() {
        None => Ok(line),
        Some(_) => Err(Expected::End),
    }
}

/// Reads the next word as a field; the field was expected if it is missing or wrong.
fn field<'a, T>(
    words: &mut impl Iterator<Item = &'a [u8]>,
    read: impl FnOnce(&[u8]) -> Option<T>,
    expected: Expected,
) -> Result<T, Expected> {
    words.next().and_then(read).ok_or(expected)
}

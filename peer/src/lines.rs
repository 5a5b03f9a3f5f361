//! The text line of an answer, and the lines' way to a writer.

use std::io::{self, Write};

use crate::events::Answer;

/// The bytes of the output buffer.
const BUFFER_LENGTH: usize = 4096;

/// The bytes a line is made in: the longest line, a grant's, has 14.
const LINE_ROOM: usize = 16;

/// Lines on their way to a writer, which is given as many at a time as the
/// buffer holds.
#[derive(Debug)]
pub struct Lines<W> {
    writer: W,
    buffer: [u8; BUFFER_LENGTH],
    used: usize,
}

impl<W: Write> Lines<W> {
    pub fn new(writer: W) -> Lines<W> {
        Lines {
            writer,
            buffer: [0; BUFFER_LENGTH],
            used: 0,
        }
    }

    /// Appends an answer's line.
    #[inline(always)]
    pub fn push(&mut self, answer: Answer) -> io::Result<()> {
        if self.used > BUFFER_LENGTH - LINE_ROOM {
            self.write_out()?;
        }
        let line = Line::of(answer);
        // All the room is filled, as that is quicker than to fill a length that
        // differs from line to line; the next line covers what is too much.
        self.buffer[self.used..][..LINE_ROOM].copy_from_slice(&line.bytes.to_le_bytes());
        self.used += line.length;
        Ok(())
    }

    /// Gives the writer the last lines, and gives it back.
    pub fn finish(mut self) -> io::Result<W> {
        self.write_out()?;
        self.writer.flush()?;
        Ok(self.writer)
    }

    /// Gives the writer the lines in the buffer.
    #[cold]
    fn write_out(&mut self) -> io::Result<()> {
        self.writer.write_all(&self.buffer[..self.used])?;
        self.used = 0;
        Ok(())
    }
}

/// A line, line feed included. Its first byte is the lowest one of the number,
/// and those above its length are 0.
#[derive(Clone, Copy)]
struct Line {
    bytes: u128,
    length: usize,
}

impl Line {
    /// The line of an answer.
    #[inline(always)]
    fn of(answer: Answer) -> Line {
        match answer {
            // Request E1: the page's place, or `--` where there is none.
            Answer::Granted { byte, page, trap } => match page {
                Some(page) if trap => Line::blank(b"G 000000 T 00\n").page(page),
                Some(page) => Line::blank(b"G 000000 - 00\n").page(page),
                None if trap => Line::blank(b"G 000000 T --\n"),
                None => Line::blank(b"G 000000 - --\n"),
            }
            .octal(byte),
            Answer::Aborted {
                nonresident,
                length,
                readonly,
            } => Line::blank(b"A 000\n")
                .digit(2, u8::from(nonresident))
                .digit(3, u8::from(length))
                .digit(4, u8::from(readonly)),
            Answer::Word(word) => Line::blank(b"R 000000\n").octal(u32::from(word)),
            Answer::Done => Line::blank(b"D\n"),
            Answer::Refused(number) => Line::blank(b"X 00\n").decimal(2, number),
        }
    }

    /// A line whose digits are all 0.
    #[inline]
    fn blank<const N: usize>(text: &[u8; N]) -> Line {
        let mut bytes = [0; LINE_ROOM];
        bytes[..N].copy_from_slice(text);
        Line {
            bytes: u128::from_le_bytes(bytes),
            length: N,
        }
    }

    /// Puts a digit in the place of a 0, whose byte has the digit's bits clear.
    #[inline]
    fn digit(mut self, place: usize, digit: u8) -> Line {
        self.bytes |= u128::from(digit) << (8 * place);
        self
    }

    /// Six octal digits of an 18-bit number, after the line's letter and space.
    #[inline]
    fn octal(mut self, number: u32) -> Line {
        for place in 0..6 {
            self = self.digit(2 + place, (number >> (15 - 3 * place) & 7) as u8);
        }
        self
    }

    /// Two decimal digits of a number below 100.
    #[inline]
    fn decimal(self, place: usize, number: u8) -> Line {
        self.digit(place, number / 10).digit(place + 1, number % 10)
    }

    /// The place of a grant's page.
    #[inline]
    fn page(self, page: u8) -> Line {
        self.decimal(11, page)
    }
}

#[cfg(test)]
mod tests {
    use super::*;

    #[track_caller]
    fn line(answer: Answer, expected: &str) {
        let mut lines = Lines::new(Vec::new());
        lines.push(answer).unwrap();
        assert_eq!(lines.finish().unwrap(), expected.as_bytes());
    }

    fn granted(byte: u32, page: Option<u8>, trap: bool) -> Answer {
        Answer::Granted { byte, page, trap }
    }

    #[test]
    fn each_answer_has_its_line() {
        line(granted(0o355256, Some(7), false), "G 355256 - 07\n");
        line(granted(0o000007, Some(12), true), "G 000007 T 12\n");
        line(granted(0o777777, Some(47), true), "G 777777 T 47\n");
        line(granted(0o760000, None, false), "G 760000 - --\n");
        let aborted = |nonresident, length, readonly| Answer::Aborted {
            nonresident,
            length,
            readonly,
        };
        line(aborted(true, true, false), "A 110\n");
        line(aborted(false, true, true), "A 011\n");
        line(Answer::Word(0o077406), "R 077406\n");
        line(Answer::Word(0o177777), "R 177777\n");
        line(Answer::Done, "D\n");
        line(Answer::Refused(8), "X 08\n");
        line(Answer::Refused(13), "X 13\n");
    }

    #[test]
    fn many_lines_reach_the_writer_as_they_were_pushed() {
        let answers = [
            (granted(0o355256, Some(7), false), "G 355256 - 07\n"),
            (Answer::Done, "D\n"),
            (Answer::Word(0o077406), "R 077406\n"),
            (Answer::Refused(8), "X 08\n"),
        ];
        let mut lines = Lines::new(Vec::new());
        let mut expected = String::new();
        for (answer, line) in answers.into_iter().cycle().take(10_000) {
            lines.push(answer).unwrap();
            expected += line;
        }
        assert!(lines.finish().unwrap() == expected.as_bytes());
    }

    #[test]
    fn each_page_has_two_digits_and_no_page_two_dashes() {
        line(granted(0, None, false), "G 000000 - --\n");
        line(granted(0, Some(0), false), "G 000000 - 00\n");
        line(granted(0, Some(9), false), "G 000000 - 09\n");
        line(granted(0, Some(10), false), "G 000000 - 10\n");
        for page in 0..48 {
            let expected = format!("G 000000 T {page:02}\n");
            line(granted(0, Some(page), true), &expected);
        }
    }
}

//! A whole text in the notation, and the recording it stands for.

use crate::notation::{read_line, Expected, Line};
use crate::writing::{write_record, LONGEST_RECORD};

/// The most bytes a line may have, without its line feed: NOTATION.md's "Lines".
const LINE_LIMIT: usize = 4095;

/// The recording of a text up to its first bad line, and that line's number,
/// counted from 1, with what was expected there: NOTATION.md's "A bad line".
pub fn record(text: &[u8]) -> (Vec<u8>, Option<(usize, Expected)>) {
    let mut recording = Vec::new();
    for (index, line) in text.split(|&byte| byte == b'\n').enumerate() {
        match read_limited(line) {
            Line::Blank => {}
            Line::Event(event) => {
                let mut record = [0; LONGEST_RECORD];
                let length = write_record(&mut record, 0, event)
                    .expect("a field's limit is what its bytes hold");
                recording.extend_from_slice(&record[..length]);
            }
            Line::Byte(byte) => recording.push(byte),
            Line::Bad(expected) => return (recording, Some((index + 1, expected))),
        }
    }
    (recording, None)
}

/// Reads a line of a text. One over the limit is bad too: unless a word of it
/// doesn't fit, what was expected is its end.
fn read_limited(line: &[u8]) -> Line {
    match read_line(line) {
        Line::Bad(expected) => Line::Bad(expected),
        _ if line.len() > LINE_LIMIT => Line::Bad(Expected::End),
        read => read,
    }
}

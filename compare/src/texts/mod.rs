//! The proved program `record` beside the independent version, on texts: the bytes it writes, and
//! the one line that it says of a bad line.

mod draw;
mod edges;
mod fields;
mod fixed;
mod lines;
mod wording;

use crate::met::Met;
use crate::print::{hex, print_runs};
use crate::programs::Program;
use crate::random::Random;
use crate::recordings::split;
use crate::shrink::shrink_list;
use wording::{says, wording, LONGEST_LINE, SHORTER};

/// A text, and how many bytes of it a program is given at once.
struct Text {
    bytes: Vec<u8>,
    piece: usize,
}

/// What should come of a text: the recording, and the number of its bad line, counted from 1, with
/// what was expected there.
struct Wanted {
    recording: Vec<u8>,
    bad: Option<(usize, &'static str)>,
}

/// Compares the examples, the fixed texts and so many drawn ones; none at the first difference,
/// which is printed.
pub fn check(program: &Program, examples: &[Vec<u8>], drawn: u64, seed: u64) -> Option<Met> {
    let mut random = Random::new(seed);
    let mut met = edges::met();
    let fixed = fixed::fixed();
    let known: Vec<_> = examples.iter().chain(&fixed).collect();
    for number in 0..known.len() as u64 + drawn {
        let text = match known.get(number as usize) {
            Some(&bytes) => whole(bytes.clone()),
            None => draw::text(&mut random),
        };
        if !same(program, &text) {
            println!("a difference, in text {}, seed {seed}:", number + 1);
            print(program, &shrink(program, &text));
            return None;
        }
        edges::add(&mut met, &text.bytes, &wanted(&text.bytes));
        let is_example = (number as usize) < examples.len();
        met.when("an example", is_example);
    }
    Some(met)
}

fn whole(bytes: Vec<u8>) -> Text {
    let piece = bytes.len();
    Text { bytes, piece }
}

/// What should come of a text, by the independent version and the wording. It has no expectation
/// of its own for a line that is too long.
fn wanted(text: &[u8]) -> Wanted {
    let (recording, bad) = peer::record(text);
    let bad = bad.map(|(number, expected)| {
        let line = text.split(|&byte| byte == b'\n').nth(number - 1);
        match line.map_or(0, <[u8]>::len) {
            0..=LONGEST_LINE => (number, wording(expected)),
            _ => (number, SHORTER),
        }
    });
    Wanted { recording, bad }
}

impl Wanted {
    /// The bytes of standard output and of standard error.
    fn written(self) -> (Vec<u8>, Vec<u8>) {
        let says = self.bad.map(|(number, what)| says(number, what));
        (self.recording, says.unwrap_or_default().into_bytes())
    }
}

/// Whether the program writes and says just what it should.
fn same(program: &Program, text: &Text) -> bool {
    program.said(&text.bytes, text.piece) == Ok(wanted(&text.bytes).written())
}

/// The smallest text found on which they still differ: fewer lines, then fewer bytes.
fn shrink(program: &Program, text: &Text) -> Text {
    let with = |bytes: Vec<u8>| Text {
        bytes,
        piece: text.piece,
    };
    let lines = text.bytes.split(|&byte| byte == b'\n');
    let mut lines: Vec<_> = lines.map(<[u8]>::to_vec).collect();
    shrink_list(&mut lines, |some| !same(program, &with(some.join(&b'\n'))));
    let mut bytes = lines.join(&b'\n');
    shrink_list(&mut bytes, |some| !same(program, &with(some.to_vec())));
    with(bytes)
}

/// Prints a text and what both sides make of it.
fn print(program: &Program, text: &Text) {
    let Text { bytes, piece } = text;
    println!("  {} bytes, given in pieces of {piece}:", bytes.len());
    let lines = bytes.split_inclusive(|&byte| byte == b'\n');
    print_runs(lines.map(|line| line.escape_ascii().to_string()));
    match program.said(bytes, *piece) {
        Ok(said) => print_said("proved", &said),
        Err(message) => println!("nothing to compare: {message}"),
    }
    print_said("peer", &wanted(bytes).written());
}

fn print_said(name: &str, (recording, says): &(Vec<u8>, Vec<u8>)) {
    println!("{name} writes {} bytes", recording.len());
    print_runs(split(recording).iter().map(|record| hex(record)));
    println!("  and says \"{}\"", says.escape_ascii());
}

#[cfg(test)]
mod tests {
    use super::*;

    #[track_caller]
    fn comes(text: &[u8], recording: &[u8], says: &str) {
        let written = (recording.to_vec(), says.as_bytes().to_vec());
        assert_eq!(wanted(text).written(), written);
    }

    #[test]
    fn a_good_text_is_recorded_and_nothing_said() {
        comes(b"", b"", "");
        comes(b"init\n# no word\nbyte 377", &[7, 255], "");
    }

    #[test]
    fn a_bad_line_ends_the_recording() {
        let says = "record: line 3: expected the end of the line\n";
        comes(b"init\n\ninit 0\ninit\n", &[7], says);
    }

    #[test]
    fn a_line_that_is_too_long_is_no_other_bad_line() {
        let says = "record: line 2: expected a line of at most 4095 bytes\n";
        for (start, end) in [("init", ""), ("init 0", "\n"), ("unknown", "\ninit")] {
            let text = |length| format!("init\n{start:length$}{end}").into_bytes();
            comes(&text(4_096), &[7], says);
            assert_ne!(wanted(&text(4_095)).bad, Some((2, SHORTER)));
        }
        let longest = format!("{:4095}\ninit", "init");
        comes(longest.as_bytes(), &[7, 7], "");
    }

    /// Whether a program of the shell, which first reads the text, does on it what it should.
    fn does(script: &str, text: &[u8]) -> bool {
        let script = format!("cat >/dev/null; {script}");
        same(&Program::new(Some("sh -c"), &script), &whole(text.to_vec()))
    }

    #[test]
    fn other_bytes_are_caught() {
        assert!(does("printf '\\007\\007'", b"init\ninit"));
        for bytes in ["", "\\007", "\\007\\007\\007", "\\007\\006"] {
            assert!(!does(&format!("printf '{bytes}'"), b"init\ninit"));
        }
    }

    #[test]
    fn another_line_on_standard_error_is_caught() {
        let says = |line: &str| format!("printf '\\007'; printf '{line}' >&2");
        let line = "record: line 2: expected the end of the line";
        let text = b"init\ninit 0";
        assert!(does(&says(&format!("{line}\\n")), text));
        for wrong in ["", line, &line.replace('2', "1"), &format!("{line}\\n\\n")] {
            assert!(!does(&says(wrong), text), "{wrong}");
        }
        assert!(!does(&says(&format!("{line}\\n")), b"init"));
    }

    #[test]
    fn a_program_that_fails_is_caught() {
        assert!(does("true", b""));
        assert!(!does("false", b""));
        assert!(!same(
            &Program::new(None, "/no/program"),
            &whole(Vec::new())
        ));
    }
}

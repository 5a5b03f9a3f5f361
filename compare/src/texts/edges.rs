//! What the texts must have met.

use peer::{read_line, Event, Line};

use crate::met::Met;
use crate::texts::wording::{wording, EVERY, LONGEST_LINE, SHORTER};
use crate::texts::Wanted;

const TEXTS: [&str; 20] = [
    "an example",
    "a reference recorded",
    "a read recorded",
    "a write recorded",
    "an instruction recorded",
    "an interrupt recorded",
    "a change recorded",
    "an init recorded",
    "a byte recorded",
    "a line passed over",
    "a text without a bad line",
    "a text over 30,000 bytes without a bad line",
    "a last line without its line feed, good",
    "a last line without its line feed, bad",
    "a line of 4,095 bytes, good",
    "a last line of 4,095 bytes without its line feed, good",
    "a line of 4,096 bytes",
    "a bad line after 1,000 others",
    "more lines after a bad one",
    "a recording over 4,096 bytes",
];

/// Every expectation, and what else there is to meet.
pub fn met() -> Met {
    Met::new(&[&EVERY.map(wording)[..], &[SHORTER], &TEXTS].concat())
}

/// Counts a text by its lines and what should come of it.
pub fn add(met: &mut Met, text: &[u8], wanted: &Wanted) {
    let lines: Vec<&[u8]> = text.split(|&byte| byte == b'\n').collect();
    let good = match wanted.bad {
        Some((number, what)) => {
            met.when(what, true);
            met.when("a bad line after 1,000 others", number > 1_000);
            met.when("more lines after a bad one", number < lines.len());
            number - 1
        }
        None => lines.len(),
    };
    for line in &lines[..good] {
        met.when(outcome(line), true);
        let longest = line.len() == LONGEST_LINE;
        met.when("a line of 4,095 bytes, good", longest);
    }
    if let Some(line) = lines.get(good) {
        met.when("a line of 4,096 bytes", line.len() == LONGEST_LINE + 1);
    }
    last(met, lines[lines.len() - 1], good, lines.len());
    let (long, whole) = (text.len() > 30_000, good == lines.len());
    met.when("a text without a bad line", whole);
    met.when("a text over 30,000 bytes without a bad line", long && whole);
    met.when(
        "a recording over 4,096 bytes",
        wanted.recording.len() > 4_096,
    );
}

/// Counts what follows the last line feed, if anything does.
fn last(met: &mut Met, line: &[u8], good: usize, lines: usize) {
    let there = !line.is_empty();
    met.when(
        "a last line without its line feed, good",
        there && good == lines,
    );
    met.when(
        "a last line without its line feed, bad",
        there && good + 1 == lines,
    );
    met.when(
        "a last line of 4,095 bytes without its line feed, good",
        good == lines && line.len() == LONGEST_LINE,
    );
}

/// What becomes of a good line.
fn outcome(line: &[u8]) -> &'static str {
    match read_line(line) {
        Line::Event(Event::Reference { .. }) => "a reference recorded",
        Line::Event(Event::Read { .. }) => "a read recorded",
        Line::Event(Event::Write { .. }) => "a write recorded",
        Line::Event(Event::Instruction { .. }) => "an instruction recorded",
        Line::Event(Event::Interrupt { .. }) => "an interrupt recorded",
        Line::Event(Event::Change { .. }) => "a change recorded",
        Line::Event(Event::Init) => "an init recorded",
        Line::Byte(_) => "a byte recorded",
        Line::Blank | Line::Bad(_) => "a line passed over",
    }
}

#[cfg(test)]
mod tests {
    use super::*;
    use crate::texts::wanted;

    /// Checks which things, and no others, are met by a text.
    #[track_caller]
    fn meets(text: &[u8], things: &[&str]) {
        let mut met = met();
        add(&mut met, text, &wanted(text));
        let (count, missed) = met.met_and_missed();
        assert_eq!(count as usize, things.len());
        assert!(things.iter().all(|thing| !missed.contains(thing)));
    }

    #[test]
    fn a_text_meets_what_is_in_it() {
        let whole = "a text without a bad line";
        meets(b"", &[whole, "a line passed over"]);
        let last = "a last line without its line feed, good";
        meets(b"init", &[whole, "an init recorded", last]);
        let address = "an address: an octal number to 77777777";
        let more = "more lines after a bad one";
        meets(b"byte 1\nread\n", &["a byte recorded", address, more]);
        let last = "a last line without its line feed, bad";
        let long = [b' '; LONGEST_LINE + 1];
        meets(&long, &[SHORTER, "a line of 4,096 bytes", last]);
    }
}

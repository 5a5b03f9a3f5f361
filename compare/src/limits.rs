//! Recordings at the edges of the limit of a recording, 16,777,216 bytes.

use peer::RECORDING_LIMIT as LIMIT;

use crate::random::Random;
use crate::recordings::{records, REFERENCE, SR0_READ};

/// A recording at an edge, with what 01 and request E4 ask of it, counted by hand.
pub struct Edge {
    pub name: &'static str,
    pub make: fn() -> Vec<u8>,
    /// The refusal in the last line, 11, 12 or 13; none where that line is a whole record's.
    pub last: Option<u8>,
    /// How many lines there are; none is given where the records are drawn.
    pub lines: Option<usize>,
}

impl Edge {
    /// What is wrong with a text for this recording, if something is.
    pub fn wrong(&self, text: &[u8]) -> Option<String> {
        let last = text.rchunks(5).next().unwrap_or(&[]);
        let stops = [11, 12, 13].into_iter();
        let found = stops.clone().find(|number| line(*number) == last);
        if found != self.last {
            return Some(format!("ends by {found:?}, not by {:?}", self.last));
        }
        let lines = text.iter().filter(|&&byte| byte == b'\n').count();
        let wanted = self.lines.unwrap_or(lines);
        (lines != wanted).then(|| format!("has {lines} lines, not {wanted}"))
    }
}

/// A refusal's line.
fn line(number: u8) -> Vec<u8> {
    format!("X {number:02}\n").into_bytes()
}

/// Every edge.
pub fn edges() -> Vec<Edge> {
    let mut all = of_one_kind();
    all.extend(crossing());
    all.extend(unknown());
    all.extend(mixed());
    all
}

/// Those that programs are run on.
pub fn for_programs() -> Vec<Edge> {
    let mut all = mixed();
    all.extend(unknown());
    all
}

fn edge(
    name: &'static str,
    make: fn() -> Vec<u8>,
    last: Option<u8>,
    lines: impl Into<Option<usize>>,
) -> Edge {
    let lines = lines.into();
    Edge {
        name,
        make,
        last,
        lines,
    }
}

/// INITs, or register reads, up to the limit and past it.
fn of_one_kind() -> Vec<Edge> {
    let thirteen = Some(13);
    vec![
        edge("INITs, a byte less", || inits(LIMIT - 1), None, 16_777_215),
        edge("INITs", || inits(LIMIT), None, 16_777_216),
        edge("an INIT more", || inits(LIMIT + 1), thirteen, 16_777_217),
        edge(
            "INITs, three pieces more",
            || inits(LIMIT + 3 * 4_096),
            thirteen,
            16_777_217,
        ),
        edge("reads", || reads(LIMIT), None, 4_194_304),
        edge("reads and a byte", || reads(LIMIT + 1), thirteen, 4_194_305),
        edge("a read more", || reads(LIMIT + 4), thirteen, 4_194_305),
        edge(
            "reads, a byte less",
            || reads(LIMIT - 1),
            Some(12),
            4_194_304,
        ),
    ]
}

/// The last record lies on both sides of the limit, or is cut there: 16,777,216 is
/// 7 times 2,396,745 and 1.
fn crossing() -> Vec<Edge> {
    vec![
        edge(
            "a reference crosses",
            || references(LIMIT + 6),
            Some(13),
            2_396_746,
        ),
        edge(
            "a reference crosses and is cut",
            || references(LIMIT + 3),
            Some(13),
            2_396_746,
        ),
        edge(
            "a reference is cut at the limit",
            || references(LIMIT),
            Some(12),
            2_396_746,
        ),
        edge(
            "a reference's last byte is beyond",
            || inits_and(6, &REFERENCE),
            Some(13),
            16_777_211,
        ),
        edge(
            "a reference's last byte is not there",
            || inits_and(6, &REFERENCE[..6]),
            Some(12),
            16_777_211,
        ),
        edge(
            "a reference ends at the limit",
            || inits_and(7, &REFERENCE),
            None,
            16_777_210,
        ),
    ]
}

/// A kind that there isn't, near the limit.
fn unknown() -> Vec<Edge> {
    vec![
        edge(
            "an unknown kind is the last byte inside, with more after it",
            || inits_and(1, &[8, 7, 7]),
            Some(11),
            16_777_216,
        ),
        edge(
            "an unknown kind is the last byte",
            || inits_and(1, &[8]),
            Some(11),
            16_777_216,
        ),
        edge(
            "an unknown kind is the first byte beyond",
            || inits_and(0, &[8]),
            Some(13),
            16_777_217,
        ),
        edge(
            "an unknown kind first, and input beyond the limit",
            || [vec![0xff], inits(LIMIT)].concat(),
            Some(11),
            1,
        ),
        edge(
            "reads, three INITs, an unknown kind",
            || [reads(LIMIT - 4), vec![7, 7, 7, 0]].concat(),
            Some(11),
            4_194_307,
        ),
    ]
}

/// Drawn records of every kind.
fn mixed() -> Vec<Edge> {
    vec![
        edge("mixed", || drawn(1, LIMIT), None, None),
        edge(
            "mixed, and a byte",
            || [drawn(2, LIMIT), vec![3]].concat(),
            Some(13),
            None,
        ),
        edge(
            "mixed, and a reference crosses",
            || [drawn(3, LIMIT - 3), REFERENCE.to_vec()].concat(),
            Some(13),
            None,
        ),
        edge(
            "mixed, and a reference is cut at the limit",
            || [drawn(4, LIMIT - 3), REFERENCE[..3].to_vec()].concat(),
            Some(12),
            None,
        ),
    ]
}

fn inits(length: usize) -> Vec<u8> {
    vec![7; length]
}

/// INITs up to so many bytes before the limit, then some bytes.
fn inits_and(before: usize, bytes: &[u8]) -> Vec<u8> {
    [inits(LIMIT - before), bytes.to_vec()].concat()
}

fn reads(length: usize) -> Vec<u8> {
    repeated(&SR0_READ, length)
}

fn references(length: usize) -> Vec<u8> {
    repeated(&REFERENCE, length)
}

/// A record again and again, the last one cut at a length.
fn repeated(record: &[u8], length: usize) -> Vec<u8> {
    let mut bytes = record.repeat(length.div_ceil(record.len()));
    bytes.truncate(length);
    bytes
}

/// Whole records, drawn from a seed.
fn drawn(seed: u64, length: usize) -> Vec<u8> {
    records(&mut Random::new(seed), length, false)
}

#[cfg(test)]
mod tests {
    use super::*;

    fn wrong(last: Option<u8>, lines: impl Into<Option<usize>>, text: &str) -> bool {
        let edge = edge("", Vec::new, last, lines);
        edge.wrong(text.as_bytes()).is_some()
    }

    #[test]
    fn another_last_line_is_wrong() {
        assert!(!wrong(None, 0, ""));
        assert!(!wrong(None, 2, "D\nX 08\n"));
        assert!(!wrong(Some(13), 2, "D\nX 13\n"));
        for (last, text) in [
            (None, "D\nX 13\n"),
            (None, "D\nX 12\n"),
            (Some(13), "D\nD\n"),
            (Some(13), "X 13\nD\n"),
            (Some(12), "D\nX 13\n"),
            (Some(11), ""),
        ] {
            assert!(wrong(last, None, text), "{text}");
        }
    }

    #[test]
    fn another_number_of_lines_is_wrong() {
        assert!(!wrong(None, 2, "D\nR 000000\n"));
        assert!(!wrong(None, None, "D\nR 000000\n"));
        assert!(wrong(None, 3, "D\nR 000000\n"));
        assert!(wrong(Some(13), 1, "D\nX 13\n"));
    }

    #[test]
    fn an_edge_lies_at_the_limit() {
        for edge in edges() {
            let length = (edge.make)().len();
            let name = edge.name;
            assert!(length.abs_diff(LIMIT) <= 3 * 4_096, "{name}");
            if edge.last == Some(13) {
                assert!(length > LIMIT, "{name}");
            }
        }
    }
}

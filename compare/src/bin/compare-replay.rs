//! Runs two replay programs on the same recordings, fixed and drawn, at the
//! limit and in short pieces, and compares what they write, byte for byte.

use std::collections::BTreeMap;
use std::process::{exit, ExitCode};

use compare::cuts::every;
use compare::limits::{for_programs, Edge};
use compare::options::Options;
use compare::print::{hex, print_runs};
use compare::programs::{Program, Writes};
use compare::random::Random;
use compare::recordings::{each, fixed, recording, split, whole_case, WHOLE_CASE_TEXT};
use compare::shrink::{shrink_end, shrink_list, LONG};

const USAGE: &str = "compare-replay [--recordings N] [--seed N] [--emulator COMMAND] PROVED PEER\n\
     COMMAND, as \"qemu-x86_64\", runs the program PROVED";
const RECORDINGS: u64 = 1_000;
/// Drawn recordings that are written in pieces, and the most pieces that one has.
const APART: u64 = 100;
const PIECES: usize = 60;

/// The kinds of line that a run must have met: each answer, a grant by a page and one by none,
/// and refusals 2 to 13.
const WANTED: [&str; 17] = [
    "G, a page",
    "G, no page",
    "A",
    "R",
    "D",
    "X 02",
    "X 03",
    "X 04",
    "X 05",
    "X 06",
    "X 07",
    "X 08",
    "X 09",
    "X 10",
    "X 11",
    "X 12",
    "X 13",
];

struct Programs {
    proved: Program,
    peer: Program,
}

/// What was met so far: recordings with the same text, and their lines by kind.
#[derive(Default)]
struct Met {
    passed: usize,
    lines: BTreeMap<String, u64>,
}

fn main() -> ExitCode {
    let mut options = Options::new(USAGE);
    let drawn = options.number("--recordings", RECORDINGS);
    let seed = options.number("--seed", 1);
    let emulator = options.text("--emulator");
    let paths = options.rest(2);
    let programs = Programs {
        proved: Program::new(emulator.as_deref(), &paths[0]),
        peer: Program::new(None, &paths[1]),
    };

    programs.check_whole_case();
    let mut random = Random::new(seed);
    let mut met = Met::default();
    for bytes in fixed() {
        programs.check(&mut met, &bytes, Writes::WHOLE);
    }
    for _ in 0..drawn {
        programs.check(&mut met, &recording(&mut random), Writes::WHOLE);
    }
    println!(
        "{} recordings ({drawn} drawn from seed {seed}): the same text",
        met.passed
    );
    programs.check_apart(&mut met, &mut random);
    for edge in for_programs() {
        programs.check_edge(&mut met, &edge);
    }
    met.end()
}

impl Met {
    /// Prints the counts; fails where a kind of line was never met.
    fn end(&self) -> ExitCode {
        for (kind, count) in &self.lines {
            println!("{count:>12}  {kind}");
        }
        let missed = WANTED.iter();
        let missed = missed.filter(|wanted| !self.lines.contains_key(**wanted));
        let missed = missed.inspect(|wanted| println!("never met: {wanted}"));
        let failed = missed.count();
        let passed = self.passed + WANTED.len() - failed;
        println!("{passed} passed, {failed} failed");
        ExitCode::from(u8::from(failed != 0))
    }

    /// Ends the run at a recording that failed.
    fn fail(&self) -> ! {
        println!("{} passed, 1 failed", self.passed);
        exit(1);
    }
}

impl Programs {
    /// The text that both programs write for a recording; a difference ends the run.
    fn check(&self, met: &mut Met, recording: &[u8], writes: Writes) -> Vec<u8> {
        let Some(text) = self.same(recording, writes) else {
            self.report(recording, writes);
            met.fail();
        };
        count_lines(&text, &mut met.lines);
        met.passed += 1;
        text
    }

    /// Small recordings a byte at a time, then drawn ones in pieces of one length.
    fn check_apart(&self, met: &mut Met, random: &mut Random) {
        let before = met.passed;
        let small = every::recordings();
        for bytes in small.iter().filter(|bytes| bytes.len() > 1) {
            self.check(met, bytes, Writes::apart(1));
        }
        for _ in 0..APART {
            let bytes = recording(random);
            let piece = bytes.len() / PIECES + 1 + random.below(10) as usize;
            self.check(met, &bytes, Writes::apart(piece));
        }
        let count = met.passed - before;
        println!("{count} recordings in short writes ({APART} drawn): the same text");
    }

    /// A recording at the limit, its text held to what was counted by hand.
    fn check_edge(&self, met: &mut Met, edge: &Edge) {
        let name = edge.name;
        let text = self.check(met, &(edge.make)(), Writes::WHOLE);
        if let Some(wrong) = edge.wrong(&text) {
            println!("at the limit, {name}: {wrong}");
            met.fail();
        }
        println!("at the limit, {name}: the same text");
    }

    /// 01's own recording, held to 01's text with the page of request E1: a program that can't be run stops here.
    fn check_whole_case(&self) {
        for program in [&self.proved, &self.peer] {
            match program.run(&whole_case(), Writes::WHOLE) {
                Ok(text) if text == WHOLE_CASE_TEXT.as_bytes() => {}
                Ok(text) => {
                    println!("the whole case gives\n{}", String::from_utf8_lossy(&text));
                    exit(1);
                }
                Err(message) => {
                    eprintln!("compare-replay: {message}");
                    exit(2);
                }
            }
        }
    }

    /// The text, if both programs write the same and neither fails.
    fn same(&self, recording: &[u8], writes: Writes) -> Option<Vec<u8>> {
        let proved = self.proved.run(recording, writes).ok()?;
        let peer = self.peer.run(recording, writes).ok()?;
        (proved == peer).then_some(proved)
    }

    /// Prints the smallest recording found on which they differ, and both texts.
    fn report(&self, recording: &[u8], writes: Writes) {
        let differ = |some: &[u8]| self.same(some, writes).is_none();
        let mut bytes = recording.to_vec();
        if bytes.len() > LONG {
            shrink_end(&mut bytes, differ);
        }
        if bytes.len() <= LONG {
            let mut records = split(&bytes);
            shrink_list(&mut records, |some| differ(&some.concat()));
            bytes = records.concat();
            shrink_list(&mut bytes, differ);
        }
        println!("a difference, in a recording of {} bytes:", bytes.len());
        if writes.apart {
            println!("written in pieces of {}:", writes.piece);
        }
        print_runs(each(&bytes).map(hex));
        print_text("proved", self.proved.run(&bytes, writes));
        print_text("peer", self.peer.run(&bytes, writes));
    }
}

fn print_text(name: &str, text: Result<Vec<u8>, String>) {
    println!("{name} writes");
    match text {
        Ok(text) => {
            let text = String::from_utf8_lossy(&text);
            print_runs(text.lines().map(str::to_string));
        }
        Err(message) => println!("  nothing to compare: {message}"),
    }
}

/// Counts lines by kind: a letter, with G whether a page served, and with X the number.
fn count_lines(text: &[u8], lines: &mut BTreeMap<String, u64>) {
    for line in String::from_utf8_lossy(text).lines() {
        let kind = match line.as_bytes().first() {
            Some(b'G') if line.ends_with("--") => "G, no page",
            Some(b'G') => "G, a page",
            Some(b'X') => line.get(..4).unwrap_or(line),
            _ => line.get(..1).unwrap_or(line),
        };
        *lines.entry(kind.to_string()).or_default() += 1;
    }
}

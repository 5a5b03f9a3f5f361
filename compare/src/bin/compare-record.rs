//! Runs the proved writing and reading of recordings and the independent version side by side:
//! single writes, round trips, the reading of damaged recordings, and the program `record`.

use std::path::Path;
use std::process::{exit, ExitCode};

use compare::met::Met;
use compare::options::Options;
use compare::programs::Program;
use compare::texts;
use compare::trips::{reads, rounds, writes};

const USAGE: &str =
    "compare-record [--writes N] [--events N] [--recordings N] [--texts N] [--seed N] \
     [--emulator COMMAND] RECORD EXAMPLES\n\
     COMMAND, as \"qemu-x86_64\", runs the program RECORD; EXAMPLES is a folder of texts";
const WRITES: u64 = 500_000;
const EVENTS: u64 = 500_000;
const RECORDINGS: u64 = 20_000;
const TEXTS: u64 = 3_000;

/// The checks that passed and that failed.
#[derive(Default)]
struct Tally {
    passed: u64,
    failed: u64,
}

fn main() -> ExitCode {
    let mut options = Options::new(USAGE);
    let [writes, events, recordings, texts, seed] = [
        ("--writes", WRITES),
        ("--events", EVENTS),
        ("--recordings", RECORDINGS),
        ("--texts", TEXTS),
        ("--seed", 1),
    ]
    .map(|(name, default)| options.number(name, default));
    let emulator = options.text("--emulator");
    let paths = options.rest(2);
    let program = Program::new(emulator.as_deref(), &paths[0]);
    let examples = examples(Path::new(&paths[1]));

    let mut tally = Tally::default();
    let of = |count, what| format!("{count} {what} from seed {seed}");
    tally.add(of(writes, "writes"), writes, writes::check(writes, seed));
    tally.add(
        of(events, "events there and back"),
        events,
        rounds::check(events, seed),
    );
    tally.add(
        of(recordings, "recordings read at every place"),
        recordings,
        reads::check(recordings, seed),
    );
    tally.add(
        of(texts, "texts beside the fixed ones"),
        texts,
        texts::check(&program, &examples, texts, seed),
    );
    println!("{} passed, {} failed", tally.passed, tally.failed);
    ExitCode::from(u8::from(tally.failed != 0))
}

impl Tally {
    /// Prints what a comparison has met; ends at a difference.
    fn add(&mut self, what: String, count: u64, met: Option<Met>) {
        let Some(met) = met else {
            println!("{} passed, 1 failed", self.passed);
            exit(1);
        };
        met.print();
        let (met, missed) = met.met_and_missed();
        for words in &missed {
            println!("never met: {words}");
        }
        println!("{what}: the same on both sides");
        self.passed += count + met;
        self.failed += missed.len() as u64;
    }
}

/// The texts of a folder, by their names.
fn examples(folder: &Path) -> Vec<Vec<u8>> {
    let fail = |e: std::io::Error| -> ! {
        eprintln!("compare-record: {}: {e}", folder.display());
        exit(2);
    };
    let entries = folder.read_dir().unwrap_or_else(|e| fail(e));
    let paths = entries.map(|entry| entry.unwrap_or_else(|e| fail(e)).path());
    let mut paths: Vec<_> = paths
        .filter(|path| path.extension().is_some_and(|ending| ending == "txt"))
        .collect();
    paths.sort();
    paths
        .iter()
        .map(|path| std::fs::read(path).unwrap_or_else(|e| fail(e)))
        .collect()
}

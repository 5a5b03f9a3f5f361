//! What was compared, counted.

use crate::cuts::Cut;
use crate::limits::Edge;
use crate::replays::Replay;

/// The checks that passed and that failed.
#[derive(Default)]
pub struct Tally {
    pub passed: u64,
    pub failed: u64,
}

impl Tally {
    /// Counts a check, and prints what is wrong.
    pub fn check(&mut self, passed: bool, wrong: impl Fn() -> String) {
        self.passed += u64::from(passed);
        self.failed += u64::from(!passed);
        if !passed {
            println!("{}", wrong());
        }
    }

    /// Counts a replay, and prints it made small where the sides differ; whether they do not.
    pub fn replay(&mut self, replay: &Replay, seed: u64) -> bool {
        let same = replay.same().is_some();
        self.check(same, || format!("a difference, from seed {seed}:"));
        if !same {
            replay.shrink().print();
        }
        same
    }

    /// Counts a cut that differs, and prints it made small.
    pub fn cut(&mut self, cut: &Cut, seed: u64) {
        self.check(false, || {
            format!("a difference in a cut, from seed {seed}:")
        });
        cut.shrink().print();
    }

    /// Counts whether a text that both sides give is what was counted by hand.
    pub fn edge(&mut self, edge: &Edge, text: &[u8]) {
        let wrong = edge.wrong(text);
        self.check(wrong.is_none(), || {
            format!("at the limit, {}: {wrong:?}", edge.name)
        });
    }
}

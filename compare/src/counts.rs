//! The counts of met edges as text.

use crate::edges::{Counts, EDGES};
use crate::fields::PDR;
use crate::print::page_text;

const ANSWERS: [&str; 5] = [
    "granted, no trap",
    "granted, trap",
    "aborted",
    "word",
    "done",
];

impl Counts {
    /// Each count with its words.
    fn rows(&self) -> Vec<(String, u64)> {
        let mut rows = Vec::new();
        for (words, count) in ANSWERS.iter().zip(self.answers) {
            rows.push((words.to_string(), count));
        }
        for (number, count) in self.refusals.iter().enumerate().skip(1) {
            rows.push((format!("refused {number}"), *count));
        }
        for (key, by_access) in self.keys.iter().enumerate() {
            for (access, [aborted, granted]) in by_access.iter().enumerate() {
                let words = format!("key {key}, {}", ["read", "write"][access]);
                rows.push((format!("{words} aborted"), *aborted));
                if !matches!((key, access), (0 | 3 | 7, _) | (1 | 2, 1)) {
                    rows.push((format!("{words} granted"), *granted));
                }
            }
        }
        for (place, count) in self.pages.iter().enumerate() {
            let page = (place < PDR).then_some(place as u8);
            rows.push((format!("granted, {}", page_text(page)), *count));
        }
        for (words, count) in EDGES.iter().zip(self.edges) {
            rows.push((words.to_string(), count));
        }
        rows
    }

    /// Prints every count.
    pub fn print(&self) {
        for (words, count) in self.rows() {
            println!("{count:>12}  {words}");
        }
    }

    /// How many of the counts are above 0, and the words of those that are 0.
    pub fn met_and_missed(&self) -> (u64, Vec<String>) {
        let (met, missed): (Vec<_>, Vec<_>) =
            self.rows().into_iter().partition(|(_, count)| *count > 0);
        let words = missed.into_iter().map(|(words, _)| words).collect();
        (met.len() as u64, words)
    }
}

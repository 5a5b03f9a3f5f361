//! Command lines of `--name VALUE`, `--name` alone and plain words.

use std::process::exit;

/// The words of a command line, and the usage to print where they are wrong.
pub struct Options {
    words: Vec<String>,
    usage: &'static str,
}

impl Options {
    pub fn new(usage: &'static str) -> Options {
        let words = std::env::args().skip(1).collect();
        Options { words, usage }
    }

    /// Takes `--name` alone out of the words: whether it was there.
    pub fn flag(&mut self, name: &str) -> bool {
        let at = self.words.iter().position(|word| word == name);
        at.map(|at| self.words.remove(at)).is_some()
    }

    /// Takes `--name VALUE` out of the words.
    pub fn text(&mut self, name: &str) -> Option<String> {
        let at = self.words.iter().position(|word| word == name)?;
        if at + 1 == self.words.len() {
            self.wrong(&format!("{name} has no value"));
        }
        self.words.remove(at);
        Some(self.words.remove(at))
    }

    /// Takes `--name NUMBER` out of the words; the default if it isn't there.
    pub fn number(&mut self, name: &str, default: u64) -> u64 {
        match self.text(name) {
            None => default,
            Some(value) => value
                .parse()
                .unwrap_or_else(|_| self.wrong(&format!("{name} {value} is no number"))),
        }
    }

    /// The words that are left, of which there must be this many.
    pub fn rest(self, count: usize) -> Vec<String> {
        if self.words.len() != count || self.words.iter().any(|word| word.starts_with("--")) {
            self.wrong("wrong words");
        }
        self.words
    }

    fn wrong(&self, message: &str) -> ! {
        eprintln!("{message}\nusage: {}", self.usage);
        exit(2);
    }
}

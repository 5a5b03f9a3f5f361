//! How often each thing of a list was met, so that one sees that all of them were.

/// The things to be met, in words, with their counts.
pub struct Met {
    rows: Vec<(&'static str, u64)>,
}

impl Met {
    pub fn new(words: &[&'static str]) -> Met {
        let rows = words.iter().map(|words| (*words, 0)).collect();
        Met { rows }
    }

    /// Counts a thing of the list where it holds.
    pub fn when(&mut self, words: &str, holds: bool) {
        let row = self.rows.iter_mut().find(|(of, _)| *of == words);
        let (_, count) = row.unwrap_or_else(|| panic!("\"{words}\" is not to be met"));
        *count += u64::from(holds);
    }

    /// Prints every count.
    pub fn print(&self) {
        for (words, count) in &self.rows {
            println!("{count:>12}  {words}");
        }
    }

    /// How many things were met, and the words of those that were not.
    pub fn met_and_missed(&self) -> (u64, Vec<&'static str>) {
        let missed = self.rows.iter().filter(|(_, count)| *count == 0);
        let missed: Vec<_> = missed.map(|(words, _)| *words).collect();
        ((self.rows.len() - missed.len()) as u64, missed)
    }
}

#[cfg(test)]
mod tests {
    use super::*;

    #[test]
    fn what_never_held_is_missed() {
        let mut met = Met::new(&["one", "two", "three"]);
        met.when("one", true);
        met.when("two", false);
        assert_eq!(met.met_and_missed(), (1, vec!["two", "three"]));
    }

    #[test]
    #[should_panic(expected = "not to be met")]
    fn words_that_are_not_listed_are_no_count() {
        Met::new(&["one"]).when("two", false);
    }
}

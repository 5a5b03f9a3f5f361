//! The one line that `record` says of a bad line, worded by hand from docs/NOTATION.md.

use peer::Expected;

/// The most bytes a line may have, without its line feed.
pub const LONGEST_LINE: usize = 4095;

/// What was expected of a line that is too long.
pub const SHORTER: &str = "a line of at most 4095 bytes";

/// All that can be expected at a word.
pub const EVERY: [Expected; 13] = [
    Expected::Name,
    Expected::Mode,
    Expected::Space,
    Expected::Access,
    Expected::Phase,
    Expected::Va,
    Expected::Value,
    Expected::Vector,
    Expected::Address,
    Expected::Register,
    Expected::Amount,
    Expected::Byte,
    Expected::End,
];

/// What was expected at the first word that does not fit.
pub fn wording(expected: Expected) -> &'static str {
    match expected {
        Expected::Name => {
            "one of reference, read, write, instruction, interrupt, change, init, byte"
        }
        Expected::Mode => "a mode: kernel, supervisor, illegal, user, or an octal number to 377",
        Expected::Space => "a space: instruction, data, or an octal number to 377",
        Expected::Access => "an access: read, write, or an octal number to 377",
        Expected::Phase => "a phase: instruction, trap, or an octal number to 377",
        Expected::Va => "a VA: an octal number to 177777",
        Expected::Value => "a value: an octal number to 177777",
        Expected::Vector => "a vector: an octal number to 177777",
        Expected::Address => "an address: an octal number to 77777777",
        Expected::Register => "a register: an octal number to 377",
        Expected::Amount => "an amount: an octal number from -200 to 177",
        Expected::Byte => "a byte: an octal number to 377",
        Expected::End => "the end of the line",
    }
}

/// What `record` says of the line of this number.
pub fn says(number: usize, what: &str) -> String {
    format!("record: line {number}: expected {what}\n")
}

#[cfg(test)]
mod tests {
    use super::*;

    #[test]
    fn the_line_that_the_notation_shows() {
        let line =
            "record: line 3: expected a phase: instruction, trap, or an octal number to 377\n";
        assert_eq!(says(3, wording(Expected::Phase)), line);
    }

    #[test]
    fn no_two_expectations_are_worded_the_same() {
        let mut words = EVERY.map(wording).to_vec();
        words.push(SHORTER);
        words.sort();
        words.dedup();
        assert_eq!(words.len(), 14);
    }
}

//! The eight keys: rights and trap conditions.

/// What a key permits, and on which grants its trap condition holds.
#[derive(Clone, Copy)]
pub struct Key {
    pub read: bool,
    pub write: bool,
    pub trap_read: bool,
    pub trap_write: bool,
}

impl Key {
    const fn new(read: bool, write: bool, trap_read: bool, trap_write: bool) -> Key {
        Key {
            read,
            write,
            trap_read,
            trap_write,
        }
    }

    /// Rule 4: the key of a page that is not there permits no access at all.
    pub fn nonresident(self) -> bool {
        !self.read
    }

    /// Rule 4: a write to a page that can only be read.
    pub fn readonly(self, write: bool) -> bool {
        write && self.read && !self.write
    }

    /// Rule 6: the trap condition of a granted access.
    pub fn trap_condition(self, write: bool) -> bool {
        if write {
            self.trap_write
        } else {
            self.trap_read
        }
    }
}

/// The constant table that rules 4 and 6 are read from, by key. Its columns are
/// read, write, trap on read, trap on write.
pub const KEYS: [Key; 8] = [
    Key::new(false, false, false, false),
    Key::new(true, false, true, false),
    Key::new(true, false, false, false),
    Key::new(false, false, false, false),
    Key::new(true, true, true, true),
    Key::new(true, true, false, true),
    Key::new(true, true, false, false),
    Key::new(false, false, false, false),
];

#[cfg(test)]
mod tests {
    use super::*;

    #[test]
    fn the_table_says_what_rules_4_and_6_say() {
        for (number, key) in KEYS.into_iter().enumerate() {
            assert_eq!(key.nonresident(), [0, 3, 7].contains(&number));
            for write in [false, true] {
                let readonly = write && [1, 2].contains(&number);
                assert_eq!(key.readonly(write), readonly);
                let trap = number == 1 && !write || number == 4 || number == 5 && write;
                assert_eq!(key.trap_condition(write), trap);
            }
        }
    }
}

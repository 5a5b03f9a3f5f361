//! The fields of a line: NOTATION.md's "Fields". Each limit is what the field's
//! bytes hold in a record.

/// MODE.
pub fn mode(word: &[u8]) -> Option<u32> {
    word_or_number(word, &["kernel", "supervisor", "illegal", "user"])
}

/// SPACE.
pub fn space(word: &[u8]) -> Option<u32> {
    word_or_number(word, &["instruction", "data"])
}

/// ACCESS.
pub fn access(word: &[u8]) -> Option<u32> {
    word_or_number(word, &["read", "write"])
}

/// PHASE.
pub fn phase(word: &[u8]) -> Option<u32> {
    word_or_number(word, &["instruction", "trap"])
}

/// VA, VALUE or VECTOR.
pub fn sixteen_bits(word: &[u8]) -> Option<u16> {
    number(word, 0o177777).map(|number| number as u16)
}

/// ADDRESS.
pub fn address(word: &[u8]) -> Option<u32> {
    number(word, 0o77777777)
}

/// REGISTER.
pub fn register(word: &[u8]) -> Option<u32> {
    number(word, 0o377)
}

/// BYTE.
pub fn byte(word: &[u8]) -> Option<u8> {
    number(word, 0o377).map(|number| number as u8)
}

/// AMOUNT, the one field that may have a sign.
pub fn amount(word: &[u8]) -> Option<i32> {
    match word {
        [b'-', digits @ ..] => number(digits, 0o200).map(|number| -(number as i32)),
        [b'+', digits @ ..] => number(digits, 0o177).map(|number| number as i32),
        digits => number(digits, 0o177).map(|number| number as i32),
    }
}

/// One of a field's own words, which stand for 0, 1 and so on, or a number.
fn word_or_number(word: &[u8], own: &[&str]) -> Option<u32> {
    match own.iter().position(|own| own.as_bytes() == word) {
        Some(place) => Some(place as u32),
        None => number(word, 0o377),
    }
}

/// A number: one or more octal digits, zeros in front as many as there are. Once
/// its first digits pass the limit, no further one brings it back.
fn number(digits: &[u8], limit: u32) -> Option<u32> {
    if digits.is_empty() {
        return None;
    }
    digits.iter().try_fold(0, |number, digit| match digit {
        b'0'..=b'7' => Some(8 * number + u32::from(digit - b'0')).filter(|&n| n <= limit),
        _ => None,
    })
}

//! NOTATION.md's numbers: digits, zeros in front, signs and limits.

use peer::{read_line, Event, Expected, Line};

/// A line with `{}` in place of one field, and what is expected there.
const FIELDS: [(&str, Expected); 12] = [
    ("reference {} data read trap 0", Expected::Mode),
    ("reference kernel {} read trap 0", Expected::Space),
    ("reference kernel data {} trap 0", Expected::Access),
    ("reference kernel data read {} 0", Expected::Phase),
    ("reference kernel data read trap {}", Expected::Va),
    ("read {}", Expected::Address),
    ("write {} 0", Expected::Address),
    ("write 0 {}", Expected::Value),
    ("instruction {}", Expected::Va),
    ("interrupt {}", Expected::Vector),
    ("change {} 1", Expected::Register),
    ("byte {}", Expected::Byte),
];

/// The line with this word as its field.
fn with(line: &str, word: &str) -> Line {
    read_line(line.replace("{}", word).as_bytes())
}

/// The limit of a field, as the table of fields has it.
fn limit(field: Expected) -> u32 {
    match field {
        Expected::Va | Expected::Value | Expected::Vector => 0o177777,
        Expected::Address => 0o77777777,
        _ => 0o377,
    }
}

/// The number a line was read with, out of the field in question.
fn number(line: Line, field: Expected) -> Option<u32> {
    match (line, field) {
        (Line::Byte(byte), Expected::Byte) => Some(byte.into()),
        (Line::Event(Event::Reference { mode, .. }), Expected::Mode) => Some(mode),
        (Line::Event(Event::Reference { space, .. }), Expected::Space) => Some(space),
        (Line::Event(Event::Reference { access, .. }), Expected::Access) => Some(access),
        (Line::Event(Event::Reference { phase, .. }), Expected::Phase) => Some(phase),
        (Line::Event(Event::Reference { va, .. }), Expected::Va) => Some(va.into()),
        (Line::Event(Event::Read { address }), Expected::Address) => Some(address),
        (Line::Event(Event::Write { address, .. }), Expected::Address) => Some(address),
        (Line::Event(Event::Write { value, .. }), Expected::Value) => Some(value.into()),
        (Line::Event(Event::Instruction { va }), Expected::Va) => Some(va.into()),
        (Line::Event(Event::Interrupt { vector }), Expected::Vector) => Some(vector.into()),
        (Line::Event(Event::Change { register, .. }), Expected::Register) => Some(register),
        _ => None,
    }
}

#[test]
fn each_field_has_its_limit() {
    for (line, field) in FIELDS {
        let limit = limit(field);
        for good in [0, 1, 7, 8, limit - 1, limit] {
            let read = with(line, &format!("{good:o}"));
            assert_eq!(number(read, field), Some(good), "{line} {good:o}");
        }
        for large in [limit + 1, limit + 2, 8 * limit, 0o37777777777] {
            let read = with(line, &format!("{large:o}"));
            assert_eq!(read, Line::Bad(field), "{line} {large:o}");
        }
    }
}

#[test]
fn a_number_too_large_for_any_word_is_too_large() {
    let two_to_the_32nd = "40000000000";
    let two_to_the_64th = "2000000000000000000000";
    for large in [two_to_the_32nd, two_to_the_64th] {
        for (line, field) in FIELDS {
            assert_eq!(with(line, large), Line::Bad(field), "{line} {large}");
        }
        for sign in ["", "-", "+"] {
            let line = format!("change 0 {sign}{large}");
            assert_eq!(read_line(line.as_bytes()), Line::Bad(Expected::Amount));
        }
    }
    let long = "7".repeat(3000);
    for (line, field) in FIELDS {
        assert_eq!(with(line, &long), Line::Bad(field), "{line}");
    }
}

#[test]
fn zeros_in_front_change_nothing_however_many() {
    for zeros in [1, 2, 6, 8, 11, 22, 3000] {
        let zeros = "0".repeat(zeros);
        for (line, field) in FIELDS {
            let limit = limit(field);
            assert_eq!(number(with(line, &zeros), field), Some(0));
            let read = with(line, &format!("{zeros}{limit:o}"));
            assert_eq!(number(read, field), Some(limit), "{line}");
            let read = with(line, &format!("{zeros}{:o}", limit + 1));
            assert_eq!(read, Line::Bad(field), "{line}");
        }
        amount(&format!("-{zeros}200"), -128);
        amount(&format!("+{zeros}177"), 127);
    }
}

#[test]
fn only_octal_digits_make_a_number() {
    for word in [
        "8", "9", "18", "81", "0x1", "0o1", "1a", "a", "1.", "1_0", "1,0", "\u{0661}", "0-", "0+",
    ] {
        for (line, field) in FIELDS {
            assert_eq!(with(line, word), Line::Bad(field), "{line} {word}");
        }
        let line = format!("change 0 {word}");
        assert_eq!(read_line(line.as_bytes()), Line::Bad(Expected::Amount));
    }
}

#[test]
fn no_field_but_an_amount_has_a_sign() {
    for word in ["+1", "-1", "+0", "-0", "+", "-"] {
        for (line, field) in FIELDS {
            assert_eq!(with(line, word), Line::Bad(field), "{line} {word}");
        }
    }
}

/// `change 3` with this word gives this amount.
#[track_caller]
fn amount(word: &str, amount: i32) {
    let line = format!("change 3 {word}");
    let register = 3;
    let event = Event::Change { register, amount };
    assert_eq!(read_line(line.as_bytes()), Line::Event(event), "{line}");
}

#[test]
fn an_amount_may_have_one_sign() {
    for (word, number) in [
        ("0", 0),
        ("+0", 0),
        ("-0", 0),
        ("1", 1),
        ("+1", 1),
        ("-1", -1),
        ("17", 15),
        ("+20", 16),
        ("-20", -16),
        ("-21", -17),
        ("176", 126),
        ("177", 127),
        ("+177", 127),
        ("-177", -127),
        ("-200", -128),
    ] {
        amount(word, number);
    }
}

#[test]
fn an_amount_out_of_range_or_wrongly_signed_is_bad() {
    for word in [
        "200", "+200", "201", "377", "400", "-201", "-202", "-377", "-400", "-", "+", "--1", "++1",
        "+-1", "-+1", "1-", "1+", "- 1", "+ 1", "-x", "-8", "-kernel",
    ] {
        let line = format!("change 0 {word}");
        let read = read_line(line.as_bytes());
        assert_eq!(read, Line::Bad(Expected::Amount), "{line}");
    }
}

//! The texts that every run begins with.

use crate::texts::fields::{NAMES, WORDS};
use crate::texts::lines::{long, PADDINGS};
use crate::texts::wording::LONGEST_LINE;

/// Texts of little, every byte at places where it tells, every field's ends and words, every name
/// cut short, lines about as long as they may be.
pub fn fixed() -> Vec<Vec<u8>> {
    let mut all = little();
    all.extend(every_byte());
    all.push(every_number());
    all.extend(fields());
    all.extend(lengths());
    all
}

fn little() -> Vec<Vec<u8>> {
    let texts: [&[u8]; 26] = [
        b"",
        b"\n",
        b"\n\n\n",
        b" \t\r",
        b"#",
        b"# init",
        b"#\ninit",
        b"init",
        b"init\n",
        b"init\r\n",
        b"\r\tinit \r",
        b"init#",
        b"init #init",
        b"in#it",
        b"init\n\ninit",
        b"init\rinit",
        b"INIT",
        b"init\0",
        b"\0",
        b"\x0binit",
        b"init\x0c",
        b"\xa0init",
        b"\xef\xbb\xbfinit",
        b"init\nini\ninit\n",
        b"byte\n377",
        b"change 0 -0\nchange 0 +0\nchange 0 -0000200",
    ];
    texts.map(<[u8]>::to_vec).to_vec()
}

/// Each byte before a word, after it, between words, among digits and as a sign.
fn every_byte() -> Vec<Vec<u8>> {
    let around = [
        ("", "init"),
        ("init", ""),
        ("read", "0"),
        ("read 1", "2"),
        ("change 0 ", "1"),
    ];
    let texts = around.map(|(before, after)| {
        let with = move |byte| [before.as_bytes(), &[byte], after.as_bytes()].concat();
        (0..=255).map(with)
    });
    texts.into_iter().flatten().collect()
}

/// Each number of a byte, and the same as a mode, in one text.
fn every_number() -> Vec<u8> {
    let lines = (0..=0o377).map(|byte| format!("byte {byte:o}\nreference {byte:o} 0 0 0 0\n"));
    lines.collect::<String>().into_bytes()
}

/// Each field of each name: at its ends, missing, and every word in its place; and a word after the last.
fn fields() -> Vec<Vec<u8>> {
    let mut all = Vec::new();
    for (name, fields) in NAMES {
        let line = |words: &[String]| format!("{name} {}", words.join(" ")).into_bytes();
        let zeros = vec!["0".to_string(); fields.len()];
        all.push(line(&[&zeros[..], &["0".to_string()]].concat()));
        for (at, field) in fields.iter().enumerate() {
            let mut put = |word: String| {
                let mut words = zeros.clone();
                words[at] = word;
                all.push(line(&words));
            };
            put(String::new());
            for number in [field.limit, field.limit + 1, field.limit + 2] {
                for sign in ["", "+", "-"] {
                    put(format!("{sign}{number:o}"));
                }
            }
            for word in WORDS {
                put(word.to_string());
            }
            all.push(line(&zeros[..at]));
        }
    }
    all
}

/// Lines of about the greatest length, with and without a line feed, alone and with others around them.
fn lengths() -> Vec<Vec<u8>> {
    let mut all = Vec::new();
    for length in [-1, 0, 1, 2, 4_096, 4_097, 70_000] {
        let length = LONGEST_LINE.wrapping_add_signed(length);
        for padding in PADDINGS {
            let line = long(padding, length);
            for (before, after) in [("", ""), ("", "\n"), ("init\nread 0\n", "\ninit\n")] {
                all.push([before.as_bytes(), &line, after.as_bytes()].concat());
            }
        }
    }
    all
}

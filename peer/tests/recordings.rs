//! Recordings at their edges, and the program that replays one.

use std::fs::File;
use std::io::{ErrorKind, Write};
use std::process::{Command, Output, Stdio};
use std::thread;

use peer::{apply, replay, Event, RECORDING_LIMIT};

const LIMIT: usize = 16_777_216;

/// A register read of SR0.
const READ: [u8; 4] = [2, 0x7A, 0xFF, 0x03];

#[track_caller]
fn text(recording: &[u8], expected: &str) {
    let text = replay(&mut [0; 100], recording);
    assert_eq!(String::from_utf8(text).unwrap(), expected);
}

#[test]
fn empty_input_gives_empty_output() {
    text(&[], "");
}

/// Replays INITs and then the given bytes, registers 0 at first and at the end,
/// and gives the lines after those of the INITs.
fn after_inits(count: usize, bytes: &[u8]) -> String {
    let mut recording = vec![7; count];
    recording.extend_from_slice(bytes);
    let mut store = [0; 100];
    let text = replay(&mut store, &recording);
    let (done, rest) = text.split_at(2 * count);
    assert!(done.chunks(2).all(|line| line == b"D\n"));
    assert_eq!(store, [0; 100]);
    String::from_utf8(rest.to_vec()).unwrap()
}

#[test]
fn the_limit_is_16_777_216_bytes() {
    assert_eq!(RECORDING_LIMIT, LIMIT);
    assert_eq!(after_inits(LIMIT, &[]), "");
    assert_eq!(after_inits(LIMIT - 4, &READ), "R 000000\n");
    // Beyond it there may be anything, a whole record or none.
    for beyond in [&[7][..], &[0], &READ[..1], &READ, &[7; 10_000]] {
        assert_eq!(after_inits(LIMIT, beyond), "X 13\n");
    }
    assert_eq!(
        after_inits(LIMIT - 4, &[2, 0x7A, 0xFF, 3, 7]),
        "R 000000\nX 13\n"
    );
}

#[test]
fn a_record_that_crosses_the_limit_gives_13_only() {
    for inside in 1..4 {
        assert_eq!(after_inits(LIMIT - inside, &READ), "X 13\n");
        // The end cuts it too, one byte beyond the limit.
        let cut = &READ[..inside + 1];
        assert_eq!(after_inits(LIMIT - inside, cut), "X 13\n");
    }
    // It changes no register: this would set SR0's bit 0.
    for inside in [1, 5] {
        let write = [3, 0x7A, 0xFF, 0x03, 1, 0];
        assert_eq!(after_inits(LIMIT - inside, &write), "X 13\n");
    }
    // Nor are its own refusals given.
    let odd = [2, 0x7B, 0xFF, 0x03];
    assert_eq!(after_inits(LIMIT - 3, &odd), "X 13\n");
}

#[test]
fn a_record_cut_short_at_the_limit_gives_12() {
    for inside in 1..4 {
        assert_eq!(after_inits(LIMIT - inside, &READ[..inside]), "X 12\n");
    }
}

#[test]
fn an_unknown_kind_inside_the_limit_stops_before_13() {
    for kind in [0, 8] {
        assert_eq!(after_inits(LIMIT - 1, &[kind, 7]), "X 11\n");
    }
    assert_eq!(after_inits(LIMIT - 1, &[0]), "X 11\n");
    let mut recording = vec![7; LIMIT + 1];
    recording[2] = 9;
    text(&recording, "D\nD\nX 11\n");
}

#[test]
fn full_recordings_of_reads_and_of_references() {
    let reads = READ.repeat(LIMIT / 4);
    let lines = "R 000000\n".repeat(LIMIT / 4);
    assert!(replay(&mut [0; 100], &reads) == lines.as_bytes());
    // One byte less than the limit.
    let references = [1, 0, 0, 0, 0, 0, 0].repeat(2_396_745);
    let lines = "G 000000 - --\n".repeat(2_396_745);
    assert!(replay(&mut [0; 100], &references) == lines.as_bytes());
}

#[test]
fn each_kind_of_record() {
    // SR3 takes 17; SR0 bits 9 and 0 are set; Kernel D page 1 has key 4.
    let recording = [
        &[3, 0x4E, 0xF5, 0x03, 0xFF, 0xFF][..],
        &[2, 0x4E, 0xF5, 0x03],
        &[3, 0xD2, 0xF4, 0x03, 0x04, 0x7F],
        &[3, 0x7A, 0xFF, 0x03, 0x01, 0x02],
        &[4, 0x34, 0x12],
        &[6, 6, 0xFE],
        &[1, 0, 1, 1, 1, 0x05, 0x20],
        &[2, 0x7A, 0xFF, 0x03],
        &[2, 0xD2, 0xF4, 0x03],
        &[2, 0x7C, 0xFF, 0x03],
        &[5, 0xA8, 0x00],
        &[2, 0x7C, 0xFF, 0x03],
        &[2, 0x7E, 0xFF, 0x03],
        &[1, 3, 0, 0, 0, 0x40, 0xE0],
        &[7],
        &[2, 0x7A, 0xFF, 0x03],
        &[1, 2, 0, 0, 0, 0xFF, 0xFF],
    ]
    .concat();
    let lines = "D\nR 000017\nD\nD\nD\nD\nG 000005 T 09\nR 011223\nR 077704\nR 000366\n\
                 D\nR 000000\nR 000250\nA 110\nD\nR 000000\nG 777777 - --\n";
    text(&recording, lines);
}

#[test]
fn an_unknown_kind_stops() {
    for kind in [0, 8, 255] {
        text(&[7, kind, 7, 7, 7, 7, 7, 7, 7], "D\nX 11\n");
        // Even as the last byte it is unknown before it is cut short.
        text(&[7, kind], "D\nX 11\n");
    }
}

#[test]
fn a_record_cut_short_stops() {
    for (kind, body) in [(1, 6), (2, 3), (3, 5), (4, 2), (5, 2), (6, 2)] {
        for length in 0..body {
            let mut recording = vec![7, kind];
            // Bytes that would be refused otherwise: 12 comes before an event's own.
            recording.resize(2 + length, 255);
            text(&recording, "D\nX 12\n");
        }
    }
}

#[test]
fn other_refusals_go_on() {
    let recording = [
        &[1, 4, 0, 0, 0, 0, 0][..],
        &[1, 3, 2, 0, 0, 0, 0],
        &[1, 3, 1, 2, 0, 0, 0],
        &[1, 3, 1, 1, 2, 0, 0],
        &[2, 0x00, 0x00, 0x04],
        &[2, 0x7B, 0xFF, 0x03],
        &[3, 0x00, 0x00, 0x00, 0x00, 0x00],
        &[6, 8, 1],
        &[6, 0, 0],
        &[6, 0, 16],
        &[6, 0, 0xEF],
        &[6, 0, 0xF0],
        &[6, 7, 15],
        &[6, 0, 1],
        &[2, 0x7C, 0xFF, 0x03],
    ]
    .concat();
    let lines = "X 02\nX 03\nX 04\nX 05\nX 06\nX 07\nX 08\nX 09\nX 09\nX 09\nX 09\n\
                 D\nD\nX 10\nR 077600\n";
    text(&recording, lines);
}

#[test]
fn a_replay_changes_the_lent_store_as_its_events_do() {
    let (address, value) = (0o777572, 0o000001);
    let mut expected = [0o177777; 100];
    apply(&mut expected, Event::Init);
    apply(&mut expected, Event::Write { address, value });
    apply(&mut expected, Event::Interrupt { vector: 0o250 });
    let mut store = [0o177777; 100];
    let recording = [7, 3, 0x7A, 0xFF, 0x03, 1, 0, 5, 0xA8, 0, 9];
    assert_eq!(replay(&mut store, &recording), b"D\nD\nD\nX 11\n");
    assert_eq!(store, expected);
}

fn program(input: &[u8]) -> Output {
    let mut child = Command::new(env!("CARGO_BIN_EXE_peer-replay"))
        .stdin(Stdio::piped())
        .stdout(Stdio::piped())
        .stderr(Stdio::piped())
        .spawn()
        .unwrap();
    let mut stdin = child.stdin.take().unwrap();
    thread::scope(|scope| {
        scope.spawn(move || {
            // A program that has stopped leaves the rest unread.
            if let Err(error) = stdin.write_all(input) {
                assert_eq!(error.kind(), ErrorKind::BrokenPipe);
            }
        });
        child.wait_with_output().unwrap()
    })
}

#[track_caller]
fn program_text(input: &[u8], expected: &[u8]) {
    let output = program(input);
    // Compared without showing them, as they may be long.
    assert!(output.stdout == expected);
    assert!(output.stderr.is_empty());
    assert!(output.status.success());
}

#[test]
fn the_program_writes_the_text() {
    program_text(&[], b"");
    program_text(&[7, 2, 0x7A, 0xFF, 0x03], b"D\nR 000000\n");
    program_text(&[7, 7, 0], b"D\nD\nX 11\n");
    program_text(&[7, 2, 0x7A, 0xFF], b"D\nX 12\n");
}

#[test]
fn the_program_reads_in_pieces() {
    // After one, two or three INITs, a read lies across each 4,096th byte.
    for inits in 1..4 {
        let mut recording = vec![7; inits];
        recording.extend(READ.repeat(10_000));
        let mut lines = "D\n".repeat(inits) + &"R 000000\n".repeat(10_000);
        program_text(&recording, lines.as_bytes());
        recording.pop();
        lines.truncate(lines.len() - "R 000000\n".len());
        lines += "X 12\n";
        program_text(&recording, lines.as_bytes());
    }
}

#[test]
fn the_program_has_the_limit() {
    let mut recording = vec![7; LIMIT];
    let mut lines = "D\n".repeat(LIMIT);
    program_text(&recording, lines.as_bytes());
    lines += "X 13\n";
    recording.push(0);
    program_text(&recording, lines.as_bytes());
    recording.resize(LIMIT + 1_000_000, 7);
    program_text(&recording, lines.as_bytes());
}

#[test]
fn the_program_leaves_what_is_after_the_run_unread() {
    let mut recording = vec![7; LIMIT];
    recording[1] = 0;
    program_text(&recording, b"D\nX 11\n");
}

#[cfg(target_os = "linux")]
#[test]
fn the_program_says_its_errors() {
    let mut unreadable = Command::new(env!("CARGO_BIN_EXE_peer-replay"));
    unreadable.stdin(File::open("/").unwrap());
    let output = unreadable.output().unwrap();
    assert_eq!(output.status.code(), Some(1));
    assert!(output.stdout.is_empty());
    assert!(!output.stderr.is_empty());

    let endless = File::open("/dev/zero").unwrap();
    let full = File::options().write(true).open("/dev/full").unwrap();
    let mut unwritable = Command::new(env!("CARGO_BIN_EXE_peer-replay"));
    unwritable.stdin(endless).stdout(full);
    let output = unwritable.output().unwrap();
    assert_eq!(output.status.code(), Some(1));
    assert!(!output.stderr.is_empty());
}

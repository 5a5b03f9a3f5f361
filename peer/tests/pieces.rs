//! Recordings in pieces, cut anywhere.

use std::io::{self, Write};

use peer::Replay;

const LIMIT: usize = 16_777_216;

/// Every kind of record, each kind of line, and registers that show at the end
/// which events took place.
fn small_recording() -> Vec<u8> {
    [
        &[7][..],
        // SR3 takes 4: Kernel has a D space.
        &[3, 0x4E, 0xF5, 0x03, 0x04, 0x00],
        // Kernel D page 1: PDR 077404, PAR 3456.
        &[3, 0xD2, 0xF4, 0x03, 0x04, 0x7F],
        &[3, 0xF2, 0xF4, 0x03, 0x2E, 0x07],
        // SR0 takes 001001.
        &[3, 0x7A, 0xFF, 0x03, 0x01, 0x02],
        &[4, 0x34, 0x12],
        &[6, 6, 0xFE],
        // A Kernel data write at 020005: a trap of key 4.
        &[1, 0, 1, 1, 0, 0x05, 0x20],
        &[2, 0x7A, 0xFF, 0x03],
        // A User read at 160100 in phase 1: non-resident, and past length 0.
        &[1, 3, 0, 0, 1, 0x40, 0xE0],
        // Frozen: done, without effect.
        &[5, 0xA8, 0x00],
        &[6, 8, 1],
        &[2, 0x7B, 0xFF, 0x03],
        &[2, 0x7C, 0xFF, 0x03],
    ]
    .concat()
}

const SMALL_LINES: &str = "D\nD\nD\nD\nD\nD\nD\nG 345605 T 09\nR 011023\nA 110\nD\n\
                           X 09\nX 07\nR 000366\n";

/// The registers after the small recording, all 0 before it.
fn small_registers() -> [u16; 100] {
    let mut store = [0; 100];
    store[9] = 0o003456;
    // Its A and W are set.
    store[48 + 9] = 0o077704;
    // Flags non-resident, length and trap, bits 9 and 0; phase 1, User I page 7.
    store[96] = 0o151357;
    store[97] = 0o000366;
    store[98] = 0o011064;
    store[99] = 0o000004;
    store
}

/// Replays a recording given in pieces, then its end.
fn in_pieces<'a>(store: &mut [u16; 100], pieces: impl IntoIterator<Item = &'a [u8]>) -> String {
    let mut replay = Replay::new(store, Vec::new());
    for piece in pieces {
        replay.feed(piece).unwrap();
    }
    String::from_utf8(replay.finish().unwrap()).unwrap()
}

#[track_caller]
fn small<'a>(pieces: impl IntoIterator<Item = &'a [u8]>, last_line: &str) {
    let mut store = [0; 100];
    let text = in_pieces(&mut store, pieces);
    assert_eq!(text, format!("{SMALL_LINES}{last_line}"));
    assert_eq!(store, small_registers());
}

/// The small recording with each way to end, and the line that the end adds.
fn small_recordings() -> Vec<(Vec<u8>, &'static str)> {
    let ends = [
        (&[][..], ""),
        // What stands after an unknown kind would change registers.
        (&[0, 7, 3, 0x4E, 0xF5, 0x03, 0x0F, 0x00], "X 11\n"),
        (&[255], "X 11\n"),
        // All but the last byte of what would change SR0.
        (&[3, 0x7A, 0xFF, 0x03, 0x00], "X 12\n"),
        (&[1, 0, 0, 0, 0, 0], "X 12\n"),
        (&[6], "X 12\n"),
    ];
    let recording = small_recording();
    ends.map(|(end, line)| ([&recording, end].concat(), line))
        .into()
}

#[test]
fn a_recording_in_one_piece() {
    for (recording, line) in small_recordings() {
        small([&recording[..]], line);
        small([&[][..], &recording, &[]], line);
    }
}

#[test]
fn a_recording_cut_in_two() {
    for (recording, line) in small_recordings() {
        for cut in 0..=recording.len() {
            let (first, second) = recording.split_at(cut);
            small([first, second], line);
            small([first, &[], second], line);
        }
    }
}

#[test]
fn a_recording_cut_in_three() {
    for (recording, line) in small_recordings() {
        for to in 0..=recording.len() {
            for from in 0..=to {
                small(
                    [&recording[..from], &recording[from..to], &recording[to..]],
                    line,
                );
            }
        }
    }
}

#[test]
fn a_recording_in_pieces_of_one_length() {
    for (recording, line) in small_recordings() {
        for length in 1..=recording.len() {
            small(recording.chunks(length), line);
        }
    }
}

#[test]
fn pieces_of_one_byte_with_empty_ones_between() {
    for (recording, line) in small_recordings() {
        small(
            recording.chunks(1).flat_map(|byte| [&[], byte, &[], &[]]),
            line,
        );
    }
}

#[test]
fn no_pieces_give_no_lines() {
    assert_eq!(in_pieces(&mut [0; 100], []), "");
    assert_eq!(in_pieces(&mut [0; 100], [&[][..], &[]]), "");
}

#[test]
fn only_the_end_cuts_a_record_short() {
    let whole = [
        (&[1, 0, 0, 0, 0, 0x01, 0xE0][..], "G 760001 - --\n"),
        (&[2, 0x7E, 0xFF, 0x03], "R 000000\n"),
        (&[3, 0x7E, 0xFF, 0x03, 1, 0], "D\n"),
        (&[4, 1, 0], "D\n"),
        (&[5, 1, 0], "D\n"),
        (&[6, 1, 1], "D\n"),
    ];
    for (record, line) in whole {
        for cut in 1..record.len() {
            let (first, second) = record.split_at(cut);
            for store in [&mut [0; 100], &mut [0o177777; 100]] {
                let before = *store;
                assert_eq!(in_pieces(store, [first]), "X 12\n");
                assert_eq!(in_pieces(store, [first, &[], &[]]), "X 12\n");
                assert_eq!(*store, before);
            }
            let text = in_pieces(&mut [0; 100], [first, &[], second]);
            assert_eq!(text, line);
            let text = in_pieces(&mut [0; 100], [first, second, first]);
            assert_eq!(text, format!("{line}X 12\n"));
            let again = [first, second, first, second, &[7]];
            let text = in_pieces(&mut [0; 100], again);
            assert_eq!(text, format!("{line}{line}D\n"));
        }
    }
}

#[test]
fn an_unknown_kind_ends_the_run() {
    let mut store = [0; 100];
    let mut replay = Replay::new(&mut store, Vec::new());
    replay.feed(&[7, 5, 1]).unwrap();
    assert!(!replay.is_over());
    replay.feed(&[0, 8, 7]).unwrap();
    assert!(replay.is_over());
    replay.feed(&[7, 9, 5, 2, 0, 1]).unwrap();
    assert!(replay.is_over());
    assert_eq!(replay.finish().unwrap(), b"D\nD\nX 11\n");
    assert_eq!(store[98], 1);
}

/// Feeds INITs in pieces of 4,096 bytes, then the given pieces, and gives the
/// lines after those of the INITs, and whether the run was over before its end.
fn after_inits(count: usize, pieces: &[&[u8]]) -> (String, bool) {
    let mut store = [0; 100];
    let mut replay = Replay::new(&mut store, Vec::with_capacity(2 * count + 100));
    let inits = [7; 4096];
    for _ in 0..count / inits.len() {
        replay.feed(&inits).unwrap();
    }
    replay.feed(&inits[..count % inits.len()]).unwrap();
    for piece in pieces {
        replay.feed(piece).unwrap();
    }
    let over = replay.is_over();
    let text = replay.finish().unwrap();
    let (done, rest) = text.split_at(2 * count);
    assert!(done.chunks(2).all(|line| line == b"D\n"));
    assert_eq!(store, [0; 100]);
    (String::from_utf8(rest.to_vec()).unwrap(), over)
}

#[test]
fn pieces_up_to_the_limit() {
    let ended = |line: &str| (line.to_string(), false);
    assert_eq!(after_inits(LIMIT, &[]), ended(""));
    assert_eq!(after_inits(LIMIT, &[&[], &[]]), ended(""));
    let read = [2, 0x7A, 0xFF, 0x03];
    let pieces = [&read[..1], &read[1..]];
    assert_eq!(after_inits(LIMIT - 4, &pieces), ended("R 000000\n"));
    assert_eq!(after_inits(LIMIT - 1, &[&[2]]), ended("X 12\n"));
    let pieces = [&read[..2], &[], &read[2..3]];
    assert_eq!(after_inits(LIMIT - 3, &pieces), ended("X 12\n"));
}

#[test]
fn pieces_beyond_the_limit() {
    let over = |line: &str| (line.to_string(), true);
    for beyond in [0, 2, 7] {
        assert_eq!(after_inits(LIMIT, &[&[], &[beyond]]), over("X 13\n"));
    }
    assert_eq!(after_inits(LIMIT - 2, &[&[7; 5]]), over("D\nD\nX 13\n"));
    // A record that crosses the limit, cut before it, at it, and after it.
    let write = [3, 0x7A, 0xFF, 0x03, 1, 0];
    for cut in [1, 3, 5] {
        let (first, second) = write.split_at(cut);
        let pieces = [first, second, &[7]];
        assert_eq!(after_inits(LIMIT - 3, &pieces), over("X 13\n"));
    }
    // The end cuts it too.
    assert_eq!(after_inits(LIMIT - 1, &[&[3], &[0x7A]]), over("X 13\n"));
    // An unknown kind is the last byte inside the limit.
    assert_eq!(after_inits(LIMIT - 1, &[&[9], &[7]]), over("X 11\n"));
    assert_eq!(after_inits(LIMIT - 1, &[&[9, 9]]), over("X 11\n"));
    // After refusal 13 there is no other line.
    let pieces = [&[3][..], &[0x7A], &[0xFF, 0x03, 1, 0, 7], &[9]];
    assert_eq!(after_inits(LIMIT - 1, &pieces), over("X 13\n"));
}

/// A writer that takes so many bytes, and notes the longest write.
struct Small {
    room: usize,
    longest: usize,
}

impl Write for Small {
    fn write(&mut self, bytes: &[u8]) -> io::Result<usize> {
        self.longest = self.longest.max(bytes.len());
        let taken = bytes.len().min(self.room);
        self.room -= taken;
        Ok(taken)
    }

    fn flush(&mut self) -> io::Result<()> {
        Ok(())
    }
}

#[test]
fn the_writer_is_given_at_most_4_096_bytes_at_once() {
    let (room, longest) = (1_000_000, 0);
    let mut store = [0; 100];
    let mut replay = Replay::new(&mut store, Small { room, longest });
    replay.feed(&[7; 100_000]).unwrap();
    let writer = replay.finish().unwrap();
    assert_eq!(writer.room, 800_000);
    assert!(writer.longest <= 4096);
}

#[test]
fn a_writer_that_fails_is_reported() {
    let (room, longest) = (100, 0);
    let mut store = [0; 100];
    let mut replay = Replay::new(&mut store, Small { room, longest });
    assert!(replay.feed(&[7; 100_000]).is_err());
    let mut replay = Replay::new(&mut store, Small { room, longest });
    replay.feed(&[7; 51]).unwrap();
    assert!(replay.finish().is_err());
    let mut replay = Replay::new(&mut store, Small { room, longest });
    replay.feed(&[7; 50]).unwrap();
    assert!(replay.finish().is_ok());
}

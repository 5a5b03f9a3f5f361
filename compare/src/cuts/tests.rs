//! Functions that err are caught.

use super::*;
use crate::fields::WORDS;
use crate::recordings::{whole_case, WHOLE_CASE_TEXT};

/// 01's whole case in three pieces, the second cut inside a record.
fn cut() -> Cut {
    Cut {
        near_limit: false,
        store: vec![0; WORDS],
        pieces: pieces(&whole_case(), &[10, 21]),
        rooms: vec![1, 20],
        end: End::After,
    }
}

#[track_caller]
fn caught(feed: Feed, message: &str) {
    for end in [End::With, End::After] {
        let cut = Cut { end, ..cut() };
        let found = cut.replay(feed).unwrap_err();
        assert!(found.contains(message), "{found}");
    }
}

#[test]
fn the_pieces_of_a_cut_make_its_recording() {
    let lengths: Vec<usize> = cut().pieces.iter().map(Vec::len).collect();
    assert_eq!(lengths, [10, 11, 8]);
    assert_eq!(cut().pieces.concat(), whole_case());
    assert_eq!(pieces(&[7], &[0, 0, 1]), [vec![], vec![], vec![7], vec![]]);
}

#[test]
fn the_proved_side_gives_the_text() {
    for end in [End::With, End::After] {
        let cut = Cut { end, ..cut() };
        assert_eq!(cut.same(), Ok(WHOLE_CASE_TEXT.as_bytes().to_vec()));
    }
}

#[test]
fn a_byte_that_is_dropped_is_caught() {
    caught(
        |store, state, piece, last, out| {
            let kept = &piece[..piece.len().saturating_sub(1)];
            let written = proved::feed(store, state, kept, last, out);
            state[10] += u64::from(state[10] as usize == kept.len() && !piece.is_empty());
            written
        },
        "the state has",
    );
}

#[test]
fn an_end_that_is_said_early_is_caught() {
    caught(
        |store, state, piece, _, out| proved::feed(store, state, piece, true, out),
        "is written at place",
    );
}

#[test]
fn what_is_kept_and_forgotten_is_caught() {
    caught(
        |store, state, piece, last, out| {
            state[7] = 0;
            proved::feed(store, state, piece, last, out)
        },
        "the state has",
    );
}

#[test]
fn a_byte_beyond_the_text_is_caught() {
    caught(
        |store, state, piece, last, out| {
            let written = proved::feed(store, state, piece, last, out);
            if let Some(byte) = out.get_mut(written) {
                *byte = 0;
            }
            written
        },
        "a byte beyond the text",
    );
}

#[test]
fn more_taken_than_offered_is_caught() {
    caught(
        |store, state, piece, last, out| {
            let written = proved::feed(store, state, piece, last, out);
            state[10] = piece.len() as u64 + 1;
            written
        },
        "takes 11 bytes of 10",
    );
}

#[test]
fn a_room_that_is_not_used_is_caught() {
    caught(
        |store, state, piece, last, out| {
            let room = out.len().min(2);
            proved::feed(store, state, piece, last, &mut out[..room])
        },
        "stops, but the next line fits",
    );
}

#[test]
fn a_store_changed_without_a_line_is_caught() {
    caught(
        |store, state, piece, last, out| {
            let written = proved::feed(store, state, piece, last, out);
            store[99] ^= u16::from(written == 0);
            written
        },
        "writes nothing changes the store",
    );
}

#[test]
fn another_store_at_the_end_is_caught() {
    caught(
        |store, state, piece, last, out| {
            let written = proved::feed(store, state, piece, last, out);
            store[99] = u16::from(state[8] == 29);
            written
        },
        "store",
    );
}

#[test]
fn a_run_that_is_never_over_is_caught() {
    caught(
        |store, state, piece, last, out| {
            let written = proved::feed(store, state, piece, last, out);
            state[9] = 0;
            written
        },
        "stops, but",
    );
}

#[test]
fn a_call_that_does_something_after_the_end_is_caught() {
    caught(
        |store, state, piece, last, out| {
            state[9] = 0;
            proved::feed(store, state, piece, last, out)
        },
        "after the",
    );
}

#[test]
fn the_state_near_the_limit_is_that_of_so_many_bytes() {
    let state = state_near_limit();
    assert_eq!((state[7], state[8], state[9]), (0, BEFORE as u64, 0));
}

/// The last of so many INITs is inside the limit, or the first one beyond it.
#[test]
fn a_cut_near_the_limit_ends_by_it() {
    for (inits, lines) in [(NEAR, NEAR), (NEAR + 1, NEAR + 1), (NEAR + 2, NEAR + 1)] {
        let near = Cut {
            near_limit: true,
            pieces: vec![vec![7; 5], vec![7; inits - 5]],
            ..cut()
        };
        let text = near.same().unwrap();
        assert_eq!(text.ends_with(b"X 13\n"), inits > NEAR);
        let feeds = text.iter().filter(|&&byte| byte == b'\n');
        assert_eq!(feeds.count(), lines);
    }
}

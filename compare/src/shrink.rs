//! Making a failing case smaller for as long as it still fails.

use crate::history::{History, Pair};

/// The most cases that are tried to make a list shorter.
const TRIES: usize = 2_000;

/// A list of more items than this is only made shorter from its end.
pub const LONG: usize = 1 << 16;

/// Drops items from the end, half of them first, while `fails` still holds.
pub fn shrink_end<T: Clone>(items: &mut Vec<T>, mut fails: impl FnMut(&[T]) -> bool) {
    let mut run = items.len().div_ceil(2);
    while run > 0 {
        match items.len().checked_sub(run) {
            Some(left) if fails(&items[..left]) => items.truncate(left),
            _ => run /= 2,
        }
    }
}

/// Drops runs of items, long runs first, while `fails` still holds.
pub fn shrink_list<T: Clone>(items: &mut Vec<T>, mut fails: impl FnMut(&[T]) -> bool) {
    let mut run = items.len().max(1);
    let mut tries = 0;
    loop {
        let mut dropped = false;
        let mut at = 0;
        while at < items.len() {
            tries += 1;
            if tries > TRIES {
                return;
            }
            let end = (at + run).min(items.len());
            let rest = [&items[..at], &items[end..]].concat();
            if fails(&rest) {
                *items = rest;
                dropped = true;
            } else {
                at = end;
            }
        }
        if run > 1 {
            run = run.div_ceil(2);
        } else if !dropped {
            return;
        }
    }
}

/// The shortest history found that still has a difference: the last event on the
/// store before it or, if that is not enough, the events that are needed; then
/// every word and bit of the store cleared that can be.
pub fn shrink(history: &History) -> History {
    let mut small = history.clone();
    if let Some((at, _)) = small.difference() {
        small.events.truncate(at + 1);
    }
    match last_alone(&small) {
        Some(alone) => small = alone,
        None => {
            let store = small.store.clone();
            shrink_list(&mut small.events, |events| fails(&store, events));
        }
    }
    clear_words(&mut small);
    clear_bits(&mut small);
    small
}

/// The last event on the store as the others leave it, if there is a difference then.
fn last_alone(history: &History) -> Option<History> {
    let (&last, others) = history.events.split_last()?;
    let mut pair = Pair::new(&history.store);
    for &event in others {
        pair.step(event).ok()?;
    }
    let alone = History {
        store: pair.store().to_vec(),
        events: vec![last],
    };
    alone.difference().is_some().then_some(alone)
}

fn fails(store: &[u16], events: &[peer::Event]) -> bool {
    let history = History {
        store: store.to_vec(),
        events: events.to_vec(),
    };
    history.difference().is_some()
}

/// Sets words to 0, in long runs first.
fn clear_words(history: &mut History) {
    let mut run = history.store.len();
    while run > 0 {
        for at in (0..history.store.len()).step_by(run) {
            let end = (at + run).min(history.store.len());
            change_store(history, |store| store[at..end].fill(0));
        }
        run /= 2;
    }
}

fn clear_bits(history: &mut History) {
    for place in 0..history.store.len() {
        for bit in 0..16 {
            if history.store[place] >> bit & 1 == 1 {
                change_store(history, |store| store[place] &= !(1 << bit));
            }
        }
    }
}

/// Keeps a change of the store if there is still a difference.
fn change_store(history: &mut History, change: impl Fn(&mut [u16])) {
    let before = history.store.clone();
    change(&mut history.store);
    if history.store != before && history.difference().is_none() {
        history.store = before;
    }
}

#[cfg(test)]
mod tests {
    use super::*;

    #[test]
    fn what_is_not_needed_is_dropped() {
        let needed = |some: &[u32]| some.contains(&300) && some.contains(&700);
        let mut items: Vec<u32> = (0..1_000).collect();
        shrink_end(&mut items, needed);
        assert_eq!(items, (0..=700).collect::<Vec<_>>());
        shrink_list(&mut items, needed);
        assert_eq!(items, [300, 700]);
    }

    #[test]
    fn a_list_of_which_nothing_is_needed_becomes_empty() {
        for length in 0..20 {
            let mut items = vec![0; length];
            shrink_end(&mut items, |_| true);
            assert_eq!(items, []);
        }
    }
}

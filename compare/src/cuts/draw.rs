//! Drawn recordings in drawn pieces.

use crate::cuts::{pieces, Cut, End, NEAR};
use crate::draw;
use crate::fields::WORDS;
use crate::proved::LONGEST_LINE;
use crate::random::Random;
use crate::recordings::recording;

/// Compares so many drawn cuts; the first that differs.
pub fn check(random: &mut Random, count: u64) -> Result<(), Cut> {
    for _ in 0..count {
        let cut = cut(random);
        if cut.same().is_err() {
            return Err(cut);
        }
    }
    Ok(())
}

/// A cut; every third one crosses the limit, or ends near it.
fn cut(random: &mut Random) -> Cut {
    let near_limit = random.below(3) == 0;
    let mut recording = recording(random);
    if near_limit {
        recording.resize(NEAR + random.below(20) as usize - 10, 7);
    }
    let places = places(random, recording.len());
    let store = match random.below(3) {
        0 => vec![0; WORDS],
        _ => draw::store(random),
    };
    let count = 1 + random.below(5);
    Cut {
        near_limit,
        store,
        pieces: pieces(&recording, &places),
        rooms: (0..count).map(|_| room(random)).collect(),
        end: random.pick(&[End::With, End::After]),
    }
}

/// A room for a call: too short for some lines, or for hundreds of them.
fn room(random: &mut Random) -> usize {
    match random.below(6) {
        0 => random.below(LONGEST_LINE as u32) as usize,
        1 => LONGEST_LINE,
        2 | 3 => random.below(60) as usize,
        4 => random.below(1_000) as usize,
        _ => 4_096,
    }
}

/// Where a recording is cut, in order: some places, some with an empty piece or two, or
/// pieces of one length.
fn places(random: &mut Random, length: usize) -> Vec<usize> {
    if random.percent(30) {
        let most = random.pick(&[2, 10, 600, 5_000]);
        let step = 1 + random.below(most) as usize;
        let step = step.max(length / 3_000);
        return (step..length).step_by(step).collect();
    }
    let count = random.pick(&[0, 1, 2, 3, 10, 100, 500]);
    let mut places: Vec<usize> = (0..random.below(count + 1))
        .map(|_| random.below(length as u32 + 1) as usize)
        .collect();
    for at in 0..places.len() {
        if random.percent(5) {
            places.push(places[at]);
        }
    }
    places.sort_unstable();
    places
}

#[cfg(test)]
mod tests {
    use super::*;

    #[test]
    fn drawn_places_rise_and_lie_in_the_recording() {
        let mut random = Random::new(1);
        for length in (0..40).chain([1_000, 32_768, 40_000]) {
            for _ in 0..100 {
                let places = places(&mut random, length);
                assert!(places.is_sorted());
                assert!(places.iter().all(|place| *place <= length));
            }
        }
    }

    #[test]
    fn drawn_cuts_have_rooms_and_both_ends() {
        let mut random = Random::new(1);
        let cuts: Vec<Cut> = (0..200).map(|_| cut(&mut random)).collect();
        assert!(cuts.iter().all(|cut| !cut.rooms.is_empty()));
        assert!(cuts.iter().any(|cut| cut.end == End::With));
        assert!(cuts.iter().any(|cut| cut.end == End::After));
        assert!(cuts.iter().any(|cut| cut.store.len() != WORDS));
    }
}

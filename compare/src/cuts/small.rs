//! A cut that differs, made small and printed.

use crate::cuts::{Cut, End, BEFORE};
use crate::fields::name_of;
use crate::print::{hex, print_runs};
use crate::recordings::{each, split};
use crate::shrink::{shrink_end, shrink_list, LONG};

/// A byte of a recording; none is a cut.
type Item = Option<u8>;

impl Cut {
    fn differs(&self) -> bool {
        self.same().is_err()
    }

    /// The smallest cut found that still differs: fewer pieces of a long recording, fewer
    /// records, fewer bytes and cuts, fewer rooms, words of the store set to 0.
    pub fn shrink(&self) -> Cut {
        let mut small = self.clone();
        let length = |cut: &Cut| cut.pieces.iter().map(Vec::len).sum::<usize>();
        if length(&small) > LONG {
            let mut pieces = small.pieces.clone();
            shrink_end(&mut pieces, |some| small.with(some.to_vec()).differs());
            small.pieces = pieces;
        }
        if length(&small) <= LONG {
            small.shrink_items();
        }
        let mut rooms = small.rooms.clone();
        shrink_list(&mut rooms, |some| {
            let rooms = some.to_vec();
            !some.is_empty()
                && Cut {
                    rooms,
                    ..small.clone()
                }
                .differs()
        });
        small.rooms = rooms;
        small.change(|cut| cut.end = End::With);
        small.change(|cut| cut.near_limit = false);
        for place in 0..small.store.len() {
            small.change(|cut| cut.store[place] = 0);
        }
        small
    }

    /// The same with other pieces.
    fn with(&self, pieces: Vec<Vec<u8>>) -> Cut {
        Cut {
            pieces,
            ..self.clone()
        }
    }

    /// Keeps a change if there is still a difference.
    fn change(&mut self, change: impl Fn(&mut Cut)) {
        let mut changed = self.clone();
        change(&mut changed);
        if changed.differs() {
            *self = changed;
        }
    }

    /// Drops records with the cuts in them, then single bytes and cuts.
    fn shrink_items(&mut self) {
        let mut records = self.records();
        shrink_list(&mut records, |some| {
            self.with(pieces_of(&some.concat())).differs()
        });
        let mut items = records.concat();
        shrink_list(&mut items, |some| self.with(pieces_of(some)).differs());
        self.pieces = pieces_of(&items);
    }

    /// The bytes and cuts of each record, and the cuts at the end.
    fn records(&self) -> Vec<Vec<Item>> {
        let some = |piece: &Vec<u8>| piece.iter().copied().map(Some).collect::<Vec<_>>();
        let pieces: Vec<Vec<Item>> = self.pieces.iter().map(some).collect();
        let mut items = pieces.join(&None).into_iter();
        let mut records = Vec::new();
        for record in split(&self.pieces.concat()) {
            let mut left = record.len();
            let own = items.by_ref().take_while(|item| {
                left -= usize::from(item.is_some());
                left > 0
            });
            let mut own: Vec<Item> = own.collect();
            own.extend(record.last().copied().map(Some));
            records.push(own);
        }
        records.push(items.collect());
        records
    }

    /// Prints the cut and what differs.
    pub fn print(&self) {
        let bytes = self.pieces.concat();
        let (pieces, rooms, end) = (self.pieces.len(), &self.rooms, self.end);
        println!("  store of {} words, all 0 but", self.store.len());
        for (place, word) in self.store.iter().enumerate() {
            if *word != 0 {
                println!("  {} {word:06o}", name_of(place));
            }
        }
        if self.near_limit {
            println!("{BEFORE} INITs before, and then");
        }
        println!("{} bytes in records", bytes.len());
        print_runs(each(&bytes).map(hex));
        println!("{pieces} pieces, rooms {rooms:?} in turn, the end said {end:?} the last");
        print_runs(self.pieces.iter().map(|piece| format!("[{}]", hex(piece))));
        println!("peer writes for the whole");
        let text = self.peer(&mut self.store.clone(), &bytes);
        print_runs(String::from_utf8_lossy(&text).lines().map(str::to_string));
        match self.same() {
            Ok(_) => println!("no difference"),
            Err(message) => println!("proved: {message}"),
        }
    }
}

/// The pieces between cuts.
fn pieces_of(items: &[Item]) -> Vec<Vec<u8>> {
    let between = items.split(Option::is_none);
    between
        .map(|piece| piece.iter().copied().flatten().collect())
        .collect()
}

#[cfg(test)]
mod tests {
    use super::*;

    #[test]
    fn the_records_of_a_cut_have_all_its_bytes_and_cuts() {
        let cut = Cut {
            near_limit: false,
            store: Vec::new(),
            pieces: vec![vec![], vec![7, 6], vec![], vec![1, 2, 7], vec![]],
            rooms: vec![14],
            end: End::With,
        };
        let (a, b, c, d) = (Some(7), Some(6), Some(1), Some(2));
        let records = cut.records();
        assert_eq!(
            records,
            [
                vec![None, a],
                vec![b, None, None, c, d],
                vec![a],
                vec![None]
            ]
        );
        assert_eq!(pieces_of(&records.concat()), cut.pieces);
    }
}

//! Times the proved libraries against the independent version, row by row: events, then whole recordings.

use std::process::exit;

use compare::options::Options;
use compare::race::inputs::rows;
use compare::race::recordings::tapes;
use compare::race::replays::{self, Speeds};
use compare::race::timing::{time, Spread, Times};

const USAGE: &str = "race [--rounds N] [--seed N] [--row WORDS] [--names]";

fn main() {
    let mut options = Options::new(USAGE);
    let names = options.flag("--names");
    let rounds = options.number("--rounds", 31).max(1);
    let seed = options.number("--seed", 1);
    let only = options.text("--row").unwrap_or_default();
    options.rest(0);

    let (rows, tapes) = (rows(seed), tapes(seed));
    let all: Vec<&str> = (rows.iter().map(|row| row.name))
        .chain(tapes.iter().map(|tape| tape.name))
        .collect();
    // a whole name means that row alone, though others have its words too
    let whole = all.contains(&only.as_str());
    let chosen = |name: &str| name == only || !whole && name.contains(&only);
    let named: Vec<&str> = all.iter().copied().filter(|name| chosen(name)).collect();
    if named.is_empty() {
        eprintln!("no row's name has '{only}'");
        exit(2);
    }
    if names {
        println!("{}", named.join("\n"));
        return;
    }

    print_head(rounds);
    for row in rows.iter().filter(|row| chosen(row.name)) {
        print_row(row.name, &time(row, rounds as usize));
    }
    print_tapes_head();
    for tape in tapes.iter().filter(|tape| chosen(tape.name)) {
        print_tape(tape.name, &replays::time(tape, rounds as usize));
    }
}

fn print_head(rounds: u64) {
    println!("Nanoseconds an event: the least of a round's turns, the median of {rounds} rounds.");
    println!("Both sides are optimised, and called through pointers with the same arguments.");
    println!("peer: it answers the same numbers. own: it answers its own enum, with no encoding.");
    println!("call: the loop with a function that does nothing; it is part of every time.");
    println!("Before each timing the store is put back as it was; no other buffer is in use.");
    println!("proved / peer and proved / own are the median, least and greatest of the rounds.");
    println!();
    print!("{:34}  proved    peer     own    call", "");
    println!("      proved / peer         proved / own");
}

fn print_row(name: &str, times: &Times) {
    print!("{name:34}");
    for time in [times.proved, times.peer, times.own, times.empty] {
        print!("  {time:6.2}");
    }
    print_ratios([&times.to_peer, &times.to_own]);
}

fn print_tapes_head() {
    println!();
    println!("Recordings of 32,768 bytes replayed whole, in MB of recording a second; \"long\": 64 of them.");
    println!(
        "lent: the proved side writes into one output, lent for every call and never cleared."
    );
    println!("alloc: it writes into a new output for each call, allocated like the peer's; none is cleared.");
    println!("peer: it allocates its text for each call. Each allocation, and its end, is part of the time.");
    println!("lent / peer and alloc / peer are ratios of times: median, least and greatest of the rounds.");
    println!();
    print!("{:34}    lent   alloc    peer", "");
    println!("        lent / peer         alloc / peer");
}

fn print_tape(name: &str, speeds: &Speeds) {
    print!("{name:34}");
    for speed in [speeds.lent, speeds.allocated, speeds.peer] {
        print!("  {speed:6.1}");
    }
    print_ratios([&speeds.lent_to_peer, &speeds.allocated_to_peer]);
}

fn print_ratios(ratios: [&Spread; 2]) {
    for ratio in ratios {
        print!(
            "   {:5.2} ({:.2} to {:.2})",
            ratio.median, ratio.min, ratio.max
        );
    }
    println!();
}

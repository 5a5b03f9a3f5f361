//! Events, answers and histories as text, numbers of 01 in octal.

use peer::{Answer, Event};

use crate::codes::Stray;
use crate::fields::name_of;
use crate::history::{Difference, History};

pub fn event_text(event: Event) -> String {
    match event {
        Event::Reference {
            mode,
            space,
            access,
            phase,
            va,
        } => {
            format!("reference mode {mode} space {space} access {access} phase {phase} va {va:06o}")
        }
        Event::Read { address } => format!("read {address:06o}"),
        Event::Write { address, value } => format!("write {address:06o} value {value:06o}"),
        Event::Instruction { va } => format!("instruction start {va:06o}"),
        Event::Interrupt { vector } => format!("interrupt start {vector:06o}"),
        Event::Change { register, amount } => format!("change register {register} amount {amount}"),
        Event::Init => "init".to_string(),
    }
}

pub fn answer_text(answer: Answer) -> String {
    match answer {
        Answer::Granted { byte, page, trap } => format!(
            "granted {byte:06o}{}, {}",
            if trap { " trap" } else { "" },
            page_text(page)
        ),
        Answer::Aborted {
            nonresident,
            length,
            readonly,
        } => format!(
            "aborted {}{}{}",
            u8::from(nonresident),
            u8::from(length),
            u8::from(readonly)
        ),
        Answer::Word(word) => format!("word {word:06o}"),
        Answer::Done => "done".to_string(),
        Answer::Refused(number) => format!("refused {number}"),
    }
}

/// The page that served a grant, as `page 47`.
pub fn page_text(page: Option<u8>) -> String {
    match page {
        Some(place) => format!("page {place}"),
        None => "no page".to_string(),
    }
}

fn answered_text(answered: Result<Answer, Stray>) -> String {
    match answered {
        Ok(answer) => answer_text(answer),
        Err(Stray(code)) => format!("no answer: {code:#010x}"),
    }
}

/// A history and where its two sides part.
pub fn print_history(history: &History) {
    println!("store of {} words, all 0 but", history.store.len());
    for (place, word) in history.store.iter().enumerate() {
        if *word != 0 {
            println!("  {:3} {:18} {word:06o}", place, name_of(place));
        }
    }
    println!("events");
    for event in &history.events {
        println!("  {}", event_text(*event));
    }
    match history.difference() {
        Some((at, difference)) => print_difference(at, &difference),
        None => println!("no difference"),
    }
}

fn print_difference(at: usize, difference: &Difference) {
    println!("after event {}", at + 1);
    println!("  proved  {}", answered_text(difference.proved));
    println!("  peer    {}", answer_text(difference.peer));
    for &(place, proved, peer) in &difference.words {
        let name = match usize::try_from(place) {
            Ok(place) => name_of(place),
            Err(_) => "a word not lent".to_string(),
        };
        println!("  {place:3} {name:18} proved {proved:06o} peer {peer:06o}");
    }
}

/// A record's bytes in hexadecimal.
pub fn hex(record: &[u8]) -> String {
    let bytes: Vec<String> = record.iter().map(|byte| format!("{byte:02X}")).collect();
    bytes.join(" ")
}

/// How many lines are printed from the start, and from the end, where there are more.
const SHOWN: usize = 40;

/// Prints lines, equal ones that follow each other as one with their number; of many
/// the first and the last.
pub fn print_runs(lines: impl Iterator<Item = String>) {
    let mut runs: Vec<(String, u64)> = Vec::new();
    for line in lines {
        match runs.last_mut() {
            Some((last, count)) if *last == line => *count += 1,
            _ => runs.push((line, 1)),
        }
    }
    let last = runs.len().saturating_sub(SHOWN);
    for (at, (line, count)) in runs.iter().enumerate() {
        match count {
            _ if at == SHOWN && at < last => println!("  and {} more, then", last - SHOWN),
            _ if (SHOWN..last).contains(&at) => {}
            1 => println!("  {line}"),
            _ => println!("  {line}  ({count} times)"),
        }
    }
}

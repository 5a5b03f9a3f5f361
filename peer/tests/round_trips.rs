//! Request E2: reading back gives the events written, writing what was read
//! gives the bytes; and an event's text gives its record.

use peer::{read_line, read_record, record, write_record, Event, Found, Line};

/// A pseudo-random generator: xorshift with shifts 13, 7 and 17.
struct Random(u64);

impl Random {
    fn next(&mut self) -> u64 {
        self.0 ^= self.0 << 13;
        self.0 ^= self.0 >> 7;
        self.0 ^= self.0 << 17;
        self.0 >> 11
    }

    fn below(&mut self, bound: u64) -> u64 {
        self.next() % bound
    }

    fn byte(&mut self) -> u32 {
        self.below(256) as u32
    }

    fn word(&mut self) -> u16 {
        self.below(65_536) as u16
    }

    fn address(&mut self) -> u32 {
        self.below(1 << 24) as u32
    }

    /// An event of any kind whose fields fit their bytes.
    fn event(&mut self) -> Event {
        match self.below(7) {
            0 => Event::Reference {
                mode: self.byte(),
                space: self.byte(),
                access: self.byte(),
                phase: self.byte(),
                va: self.word(),
            },
            1 => Event::Read {
                address: self.address(),
            },
            2 => Event::Write {
                address: self.address(),
                value: self.word(),
            },
            3 => Event::Instruction { va: self.word() },
            4 => Event::Interrupt {
                vector: self.word(),
            },
            5 => Event::Change {
                register: self.byte(),
                amount: self.byte() as i32 - 128,
            },
            _ => Event::Init,
        }
    }

    /// The bytes of one whole record.
    fn record(&mut self) -> Vec<u8> {
        let (kind, body) =
            [(1, 6), (2, 3), (3, 5), (4, 2), (5, 2), (6, 2), (7, 0)][self.below(7) as usize];
        let mut record = vec![kind];
        record.extend((0..body).map(|_| self.byte() as u8));
        record
    }
}

/// All events of a recording of whole records.
fn read_all(recording: &[u8]) -> Vec<Event> {
    let mut events = Vec::new();
    let mut at = 0;
    loop {
        match read_record(recording, at) {
            Found::Event(event, after) => {
                events.push(event);
                at = after;
            }
            Found::Refused(number) => panic!("refusal {number} at {at}"),
            Found::End => return events,
        }
    }
}

/// The recording of all these events.
fn write_all(events: &[Event]) -> Vec<u8> {
    let mut buffer = vec![0; 7 * events.len()];
    let used = events.iter().fold(0, |used, &event| {
        write_record(&mut buffer, used, event).unwrap()
    });
    buffer.truncate(used);
    buffer
}

/// The event's line in the notation, all its fields as numbers.
fn line(event: Event) -> String {
    match event {
        Event::Reference {
            mode,
            space,
            access,
            phase,
            va,
        } => format!("reference {mode:o} {space:o} {access:o} {phase:o} {va:o}"),
        Event::Read { address } => format!("read {address:o}"),
        Event::Write { address, value } => format!("write {address:o} {value:o}"),
        Event::Instruction { va } => format!("instruction {va:o}"),
        Event::Interrupt { vector } => format!("interrupt {vector:o}"),
        Event::Change { register, amount } => {
            let sign = if amount < 0 { "-" } else { "" };
            format!("change {register:o} {sign}{:o}", amount.unsigned_abs())
        }
        Event::Init => String::from("init"),
    }
}

#[test]
fn reading_back_gives_the_events_written() {
    let mut random = Random(1145);
    let events: Vec<Event> = (0..700).map(|_| random.event()).collect();
    assert_eq!(read_all(&write_all(&events)), events);
}

#[test]
fn writing_what_was_read_gives_the_bytes() {
    let mut random = Random(1972);
    let recording: Vec<u8> = (0..700).flat_map(|_| random.record()).collect();
    let events = read_all(&recording);
    assert_eq!(events.len(), 700);
    assert_eq!(write_all(&events), recording);
}

#[test]
fn an_events_line_gives_the_event_and_its_record() {
    let mut random = Random(0o777572);
    let events: Vec<Event> = (0..700).map(|_| random.event()).collect();
    let mut text = String::new();
    for &event in &events {
        let line = line(event);
        assert_eq!(read_line(line.as_bytes()), Line::Event(event), "{line}");
        text += &line;
        text += "\n";
    }
    assert_eq!(record(text.as_bytes()), (write_all(&events), None));
}

//! Where 01 puts things: places in the store, register addresses, fields of words.

pub const WORDS: usize = 100;
/// Place of the first PDR; the PAR of page n is at n, its PDR at `PDR + n`.
pub const PDR: usize = 48;
pub const SR0: usize = 96;
pub const SR1: usize = 97;
pub const SR2: usize = 98;
pub const SR3: usize = 99;

/// SR0: relocation on; traps enabled; any of these set is frozen.
pub const RELOCATE: u16 = 0o000001;
pub const TRAPS: u16 = 0o001000;
pub const FROZEN: u16 = 0o160000;

/// The first PAR of each set, in the order of the store; its PDRs stand 40 lower.
const PAR_SETS: [u32; 6] = [0o772340, 0o772360, 0o772240, 0o772260, 0o777640, 0o777660];
const STATUS: [u32; 4] = [0o777572, 0o777574, 0o777576, 0o772516];

/// The address of the register at a place.
pub fn address_of(place: usize) -> u32 {
    let in_set = |n: usize| PAR_SETS[n / 8] + 2 * (n % 8) as u32;
    match place {
        0..PDR => in_set(place),
        PDR..SR0 => in_set(place - PDR) - 0o40,
        _ => STATUS[place - SR0],
    }
}

/// The place of the register at an address.
pub fn place_of(address: u32) -> Option<usize> {
    (0..WORDS).find(|&place| address_of(place) == address)
}

/// Whether a byte lies in one of the 100 registers' words.
pub fn in_registers(byte: u32) -> bool {
    byte >= 0o772200 && place_of(byte & !1).is_some()
}

/// The name of a place, as `PDR Supervisor D 3`.
pub fn name_of(place: usize) -> String {
    match place {
        0..PDR => format!("PAR {}", page_name(place)),
        PDR..SR0 => format!("PDR {}", page_name(place - PDR)),
        SR0..WORDS => format!("SR{}", place - SR0),
        _ => format!("word {place}"),
    }
}

fn page_name(page: usize) -> String {
    let mode = ["Kernel", "Supervisor", "User"][page / 16];
    let set = ["I", "D"][page / 8 % 2];
    format!("{mode} {set} {}", page % 8)
}

/// Whether SR3 enables D space for a mode: bit 2 Kernel, 1 Supervisor, 0 User.
pub fn d_enabled(sr3: u16, mode: u32) -> bool {
    match mode {
        0 => sr3 & 0o4 != 0,
        1 => sr3 & 0o2 != 0,
        3 => sr3 & 0o1 != 0,
        _ => false,
    }
}

/// Rule 3: the page of a reference, 0 to 47, for modes 0, 1 and 3.
pub fn page_of(sr3: u16, mode: u32, space: u32, va: u16) -> usize {
    let first = match mode {
        0 => 0,
        1 => 16,
        _ => 32,
    };
    let d = usize::from(space == 1 && d_enabled(sr3, mode));
    first + 8 * d + usize::from(va >> 13)
}

/// VA 12:6.
pub fn block_of(va: u16) -> u16 {
    va >> 6 & 0o177
}

pub fn length_of(pdr: u16) -> u16 {
    pdr >> 8 & 0o177
}

pub fn downward(pdr: u16) -> bool {
    pdr & 0o10 != 0
}

pub fn key_of(pdr: u16) -> u16 {
    pdr & 0o7
}

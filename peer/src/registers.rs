//! The 100 registers: their places in the store, their addresses and their bits.

/// The register store: 48 PARs, 48 PDRs, then SR0 to SR3.
pub type Store = [u16; 100];

/// Place of the first PDR; the PAR of page n is at n, its PDR at `PDR + n`.
/// Pages run Kernel I 0 to 7, Kernel D, Supervisor I and D, User I and D.
pub const PDR: usize = 48;
pub const SR0: usize = 96;
pub const SR1: usize = 97;
pub const SR2: usize = 98;
pub const SR3: usize = 99;

/// First page of each mode's sixteen.
pub const KERNEL: usize = 0;
pub const SUPERVISOR: usize = 16;
pub const USER: usize = 32;

/// The bits of a PDR.
pub const PDR_A: u16 = 1 << 7;
pub const PDR_W: u16 = 1 << 6;
pub const PDR_ED: u16 = 1 << 3;
pub const PDR_KEY: u16 = 0o7;

/// The bits of SR0: the three abort flags, the trap, its enable and relocation.
pub const SR0_NONRESIDENT: u16 = 1 << 15;
pub const SR0_LENGTH: u16 = 1 << 14;
pub const SR0_READONLY: u16 = 1 << 13;
pub const SR0_TRAP: u16 = 1 << 12;
pub const SR0_TRAP_ENABLE: u16 = 1 << 9;
pub const SR0_RELOCATE: u16 = 1;
/// SR0 bits 7:1: phase, mode, set and page of an abort or trap.
pub const SR0_CAUSE: u16 = 0o376;

/// SR3's enables of D space.
pub const SR3_USER_D: u16 = 1 << 0;
pub const SR3_SUPERVISOR_D: u16 = 1 << 1;
pub const SR3_KERNEL_D: u16 = 1 << 2;

/// Bits a register write takes from the value; SR0 keeps 7:1 besides.
pub const PAR_WRITTEN: u16 = 0o007777;
pub const PDR_WRITTEN: u16 = 0o077417;
pub const SR0_WRITTEN: u16 = 0o171401;
pub const SR3_WRITTEN: u16 = 0o000017;

/// The implemented bits of the register at a place: what a register read gives.
pub fn implemented_bits(place: usize) -> u16 {
    match place {
        0..PDR => 0o007777,
        PDR..SR0 => 0o077717,
        SR0 => 0o171777,
        SR3 => 0o000017,
        _ => 0o177777,
    }
}

/// The place of the register whose word holds the byte at this address.
pub fn place(address: u32) -> Option<usize> {
    match address {
        0o772200..=0o772277 => Some(page_place(SUPERVISOR, address - 0o772200)),
        0o772300..=0o772377 => Some(page_place(KERNEL, address - 0o772300)),
        0o777600..=0o777677 => Some(page_place(USER, address - 0o777600)),
        0o777572..=0o777577 => Some(SR0 + (address - 0o777572) as usize / 2),
        0o772516..=0o772517 => Some(SR3),
        _ => None,
    }
}

/// A mode's 32 page registers stand together: sixteen PDRs, then sixteen PARs,
/// each I then D, as in the store.
fn page_place(first_page: usize, offset: u32) -> usize {
    let page = first_page + (offset >> 1 & 0o17) as usize;
    if offset < 0o40 {
        PDR + page
    } else {
        page
    }
}

#[cfg(test)]
mod tests {
    use super::*;

    /// 01's addresses, in the order of the store.
    fn addresses() -> Vec<u32> {
        let pars = [0o772340, 0o772360, 0o772240, 0o772260, 0o777640, 0o777660];
        let eight = |first: u32| (0..8).map(move |n| first + 2 * n);
        let mut list: Vec<u32> = pars.into_iter().flat_map(eight).collect();
        list.extend(pars.into_iter().flat_map(|par| eight(par - 0o40)));
        list.extend([0o777572, 0o777574, 0o777576, 0o772516]);
        list
    }

    #[test]
    fn every_address_has_the_place_01_gives_it() {
        let list = addresses();
        assert_eq!(list.len(), 100);
        for address in 0..=0o1777777 {
            let expected = list.iter().position(|&word| word == address & !1);
            assert_eq!(place(address), expected, "{address:o}");
        }
    }
}

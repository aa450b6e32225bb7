//! Listings of either kind damaged in their octets: refusals 1 and 3 to 6, and
//! whatever else a flipped bit may bring.

use super::{packs, small, Random};
use crate::listing::layout::{count_at, offset_at, u32_at, Format};
use crate::make::{set_count, set_offset, set_true_length, set_u32, Draft};

/// What is done to the octets of a sound listing.
pub type Damage = fn(&mut Random, &Format, Vec<u8>) -> Vec<u8>;

/// A tile listing to be damaged.
pub fn sound(random: &mut Random) -> Vec<u8> {
    match random.below(4) {
        0 => Draft::default().listing(),
        1 => small::any(random).listing(),
        _ => packs::good(random).listing(),
    }
}

/// Fewer octets than the header has, or just enough.
pub fn short(random: &mut Random, format: &Format, mut octets: Vec<u8>) -> Vec<u8> {
    let header = format.header_size();
    let lengths =
        [0, 1, 4, 8, 32, header - 4, header - 2, header - 1, header - 1, header, header + 1];
    octets.truncate(random.pick(&lengths));
    if random.once_in(2) {
        set_true_length(&mut octets);
    }
    octets
}

pub fn truncated(random: &mut Random, _: &Format, mut octets: Vec<u8>) -> Vec<u8> {
    let cut = match random.once_in(2) {
        true => 1 + random.below(8),
        false => random.below(octets.len()),
    };
    octets.truncate(octets.len().saturating_sub(cut));
    if random.once_in(2) {
        set_true_length(&mut octets);
    }
    octets
}

pub fn extended(random: &mut Random, _: &Format, mut octets: Vec<u8>) -> Vec<u8> {
    let more = 1 + random.below(40);
    octets.extend(std::iter::repeat_n(random.word() as u8, more));
    if !random.once_in(3) {
        set_true_length(&mut octets);
    }
    octets
}

/// A place in the header, or anywhere.
fn place(random: &mut Random, format: &Format, octets: &[u8]) -> usize {
    match random.once_in(3) {
        true => random.below(format.header_size()),
        false => random.below(octets.len()),
    }
}

pub fn bit_flips(random: &mut Random, format: &Format, mut octets: Vec<u8>) -> Vec<u8> {
    for _ in 0..1 + random.below(4) {
        let at = place(random, format, &octets);
        octets[at] ^= 1 << random.below(8);
    }
    octets
}

pub fn octet_flips(random: &mut Random, format: &Format, mut octets: Vec<u8>) -> Vec<u8> {
    for _ in 0..1 + random.below(3) {
        let at = place(random, format, &octets);
        octets[at] = random.pick(&[0, 1, 2, 0x7f, 0x80, 0xfe, 0xff]);
    }
    octets
}

pub fn random_octets(random: &mut Random, format: &Format) -> Vec<u8> {
    let length = random.below(300);
    let mut octets: Vec<u8> = (0..length).map(|_| random.word() as u8).collect();
    // The further steps of a chance header, one by one.
    let depth = random.below(4);
    if depth > 0 {
        set_u32(&mut octets, 0, 1);
    }
    if depth > 1 {
        set_true_length(&mut octets);
    }
    if depth > 2 {
        for table in format.tables() {
            set_count(&mut octets, table, random.below(3) as u32);
        }
    }
    octets
}

pub fn version_and_length(random: &mut Random, format: &Format, mut octets: Vec<u8>) -> Vec<u8> {
    let length = octets.len() as u32;
    if random.once_in(2) {
        let version = random.pick(&[0, 2, 0x0100_0000, 257, u32::MAX]);
        set_u32(&mut octets, 0, version);
    }
    if random.once_in(2) {
        let wrong = random.pick(&[0, 1, length - 1, length + 1, length << 8, u32::MAX]);
        set_u32(&mut octets, 4, wrong);
    }
    if random.once_in(3) {
        wrong_count(random, format, &mut octets);
    }
    octets
}

fn any_table(random: &mut Random, format: &Format) -> usize {
    format.first_table + random.below(format.shapes.len())
}

/// One count at its most, above it, off by one, or anything.
fn wrong_count(random: &mut Random, format: &Format, octets: &mut [u8]) {
    let table = any_table(random, format);
    let most = format.shape(table).most;
    let held = octets.get(count_at(table)).copied().map_or(0, u32::from);
    let counts = [most, most, most + 1, most + 1, held + 1, 0, u32::MAX, 1 << 27];
    set_count(octets, table, random.pick(&counts));
}

pub fn counts(random: &mut Random, format: &Format, mut octets: Vec<u8>) -> Vec<u8> {
    for _ in 0..1 + random.below(3) {
        wrong_count(random, format, &mut octets);
    }
    octets
}

/// One offset off by a little, by a row, or altogether.
fn wrong_offset(random: &mut Random, format: &Format, octets: &mut [u8]) {
    let table = any_table(random, format);
    let held = u32_at(octets, offset_at(table));
    let offsets =
        [held.wrapping_add(1), held.wrapping_sub(1), held.wrapping_add(32), 0, u32::MAX, held];
    set_offset(octets, table, random.pick(&offsets));
}

pub fn offsets(random: &mut Random, format: &Format, mut octets: Vec<u8>) -> Vec<u8> {
    for _ in 0..1 + random.below(3) {
        wrong_offset(random, format, &mut octets);
    }
    octets
}

/// So many faults that the order among 4, 5 and 6 shows.
pub fn counts_and_offsets(random: &mut Random, format: &Format, mut octets: Vec<u8>) -> Vec<u8> {
    for _ in 0..1 + random.below(3) {
        wrong_offset(random, format, &mut octets);
        if random.once_in(2) {
            wrong_count(random, format, &mut octets);
        }
    }
    if random.once_in(4) {
        octets.push(0);
        set_true_length(&mut octets);
    }
    octets
}

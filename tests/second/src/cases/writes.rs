//! Writes to compare: which buffers to lend with some parts, and what must
//! come of each call.

use super::{filled, Expected};
use crate::calls::{size_of, write_call, Parts, WriteCalled};
use crate::generate::Random;
use crate::listing::layout::{GREATEST_LISTING, HEADER_SIZE};

/// Octets of the answer.
pub const WRITE_ANSWER: usize = 16;

/// Parts of more octets than these meet fewer calls.
const MANY_OCTETS: usize = 100_000;

/// A write: the lengths and first octets of its two buffers.
#[derive(Clone, Copy, Debug, PartialEq, Eq)]
pub struct WriteCall {
    pub listing: usize,
    pub answer: usize,
    pub fill: u8,
}

impl WriteCall {
    /// What must come of the call with some parts. It has no `work`.
    pub fn expected(&self, parts: &Parts) -> Expected {
        let (listing, answer) = (filled(self.listing, self.fill), filled(self.answer, self.fill));
        let WriteCalled { returned, answer, listing } = write_call(parts, &listing, &answer);
        Expected { returned, output: listing, answer, keeps_work: true }
    }
}

/// The writes to make with some parts, made from a seed.
pub fn writes(seed: u64, parts: &Parts) -> Vec<WriteCall> {
    // Another stream of numbers than that of the parts.
    let mut random = Random::new(seed ^ (1 << 62));
    let exact = size_of(parts);
    let mut calls = Vec::new();
    for listing in rooms(&mut random, exact) {
        let longer = random.below(24);
        let answer = WRITE_ANSWER + random.pick(&[0, 0, 1, longer]);
        calls.push(WriteCall { listing, answer, fill: random.word() as u8 });
    }
    let shorter = random.below(WRITE_ANSWER);
    let too_short = [WRITE_ANSWER - 1, shorter, 0];
    let short_answers = if exact > MANY_OCTETS { &too_short[..1] } else { &too_short };
    for &answer in short_answers {
        calls.push(WriteCall { listing: exact, answer, fill: random.word() as u8 });
    }
    calls
}

/// Two writes with some parts: with room for the listing, and without.
pub fn few_writes(seed: u64, parts: &Parts) -> Vec<WriteCall> {
    let mut random = Random::new(seed);
    let mut call = |listing| WriteCall { listing, answer: WRITE_ANSWER, fill: random.word() as u8 };
    vec![call(size_of(parts)), call(0)]
}

/// Buffers for a listing of so many octets, on both sides of each line.
fn rooms(random: &mut Random, exact: usize) -> Vec<usize> {
    let mut rooms = vec![exact, exact - 1, exact + 1 + random.below(200)];
    if exact <= MANY_OCTETS {
        rooms.extend([0, HEADER_SIZE - 1, HEADER_SIZE, random.below(exact)]);
    }
    // Seldom: that many octets take their time.
    if random.once_in(100) {
        rooms.push(GREATEST_LISTING + random.below(5_000));
    }
    rooms
}

//! Reading 3.2: texts that are parts of the same names. Where the characters
//! begin and end was counted by hand.

use crate::make::span;
use crate::vectors::base::{octets_of, valley};
use crate::vectors::texts::NAMES_END;
use crate::vectors::Tally;

/// Names, and for each of their well-formed stretches the places between its
/// characters, its ends among them.
type Counted = (&'static str, &'static [&'static [usize]]);

const COUNTED: [Counted; 11] = [
    ("61 c3a9 e282ac f09f9084 62", &[&[0, 1, 3, 6, 10, 11]]),
    ("61 c3a9 ff e282ac 62", &[&[0, 1, 3], &[4, 7, 8]]),
    ("61 80 62", &[&[0, 1], &[2, 3]]),
    ("c3a9 a9 c3a9", &[&[0, 2], &[3, 5]]),
    ("e282 61 c3a9", &[&[2, 3, 5]]),
    ("f09f90 f09f9084 f0", &[&[3, 7]]),
    ("61 c3 c3a9 e1 62", &[&[0, 1], &[2, 4], &[5, 6]]),
    ("eda080 c080 61", &[&[5, 6]]),
    ("f4908080 f48fbfbf", &[&[4, 8]]),
    ("ff ff ff", &[]),
    ("efbbbf 00 61 efbfbf", &[&[0, 3, 4, 5, 8]]),
];

pub fn check(tally: &mut Tally) {
    for (hex, stretches) in COUNTED {
        check_every_part(tally, hex, stretches);
    }
    for edge in [8, 16, 32, 64, 128, 256, 512, 4_096] {
        check_across(tally, edge);
        check_beside_stray(tally, edge);
    }
}

/// The valley whose names go on with these octets; a part of them is its first
/// definition, at which no rule looks.
fn check_part(tally: &mut Tally, octets: &[u8], start: usize, end: usize, is_good: bool) {
    let mut draft = valley();
    let first = draft.text_apart(octets).start as usize;
    draft.references[0].definition = span(first + start, end - start);
    let shows = format!("3.2: {start} to {end} of {} octets", octets.len());
    let want = if is_good { "" } else { "refused 13 1 0" };
    tally.judged(&shows, &draft.listing(), want);
}

fn check_every_part(tally: &mut Tally, hex: &str, stretches: &[&[usize]]) {
    let octets = octets_of(hex);
    for start in 0..=octets.len() {
        for end in start..=octets.len() {
            let is_between = |places: &&[usize]| places.contains(&start) && places.contains(&end);
            let is_good = start == end || stretches.iter().any(is_between);
            check_part(tally, &octets, start, end, is_good);
        }
    }
}

/// ASCII to go on with behind the valley's names, past a multiple of so many
/// octets of table 7; and where in it that multiple is.
fn past_a_multiple(edge: usize) -> (Vec<u8>, usize) {
    let names = NAMES_END as usize;
    let multiple = (names + 4).next_multiple_of(edge) - names;
    (vec![b'a'; multiple + edge + 4], multiple)
}

/// A character that begins before a multiple and ends behind it.
fn check_across(tally: &mut Tally, edge: usize) {
    for (character, before) in [("\u{e9}", 1), ("\u{20ac}", 1), ("\u{20ac}", 2), ("\u{1f404}", 3)] {
        let (mut octets, multiple) = past_a_multiple(edge);
        let begin = multiple - before;
        let end = begin + character.len();
        octets[begin..end].copy_from_slice(character.as_bytes());
        for (from, to, is_good) in [
            (0, octets.len(), true),
            (0, begin, true),
            (0, begin + 1, false),
            (0, end - 1, false),
            (0, end, true),
            (begin, octets.len(), true),
            (begin + 1, octets.len(), false),
            (end - 1, octets.len(), false),
            (end, octets.len(), true),
            (begin, end, true),
            (multiple, multiple, true),
        ] {
            check_part(tally, &octets, from, to, is_good);
        }
    }
}

/// An octet that is no character, one before a multiple, at it and behind it.
fn check_beside_stray(tally: &mut Tally, edge: usize) {
    for stray in [0x80, 0xff, 0xe9] {
        let (names, multiple) = past_a_multiple(edge);
        for at in [multiple - 1, multiple, multiple + 1] {
            let mut octets = names.clone();
            octets[at] = stray;
            let end = octets.len();
            for (from, to, is_good) in [
                (0, at, true),
                (0, at + 1, false),
                (at, end, false),
                (at + 1, end, true),
                (at, at, true),
                (at, at + 1, false),
                (0, end, false),
            ] {
                check_part(tally, &octets, from, to, is_good);
            }
        }
    }
}

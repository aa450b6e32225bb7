//! Large listings of texts that take long to read for whoever reads each by
//! itself, or keeps too little of what it has read. All are accepted; they have
//! tiles and names and nothing else.

use super::Random;
use crate::make::{span, Draft, Span, TileRow};

/// The kinds that [`hostile`] makes.
pub const HOSTILE_KINDS: [&str; 7] = [
    "overlapping",
    "overlapping-letters",
    "stray",
    "scattered",
    "ends-at-stray",
    "begins-late",
    "beside",
];

/// A listing of a kind with so many tiles; nothing for a kind that is none. It
/// has four names for each tile, but never fewer than these.
///
/// * `overlapping`: parts of nearly three quarters of the names, all ASCII;
/// * `overlapping-letters`: the same, of letters of one to four octets;
/// * `stray`: parts on both sides of an octet that is no letter, in turn;
/// * `scattered`: letters alone, between octets that are none;
/// * `ends-at-stray`: long parts that end before an 80 that no text covers;
/// * `begins-late`: long parts that begin a few octets behind one that is none;
/// * `beside`: 253 octets of mixed letters, beside a longer stretch that begins in
///   the same 256 octets.
pub fn hostile(kind: &str, tiles: usize) -> Option<Draft> {
    let mut random = Random::new(tiles as u64);
    let size = (4 * tiles).max(4_096);
    let (names, texts) = match kind {
        "overlapping" => overlapping(&mut random, size, tiles),
        "overlapping-letters" => overlapping_letters(&mut random, size, tiles),
        "stray" => stray(&mut random, size, tiles),
        "scattered" => scattered(&mut random, size, tiles),
        "ends-at-stray" => ends_at_stray(&mut random, size, tiles),
        "begins-late" => begins_late(&mut random, size, tiles),
        "beside" => beside(&mut random, size, tiles),
        _ => return None,
    };
    let tile = |(column, table_name)| TileRow { table_name, zoom: 0, column, row: 0 };
    Some(Draft { tiles: (0..).zip(texts).map(tile).collect(), names, ..Draft::default() })
}

type NamesAndTexts = (Vec<u8>, Vec<Span>);

/// From a start in the first quarter on; no two have the same.
fn overlapping(random: &mut Random, size: usize, tiles: usize) -> NamesAndTexts {
    let text = |start| span(start, size / 7 * 5 + random.below(size / 256));
    let mut texts: Vec<Span> = (0..tiles).map(text).collect();
    random.shuffle(&mut texts);
    (vec![b'a'; size], texts)
}

/// Letters of one to four octets in any order, up to so many octets.
fn letters(random: &mut Random, size: usize) -> String {
    let mut letters = String::new();
    while letters.len() < size {
        let letter = random.pick(&['a', '\u{e9}', '\u{20ac}', '\u{1f404}']);
        let fits = letters.len() + letter.len_utf8() <= size;
        letters.push(if fits { letter } else { 'a' });
    }
    letters
}

fn overlapping_letters(random: &mut Random, size: usize, tiles: usize) -> NamesAndTexts {
    let letters = letters(random, size);
    let places: Vec<usize> = letters.char_indices().map(|(place, _)| place).collect();
    let quarter = places.len() / 4;
    let text = |_| {
        let start = places[random.below(quarter)];
        let end = places[places.len() - 1 - random.below(quarter)];
        span(start, end - start)
    };
    let texts = (0..tiles).map(text).collect();
    (letters.into_bytes(), texts)
}

fn stray(random: &mut Random, size: usize, tiles: usize) -> NamesAndTexts {
    let middle = size / 2;
    let mut names = vec![b'a'; size];
    names[middle] = 0xff;
    let text = |number| {
        let length = middle / 256 * 243 + random.below(size / 512);
        match number % 2 {
            0 => span(random.below(middle - length), length),
            _ => span(middle + 1 + random.below(middle - length), length),
        }
    };
    let texts = (0..tiles).map(text).collect();
    (names, texts)
}

fn scattered(random: &mut Random, size: usize, tiles: usize) -> NamesAndTexts {
    let texts = (0..tiles).map(|_| span(2 * random.below(size / 2), 1)).collect();
    ([b'a', 0xff].repeat(size / 2), texts)
}

fn ends_at_stray(random: &mut Random, size: usize, tiles: usize) -> NamesAndTexts {
    let middle = size / 2;
    let mut names = vec![b'a'; size];
    names[middle] = 0x80;
    let text = |_| {
        let start = random.below(size / 64);
        span(start, middle - start)
    };
    let texts = (0..tiles).map(text).collect();
    (names, texts)
}

fn begins_late(random: &mut Random, size: usize, tiles: usize) -> NamesAndTexts {
    let mut names = vec![b'a'; size];
    let quarter = size / 4;
    (0..4).for_each(|number| names[number * quarter + 64] = 0xff);
    let text = |_| {
        let behind = random.below(4) * quarter + 65;
        span(behind + random.below(60), quarter / 128 * 127 - 128)
    };
    let texts = (0..tiles).map(text).collect();
    (names, texts)
}

fn beside(random: &mut Random, size: usize, tiles: usize) -> NamesAndTexts {
    let mut names = Vec::with_capacity(size);
    let stretches = size / 512;
    for _ in 0..stretches {
        let beside = "a".repeat(256);
        for stretch in [letters(random, 253), beside] {
            names.push(0xff);
            names.extend(stretch.bytes());
        }
        names.push(0xff);
    }
    let texts = (0..tiles).map(|_| span(512 * random.below(stretches) + 1, 253)).collect();
    (names, texts)
}

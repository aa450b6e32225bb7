//! Listings at the edge of refusal 13: characters at both ends of each row of
//! the Unicode Standard's Table 3-7, octets one beyond, texts over one another,
//! cut inside a character, beside stray octets and around multiples of octets.
//!
//! The maker knows which texts are well-formed from where it put characters.

use super::edges::{any_text, set_edge_texts, set_flags, sound};
use super::Random;
use crate::make::{span, ContentsRow, Draft, ExtensionRow, MatrixRow, ReferenceRow};
use crate::make::{SetRow, Span, TileRow, NULL};

/// The first and the last character of each row, and some that are usual.
pub const CHARACTERS: [char; 23] = [
    '\0',
    'a',
    '\u{7f}',
    '\u{80}',
    '\u{e9}',
    '\u{7ff}',
    '\u{800}',
    '\u{fff}',
    '\u{1000}',
    '\u{20ac}',
    '\u{cfff}',
    '\u{d000}',
    '\u{d7ff}',
    '\u{e000}',
    '\u{feff}',
    '\u{ffff}',
    '\u{10000}',
    '\u{1f404}',
    '\u{3ffff}',
    '\u{40000}',
    '\u{fffff}',
    '\u{100000}',
    '\u{10ffff}',
];

/// Octets with no character in them: overlong, surrogates, beyond the last, cut,
/// alone, or with an octet that is one too great. The one too small, 7F, is there
/// where that character follows.
const NO_CHARACTERS: [&[u8]; 44] = [
    b"\x80",
    b"\xbf",
    b"\xc0\x80",
    b"\xc1\xbf",
    b"\xc2",
    b"\xc2\xc0",
    b"\xdf",
    b"\xdf\xc0",
    b"\xe0",
    b"\xe0\x80\x80",
    b"\xe0\x9f\xbf",
    b"\xe0\xa0",
    b"\xe0\xa0\xc0",
    b"\xe0\xc0\x80",
    b"\xe1\x80",
    b"\xe1\xc0\x80",
    b"\xec\xbf",
    b"\xec\xbf\xc0",
    b"\xed\x9f",
    b"\xed\x9f\xc0",
    b"\xed\xa0\x80",
    b"\xed\xbf\xbf",
    b"\xee\x80",
    b"\xee\xc0\x80",
    b"\xef\xbf",
    b"\xef\xbf\xc0",
    b"\xf0\x80\x80\x80",
    b"\xf0\x8f\xbf\xbf",
    b"\xf0\x90",
    b"\xf0\x90\x80",
    b"\xf0\x90\x80\xc0",
    b"\xf0\xc0\x80\x80",
    b"\xf1\x80\xc0\x80",
    b"\xf1\x80\x80",
    b"\xf3\xbf\xbf",
    b"\xf3\xbf\xbf\xc0",
    b"\xf4\x8f\xbf",
    b"\xf4\x90\x80\x80",
    b"\xf4\xbf\xbf\xbf",
    b"\xf5\x80\x80\x80",
    b"\xf7\xbf\xbf\xbf",
    b"\xf8\x88\x80\x80\x80",
    b"\xfe",
    b"\xff",
];

/// Names in the making, with the places between the characters of each of their
/// stretches, its ends among them.
struct Names {
    octets: Vec<u8>,
    stretches: Vec<Vec<usize>>,
}

impl Names {
    /// They begin with so many octets of ASCII and a character of two octets, so
    /// that some part is ill.
    fn new(ascii: usize) -> Names {
        let mut names = Names { octets: Vec::new(), stretches: vec![vec![0]] };
        (0..ascii).for_each(|_| names.add('a'));
        names.add('\u{e9}');
        names
    }

    fn add(&mut self, character: char) {
        self.octets.extend(character.to_string().bytes());
        if let Some(places) = self.stretches.last_mut() {
            places.push(self.octets.len());
        }
    }

    /// Octets that are no character, and then one that is: what goes on with a
    /// sequence that is cut must not make it whole.
    fn add_stray(&mut self, random: &mut Random) {
        self.octets.extend(random.pick(&NO_CHARACTERS));
        self.stretches.push(vec![self.octets.len()]);
        self.add(random.pick(&CHARACTERS));
    }

    /// Some characters, and none, few or many stray octets.
    fn any(random: &mut Random) -> Names {
        let stray_once_in = random.pick(&[2, 6, 1_000]);
        let ascii = random.below(20);
        let mut names = Names::new(random.pick(&[0, ascii]));
        for _ in 0..random.below(40) {
            match random.once_in(stray_once_in) {
                true => names.add_stray(random),
                false => names.add(random.pick(&CHARACTERS)),
            }
        }
        names
    }

    /// Some thousand octets, ASCII or mixed, in which characters of several
    /// octets and strays stand around the multiples of `edge`.
    fn around(random: &mut Random, edge: usize) -> Names {
        let ascii = edge * random.below(4) + random.below(7);
        let mut names = Names::new(ascii.saturating_sub(3));
        let length = edge + random.below(5_000);
        let is_ascii = random.once_in(2);
        while names.octets.len() < length {
            let to_next = edge - names.octets.len() % edge;
            match random.below(128) {
                0 => names.add_stray(random),
                1..16 if to_next < 6 => names.add_stray(random),
                16..80 if to_next < 6 => names.add(random.pick(&CHARACTERS[3..])),
                _ if is_ascii => names.add('a'),
                _ => names.add(random.pick(&CHARACTERS)),
            }
        }
        names
    }

    fn is_good(&self, start: usize, end: usize) -> bool {
        let is_between = |places: &Vec<usize>| {
            places.binary_search(&start).is_ok() && places.binary_search(&end).is_ok()
        };
        start == end || self.stretches.iter().any(is_between)
    }

    /// Any text that is well-formed; an empty one may stand anywhere.
    fn good(&self, random: &mut Random) -> Span {
        let places = &self.stretches[random.below(self.stretches.len())];
        let mut at = [0; 2].map(|_| random.pick(places));
        at.sort_unstable();
        match at[0] == at[1] && random.once_in(2) {
            true => span(random.below(self.octets.len() + 1), 0),
            false => span(at[0], at[1] - at[0]),
        }
    }

    /// A well-formed text from about one multiple to about another.
    fn good_around(&self, random: &mut Random, edge: usize) -> Span {
        let near = self.near(random, edge);
        let holds = |places: &&Vec<usize>| places.last().is_some_and(|&end| near <= end);
        let places = self.stretches.iter().find(holds).unwrap_or(&self.stretches[0]);
        let place_from = |at| places[places.partition_point(|&p| p < at).min(places.len() - 1)];
        let mut at = [place_from(near), place_from(self.near(random, edge))];
        at.sort_unstable();
        span(at[0], at[1] - at[0])
    }

    /// A place at most three octets from a multiple.
    fn near(&self, random: &mut Random, edge: usize) -> usize {
        let multiple = random.below(self.octets.len() / edge + 1) * edge;
        (multiple + random.below(7)).saturating_sub(3).min(self.octets.len())
    }

    /// Any text that is not well-formed; mostly one of few octets.
    fn ill(&self, random: &mut Random) -> Span {
        self.ill_between(|| {
            let start = random.below(self.octets.len());
            let length = random.pick(&[1, 1, 2, 3, 4, 8, self.octets.len()]);
            [start, start + 1 + random.below(length)]
        })
    }

    /// The same from about one multiple to about another.
    fn ill_around(&self, random: &mut Random, edge: usize) -> Span {
        self.ill_between(|| [0; 2].map(|_| self.near(random, edge)))
    }

    /// Places are tried until there is one; in the end the first character beyond
    /// ASCII, cut.
    fn ill_between(&self, mut places: impl FnMut() -> [usize; 2]) -> Span {
        for _ in 0..1_000 {
            let [one, other] = places();
            let (start, end) = (one.min(other), one.max(other).min(self.octets.len()));
            if !self.is_good(start, end) {
                return span(start, end - start);
            }
        }
        let ascii = self.octets.iter().take_while(|octet| octet.is_ascii()).count();
        span(ascii, 1)
    }
}

/// Rows of which a maker of texts knows no more than that they have texts.
pub trait WithTexts: Sized {
    /// Some rows in every table, with such texts.
    fn of_texts(random: &mut Random, text: impl FnMut(&mut Random) -> Span) -> Self;

    /// Puts a text into any field of any row. Answers the place, if there is a row.
    fn put(&mut self, random: &mut Random, text: Span) -> Option<(u32, u32)>;

    fn names(&mut self) -> &mut Vec<u8>;
}

impl WithTexts for Draft {
    fn of_texts(random: &mut Random, mut text: impl FnMut(&mut Random) -> Span) -> Draft {
        let mut draft = Draft::default();
        for _ in 0..random.below(4) {
            let (organization, definition) = (text(random), text(random));
            draft.references.push(ReferenceRow {
                srs_id: 0,
                coordsys_id: 0,
                organization,
                definition,
            });
        }
        for _ in 0..random.below(4) {
            let [table_name, data_type, last_change] = [0; 3].map(|_| text(random));
            let row =
                ContentsRow { table_name, data_type, last_change, srs_id: 0, flag: 1, spare: 0 };
            draft.contents.push(row);
        }
        for _ in 0..random.below(4) {
            draft.sets.push(SetRow { table_name: text(random), srs_id: 0, corners: [0.0; 4] });
        }
        for zoom in 0..random.from_to(0, 3) {
            let table_name = text(random);
            draft.matrices.push(MatrixRow { table_name, zoom, ..EMPTY_MATRIX });
        }
        for row in 0..random.from_to(0, 12) {
            draft.tiles.push(TileRow { table_name: text(random), zoom: 0, column: 0, row });
        }
        for _ in 0..random.below(4) {
            let [table_name, column_name, extension_name, scope] = [0; 4].map(|_| text(random));
            let is_null = [0; 2].map(|_| random.once_in(4));
            draft.extensions.push(ExtensionRow {
                table_name: if is_null[0] { NULL } else { table_name },
                column_name: if is_null[1] { NULL } else { column_name },
                extension_name,
                scope,
            });
        }
        draft
    }

    fn put(&mut self, random: &mut Random, text: Span) -> Option<(u32, u32)> {
        let tables: Vec<usize> = (1..=6).filter(|&table| self.counts()[table - 1] > 0).collect();
        let table = tables.get(random.below(tables.len().max(1)))?;
        let (row, field) = any_text(random, self, *table)?;
        *field = text;
        Some((*table as u32, row as u32))
    }

    fn names(&mut self) -> &mut Vec<u8> {
        &mut self.names
    }
}

const EMPTY_MATRIX: MatrixRow = MatrixRow {
    table_name: NULL,
    zoom: 0,
    matrix_width: 1,
    matrix_height: 1,
    tile_width: 256,
    tile_height: 256,
    pixel_x_size: 1.0,
    pixel_y_size: 1.0,
};

/// A listing, and the place for which 13 must refuse it, if it must.
pub struct Known<D> {
    pub draft: D,
    pub place: Option<(u32, u32)>,
}

impl<D: WithTexts> Known<D> {
    /// Rows with good texts, and so many that are ill in place of some of them.
    fn of(
        random: &mut Random,
        names: Names,
        ills: usize,
        good: impl Fn(&Names, &mut Random) -> Span,
        ill: impl Fn(&Names, &mut Random) -> Span,
    ) -> Known<D> {
        let mut last = good(&names, random);
        let mut draft = D::of_texts(random, |random| {
            // Often the text of the row before.
            if !random.once_in(3) {
                last = good(&names, random);
            }
            last
        });
        let places = (0..ills).filter_map(|_| {
            let text = ill(&names, random);
            draft.put(random, text)
        });
        let place = places.min();
        *draft.names() = names.octets;
        Known { draft, place }
    }
}

/// Well-formed texts over one another in every field, strays between them.
pub fn characters<D: WithTexts>(random: &mut Random) -> Known<D> {
    let names = Names::any(random);
    Known::of(random, names, 0, Names::good, Names::ill)
}

/// The same with some that are not well-formed.
pub fn ill_characters<D: WithTexts>(random: &mut Random) -> Known<D> {
    let names = Names::any(random);
    let ills = random.pick(&[1, 1, 1, 2, 5, 20]);
    Known::of(random, names, ills, Names::good, Names::ill)
}

/// Texts from about one multiple of octets to about another, mostly good ones.
pub fn around_multiples<D: WithTexts>(random: &mut Random) -> Known<D> {
    let edge = random.pick(&[8, 16, 32, 64, 128, 128, 256, 256, 512]);
    let names = Names::around(random, edge);
    let ills = random.pick(&[0, 0, 0, 1, 1, 2]);
    let good = |names: &Names, random: &mut Random| names.good_around(random, edge);
    let ill = |names: &Names, random: &mut Random| names.ill_around(random, edge);
    Known::of(random, names, ills, good, ill)
}

/// One of these from a seed.
pub fn any_characters<D: WithTexts>(seed: u64) -> Known<D> {
    let mut random = Random::new(seed);
    match seed % 4 {
        0 => characters(&mut random),
        1 => ill_characters(&mut random),
        _ => around_multiples(&mut random),
    }
}

/// An ill text at the end of any names: octets that are no character, with what
/// stands before them or without.
pub fn ill_at_end(random: &mut Random, names: &mut Vec<u8>) -> Span {
    let before = random.below(3).min(names.len());
    let start = names.len() - before;
    names.extend(random.pick(&NO_CHARACTERS));
    span(start, names.len() - start)
}

/// Faults of 7, 8 and 13 together, so that their order and places show.
pub fn with_7_and_8(random: &mut Random) -> Vec<u8> {
    let mut draft = sound(random);
    if random.once_in(2) {
        set_flags(random, &mut draft);
    }
    for _ in 0..1 + random.below(3) {
        let ill = ill_at_end(random, &mut draft.names);
        draft.put(random, ill);
    }
    if random.once_in(2) {
        set_edge_texts(random, &mut draft, 3);
    }
    draft.listing()
}

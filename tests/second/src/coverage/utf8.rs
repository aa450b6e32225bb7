//! What the made listings reach of refusal 13: characters and faults on both
//! sides of each line, in every field, around multiples of octets, and beside the
//! other reasons. Whether a text is well-formed is asked of `from_utf8` here.

use std::collections::HashSet;
use std::ops::Range;
use std::str::from_utf8;

use super::Line;
use crate::calls::Question;
use crate::generate::{cut, CHARACTERS};
use crate::listing::layout::{count_at, u32_at, CONTENTS, LISTING, NAMES, SHAPES};
use crate::listing::{check_utf8, Listing, Refusal};

/// What stands just beyond the ends of the ranges of Table 3-7.
const FAULTS: [&[u8]; 36] = [
    b"\x80",
    b"\xbf",
    b"\xc0",
    b"\xc1",
    b"\xc2\x7f",
    b"\xc2\xc0",
    b"\xdf\x7f",
    b"\xdf\xc0",
    b"\xe0\x9f",
    b"\xe0\xc0",
    b"\xe1\x7f",
    b"\xe1\xc0",
    b"\xec\x7f",
    b"\xec\xc0",
    b"\xed\x7f",
    b"\xed\xa0",
    b"\xee\x7f",
    b"\xee\xc0",
    b"\xef\x7f",
    b"\xef\xc0",
    b"\xf0\x8f",
    b"\xf0\xc0",
    b"\xf1\x7f",
    b"\xf1\xc0",
    b"\xf3\x7f",
    b"\xf3\xc0",
    b"\xf4\x7f",
    b"\xf4\x90",
    b"\xf5",
    b"\xff",
    b"\xe1\x80\x7f",
    b"\xe1\x80\xc0",
    b"\xf1\x80\x7f",
    b"\xf1\x80\xc0",
    b"\xf1\x80\x80\x7f",
    b"\xf1\x80\x80\xc0",
];

/// A text inside the names, and where its place is.
struct Text {
    table: usize,
    row: usize,
    field: usize,
    places: Range<usize>,
    /// How many octets of it are well-formed, if not all are.
    fault: Option<usize>,
}

/// A listing that is accepted or refused 13, and its texts; of those that stand
/// in the same field with the same places, the first.
struct Seen<'a> {
    names: &'a [u8],
    refusal: Option<Refusal>,
    texts: Vec<Text>,
}

impl Seen<'_> {
    fn octets(&self, text: &Text) -> &[u8] {
        &self.names[text.places.clone()]
    }

    /// Is it accepted with such a text?
    fn is_good(&self, test: impl Fn(&Text) -> bool) -> bool {
        self.refusal.is_none() && self.texts.iter().any(test)
    }

    /// Is it refused for a text in whose octets, from its fault on, that shows?
    fn is_ill(&self, test: impl Fn(&[u8]) -> bool) -> bool {
        let shows = |text: &Text| text.fault.is_some_and(|at| test(&self.octets(text)[at..]));
        self.refused_texts().any(shows)
    }

    fn ill_texts(&self) -> impl Iterator<Item = &Text> {
        self.texts.iter().filter(|text| text.fault.is_some())
    }

    /// Those in the row that it is refused for.
    fn refused_texts(&self) -> impl Iterator<Item = &Text> {
        let is_refused = |text: &&Text| self.refusal == Some(Refusal::at(13, text.table, text.row));
        self.ill_texts().filter(is_refused)
    }

    fn refused_fields(&self) -> Vec<(usize, usize)> {
        self.refused_texts().map(|text| (text.table, text.field)).collect()
    }
}

/// The texts of tables 1 to 6.
fn texts(listing: &Listing) -> Vec<Text> {
    let mut texts = Vec::new();
    let mut met = HashSet::new();
    for table in 1..NAMES {
        for (row, octets) in listing.row_octets(table).enumerate() {
            for (field, text) in SHAPES[table - 1].texts.iter().enumerate() {
                let start = u32_at(octets, text.at) as usize;
                let places = start..start + u32_at(octets, text.at + 4) as usize;
                let Some(octets) = listing.names().get(places.clone()) else {
                    continue;
                };
                if met.insert((table, field, places.clone())) {
                    let fault = from_utf8(octets).err().map(|error| error.valid_up_to());
                    texts.push(Text { table, row, field, places, fault });
                }
            }
        }
    }
    texts
}

type Test = Box<dyn Fn(&Seen) -> bool>;

/// The lines that tell of refusal 13.
pub struct Utf8 {
    tested: Vec<(Line, Test)>,
    after_7: Line,
    after_8: Line,
    after_9: Line,
    before_10: Line,
}

impl Utf8 {
    pub fn new() -> Utf8 {
        let mut utf8 = Utf8 {
            tested: Vec::new(),
            after_7: Line::new("7 where 13 is there too"),
            after_8: Line::new("8 where 13 is there too"),
            after_9: Line::new("9 where 13 is there too"),
            before_10: Line::new("13 where 10 is there too"),
        };
        utf8.add_characters();
        utf8.add_faults();
        utf8.add_fields();
        utf8.add_parts();
        [8, 16, 64, 128, 256].into_iter().for_each(|edge| utf8.add_multiples_of(edge));
        utf8
    }

    fn add(&mut self, name: impl AsRef<str>, test: impl Fn(&Seen) -> bool + 'static) {
        self.tested.push((Line::new(name.as_ref()), Box::new(test)));
    }

    fn add_characters(&mut self) {
        for character in CHARACTERS {
            let name = format!("well-formed with U+{:04X}", u32::from(character));
            self.add(name, move |seen| {
                let has = |text: &str| text.contains(character);
                seen.is_good(|text| from_utf8(seen.octets(text)).is_ok_and(has))
            });
        }
    }

    fn add_faults(&mut self) {
        for octets in FAULTS {
            let name = format!("ill-formed from {octets:02x?} on");
            self.add(name, |seen| seen.is_ill(|fault| fault.starts_with(octets)));
        }
        for (octets, first) in [(2, 0xc2..=0xdf), (3, 0xe0..=0xef), (4, 0xf0..=0xf4)] {
            for at in 1..octets {
                let is_first = first.clone();
                self.add(format!("a character of {octets} octets cut after {at}"), move |seen| {
                    let is_cut = |f: &[u8]| f.len() == at && is_first.contains(&f[0]);
                    seen.is_ill(|fault| is_cut(fault) && is_begun(fault))
                });
            }
        }
    }

    fn add_fields(&mut self) {
        for table in 1..NAMES {
            for field in 0..SHAPES[table - 1].texts.len() {
                let name = format!("13 for table {table}, text {} alone", field + 1);
                self.add(name, move |seen| seen.refused_fields() == [(table, field)]);
            }
        }
        self.add("13 for two texts of a row", |seen| seen.refused_fields().len() == 2);
        let is_after =
            |text: &Text, r: Refusal| (text.table as u32, text.row as u32) > (r.table, r.row);
        self.add("13 with an ill text in a later row", move |seen| {
            seen.refusal.is_some_and(|r| seen.ill_texts().any(|text| is_after(text, r)))
        });
    }

    fn add_parts(&mut self) {
        let is_inner =
            |octet: Option<&u8>| octet.is_some_and(|octet| (0x80..=0xbf).contains(octet));
        self.add("well-formed, though a character would go on", move |seen| {
            let goes_on = |text: &Text| is_inner(seen.names.get(text.places.end));
            seen.is_good(|text| !text.places.is_empty() && goes_on(text))
        });
        self.add("an empty text inside a character", move |seen| {
            let is_inside = |text: &Text| is_inner(seen.names.get(text.places.start));
            seen.is_good(|text| text.places.is_empty() && is_inside(text))
        });
        self.add("ill-formed, though all names together are not", |seen| {
            seen.refusal.is_some() && from_utf8(seen.names).is_ok()
        });
        self.add("well-formed, though not all names together are", |seen| {
            seen.refusal.is_none() && from_utf8(seen.names).is_err()
        });
        self.add("well-formed texts that overlap", |seen| {
            let laps = |one: &Text, other: &Text| {
                let (one, other) = (&one.places, &other.places);
                one.start < other.start && other.start < one.end && one.end < other.end
            };
            seen.is_good(|one| seen.texts.iter().any(|other| laps(one, other)))
        });
    }

    fn add_multiples_of(&mut self, edge: usize) {
        self.add(format!("well-formed from a multiple of {edge} on"), move |seen| {
            seen.is_good(|text| text.places.start >= edge && text.places.start % edge == 0)
        });
        self.add(format!("well-formed up to a multiple of {edge}"), move |seen| {
            seen.is_good(|text| !text.places.is_empty() && text.places.end % edge == 0)
        });
        self.add(format!("well-formed across a multiple of {edge}"), move |seen| {
            let has_across = |text: &Text| {
                let mut end = text.places.start;
                let characters = from_utf8(seen.octets(text)).unwrap_or_default().chars();
                characters.map(char::len_utf8).any(|octets| {
                    end += octets;
                    (1..octets).contains(&(end % edge))
                })
            };
            seen.is_good(has_across)
        });
        self.add(format!("ill-formed from about a multiple of {edge} on"), move |seen| {
            let fault_of = |text: &Text| text.fault.map(|fault| text.places.start + fault);
            let is_about = |at: usize| at + 2 >= edge && (at + 2) % edge < 4;
            seen.refused_texts().filter_map(fault_of).any(is_about)
        });
    }

    /// Counts a listing, as it was read.
    pub fn count(&mut self, octets: &[u8], refusal: Option<Refusal>) {
        let parts = cut(octets);
        let tables = parts.each_ref().map(Vec::as_slice);
        let listing = Listing::of_tables(tables);
        let number = refusal.map(|refusal| refusal.number);
        let is_ill = check_utf8(&LISTING, &tables).is_err();
        self.after_7.count(number == Some(7) && is_ill);
        self.after_8.count(number == Some(8) && is_ill);
        if number.is_none() || number == Some(13) {
            let seen = Seen { names: listing.names(), refusal, texts: texts(&listing) };
            for (line, test) in &mut self.tested {
                line.count(test(&seen));
            }
        }
    }

    /// Counts a verdict on a listing that has such a text.
    pub fn count_verdict(&mut self, refused: Option<Refusal>) {
        self.after_9.count(refused.is_some_and(|refusal| refusal.number == 9));
    }

    /// Counts a lookup on a listing that is refused 13.
    pub fn count_lookup(&mut self, octets: &[u8], question: Question) {
        let contents = u32_at(octets, count_at(CONTENTS));
        self.before_10.count(question.contents_row >= contents);
    }

    pub fn lines(&self) -> impl Iterator<Item = &Line> {
        let beside = [&self.after_7, &self.after_8, &self.after_9, &self.before_10];
        self.tested.iter().map(|(line, _)| line).chain(beside)
    }
}

/// Is this the beginning of a character, cut?
fn is_begun(octets: &[u8]) -> bool {
    from_utf8(octets).is_err_and(|error| error.error_len().is_none())
}

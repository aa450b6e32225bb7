//! What the made parts reach: every reason of the writer at every table, each
//! two reasons together, buffers and texts on both sides of each line, every
//! kind of parts, and every kind of listing written back.

use super::{kind_line, Line};
use crate::calls::{size_of, write, Parts};
use crate::cases::{writes, WriteCall, WRITE_ANSWER};
use crate::generate::{kind_names, parts_kind_names, PartsCase};
use crate::listing::layout::*;
use crate::listing::{check_flags, check_texts, check_utf8, Listing, Refusal};

/// The writer's reasons in their order.
const ORDER: [u32; 6] = [11, 5, 7, 8, 13, 12];

/// Kinds of listings of which few or none are accepted, so that they need not
/// be among those written back.
const MOSTLY_REFUSED: [&str; 17] = [
    "short",
    "truncated",
    "extended",
    "bit flips",
    "octet flips",
    "random octets",
    "version and length",
    "counts",
    "offsets",
    "counts and offsets",
    "text edges",
    "nulls",
    "nearly NULL",
    "contents flags",
    "several refusals",
    "ill characters",
    "refusal 13 and others",
];

/// A write, why it is refused, if it is, and what is there in its parts.
struct Seen<'a> {
    known: &'a Known,
    call: WriteCall,
    refusal: Option<Refusal>,
}

/// What is there in some parts, whatever comes of them.
struct Known {
    size: usize,
    counts: [usize; TABLE_COUNT],
    /// The reasons whose fault is there. The room is not looked at.
    faults: Vec<u32>,
    ragged: usize,
    texts: Vec<Text>,
    /// Are the names well-formed UTF-8, all together?
    is_utf8: bool,
    is_ascii: bool,
}

/// What a text field may hold that is at the edge.
#[derive(Clone, Copy, PartialEq, Eq)]
enum Text {
    EndsAtTheEnd,
    EndsOnePast,
    NullWhereAllowed,
    NullElsewhere,
}

impl Known {
    fn of(parts: &Parts) -> Known {
        let sizes = parts.iter().map(Vec::len).zip(&SHAPES);
        let ragged = sizes.clone().filter(|(size, shape)| size % shape.row_size != 0).count();
        let mut counts = [0; TABLE_COUNT];
        for (count, (size, shape)) in counts.iter_mut().zip(sizes) {
            *count = size / shape.row_size;
        }
        let is_above = counts.iter().zip(&SHAPES).any(|(&n, shape)| n > shape.most as usize);
        // Whole rows alone are looked at, so this is told of ragged parts too.
        let tables = parts.each_ref().map(Vec::as_slice);
        let listing = Listing::of_tables(tables);
        let faults = [
            (ragged > 0, 11),
            (is_above, 5),
            (check_texts(&LISTING, &tables).is_err(), 7),
            (check_flags(&LISTING, &tables).is_err(), 8),
            (check_utf8(&LISTING, &tables).is_err(), 13),
        ];
        let faults = faults.iter().filter(|(is_there, _)| *is_there).map(|(_, number)| *number);
        Known {
            size: size_of(parts),
            counts,
            faults: faults.collect(),
            ragged,
            texts: texts(&listing),
            is_utf8: std::str::from_utf8(listing.names()).is_ok(),
            is_ascii: listing.names().is_ascii(),
        }
    }
}

/// The texts at the edge, each kind as often as it is there.
fn texts(listing: &Listing) -> Vec<Text> {
    let end = listing.names().len() as u64;
    let mut texts = Vec::new();
    for table in 1..NAMES {
        for row in listing.row_octets(table) {
            for field in SHAPES[table - 1].texts {
                let (start, length) = (u32_at(row, field.at), u32_at(row, field.at + 4));
                let is_null = start == NULL_START && length == 0;
                texts.extend(match u64::from(start) + u64::from(length) {
                    _ if is_null && field.may_be_null => Some(Text::NullWhereAllowed),
                    _ if is_null => Some(Text::NullElsewhere),
                    at if at == end => Some(Text::EndsAtTheEnd),
                    at if at == end + 1 => Some(Text::EndsOnePast),
                    _ => None,
                });
            }
        }
    }
    texts
}

impl Seen<'_> {
    fn is_answered(&self) -> bool {
        self.call.answer >= WRITE_ANSWER
    }

    fn is_written(&self) -> bool {
        self.is_answered() && self.refusal.is_none()
    }

    fn is_refused(&self, number: u32) -> bool {
        self.is_answered() && self.refusal.is_some_and(|refusal| refusal.number == number)
    }

    fn is_refused_at(&self, number: u32, table: usize) -> bool {
        self.is_refused(number) && self.refusal.is_some_and(|r| r.table as usize == table)
    }

    fn has(&self, number: u32) -> bool {
        match number {
            12 => self.call.listing < self.known.size,
            _ => self.known.faults.contains(&number),
        }
    }

    fn has_text(&self, text: Text) -> bool {
        self.known.texts.contains(&text)
    }
}

type Test = Box<dyn Fn(&Seen) -> bool>;

/// The lines that tell of writes.
pub struct Writes {
    tested: Vec<(Line, Test)>,
    kinds: Vec<Line>,
    written_back: Vec<Line>,
}

impl Writes {
    pub fn new() -> Writes {
        let mut writes = Writes {
            tested: Vec::new(),
            kinds: parts_kind_names().map(|name| kind_line(&format!("parts: {name}"))).collect(),
            written_back: kind_names()
                .filter(|name| !MOSTLY_REFUSED.contains(name))
                .map(|name| kind_line(&format!("written back: {name}")))
                .collect(),
        };
        writes.add_reasons();
        writes.add_limits();
        writes.add_texts();
        writes.add_buffers();
        writes
    }

    fn add(&mut self, name: impl AsRef<str>, test: impl Fn(&Seen) -> bool + 'static) {
        let line = Line::new(format!("write: {}", name.as_ref()));
        self.tested.push((line, Box::new(test)));
    }

    fn add_reasons(&mut self) {
        self.add("a listing", |seen| seen.is_written());
        for number in ORDER {
            self.add(format!("refusal {number}"), move |seen| seen.is_refused(number));
        }
        for table in 1..=TABLE_COUNT {
            self.add(format!("refusal 5 at table {table}"), move |s| s.is_refused_at(5, table));
        }
        for table in 1..NAMES {
            for number in [11, 7, 13] {
                let name = format!("refusal {number} at table {table}");
                self.add(name, move |seen| seen.is_refused_at(number, table));
            }
        }
        for (at, first) in ORDER.into_iter().enumerate() {
            for &later in &ORDER[at + 1..] {
                let name = format!("{first} where {later} is there too");
                self.add(name, move |seen| seen.is_refused(first) && seen.has(later));
            }
        }
        self.add("11, and ragged at several tables", |s| s.is_refused(11) && s.known.ragged > 1);
    }

    fn add_limits(&mut self) {
        let is_full = |seen: &Seen, table: usize| {
            seen.known.counts[table - 1] == SHAPES[table - 1].most as usize
        };
        for table in 1..=TABLE_COUNT {
            let name = format!("table {table} at its most");
            self.add(name, move |seen| seen.is_written() && is_full(seen, table));
            let name = format!("table {table} one above its most");
            self.add(name, move |seen| {
                seen.known.counts[table - 1] == SHAPES[table - 1].most as usize + 1
            });
        }
        self.add("9,762,880 octets", |s| s.is_written() && s.known.size == GREATEST_LISTING);
        self.add("the header alone", |s| s.is_written() && s.known.size == HEADER_SIZE);
    }

    fn add_texts(&mut self) {
        let inside = [
            ("a text that ends at the names' end", Text::EndsAtTheEnd),
            ("NULL where allowed", Text::NullWhereAllowed),
        ];
        for (name, text) in inside {
            self.add(name, move |seen| seen.is_written() && seen.has_text(text));
        }
        self.add("names beyond ASCII", |seen| {
            seen.is_written() && seen.known.is_utf8 && !seen.known.is_ascii
        });
        self.add("names with stray octets", |seen| seen.is_written() && !seen.known.is_utf8);
        self.add("13, and all names together well-formed", |seen| {
            seen.is_refused(13) && seen.known.is_utf8
        });
        let outside = [
            ("a text that ends one past", Text::EndsOnePast),
            ("NULL where not allowed", Text::NullElsewhere),
        ];
        for (name, text) in outside {
            self.add(name, move |seen| seen.is_refused(7) && seen.has_text(text));
        }
    }

    fn add_buffers(&mut self) {
        self.add("room exactly", |s| s.is_written() && s.call.listing == s.known.size);
        self.add("room one short", |s| s.is_refused(12) && s.call.listing + 1 == s.known.size);
        self.add("room longer", |s| s.is_written() && s.call.listing > s.known.size);
        self.add("room beyond 9,762,880 octets", |s| {
            s.is_written() && s.call.listing > GREATEST_LISTING
        });
        for room in [0, HEADER_SIZE - 1, HEADER_SIZE] {
            self.add(format!("room of {room}"), move |seen| seen.call.listing == room);
        }
        for answer in 0..=WRITE_ANSWER {
            self.add(format!("answer of {answer}"), move |seen| seen.call.answer == answer);
        }
        self.add("answer longer", |seen| seen.call.answer > WRITE_ANSWER);
    }

    /// Counts the writes with some parts.
    pub fn count(&mut self, seed: u64, case: &PartsCase) {
        let PartsCase { kind, parts, listing } = case;
        let lines = self.kinds.iter_mut().chain(&mut self.written_back);
        let written = write(parts, size_of(parts)).ok();
        let is_back = written.is_some() && written == *listing;
        for line in lines {
            let name = line.name.split_once(": ").map(|(_, name)| name);
            line.have += usize::from(name == Some(kind) && (is_back || listing.is_none()));
        }
        let known = &Known::of(parts);
        for call in writes(seed, parts) {
            let refusal = write(parts, call.listing).err();
            let seen = Seen { known, call, refusal };
            for (line, test) in &mut self.tested {
                line.count(test(&seen));
            }
        }
    }

    pub fn lines(&self) -> impl Iterator<Item = &Line> {
        let tested = self.tested.iter().map(|(line, _)| line);
        tested.chain(&self.kinds).chain(&self.written_back)
    }
}

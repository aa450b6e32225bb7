//! What the made metadata listings reach: every code met and missed; every reason of
//! either listing at every place, alone and beside the others; each scope with and
//! without a table, a column and a row id; ids, texts, flags and buffers on both sides
//! of each line; every kind.

use super::{kind_line, Line, OF_A_LISTING};
use crate::calls::report_metadata;
use crate::cases::{metadata_calls, Call, Given};
use crate::generate::{cut_by, metadata_kind_names, MetadataCase, METADATA_LIMITS};
use crate::generate::{REFERENCE_SCOPES, SCOPES};
use crate::listing::layout::*;
use crate::listing::{check_flags, check_texts, check_utf8, read, read_metadata};
use crate::listing::{Contents, Metadata, MetadataReference, Refusal};
use crate::rules::{Finding, METADATA_CODES};

/// The text fields, by their table and where they stand in a row.
const FIELDS: [(&str, usize, usize); 5] = [
    ("md_scope", METADATA, 8),
    ("reference_scope", METADATA_REFERENCES, 0),
    ("table_name", METADATA_REFERENCES, 8),
    ("column_name", METADATA_REFERENCES, 16),
    ("timestamp", METADATA_REFERENCES, 24),
];

/// What is there in both listings, whatever comes of them.
struct Seen<'a> {
    case: &'a MetadataCase,
    of_listing: Option<Refusal>,
    of_metadata: Option<Refusal>,
    findings: Option<Vec<Finding>>,
    /// The tables of the metadata listing, as far as they go.
    parts: Vec<Vec<u8>>,
    /// What is judged: nothing, where either is refused.
    contents: Vec<Contents<'a>>,
    metadata: Vec<Metadata<'a>>,
    references: Vec<MetadataReference<'a>>,
    calls: Vec<Call>,
}

impl<'a> Seen<'a> {
    fn of(seed: u64, case: &'a MetadataCase) -> Seen<'a> {
        let (listing, metadata) = (read(&case.listing), read_metadata(&case.metadata));
        let judged = listing.ok().zip(metadata.ok());
        Seen {
            case,
            of_listing: listing.err(),
            of_metadata: metadata.err(),
            findings: report_metadata(&case.listing, &case.metadata).ok(),
            parts: cut_by(&METADATA_LISTING, &case.metadata),
            contents: judged.map_or_else(Vec::new, |(listing, _)| listing.contents().collect()),
            metadata: judged.map_or_else(Vec::new, |(_, metadata)| metadata.metadata().collect()),
            references: judged
                .map_or_else(Vec::new, |(_, metadata)| metadata.references().collect()),
            calls: metadata_calls(seed, Given::both(case)),
        }
    }

    fn is_judged(&self) -> bool {
        self.findings.is_some()
    }

    fn has(&self, code: u32) -> bool {
        self.findings.iter().flatten().any(|finding| finding.code == code)
    }

    /// Is the metadata listing refused so, and the tile listing good?
    fn is_refused(&self, test: impl FnOnce(Refusal) -> bool) -> bool {
        self.of_listing.is_none() && self.of_metadata.is_some_and(test)
    }

    fn is_refused_at(&self, number: u32, table: usize) -> bool {
        self.is_refused(|refusal| (refusal.number, refusal.table) == (number, table as u32))
    }

    /// Is the fault of a later reason there too?
    fn has_fault(&self, number: u32) -> bool {
        let tables: Vec<&[u8]> = self.parts.iter().map(Vec::as_slice).collect();
        let check = match number {
            7 => check_texts,
            8 => check_flags,
            _ => check_utf8,
        };
        check(&METADATA_LISTING, &tables).is_err()
    }

    /// The rows of a table in octets, as far as they go.
    fn rows(&self, table: usize) -> impl Iterator<Item = &[u8]> {
        let row_size = METADATA_LISTING.shape(table).row_size;
        self.parts[table - METADATA].chunks_exact(row_size)
    }

    /// How many rows each table has, as far as they go.
    fn counts(&self) -> [usize; 3] {
        let count = |table: usize| self.rows(table).count();
        [METADATA, METADATA_REFERENCES, METADATA_NAMES].map(count)
    }

    fn names(&self) -> &[u8] {
        &self.parts[METADATA_NAMES - METADATA]
    }

    /// Start and end of the text at a place of each row of its table.
    fn texts(&self, table: usize, at: usize) -> impl Iterator<Item = (u64, u64)> + '_ {
        let words = self.rows(table).map(move |row| (u32_at(row, at), u32_at(row, at + 4)));
        words.map(|(start, length)| (u64::from(start), u64::from(start) + u64::from(length)))
    }

    fn any_text(&self, test: impl Fn((u64, u64)) -> bool) -> bool {
        FIELDS.iter().any(|&(_, table, at)| self.texts(table, at).any(&test))
    }

    /// Is it refused 13 for this text of a row and no other?
    fn is_ill_at(&self, table: usize, at: usize) -> bool {
        self.is_refused(|refusal| {
            let row = self.rows(table).nth(refusal.row as usize);
            let is_ill = |of: usize| {
                let (start, length) =
                    row.map_or((0, 0), |row| (u32_at(row, of), u32_at(row, of + 4)));
                let text = self.names().get(start as usize..start as usize + length as usize);
                text.is_some_and(|text| std::str::from_utf8(text).is_err())
            };
            let fields = FIELDS.iter().filter(|field| field.1 == table);
            let ill: Vec<usize> = fields.map(|field| field.2).filter(|&of| is_ill(of)).collect();
            (refusal.number, refusal.table) == (13, table as u32) && ill == [at]
        })
    }

    fn any_reference(&self, test: impl Fn(&MetadataReference) -> bool) -> bool {
        self.references.iter().any(test)
    }

    /// How many files have an id.
    fn files_with(&self, id: i64) -> usize {
        self.metadata.iter().filter(|row| row.id == id).count()
    }

    /// How many contents rows have a name, tiles or not.
    fn contents_with(&self, name: &[u8], is_tiles: bool) -> usize {
        let rows = self.contents.iter().filter(|row| row.table_name == name);
        rows.filter(|row| (row.data_type == b"tiles") == is_tiles).count()
    }

    fn is_known(&self, name: &[u8]) -> bool {
        self.contents.iter().any(|row| row.table_name == name)
    }
}

type Test = Box<dyn Fn(&Seen) -> bool>;

/// The lines that tell of metadata listings.
pub struct MetadataLines {
    tested: Vec<(Line, Test)>,
    kinds: Vec<Line>,
}

impl MetadataLines {
    pub fn new() -> MetadataLines {
        let limits = METADATA_LIMITS.iter().map(|(name, _)| *name);
        let kinds = metadata_kind_names().chain(limits);
        let kinds = kinds.map(|name| kind_line(&format!("metadata: {name}"))).collect();
        let mut lines = MetadataLines { tested: Vec::new(), kinds };
        lines.add_codes();
        lines.add_reasons();
        lines.add_order();
        lines.add_sizes();
        lines.add_texts();
        lines.add_places();
        lines.add_flags();
        lines.add_scopes();
        lines.add_matrix();
        lines.add_table_names();
        lines.add_ids();
        lines.add_parents();
        lines.add_buffers();
        lines
    }

    fn add(&mut self, name: impl AsRef<str>, test: impl Fn(&Seen) -> bool + 'static) {
        let line = Line::new(format!("metadata: {}", name.as_ref()));
        self.tested.push((line, Box::new(test)));
    }

    fn add_codes(&mut self) {
        self.add("judged", |seen| seen.is_judged());
        self.add("without findings", |seen| seen.findings.as_ref().is_some_and(Vec::is_empty));
        for code in &METADATA_CODES {
            let (number, table) = (code.number, code.table);
            self.add(format!("code {number}"), move |seen| seen.has(number));
            self.add(format!("rows and no code {number}"), move |seen| {
                seen.is_judged() && seen.rows(table).next().is_some() && !seen.has(number)
            });
        }
        self.add("every code", |seen| METADATA_CODES.iter().all(|code| seen.has(code.number)));
    }

    fn add_reasons(&mut self) {
        for number in OF_A_LISTING {
            self.add(format!("refusal {number}"), move |seen| {
                seen.is_refused(|refusal| refusal.number == number)
            });
            let is_first = move |seen: &Seen| seen.of_listing.is_some_and(|r| r.number == number);
            self.add(format!("refusal {number} of the tile listing alone"), move |seen| {
                is_first(seen) && seen.of_metadata.is_none()
            });
            self.add(format!("refusal {number} of the tile listing, both refused"), move |seen| {
                is_first(seen) && seen.of_metadata.is_some()
            });
        }
        let places = [(5, 11), (5, 12), (5, 13), (6, 11), (6, 12), (6, 13), (7, 11), (7, 12)];
        for (number, table) in places.into_iter().chain([(8, 12), (13, 11), (13, 12)]) {
            self.add(format!("refusal {number} at table {table}"), move |seen| {
                seen.is_refused_at(number, table)
            });
        }
        for number in [7, 8, 13] {
            self.add(format!("refusal {number} not at the first row"), move |seen| {
                seen.is_refused(|refusal| refusal.number == number && refusal.row > 0)
            });
        }
        self.add("refusal 6 for the final end", |seen| {
            let last = offset_at(METADATA_NAMES);
            let names = METADATA_LISTING.size(&seen.counts()) - seen.counts()[2];
            seen.is_refused_at(6, METADATA_NAMES)
                && u32_at(&seen.case.metadata, last) as usize == names
        });
    }

    fn add_order(&mut self) {
        for (first, later) in [(7, 8), (7, 13), (8, 13)] {
            self.add(format!("{first} where {later} is there too"), move |seen| {
                seen.is_refused(|refusal| refusal.number == first) && seen.has_fault(later)
            });
        }
        for number in [7, 8, 13] {
            self.add(format!("13 of the tile listing where {number} is there too"), move |seen| {
                seen.of_listing.is_some_and(|refusal| refusal.number == 13)
                    && seen.of_metadata.is_some_and(|refusal| refusal.number == number)
            });
        }
    }

    fn add_sizes(&mut self) {
        let header = METADATA_LISTING.header_size();
        for length in [0, header - 1, header, header + 1] {
            self.add(format!("{length} octets"), move |seen| seen.case.metadata.len() == length);
        }
        self.add("1,314,848 octets, judged", |seen| {
            seen.is_judged() && seen.case.metadata.len() == METADATA_LISTING.greatest
        });
        for table in METADATA_LISTING.tables() {
            let most = METADATA_LISTING.shape(table).most as usize;
            self.add(format!("table {table} at its most"), move |seen| {
                seen.is_judged() && seen.counts()[table - METADATA] == most
            });
            self.add(format!("table {table} without rows"), move |seen| {
                seen.is_judged() && seen.counts()[table - METADATA] == 0
            });
        }
    }

    fn add_texts(&mut self) {
        let null = (u64::from(NULL_START), u64::from(NULL_START));
        for (name, table, at) in FIELDS {
            let may_be_null = at == 8 && table == METADATA_REFERENCES || at == 16;
            self.add(format!("NULL {name}"), move |seen| {
                let is_there = seen.texts(table, at).any(|text| text == null);
                is_there
                    && if may_be_null { seen.is_judged() } else { seen.is_refused_at(7, table) }
            });
            self.add(format!("an empty {name}"), move |seen| {
                seen.is_judged()
                    && seen.texts(table, at).any(|text| text.0 == text.1 && text != null)
            });
            self.add(format!("13 for {name}"), move |seen| seen.is_ill_at(table, at));
        }
    }

    fn add_places(&mut self) {
        let end = |seen: &Seen| seen.names().len() as u64;
        self.add("a text that ends at the end", move |seen| {
            seen.is_judged() && seen.any_text(|text| text.0 < text.1 && text.1 == end(seen))
        });
        self.add("an empty text at the end", move |seen| {
            seen.is_judged()
                && end(seen) > 0
                && seen.any_text(|text| text == (end(seen), end(seen)))
        });
        self.add("7 and a text that ends one past", move |seen| {
            let is_past = seen.any_text(|text| text.0 < text.1 && text.1 == end(seen) + 1);
            seen.is_refused(|refusal| refusal.number == 7) && is_past
        });
        self.add("7 and an empty text one past", move |seen| {
            let is_past = seen.any_text(|text| text == (end(seen) + 1, end(seen) + 1));
            seen.is_refused(|refusal| refusal.number == 7) && is_past
        });
        self.add("texts that overlap", |seen| {
            seen.is_judged()
                && seen.any_text(|one| {
                    let laps =
                        |other: (u64, u64)| one.0 < other.0 && other.0 < one.1 && one.1 < other.1;
                    seen.any_text(laps)
                })
        });
        self.add("names with stray octets", |seen| {
            seen.is_judged() && std::str::from_utf8(seen.names()).is_err()
        });
    }

    fn add_flags(&mut self) {
        let any_row =
            |seen: &Seen, test: &dyn Fn(&[u8]) -> bool| seen.rows(METADATA_REFERENCES).any(test);
        let flags_of = |row: &[u8]| u32_at(row, REFERENCE_FLAGS);
        for flags in 0..4 {
            self.add(format!("flags {flags}"), move |seen| {
                seen.is_judged() && any_row(seen, &|row| flags_of(row) == flags)
            });
        }
        for (name, at, bit) in [("row id", ROW_ID, 1), ("parent", PARENT_ID, 2)] {
            let is_set = move |row: &[u8]| flags_of(row) & bit != 0;
            self.add(format!("a {name} of 0"), move |seen| {
                seen.is_judged() && any_row(seen, &|row| is_set(row) && i64_at(row, at) == 0)
            });
            self.add(format!("8 and an absent {name} not 0"), move |seen| {
                seen.is_refused(|refusal| refusal.number == 8)
                    && any_row(seen, &|row| !is_set(row) && i64_at(row, at) != 0)
            });
        }
        for (name, test) in [
            ("8 and flags 4", (|row| u32_at(row, REFERENCE_FLAGS) == 4) as fn(&[u8]) -> bool),
            ("8 and flags above 4", |row| u32_at(row, REFERENCE_FLAGS) > 4),
            ("8 and a spare", |row| u32_at(row, REFERENCE_FLAGS + 4) != 0),
        ] {
            self.add(name, move |seen| {
                seen.is_refused(|refusal| refusal.number == 8) && any_row(seen, &test)
            });
        }
    }

    fn add_scopes(&mut self) {
        for scope in SCOPES {
            self.add(format!("md_scope {scope}"), move |seen| {
                seen.metadata.iter().any(|row| row.scope == scope.as_bytes())
            });
        }
        let in_capitals = |words: &[&str], text: &[u8]| {
            let is_other = |word: &&str| word.as_bytes() != text;
            words.iter().any(|word| word.as_bytes().eq_ignore_ascii_case(text))
                && words.iter().all(is_other)
        };
        self.add("an md_scope in other letter case", move |seen| {
            seen.metadata.iter().any(|row| in_capitals(&SCOPES, row.scope))
        });
        self.add("a reference_scope in other letter case", move |seen| {
            seen.any_reference(|row| in_capitals(&REFERENCE_SCOPES, row.scope))
        });
        self.add("the md_scope style", |seen| {
            seen.metadata.iter().any(|row| row.scope == b"style")
        });
    }

    /// Each scope, and one that is none, with and without each of three.
    fn add_matrix(&mut self) {
        for scope in REFERENCE_SCOPES.into_iter().map(Some).chain([None]) {
            for there in 0..8 {
                let [table, column, row_id] = [4, 2, 1].map(|bit| there & bit != 0);
                let words = [(table, "table"), (column, "column"), (row_id, "row id")];
                let words = words.iter().filter(|(is_there, _)| *is_there).map(|(_, word)| *word);
                let words = words.collect::<Vec<_>>().join(", ");
                let name = format!("{}: {words}", scope.unwrap_or("unknown scope"));
                self.add(name, move |seen| {
                    seen.any_reference(|row| {
                        let of = REFERENCE_SCOPES.into_iter().find(|s| s.as_bytes() == row.scope);
                        let has = (row.table_name, row.column_name, row.row_id);
                        let has = (has.0.is_some(), has.1.is_some(), has.2.is_some());
                        of == scope && has == (table, column, row_id)
                    })
                });
            }
        }
    }

    fn add_table_names(&mut self) {
        fn of(row: &MetadataReference, test: impl Fn(&[u8]) -> bool) -> bool {
            row.scope != b"geopackage" && row.table_name.is_some_and(test)
        }
        for is_tiles in [true, false] {
            let words = if is_tiles { "tiles" } else { "no tiles" };
            self.add(format!("a table in contents of {words} alone"), move |seen| {
                seen.any_reference(|row| {
                    let counts = |name: &[u8]| {
                        seen.contents_with(name, is_tiles) > 0
                            && seen.contents_with(name, !is_tiles) == 0
                    };
                    of(row, counts)
                })
            });
        }
        self.add("a table not in contents", |seen| {
            seen.any_reference(|row| of(row, |name| !seen.is_known(name)))
        });
        self.add("a table not in contents, of a length there", |seen| {
            let is_long =
                |name: &[u8]| seen.contents.iter().any(|c| c.table_name.len() == name.len());
            seen.any_reference(|row| of(row, |name| !seen.is_known(name) && is_long(name)))
        });
        self.add("the empty table in contents", |seen| {
            seen.any_reference(|row| of(row, |name| name.is_empty() && seen.is_known(name)))
        });
        self.add("the empty table not in contents", |seen| {
            seen.any_reference(|row| of(row, |name| name.is_empty() && !seen.is_known(name)))
        });
        self.add("geopackage with the empty table", |seen| {
            seen.any_reference(|row| row.scope == b"geopackage" && row.table_name == Some(b""))
        });
        self.add("no contents, a table named", |seen| {
            seen.contents.is_empty() && seen.any_reference(|row| of(row, |_| true))
        });
    }

    fn add_ids(&mut self) {
        self.add("ids that repeat, one referred to", |seen| {
            seen.any_reference(|row| seen.files_with(row.file_id) > 1)
        });
        self.add("no files, a reference", |seen| {
            seen.metadata.is_empty() && seen.any_reference(|_| true)
        });
        self.add("a file that another id is modulo 2^32", |seen| {
            let is_cut = |row: &MetadataReference, id: i64| {
                id != row.file_id && id as u32 == row.file_id as u32
            };
            seen.any_reference(|row| {
                seen.files_with(row.file_id) == 0 && seen.metadata.iter().any(|m| is_cut(row, m.id))
            })
        });
    }

    fn add_parents(&mut self) {
        self.add("a parent that is a file", |seen| {
            let is_other =
                |row: &MetadataReference, id| id != row.file_id && seen.files_with(id) > 0;
            seen.any_reference(|row| row.parent_id.is_some_and(|id| is_other(row, id)))
        });
        for (name, is_file) in [("its own file", true), ("its own file, which is none", false)] {
            self.add(format!("a parent that is {name}"), move |seen| {
                let is_own = |row: &MetadataReference| row.parent_id == Some(row.file_id);
                seen.any_reference(|row| {
                    is_own(row) && (seen.files_with(row.file_id) > 0) == is_file
                })
            });
            let words = if is_file { "a file" } else { "no file" };
            self.add(format!("a parent of 0, {words}"), move |seen| {
                seen.any_reference(|row| row.parent_id == Some(0))
                    && (seen.files_with(0) > 0) == is_file
            });
        }
        self.add("a parent that is neither", |seen| {
            let is_none =
                |row: &MetadataReference, id| id != row.file_id && seen.files_with(id) == 0;
            seen.any_reference(|row| row.parent_id.is_some_and(|id| is_none(row, id)))
        });
        self.add("no parent, and no file 0", |seen| {
            seen.any_reference(|row| row.parent_id.is_none()) && seen.files_with(0) == 0
        });
    }

    fn add_buffers(&mut self) {
        for length in 0..20 {
            self.add(format!("an answer of {length}"), move |seen| {
                seen.calls.iter().any(|call| call.answer == length)
            });
        }
        self.add("a longer answer", |seen| seen.calls.iter().any(|call| call.answer > 20));
        let total = |seen: &Seen| seen.findings.as_ref().map_or(0, Vec::len);
        for (name, more) in [("all findings", 0), ("all findings and an octet", 1)] {
            self.add(format!("room for {name}"), move |seen| {
                let exact = 12 * total(seen) + more;
                total(seen) > 0 && seen.calls.iter().any(|call| call.findings == exact)
            });
        }
        self.add("room for all findings but an octet", move |seen| {
            total(seen) > 0 && seen.calls.iter().any(|call| call.findings + 1 == 12 * total(seen))
        });
        for (name, test) in [
            ("a little work", (|work| (1..64).contains(&work)) as fn(usize) -> bool),
            ("much work", |work| work > 1 << 20),
        ] {
            self.add(name, move |seen| seen.calls.iter().any(|call| test(call.work)));
        }
    }

    /// Counts the metadata listing of a seed.
    pub fn count(&mut self, seed: u64, case: &MetadataCase) {
        for line in &mut self.kinds {
            line.have += usize::from(line.name.strip_prefix("metadata: ") == Some(case.kind));
        }
        let seen = Seen::of(seed, case);
        for (line, test) in &mut self.tested {
            line.count(test(&seen));
        }
    }

    pub fn lines(&self) -> impl Iterator<Item = &Line> {
        self.tested.iter().map(|(line, _)| line).chain(&self.kinds)
    }
}

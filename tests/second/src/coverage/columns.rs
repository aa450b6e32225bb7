//! What the made columns reach: every reason of their calls, alone and beside the
//! others; each column too short; entries and lengths on both sides of each line;
//! findings and tiles that only the columns have, or only the rows; every kind.

use std::str::from_utf8;

use super::{kind_line, Line, OF_A_LISTING};
use crate::calls::{fill, lookup, lookup_columns, report, report_columns, Question, ENTRY};
use crate::cases::{column_calls, Asked, Call, Given, FILL_ANSWER};
use crate::generate::{columns_kind_names, columns_of, cut, ColumnsCase};
use crate::listing::layout::{i64_at, NAMES, SHAPES, TILES};
use crate::listing::Refusal;
use crate::rules::Finding;

const COLUMNS: [&str; 4] = ["names", "zooms", "columns", "rows"];

/// Codes that the tiles have a part in.
const CODES_OF_TILES: [u32; 7] = [341, 351, 441, 541, 551, 561, 571];

type Outcome = Result<Vec<Finding>, Refusal>;

/// What is there in some columns and their listing, whatever comes of them.
struct Seen<'a> {
    case: &'a ColumnsCase,
    tiles: usize,
    /// The entries that count, as far as each column has them.
    entries: [Vec<i64>; 4],
    /// The name octets.
    names: Vec<u8>,
    by_rows: Outcome,
    by_columns: Outcome,
    calls: Vec<Call>,
}

impl Seen<'_> {
    fn of(seed: u64, case: &ColumnsCase) -> Seen<'_> {
        let parts = cut(&case.listing);
        let tiles = parts[TILES - 1].len() / SHAPES[TILES - 1].row_size;
        let entries_of = |column: &Vec<u8>| {
            let entries = column.chunks_exact(ENTRY).map(|entry| i64_at(entry, 0));
            entries.take(tiles).collect()
        };
        Seen {
            case,
            tiles,
            entries: case.columns.each_ref().map(entries_of),
            names: parts[NAMES - 1].clone(),
            by_rows: report(&case.listing),
            by_columns: report_columns(&case.listing, &case.columns),
            calls: column_calls(seed, Given::of(case)),
        }
    }

    fn is_refused(&self, number: u32) -> bool {
        self.by_columns.as_ref().is_err_and(|refusal| refusal.number == number)
    }

    /// Is it refused for an entry, and not for a row of the listing?
    fn is_refused_for_an_entry(&self, number: u32) -> bool {
        self.by_rows.is_ok() && self.is_refused(number)
    }

    fn is_judged(&self) -> bool {
        self.by_columns.is_ok()
    }

    fn is_short(&self, column: usize) -> bool {
        self.entries[column].len() < self.tiles
    }

    fn has_short(&self) -> bool {
        (0..4).any(|column| self.is_short(column))
    }

    /// Where a name stands in the names, and its octets, if it is inside.
    fn octets_of(&self, name: i64) -> Option<&[u8]> {
        let start = usize::try_from(name >> 32).ok()?;
        self.names.get(start..start + name as u32 as usize)
    }

    fn is_ill(&self, name: i64) -> bool {
        self.octets_of(name).is_some_and(|octets| from_utf8(octets).is_err())
    }

    fn first_outside(&self) -> Option<usize> {
        self.entries[0].iter().position(|&name| self.octets_of(name).is_none())
    }

    fn first_ill(&self) -> Option<usize> {
        self.entries[0].iter().position(|&name| self.is_ill(name))
    }

    /// Is it refused 7 for an entry that has this value?
    fn is_outside(&self, value: i64) -> bool {
        let place = self.by_columns.as_ref().err().map(|refusal| refusal.row as usize);
        self.is_refused_for_an_entry(7) && place.map(|row| self.entries[0][row]) == Some(value)
    }

    /// Is it judged with such an entry in a column?
    fn is_judged_with(&self, column: usize, test: impl Fn(i64) -> bool) -> bool {
        self.is_judged() && self.entries[column].iter().any(|&entry| test(entry))
    }

    fn is_as_filled(&self) -> bool {
        self.is_judged()
            && fill(&self.case.listing, &self.case.columns) == Ok(self.case.columns.clone())
    }

    /// The findings by columns and by rows, where there are both.
    fn findings(&self) -> Option<[&[Finding]; 2]> {
        let by_columns = self.by_columns.as_deref().ok()?;
        Some([by_columns, self.by_rows.as_deref().ok()?])
    }

    fn questions(&self) -> impl Iterator<Item = Question> + '_ {
        self.calls.iter().filter_map(|call| match call.asked {
            Asked::LookupColumns(question) => Some(question),
            _ => None,
        })
    }

    /// Is a lookup by columns refused so, and one on good columns for 10?
    fn is_refused_before_10(&self, number: u32) -> bool {
        let filled = columns_of(&self.case.listing);
        let number_of = |answer: Result<_, Refusal>| answer.err().map(|refusal| refusal.number);
        self.questions().any(|asked| {
            let answer = lookup_columns(&self.case.listing, &self.case.columns, asked);
            let must = lookup_columns(&self.case.listing, &filled, asked);
            number_of(answer) == Some(number) && number_of(must) == Some(10)
        })
    }

    /// Does a lookup by columns and by rows show that?
    fn looks_up(&self, test: impl Fn(Option<u32>, Option<u32>) -> bool) -> bool {
        self.questions().any(|asked| {
            let by_columns = lookup_columns(&self.case.listing, &self.case.columns, asked);
            let by_rows = lookup(&self.case.listing, asked);
            matches!((by_columns, by_rows), (Ok(column), Ok(row)) if test(column, row))
        })
    }
}

type Test = Box<dyn Fn(&Seen) -> bool>;

/// The lines that tell of columns.
pub struct Columns {
    tested: Vec<(Line, Test)>,
    kinds: Vec<Line>,
}

impl Columns {
    pub fn new() -> Columns {
        let kind = |name| kind_line(&format!("columns: {name}"));
        let mut columns =
            Columns { tested: Vec::new(), kinds: columns_kind_names().map(kind).collect() };
        columns.add_reasons();
        columns.add_order();
        columns.add_short();
        columns.add_names();
        columns.add_numbers();
        columns.add_longer();
        columns.add_findings();
        columns.add_lookups();
        columns.add_answers();
        columns
    }

    fn add(&mut self, name: impl AsRef<str>, test: impl Fn(&Seen) -> bool + 'static) {
        let line = Line::new(format!("columns: {}", name.as_ref()));
        self.tested.push((line, Box::new(test)));
    }

    fn add_reasons(&mut self) {
        self.add("judged", |seen| seen.is_judged());
        for number in OF_A_LISTING {
            self.add(format!("refusal {number} of the listing"), move |seen| {
                seen.by_rows.is_err() && seen.is_refused(number)
            });
        }
        self.add("refusal 14", |seen| seen.is_refused(14));
        for number in [7, 13] {
            self.add(format!("refusal {number} of an entry"), move |seen| {
                seen.is_refused_for_an_entry(number)
            });
            self.add(format!("refusal {number} of a tile row alone"), move |seen| {
                let place = seen.by_columns.as_ref().err().map(|r| (r.number, r.table));
                let is_clear = seen.first_outside().is_none() && seen.first_ill().is_none();
                place == Some((number, TILES as u32)) && is_clear && !seen.has_short()
            });
        }
    }

    fn add_order(&mut self) {
        for number in [7, 8, 13] {
            self.add(format!("{number} of the listing where 14 is there too"), move |seen| {
                seen.by_rows.is_err() && seen.is_refused(number) && seen.has_short()
            });
        }
        self.add("14 where 7 is there too", |seen| {
            seen.is_refused(14) && seen.first_outside().is_some()
        });
        self.add("14 where 13 is there too", |seen| {
            seen.is_refused(14) && seen.first_ill().is_some()
        });
        self.add("7 of an entry, 13 of an earlier one", |seen| {
            let is_earlier = |ill| seen.first_outside().is_some_and(|outside| ill < outside);
            seen.is_refused_for_an_entry(7) && seen.first_ill().is_some_and(is_earlier)
        });
        self.add("7 of an entry, 13 of a later one", |seen| {
            let is_later = |ill| seen.first_outside().is_some_and(|outside| outside < ill);
            seen.is_refused_for_an_entry(7) && seen.first_ill().is_some_and(is_later)
        });
        for number in [14, 7, 13] {
            self.add(format!("{number} where 10 is there too"), move |seen| {
                seen.is_refused_before_10(number)
            });
        }
    }

    fn add_short(&mut self) {
        let is_alone = |seen: &Seen, column: usize| {
            seen.is_refused(14) && (0..4).all(|other| seen.is_short(other) == (other == column))
        };
        for (column, name) in COLUMNS.into_iter().enumerate() {
            self.add(format!("14, the {name} short by an entry"), move |seen| {
                let length = seen.case.columns[column].len();
                is_alone(seen, column) && length + ENTRY == seen.tiles * ENTRY
            });
            self.add(format!("14, the {name} short by an octet"), move |seen| {
                let length = seen.case.columns[column].len();
                is_alone(seen, column) && length + 1 == seen.tiles * ENTRY
            });
        }
        self.add("14, several short", |seen| {
            seen.is_refused(14) && (0..4).filter(|&column| seen.is_short(column)).count() > 1
        });
        self.add("14, no octets in any", |seen| {
            seen.is_refused(14) && seen.case.columns.iter().all(Vec::is_empty)
        });
    }

    fn add_names(&mut self) {
        for value in [-1, -4_294_967_296, i64::MIN, i64::MAX] {
            self.add(format!("7 for the name {value}"), move |seen| seen.is_outside(value));
        }
        let end = |seen: &Seen| seen.names.len() as i64;
        self.add("7 for an empty name one past the end", move |seen| {
            seen.is_outside((end(seen) + 1) << 32)
        });
        self.add("7 for a name that ends one past", move |seen| {
            seen.is_outside((end(seen) << 32) + 1)
        });
        self.add("the name 0", |seen| seen.is_judged_with(0, |name| name == 0));
        self.add("an empty name at the end", move |seen| {
            seen.is_judged_with(0, |name| name == end(seen) << 32)
        });
        self.add("an empty name within", move |seen| {
            let within = 1..end(seen);
            seen.is_judged_with(0, |name| name as u32 == 0 && within.contains(&(name >> 32)))
        });
        self.add("a name that ends at the end", move |seen| {
            let ends = |name: i64| (name >> 32) + i64::from(name as u32) == end(seen);
            seen.is_judged_with(0, |name| name as u32 > 0 && ends(name))
        });
        self.add("a name beyond ASCII", |seen| {
            let is_beyond = |octets: &[u8]| !octets.is_ascii();
            seen.is_judged_with(0, |name| seen.octets_of(name).is_some_and(is_beyond))
        });
    }

    fn add_numbers(&mut self) {
        for (column, name) in COLUMNS.into_iter().enumerate().skip(1) {
            self.add(format!("negative {name}"), move |seen| {
                seen.is_judged_with(column, |number| number < 0)
            });
            for value in [i64::MIN, i64::MAX] {
                self.add(format!("{name} with {value}"), move |seen| {
                    seen.is_judged_with(column, |number| number == value)
                });
            }
        }
    }

    fn add_longer(&mut self) {
        for (column, name) in COLUMNS.into_iter().enumerate() {
            self.add(format!("more {name} than tiles"), move |seen| {
                seen.is_judged() && seen.case.columns[column].len() / ENTRY > seen.tiles
            });
            self.add(format!("octets past the {name}"), move |seen| {
                seen.is_judged() && seen.case.columns[column].len() % ENTRY > 0
            });
        }
        self.add("-1 past the tile count", |seen| {
            let past = seen.case.columns[0].chunks_exact(ENTRY).skip(seen.tiles);
            seen.is_judged() && past.into_iter().any(|entry| entry == [0xff; ENTRY])
        });
        self.add("of four lengths", |seen| {
            let mut lengths = seen.case.columns.each_ref().map(|column| column.len() / ENTRY);
            lengths.sort_unstable();
            seen.is_judged() && lengths.windows(2).all(|pair| pair[0] < pair[1])
        });
        let is_empty = |seen: &Seen| seen.case.columns.iter().all(Vec::is_empty);
        self.add("no tiles, no octets in any", move |seen| {
            seen.is_judged() && seen.tiles == 0 && is_empty(seen)
        });
        self.add("no tiles, some octets", move |seen| {
            seen.is_judged() && seen.tiles == 0 && !is_empty(seen)
        });
    }

    fn add_findings(&mut self) {
        self.add("as filled, with findings", |seen| {
            seen.is_as_filled() && seen.by_columns.as_ref().is_ok_and(|found| !found.is_empty())
        });
        self.add("as filled, without findings", |seen| {
            seen.is_as_filled() && seen.by_columns.as_ref().is_ok_and(Vec::is_empty)
        });
        self.add("altered, the same findings", |seen| {
            !seen.is_as_filled() && seen.findings().is_some_and(|[one, other]| one == other)
        });
        for code in CODES_OF_TILES {
            let has_alone = move |one: &[Finding], other: &[Finding]| {
                one.iter().any(|finding| finding.code == code && alike(other, finding).is_none())
            };
            self.add(format!("code {code} by columns alone"), move |seen| {
                seen.findings().is_some_and(|[columns, rows]| has_alone(columns, rows))
            });
            self.add(format!("code {code} by rows alone"), move |seen| {
                seen.findings().is_some_and(|[columns, rows]| has_alone(rows, columns))
            });
        }
        self.add("541 with another partner than by rows", |seen| {
            seen.findings().is_some_and(|[columns, rows]| {
                let differs = |one: &Finding| alike(rows, one).is_some_and(|other| one != other);
                columns.iter().any(|one| one.code == 541 && differs(one))
            })
        });
    }

    fn add_lookups(&mut self) {
        self.add("a tile by columns alone", |seen| {
            seen.looks_up(|column, row| column.is_some() && row.is_none())
        });
        self.add("a tile by rows alone", |seen| {
            seen.looks_up(|column, row| column.is_none() && row.is_some())
        });
        self.add("another tile than by rows", |seen| {
            seen.looks_up(|column, row| column.is_some() && row.is_some() && column != row)
        });
        self.add("the same tile as by rows", |seen| {
            seen.looks_up(|column, row| column.is_some() && column == row)
        });
        self.add("no tile by either", |seen| {
            seen.looks_up(|column, row| column.is_none() && row.is_none())
        });
        self.add("refusal 10", |seen| seen.is_refused_before_10(10));
    }

    fn add_answers(&mut self) {
        let has = |seen: &Seen, test: fn(&Call, usize) -> bool, length: usize| {
            let is_fill = |call: &&Call| call.asked == Asked::Fill;
            seen.calls.iter().filter(is_fill).any(|call| test(call, length))
        };
        for length in 0..FILL_ANSWER {
            self.add(format!("fill with an answer of {length}"), move |seen| {
                has(seen, |call, length| call.answer == length, length)
            });
        }
        self.add("fill with a longer answer", move |seen| {
            has(seen, |call, length| call.answer > length, FILL_ANSWER)
        });
    }

    /// Counts the columns of a seed.
    pub fn count(&mut self, seed: u64, case: &ColumnsCase) {
        for line in &mut self.kinds {
            line.have += usize::from(line.name.strip_prefix("columns: ") == Some(case.kind));
        }
        let seen = Seen::of(seed, case);
        for (line, test) in &mut self.tested {
            line.count(test(&seen));
        }
    }

    pub fn lines(&self) -> impl Iterator<Item = &Line> {
        self.tested.iter().map(|(line, _)| line).chain(&self.kinds)
    }
}

/// The finding with the same code and row, whatever its partner. Findings are in
/// order by these.
fn alike<'f>(findings: &'f [Finding], finding: &Finding) -> Option<&'f Finding> {
    let key = |finding: &Finding| (finding.code, finding.row);
    let at = findings.binary_search_by_key(&key(finding), key).ok()?;
    Some(&findings[at])
}

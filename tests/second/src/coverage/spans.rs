//! What the made listings reach of 451 and 452: rows that pass by one of the two
//! ways, by both or by none, and rows on both sides of four gaps.

use super::Line;
use crate::listing::Listing;
use crate::rules::{axes, Axis, Judge};

/// What an axis may show that has so many pixels.
type Test = fn(&Axis, u64) -> bool;

const SHOWN: [(&str, Test); 8] = [
    ("passes by near alone", |axis, count| axis.is_near(count) && !axis.is_within_gaps(count)),
    ("passes by the gaps alone", |axis, count| is_by_gaps_alone(axis, count)),
    ("passes by both ways", |axis, count| axis.is_near(count) && axis.is_within_gaps(count)),
    ("misses both", |axis, count| !axis.is_near(count) && !axis.is_within_gaps(count)),
    ("passes at four gaps exactly", |axis, count| {
        is_by_gaps_alone(axis, count) && gaps_apart(axis, count) == Some(4.0)
    }),
    ("misses by less than a gap", |axis, count| {
        !axis.is_near(count) && gaps_apart(axis, count).is_some_and(|n| n > 4.0 && n < 5.0)
    }),
    ("passes, gap not finite", |axis, count| axis.gap().is_none() && axis.is_near(count)),
    ("misses, gap not finite", |axis, count| {
        axis.gap().is_none() && axis.difference(count).is_some() && !axis.is_near(count)
    }),
];

fn is_by_gaps_alone(axis: &Axis, count: u64) -> bool {
    !axis.is_near(count) && axis.is_within_gaps(count)
}

/// How many gaps the extent and the product are apart. A gap is a power of two,
/// so that the division is exact.
fn gaps_apart(axis: &Axis, count: u64) -> Option<f64> {
    Some((axis.difference(count)? / axis.gap()?).abs())
}

/// The lines that tell of the two axes.
pub struct Spans {
    tested: Vec<(Line, usize, Test)>,
}

impl Spans {
    pub fn new() -> Spans {
        let lines_of = |(axis, code): (usize, u32)| {
            SHOWN.map(|(shown, test)| (Line::new(format!("code {code} {shown}")), axis, test))
        };
        Spans { tested: [451, 452].into_iter().enumerate().flat_map(lines_of).collect() }
    }

    /// Counts a listing: has it a row that shows what a line tells of? Rows that
    /// break the width conditions show nothing.
    pub fn count(&mut self, listing: Listing) {
        let judge = Judge::new(listing);
        let rows: Vec<[Axis; 2]> = axes(&judge).collect();
        for (line, at, test) in &mut self.tested {
            let shows = |row: &[Axis; 2]| row[*at].product().is_some_and(|n| test(&row[*at], n));
            line.count(rows.iter().any(shows));
        }
    }

    pub fn lines(&self) -> impl Iterator<Item = &Line> {
        self.tested.iter().map(|(line, ..)| line)
    }
}

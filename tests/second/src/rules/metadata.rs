//! The codes of a metadata listing, document 02, request 2026-05: 945, and 965 to
//! 1025. A row has one finding of a code at most, and none has a partner.

use super::dates::is_moment;
use super::hashing::QuickSet;
use super::names::{LatePlaces, NameBook};
use super::{over_rows, when, Finding};
use crate::listing::layout::{METADATA, METADATA_REFERENCES};
use crate::listing::{Listing, Metadata, MetadataListing, MetadataReference};

/// The names of Table 21.
const SCOPES: [&str; 19] = [
    "undefined",
    "fieldSession",
    "collectionSession",
    "series",
    "dataset",
    "featureType",
    "feature",
    "attributeType",
    "attribute",
    "tile",
    "model",
    "catalog",
    "schema",
    "taxonomy",
    "software",
    "service",
    "collectionHardware",
    "nonGeographicDataset",
    "dimensionGroup",
];

/// A code, the table that it belongs to, and whether a row of that breaks it.
pub struct MetadataCode {
    pub number: u32,
    pub table: usize,
    is_broken: fn(&MetadataJudge, usize) -> bool,
}

const fn code(
    number: u32,
    table: usize,
    is_broken: fn(&MetadataJudge, usize) -> bool,
) -> MetadataCode {
    MetadataCode { number, table, is_broken }
}

/// The codes, ascending.
pub static METADATA_CODES: [MetadataCode; 8] = [
    code(945, METADATA, breaks_945),
    code(965, METADATA_REFERENCES, breaks_965),
    code(975, METADATA_REFERENCES, breaks_975),
    code(985, METADATA_REFERENCES, breaks_985),
    code(995, METADATA_REFERENCES, breaks_995),
    code(1005, METADATA_REFERENCES, breaks_1005),
    code(1015, METADATA_REFERENCES, breaks_1015),
    code(1025, METADATA_REFERENCES, breaks_1025),
];

/// A metadata listing's rows beside a tile listing, ready to be judged.
pub struct MetadataJudge<'a> {
    metadata: Vec<Metadata<'a>>,
    references: Vec<MetadataReference<'a>>,
    ids: QuickSet<i64>,
    /// Of each reference: has a contents row its table_name?
    is_in_contents: Vec<bool>,
}

impl<'a> MetadataJudge<'a> {
    pub fn new(listing: &Listing<'a>, beside: &MetadataListing<'a>) -> MetadataJudge<'a> {
        let metadata: Vec<_> = beside.metadata().collect();
        let references: Vec<_> = beside.references().collect();
        MetadataJudge {
            ids: metadata.iter().map(|row| row.id).collect(),
            is_in_contents: are_in_contents(listing, &references),
            metadata,
            references,
        }
    }

    /// All findings, by code and then by row.
    pub fn findings(&self) -> Vec<Finding> {
        let mut findings = Vec::new();
        for &MetadataCode { number, table, is_broken } in &METADATA_CODES {
            let count = if table == METADATA { self.metadata.len() } else { self.references.len() };
            findings.extend(over_rows(number, count, |row| when(is_broken(self, row))));
        }
        findings
    }

    fn has_id(&self, id: i64) -> bool {
        self.ids.contains(&id)
    }
}

/// Of each reference: has a contents row its table_name? NULL is nobody's name.
fn are_in_contents<'a>(listing: &Listing<'a>, references: &[MetadataReference<'a>]) -> Vec<bool> {
    let mut book = NameBook::default();
    let mut lengths = QuickSet::default();
    for contents in listing.contents() {
        book.enter(contents.table_name);
        lengths.insert(contents.table_name.len());
    }
    let known = book.len();
    let mut late = LatePlaces::new(&mut book);
    // Table names may go over one another, so one is read only where its length
    // could be right.
    let mut is_known = |name: &'a [u8]| {
        lengths.contains(&name.len()) && (late.enter(&mut book, name) as usize) < known
    };
    references.iter().map(|row| row.table_name.is_some_and(&mut is_known)).collect()
}

/// 945: md_scope is none of the names of Table 21.
fn breaks_945(judge: &MetadataJudge, row: usize) -> bool {
    !SCOPES.iter().any(|scope| scope.as_bytes() == judge.metadata[row].scope)
}

/// 965: reference_scope is none of the five.
fn breaks_965(judge: &MetadataJudge, row: usize) -> bool {
    let scope = judge.references[row].scope;
    !matches!(scope, b"geopackage" | b"table" | b"column" | b"row" | b"row/col")
}

/// 975: "geopackage" has a table_name, or any other has none that is in contents.
fn breaks_975(judge: &MetadataJudge, row: usize) -> bool {
    match judge.references[row].scope {
        b"geopackage" => judge.references[row].table_name.is_some(),
        _ => !judge.is_in_contents[row],
    }
}

/// 985: "geopackage", "table" or "row" has a column_name, or any other has none.
fn breaks_985(judge: &MetadataJudge, row: usize) -> bool {
    let MetadataReference { scope, column_name, .. } = judge.references[row];
    matches!(scope, b"geopackage" | b"table" | b"row") == column_name.is_some()
}

/// 995: "geopackage", "table" or "column" has a row_id_value, or any other none.
fn breaks_995(judge: &MetadataJudge, row: usize) -> bool {
    let MetadataReference { scope, row_id, .. } = judge.references[row];
    matches!(scope, b"geopackage" | b"table" | b"column") == row_id.is_some()
}

/// 1005: timestamp is no moment, as in 151.
fn breaks_1005(judge: &MetadataJudge, row: usize) -> bool {
    !is_moment(judge.references[row].timestamp)
}

/// 1015: md_file_id is no row's id.
fn breaks_1015(judge: &MetadataJudge, row: usize) -> bool {
    !judge.has_id(judge.references[row].file_id)
}

/// 1025: md_parent_id is present, and is no row's id, or is this row's md_file_id.
fn breaks_1025(judge: &MetadataJudge, row: usize) -> bool {
    let MetadataReference { file_id, parent_id, .. } = judge.references[row];
    parent_id.is_some_and(|id| !judge.has_id(id) || id == file_id)
}

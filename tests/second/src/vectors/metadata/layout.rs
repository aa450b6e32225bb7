//! The metadata listing spelled octet by octet, at its longest, and what of the tile
//! listing plays a part.

use super::super::base::{header_alone as no_rows, octets_of, valley};
use super::{header_alone, survey, Tally};
use crate::calls::report_metadata;
use crate::listing::{read_metadata, Metadata, MetadataReference};
use crate::make::{set_count, set_offset, set_true_length, set_u32, span, Draft};
use crate::make::{MetadataDraft, MetadataReferenceRow, MetadataRow, NULL};
use crate::rules::Finding;

/// Version 1, 115 octets, one row in tables 11 and 12, three name octets "abc".
const ONE_ROW_EACH: &str = "
    01000000 73000000
    01000000 20000000  01000000 30000000  03000000 70000000

    feffffffffffffff 00000000 01000000

    00000000 02000000 ffffffff 00000000 03000000 00000000 01000000 02000000
    0807060504030201 0900000000000000 0000000000000080 03000000 00000000

    616263";

pub fn check(tally: &mut Tally) {
    check_octets(tally);
    check_rows(tally);
    check_good(tally);
    check_order(tally);
    check_tile_listing(tally);
    check_longest(tally);
}

fn check_octets(tally: &mut Tally) {
    let octets = octets_of(ONE_ROW_EACH);
    tally.same("one row of each table: 115 octets", octets.len(), 115);
    let want = "945 0 -, 965 0 -, 975 0 -, 1005 0 -, 1015 0 -, 1025 0 -";
    tally.noted("one row of each table: its findings", &octets, want);
    let reference = MetadataReferenceRow {
        scope: span(0, 2),
        table_name: NULL,
        column_name: span(3, 0),
        timestamp: span(1, 2),
        row_id: 72_623_859_790_382_856,
        file_id: 9,
        parent_id: i64::MIN,
        flags: 3,
        spare: 0,
    };
    let draft = MetadataDraft {
        metadata: vec![MetadataRow { id: -2, scope: span(0, 1) }],
        references: vec![reference],
        names: b"abc".to_vec(),
    };
    tally.same("the maker writes the same octets", draft.listing(), octets);
    tally.same("the header alone", MetadataDraft::default().listing(), header_alone());
}

fn check_rows(tally: &mut Tally) {
    let octets = octets_of(ONE_ROW_EACH);
    let Ok(listing) = read_metadata(&octets) else {
        tally.same("one row of each table is accepted", false, true);
        return;
    };
    let metadata = Metadata { id: -2, scope: b"a" };
    tally.same("table 11's row", listing.metadata().collect(), vec![metadata]);
    let reference = MetadataReference {
        scope: b"ab",
        table_name: None,
        column_name: Some(b""),
        timestamp: b"bc",
        row_id: Some(72_623_859_790_382_856),
        file_id: 9,
        parent_id: Some(-9_223_372_036_854_775_808),
    };
    tally.same("table 12's row", listing.references().collect(), vec![reference]);
}

fn check_good(tally: &mut Tally) {
    tally.noted("the header alone has no finding", &header_alone(), "");
    tally.noted("the survey has no finding", &survey().listing(), "");
    tally.surveyed("files alone", "", |d| d.references.clear());
    let mut no_files = survey();
    no_files.metadata.clear();
    no_files.references.truncate(1);
    tally.noted("a reference alone", &no_files.listing(), "1015 0 -");
}

/// 5.6: by code as a number, then by row.
fn check_order(tally: &mut Tally) {
    let want =
        "945 0 -, 945 2 -, 965 1 -, 965 3 -, 985 1 -, 985 3 -, 995 1 -, 1005 1 -, 1005 2 -, \
                1015 2 -, 1025 1 -, 1025 4 -";
    tally.surveyed("5.6: by code, then by row", want, |d| {
        let (scope, reference_scope) = (d.text("Dataset"), d.text("Table"));
        d.metadata[0].scope = scope;
        d.metadata[2].scope = scope;
        // Without a column both, and row 1 without a row id.
        d.references[1].scope = reference_scope;
        d.references[3].scope = reference_scope;
        d.references[1].timestamp.length = 23;
        d.references[2].timestamp.length = 0;
        d.references[2].file_id = 4;
        d.references[1].parent_id = 2;
        d.references[4].parent_id = -3;
    });
}

/// 5.1: its contents' names alone; its findings play no part.
fn check_tile_listing(tally: &mut Tally) {
    let survey = survey();
    let others = "975 1 -, 975 2 -, 975 3 -, 975 4 -";
    tally.beside("5.1: no rows in the tile listing", &no_rows(), &survey.listing(), others);
    tally.beside("5.1: neither has rows", &no_rows(), &header_alone(), "");
    let mut bad = Draft::default();
    bad.content("valley", "", "yesterday", Some(7));
    bad.content("valley", "tiles", "", None);
    tally.beside("5.1: contents with findings", &bad.listing(), &survey.listing(), "");
    let mut lost = valley();
    lost.contents.clear();
    lost.content("hill", "tiles", "", None);
    // Sets, matrices, tiles and extensions of the valley are still there.
    tally.beside("5.9: the contents alone count", &lost.listing(), &survey.listing(), others);
}

/// Every table full of zeros: 1,314,848 octets.
fn all_full() -> Vec<u8> {
    let mut octets = vec![0; 1_314_848];
    set_u32(&mut octets, 0, 1);
    set_true_length(&mut octets);
    for (table, count, offset) in [(11, 256, 32), (12, 4_096, 4_128), (13, 1_048_576, 266_272)] {
        set_count(&mut octets, table, count);
        set_offset(&mut octets, table, offset);
    }
    octets
}

/// All texts are empty, all numbers 0 and all flags down: file 0 is there, and a
/// column name.
const COUNTS: [(u32, usize); 8] = [
    (945, 256),
    (965, 4_096),
    (975, 4_096),
    (985, 0),
    (995, 4_096),
    (1005, 4_096),
    (1015, 0),
    (1025, 0),
];

fn check_longest(tally: &mut Tally) {
    let mut octets = all_full();
    let findings = report_metadata(&valley().listing(), &octets).unwrap_or_default();
    for (code, want) in COUNTS {
        let got = findings.iter().filter(|finding| finding.code == code).count();
        tally.same(&format!("1,314,848 octets, code {code}"), got, want);
    }
    tally.same("1,314,848 octets, all codes", findings.len(), 16_640);
    let words = |finding: Option<&Finding>| finding.map(Finding::words);
    tally.same("first", words(findings.first()), Some([945, 0, 4_294_967_295]));
    tally.same("last", words(findings.last()), Some([1_005, 4_095, 4_294_967_295]));
    let mut nameless = valley();
    nameless.content("", "", "", None);
    let total = report_metadata(&nameless.listing(), &octets).map(|found| found.len());
    tally.same("the same beside contents of the empty name", total, Ok(12_544));
    octets.push(0);
    set_true_length(&mut octets);
    set_count(&mut octets, 13, 1_048_577);
    tally.noted("2 before 5", &octets, "refused 2 0 0");
}

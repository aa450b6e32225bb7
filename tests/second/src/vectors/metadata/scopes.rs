//! 945 and 965, and what the five reference scopes ask of table_name, column_name
//! and row_id_value.

use super::super::base::MOMENT;
use super::{one_reference, survey, Tally};
use crate::make::MetadataDraft;

pub fn check(tally: &mut Tally) {
    check_scopes(tally);
    check_other_scopes(tally);
    check_reference_scopes(tally);
    check_matrix(tally);
    check_unknown(tally);
    check_examples(tally);
}

/// Table 21, name by name.
const TABLE_21: [&str; 19] = [
    "undefined",
    "fieldSession",
    "collectionSession",
    "series",
    "dataset",
    "featureType",
    "feature",
    "attributeType",
    "attribute",
    "tile",
    "model",
    "catalog",
    "schema",
    "taxonomy",
    "software",
    "service",
    "collectionHardware",
    "nonGeographicDataset",
    "dimensionGroup",
];

fn scoped(scope: impl AsRef<[u8]>) -> impl FnOnce(&mut MetadataDraft) {
    move |draft| draft.metadata[1].scope = draft.text_apart(scope)
}

/// 5.7: each of the 19, and beside each what is not quite it.
fn check_scopes(tally: &mut Tally) {
    for scope in TABLE_21 {
        tally.surveyed(&format!("5.7: {scope}"), "", scoped(scope));
        let (most, last) = scope.split_at(scope.len() - 1);
        let other_last = if last == "e" { "f" } else { "e" };
        let misses = [
            scope.to_uppercase(),
            format!("{}{}", scope[..1].to_uppercase(), &scope[1..]),
            format!("{scope} "),
            format!(" {scope}"),
            format!("{scope}\0"),
            format!("{scope}s"),
            format!("{most}{other_last}"),
            format!("{}{}", "x", &scope[1..]),
        ];
        for miss in misses {
            tally.surveyed(&format!("5.7: not {scope}: {miss}"), "945 1 -", scoped(&miss));
        }
        if scope.bytes().any(|octet| octet.is_ascii_uppercase()) {
            let lower = scope.to_lowercase();
            tally.surveyed("5.7: case sensitive", "945 1 -", scoped(lower));
        }
    }
}

/// 5.7: what is none, from later editions and elsewhere.
fn check_other_scopes(tally: &mut Tally) {
    for scope in ["style", "", "featur", "attributetype", "catalogue", "geopackage", "table", "NA"]
    {
        tally.surveyed(&format!("5.7: {scope:?} is none"), "945 1 -", scoped(scope));
    }
    for scope in ["seriesdataset", "dataset,series", "feature Type", "nonGeographic Dataset"] {
        tally.surveyed(&format!("5.7: {scope:?} is none"), "945 1 -", scoped(scope));
    }
    tally.surveyed("945: each row by itself", "945 0 -, 945 1 -, 945 2 -", |d| {
        let style = d.text("style");
        d.metadata.iter_mut().for_each(|row| row.scope = style);
    });
}

/// What is none of the five.
const NO_SCOPES: [&str; 27] = [
    "",
    "Geopackage",
    "GEOPACKAGE",
    "geopackage ",
    "geopackag",
    "Table",
    "TABLE",
    "tables",
    "tabl",
    "Column",
    "columns",
    "colum",
    "Row",
    "ROW",
    "rows",
    "ro",
    "row/Col",
    "row/column",
    "row_col",
    "row\\col",
    "row/co",
    "row/col/",
    "rowcol",
    "row/cola",
    "col/row",
    "dataset",
    "xable",
];

/// 5.8: exact. All of them go with a good table, a column and a row id.
fn check_reference_scopes(tally: &mut Tally) {
    let full = |scope: &str| one_reference(scope, Some("valley"), Some("c"), Some(7)).listing();
    for (scope, want) in [
        ("geopackage", "975 0 -, 985 0 -, 995 0 -"),
        ("table", "985 0 -, 995 0 -"),
        ("column", "995 0 -"),
        ("row", "985 0 -"),
        ("row/col", ""),
    ] {
        tally.noted(&format!("5.8: {scope}"), &full(scope), want);
    }
    for scope in NO_SCOPES {
        tally.noted(&format!("5.8: {scope:?} is none"), &full(scope), "965 0 -");
    }
}

/// What a scope comes to: table_name NULL or "valley", within these column_name NULL
/// or there, within these row_id_value absent or there.
const MATRIX: [(&str, [&str; 8]); 6] = [
    (
        "geopackage",
        [
            "",
            "995 0 -",
            "985 0 -",
            "985 0 -, 995 0 -",
            "975 0 -",
            "975 0 -, 995 0 -",
            "975 0 -, 985 0 -",
            "975 0 -, 985 0 -, 995 0 -",
        ],
    ),
    (
        "table",
        [
            "975 0 -",
            "975 0 -, 995 0 -",
            "975 0 -, 985 0 -",
            "975 0 -, 985 0 -, 995 0 -",
            "",
            "995 0 -",
            "985 0 -",
            "985 0 -, 995 0 -",
        ],
    ),
    (
        "column",
        [
            "975 0 -, 985 0 -",
            "975 0 -, 985 0 -, 995 0 -",
            "975 0 -",
            "975 0 -, 995 0 -",
            "985 0 -",
            "985 0 -, 995 0 -",
            "",
            "995 0 -",
        ],
    ),
    (
        "row",
        [
            "975 0 -, 995 0 -",
            "975 0 -",
            "975 0 -, 985 0 -, 995 0 -",
            "975 0 -, 985 0 -",
            "995 0 -",
            "",
            "985 0 -, 995 0 -",
            "985 0 -",
        ],
    ),
    (
        "row/col",
        [
            "975 0 -, 985 0 -, 995 0 -",
            "975 0 -, 985 0 -",
            "975 0 -, 995 0 -",
            "975 0 -",
            "985 0 -, 995 0 -",
            "985 0 -",
            "995 0 -",
            "",
        ],
    ),
    (
        "Table",
        [
            "965 0 -, 975 0 -, 985 0 -, 995 0 -",
            "965 0 -, 975 0 -, 985 0 -",
            "965 0 -, 975 0 -, 995 0 -",
            "965 0 -, 975 0 -",
            "965 0 -, 985 0 -, 995 0 -",
            "965 0 -, 985 0 -",
            "965 0 -, 995 0 -",
            "965 0 -",
        ],
    ),
];

/// 5.9 to 5.12: an empty column and row id 0 are there as any others are.
fn check_matrix(tally: &mut Tally) {
    for (scope, wants) in MATRIX {
        let mut wants = wants.into_iter();
        for table_name in [None, Some("valley")] {
            for has_column in [false, true] {
                for has_row in [false, true] {
                    let want = wants.next().unwrap_or("?");
                    for (column, row_id) in [("tile_data", 7), ("", 0), ("c", i64::MIN)] {
                        let column = has_column.then_some(column);
                        let row_id = has_row.then_some(row_id);
                        let draft = one_reference(scope, table_name, column, row_id);
                        let shows = format!("{scope}: {table_name:?} {column:?} {row_id:?}");
                        tally.noted(&shows, &draft.listing(), want);
                    }
                }
            }
        }
    }
}

/// 5.12: an unknown scope is "every other row" in 97 to 99.
fn check_unknown(tally: &mut Tally) {
    let unknown = one_reference("Table", Some("valley"), None, None).listing();
    tally.noted("5.12: \"Table\" as if it were one", &unknown, "965 0 -, 985 0 -, 995 0 -");
    let unknown = one_reference("GeoPackage", None, None, None).listing();
    let want = "965 0 -, 975 0 -, 985 0 -, 995 0 -";
    tally.noted("5.12: nor is \"GeoPackage\" one", &unknown, want);
    let mut twice = survey();
    twice.references[0].scope = twice.text("");
    twice.references[3].scope = twice.text("Row");
    let want = "965 0 -, 965 3 -, 975 0 -, 985 0 -, 985 3 -, 995 0 -";
    tally.noted("965: each row by itself", &twice.listing(), want);
}

/// 5.19: the examples of 000, as they stand there.
fn check_examples(tally: &mut Tally) {
    let mut roads = super::valley();
    roads.content("roads", "features", MOMENT, None);
    roads.content("sample_rasters", "tiles", MOMENT, None);
    let roads = roads.listing();
    let mut draft = MetadataDraft::default();
    for id in [0, 3, 98, 99] {
        draft.metadata(id, "undefined");
    }
    let texts: [Option<&[u8]>; 2] = [Some(b"roads"), Some(b"undefined")];
    draft.reference("table", texts, "2012-08-17T14:49:32.932Z", 3);
    draft.references[0].set_numbers(Some(-1), Some(0));
    let want = "985 0 -, 995 0 -";
    tally.beside("5.19: 'undefined' and -1 on 'table'", &roads, &draft.listing(), want);
    draft.references[0].timestamp = draft.text("2012-08-17 14:49:32");
    let want = "985 0 -, 995 0 -, 1005 0 -";
    tally.beside("5.19: and datetime('now')", &roads, &draft.listing(), want);
    draft.references.clear();
    let texts: [Option<&[u8]>; 2] = [Some(b"sample_rasters"), None];
    draft.reference("table", texts, "2012-08-17T14:49:32.932Z", 98);
    draft.references[0].set_numbers(None, Some(99));
    tally.beside("F.8's insert statement", &roads, &draft.listing(), "");
}

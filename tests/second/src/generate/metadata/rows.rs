//! Rows of metadata listings: good ones, by the way they are made, and ones over few
//! words and numbers, in which every rule is met and missed.

use super::super::small::edge_moment;
use super::{Random, Tables};
use crate::make::{span, MetadataDraft, MetadataReferenceRow, MetadataRow, Span, NULL};

/// Names that Table 21 has.
pub const SCOPES: [&str; 19] = [
    "undefined",
    "fieldSession",
    "collectionSession",
    "series",
    "dataset",
    "featureType",
    "feature",
    "attributeType",
    "attribute",
    "tile",
    "model",
    "catalog",
    "schema",
    "taxonomy",
    "software",
    "service",
    "collectionHardware",
    "nonGeographicDataset",
    "dimensionGroup",
];

pub const REFERENCE_SCOPES: [&str; 5] = ["geopackage", "table", "column", "row", "row/col"];

pub const MOMENTS: [&str; 4] = [
    "2024-02-29T00:00:00.000Z",
    "0000-02-29T23:59:59.999Z",
    "1999-12-31T23:59:59.999Z",
    "9999-06-30T12:30:45.678Z",
];

const COLUMNS: [&str; 4] = ["geom", "tile_data", "", "h\u{f6}he"];

/// Ids that are one another but for some bits.
pub const IDS: [i64; 12] =
    [0, 1, 2, 3, -1, 257, 1 << 32, (1 << 32) + 1, i64::MIN, i64::MIN + 1, i64::MAX, 98];

/// A text where it is already, or at a place of its own.
pub fn somewhere(random: &mut Random, draft: &mut MetadataDraft, text: impl AsRef<[u8]>) -> Span {
    match random.once_in(3) {
        true => draft.text_apart(text),
        false => draft.text(text),
    }
}

/// Does this scope have a table_name, a column_name, a row_id_value?
pub fn asks_for(scope: &str) -> [bool; 3] {
    match scope {
        "geopackage" => [false, false, false],
        "table" => [true, false, false],
        "column" => [true, true, false],
        "row" => [true, false, true],
        _ => [true, true, true],
    }
}

/// Without findings: one to six files, and a reference or more of each.
pub fn good(random: &mut Random, tables: Tables) -> MetadataDraft {
    let count = 1 + random.below(6);
    with_files(random, tables, count)
}

/// The same with so many files. Only the first have ids that are alike.
pub fn with_files(random: &mut Random, tables: Tables, count: usize) -> MetadataDraft {
    let mut draft = MetadataDraft::default();
    let mut ids = IDS;
    random.shuffle(&mut ids);
    for number in 0..count {
        let id = ids.get(number).copied().unwrap_or(1_000 + number as i64);
        let scope = random.pick(&SCOPES);
        let scope = somewhere(random, &mut draft, scope);
        draft.metadata.push(MetadataRow { id, scope });
    }
    for number in 0..1 + random.below(count + 8) {
        add_good_reference(random, tables, &mut draft, number);
    }
    random.shuffle(&mut draft.references);
    draft
}

fn add_good_reference(
    random: &mut Random,
    tables: Tables,
    draft: &mut MetadataDraft,
    number: usize,
) {
    // Without contents no table can be named.
    let scope = match tables {
        [] => "geopackage",
        _ => random.pick(&REFERENCE_SCOPES),
    };
    let [has_table, has_column, has_row] = asks_for(scope);
    let file_id = draft.metadata[number % draft.metadata.len()].id;
    let others = draft.metadata.iter().map(|row| row.id).filter(|&id| id != file_id);
    let others: Vec<i64> = others.collect();
    let parent_id = (!others.is_empty() && random.once_in(2)).then(|| random.pick(&others));
    let table_name = has_table.then(|| tables[random.below(tables.len())].clone());
    let column_name = has_column.then(|| random.pick(&COLUMNS));
    let mut row = MetadataReferenceRow {
        scope: somewhere(random, draft, scope),
        table_name: table_name.map_or(NULL, |name| somewhere(random, draft, name)),
        column_name: column_name.map_or(NULL, |name| somewhere(random, draft, name)),
        timestamp: draft.text(random.pick(&MOMENTS)),
        file_id,
        ..EMPTY
    };
    row.set_numbers(has_row.then(|| random.pick(&IDS)), parent_id);
    draft.references.push(row);
}

pub const EMPTY: MetadataReferenceRow = MetadataReferenceRow {
    scope: span(0, 0),
    table_name: NULL,
    column_name: NULL,
    timestamp: span(0, 0),
    row_id: 0,
    file_id: 0,
    parent_id: 0,
    flags: 0,
    spare: 0,
};

/// What a word is taken for by mistake.
pub fn near_miss(random: &mut Random, word: &str) -> String {
    match random.below(8) {
        0 => word.to_uppercase(),
        1 => format!("{word} "),
        2 => format!("{word}\0"),
        3 => word.chars().skip(1).collect(),
        4 => word.chars().take(word.chars().count().saturating_sub(1)).collect(),
        5 => format!("{word}s"),
        6 => word.chars().rev().chain(['x']).collect(),
        _ => {
            random.pick(&["style", "", "Dataset", "tiles", "row/column", "GeoPackage"]).to_string()
        }
    }
}

/// One of some words, and once in so many times what is nearly one.
fn word(random: &mut Random, words: &[&str], missed_once_in: usize) -> String {
    let word = random.pick(words);
    match random.once_in(missed_once_in) {
        true => near_miss(random, word),
        false => word.to_string(),
    }
}

/// A table name: of the contents, nearly one of them, or any; or NULL.
fn table_name(random: &mut Random, tables: Tables, draft: &mut MetadataDraft) -> Span {
    let any = match tables {
        [] => b"valley".to_vec(),
        _ => tables[random.below(tables.len())].clone(),
    };
    let text = match random.below(8) {
        0..2 => return NULL,
        2 => near_miss(random, &String::from_utf8_lossy(&any)).into_bytes(),
        _ => any,
    };
    somewhere(random, draft, text)
}

/// Up to so many files and references, of few words and ids.
pub fn small(
    random: &mut Random,
    tables: Tables,
    most_files: usize,
    most_references: usize,
) -> MetadataDraft {
    let mut draft = MetadataDraft::default();
    for _ in 0..random.below(most_files + 1) {
        let scope = word(random, &SCOPES, 4);
        let scope = draft.text(scope);
        draft.metadata.push(MetadataRow { id: random.pick(&IDS[..6]), scope });
    }
    for _ in 0..random.below(most_references + 1) {
        add_any_reference(random, tables, &mut draft, 8);
    }
    draft
}

/// Any reference; once in so many times its scope is nearly one.
fn add_any_reference(
    random: &mut Random,
    tables: Tables,
    draft: &mut MetadataDraft,
    missed_once_in: usize,
) {
    let scope = word(random, &REFERENCE_SCOPES, missed_once_in);
    let has_column = random.once_in(2);
    let mut row = MetadataReferenceRow {
        scope: draft.text(scope),
        table_name: table_name(random, tables, draft),
        column_name: if has_column { draft.text(random.pick(&COLUMNS)) } else { NULL },
        timestamp: draft.text(word(random, &MOMENTS, 8)),
        file_id: random.pick(&IDS[..6]),
        ..EMPTY
    };
    let [row_id, parent_id] = [0; 2].map(|_| random.once_in(2).then(|| random.pick(&IDS[..7])));
    row.set_numbers(row_id, parent_id);
    draft.references.push(row);
}

/// Scopes of both tables, each as often missed as met.
pub fn scopes(random: &mut Random, tables: Tables) -> MetadataDraft {
    let mut draft = MetadataDraft::default();
    for id in 0..random.from_to(1, 24) {
        let scope = word(random, &SCOPES, 2);
        let scope = somewhere(random, &mut draft, scope);
        draft.metadata.push(MetadataRow { id, scope });
    }
    for _ in 0..random.below(24) {
        add_any_reference(random, tables, &mut draft, 2);
    }
    draft
}

/// References good but for their table names.
pub fn table_names(random: &mut Random, tables: Tables) -> MetadataDraft {
    let mut draft = good(random, tables);
    for at in 0..draft.references.len() {
        draft.references[at].table_name = table_name(random, tables, &mut draft);
    }
    draft
}

/// References good but for their timestamps.
pub fn moments(random: &mut Random, tables: Tables) -> MetadataDraft {
    let mut draft = good(random, tables);
    for at in 0..draft.references.len() {
        let moment = edge_moment(random);
        // What is no text would refuse the whole.
        if std::str::from_utf8(&moment).is_ok() {
            draft.references[at].timestamp = draft.text_apart(moment);
        }
    }
    draft
}

/// References good but for their ids, and files whose ids repeat.
pub fn ids(random: &mut Random, tables: Tables) -> MetadataDraft {
    let mut draft = good(random, tables);
    for row in &mut draft.metadata {
        row.id = random.pick(&IDS);
    }
    for row in &mut draft.references {
        row.file_id = random.pick(&IDS);
        let row_id = (row.flags & 1 != 0).then_some(row.row_id);
        let any = random.pick(&IDS);
        let parent_id = random.pick(&[None, Some(any), Some(any), Some(row.file_id)]);
        row.set_numbers(row_id, parent_id);
    }
    draft
}

/// Texts that are parts of one another, and empty ones at the end of the names.
pub fn overlapping(random: &mut Random, tables: Tables) -> MetadataDraft {
    let mut draft = MetadataDraft::default();
    for name in tables.iter().take(4) {
        draft.text_apart([b"x", &name[..], b"x"].concat());
    }
    draft.text_apart(["row/coltablegeopackagecolumnfeatureTypeattributeType", MOMENTS[0]].concat());
    let end = draft.names.len();
    draft.metadata(1, random.pick(&["feature", "attribute", "featureType", "able"]));
    for _ in 0..1 + random.below(12) {
        add_any_reference(random, tables, &mut draft, 8);
    }
    for row in &mut draft.references {
        if row.column_name.length == 0 && row.column_name != NULL {
            row.column_name = span(random.pick(&[0, end, draft.names.len()]), 0);
        }
    }
    draft
}

/// Good rows, each some times: nothing says that it must be there once.
pub fn alike(random: &mut Random, tables: Tables) -> MetadataDraft {
    let mut draft = good(random, tables);
    for _ in 0..1 + random.below(3) {
        draft.metadata.extend_from_within(..);
        draft.references.extend_from_within(..);
    }
    draft.metadata.truncate(256);
    draft
}

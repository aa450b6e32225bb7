//! Metadata listings of full size beside tile listings of full size, for speed.

use super::super::{cut, full};
use super::rows::{asks_for, EMPTY, REFERENCE_SCOPES, SCOPES};
use super::{tables_of, MetadataCase, Tables};
use crate::calls::put_together;
use crate::listing::layout::{METADATA_SHAPES, SHAPES};
use crate::make::{set_u32, span, MetadataDraft, MetadataReferenceRow, MetadataRow, Span, NULL};

/// The kinds that [`full_metadata`] makes.
pub const FULL_METADATA_KINDS: [&str; 7] =
    ["good", "last-id", "own-place", "long-names", "unknown-names", "bad", "overlapping"];

const MOMENT: &str = "2024-02-29T00:00:00.000Z";
const FILES: usize = METADATA_SHAPES[0].most as usize;
const REFERENCES: usize = METADATA_SHAPES[1].most as usize;
const NAMES: usize = METADATA_SHAPES[2].most as usize;

/// A metadata listing of a kind with every table at its most, beside a tile listing
/// of 256 layers with so many tiles; nothing for a kind that is none.
///
/// * `good`: each file and each layer in its turn; no findings;
/// * `last-id`: the same, all of the last file and the last layer;
/// * `own-place`: as `good`, and each text at a place of its own;
/// * `long-names`: as `good`, with layers of names of 3,900 octets that differ
///   inside or at their ends;
/// * `unknown-names`: the same, and the references have other such names;
/// * `bad`: every finding on every row;
/// * `overlapping`: texts of nearly three quarters of the names, beyond ASCII.
pub fn full_metadata(kind: &str, tiles: usize) -> Option<MetadataCase> {
    let &kind = FULL_METADATA_KINDS.iter().find(|known| **known == kind)?;
    let sorted = full("sorted", tiles)?;
    let listing = match kind {
        "long-names" | "unknown-names" => renamed(&sorted),
        _ => sorted,
    };
    let tables = match kind {
        "unknown-names" => (FILES..2 * FILES).map(long_name).collect(),
        _ => tables_of(&listing),
    };
    let mut draft = match kind {
        "last-id" => good(&tables[tables.len() - 1..], |_| FILES - 1),
        "own-place" => at_own_places(good(&tables, |number| number)),
        "bad" => bad(&tables),
        "overlapping" => overlapping(),
        _ => good(&tables, |number| number),
    };
    draft.names.resize(NAMES, b'n');
    Some(MetadataCase { kind, listing, metadata: draft.listing() })
}

/// Of one length. Those of even numbers differ at their ends, the others inside.
fn long_name(number: usize) -> Vec<u8> {
    let mut name = vec![b'n'; 3_900];
    let at = if number % 2 == 0 { name.len() - 3 } else { name.len() / 2 };
    name[at..at + 3].copy_from_slice(format!("{number:03}").as_bytes());
    name
}

/// The tile listing with long names in its contents, and in these alone.
fn renamed(listing: &[u8]) -> Vec<u8> {
    let mut parts = cut(listing);
    let [_, contents, .., names] = &mut parts;
    for (number, row) in contents.chunks_exact_mut(SHAPES[1].row_size).enumerate() {
        let name = long_name(number);
        set_u32(row, 0, names.len() as u32);
        set_u32(row, 4, name.len() as u32);
        names.extend(name);
    }
    put_together(&parts)
}

fn id_of(file: usize) -> i64 {
    7_919 * (file % FILES) as i64
}

fn files(scopes: &[Span]) -> Vec<MetadataRow> {
    (0..FILES)
        .map(|file| MetadataRow { id: id_of(file), scope: scopes[file % scopes.len()] })
        .collect()
}

/// References of each scope and each of these tables in turn. The file of one is
/// told by its number, and its parent is the file before.
fn good(tables: Tables, file_of: fn(usize) -> usize) -> MetadataDraft {
    let mut draft = MetadataDraft::default();
    draft.metadata = files(&SCOPES.map(|scope| draft.text_apart(scope)));
    let tables: Vec<Span> = tables.iter().map(|name| draft.text_apart(name)).collect();
    let [column, timestamp] = ["tile_data", MOMENT].map(|text| draft.text_apart(text));
    let scopes = REFERENCE_SCOPES.map(|scope| draft.text_apart(scope));
    for number in 0..REFERENCES {
        let turn = number % scopes.len();
        let [has_table, has_column, has_row] = asks_for(REFERENCE_SCOPES[turn]);
        let file = file_of(number);
        let mut row = MetadataReferenceRow {
            scope: scopes[turn],
            table_name: if has_table { tables[number % tables.len()] } else { NULL },
            column_name: if has_column { column } else { NULL },
            timestamp,
            file_id: id_of(file),
            ..EMPTY
        };
        let parent = id_of(file + FILES - 1);
        row.set_numbers(has_row.then_some(number as i64), (number % 2 == 0).then_some(parent));
        draft.references.push(row);
    }
    draft
}

fn at_own_places(mut draft: MetadataDraft) -> MetadataDraft {
    let MetadataDraft { metadata, references, names } = &mut draft;
    let mut copied = |text: &mut Span| {
        if *text != NULL {
            let start = text.start as usize;
            let octets = start..start + text.length as usize;
            text.start = names.len() as u32;
            names.extend_from_within(octets);
        }
    };
    metadata.iter_mut().for_each(|row| copied(&mut row.scope));
    for row in references {
        copied(&mut row.scope);
        copied(&mut row.table_name);
        copied(&mut row.column_name);
        copied(&mut row.timestamp);
    }
    draft
}

/// Each text and each number is nearly a good one.
fn bad(tables: Tables) -> MetadataDraft {
    let mut draft = MetadataDraft::default();
    let scope = draft.text_apart("nonGeographicDatasef");
    draft.metadata = files(&[scope]);
    let mut other = tables[0].clone();
    other.pop();
    other.push(b'x');
    let mut row = MetadataReferenceRow {
        scope: draft.text_apart("row/coL"),
        table_name: draft.text_apart(other),
        timestamp: draft.text_apart("2024-02-29T00:00:00.000z"),
        ..EMPTY
    };
    for number in 0..REFERENCES {
        row.file_id = id_of(number) + 1;
        row.set_numbers(None, Some(id_of(number) + 2));
        draft.references.push(row);
    }
    draft
}

/// References to the columns of the tables with such texts.
fn overlapping() -> MetadataDraft {
    let mut draft = MetadataDraft::default();
    let scope = draft.text_apart("series");
    draft.metadata = files(&[scope]);
    let scope = draft.text_apart("column");
    let start = draft.names.len();
    let letters = "a\u{e9}\u{20ac}\u{1f404}".as_bytes();
    let room = (NAMES - start) / letters.len();
    draft.names.extend(letters.repeat(room));
    let length = letters.len() * (room * 3 / 4 - 3);
    for number in 0..REFERENCES {
        let text = |field: usize| {
            span(start + letters.len() * ((3 * number + field) % (room / 4)), length)
        };
        let [table_name, column_name, timestamp] = [0, 1, 2].map(text);
        let file_id = id_of(number);
        let row =
            MetadataReferenceRow { scope, table_name, column_name, timestamp, file_id, ..EMPTY };
        draft.references.push(row);
    }
    draft
}

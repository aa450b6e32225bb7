//! Metadata listings at the edge of refusals 7, 8 and 13.

use super::super::edges::edge_text;
use super::super::utf8::{ill_at_end, WithTexts};
use super::rows::EMPTY;
use super::Random;
use crate::listing::layout::{METADATA, METADATA_REFERENCES};
use crate::make::{MetadataDraft, MetadataReferenceRow, MetadataRow, Span, NULL};

impl WithTexts for MetadataDraft {
    fn of_texts(random: &mut Random, mut text: impl FnMut(&mut Random) -> Span) -> MetadataDraft {
        let mut draft = MetadataDraft::default();
        for id in 0..random.from_to(0, 3) {
            draft.metadata.push(MetadataRow { id, scope: text(random) });
        }
        for file_id in 0..random.from_to(0, 8) {
            let [scope, table_name, column_name, timestamp] = [0; 4].map(|_| text(random));
            let is_null = [0; 2].map(|_| random.once_in(4));
            draft.references.push(MetadataReferenceRow {
                scope,
                table_name: if is_null[0] { NULL } else { table_name },
                column_name: if is_null[1] { NULL } else { column_name },
                timestamp,
                file_id,
                ..EMPTY
            });
        }
        draft
    }

    fn put(&mut self, random: &mut Random, text: Span) -> Option<(u32, u32)> {
        let (table, row, field) = any_text(random, self)?;
        *field = text;
        Some((table as u32, row as u32))
    }

    fn names(&mut self) -> &mut Vec<u8> {
        &mut self.names
    }
}

/// Any text field of any row, if there are rows: its table, its row, and itself.
fn any_text<'d>(
    random: &mut Random,
    draft: &'d mut MetadataDraft,
) -> Option<(usize, usize, &'d mut Span)> {
    let (files, references) = (draft.metadata.len(), draft.references.len());
    if files > 0 && (references == 0 || random.once_in(4)) {
        let row = random.below(files);
        return Some((METADATA, row, &mut draft.metadata[row].scope));
    }
    let row = random.below(references.max(1));
    let reference = draft.references.get_mut(row)?;
    let text = match random.below(4) {
        0 => &mut reference.scope,
        1 => &mut reference.table_name,
        2 => &mut reference.column_name,
        _ => &mut reference.timestamp,
    };
    Some((METADATA_REFERENCES, row, text))
}

/// Some texts at the edge of the names: in, out, and NULL.
pub fn set_edge_texts(random: &mut Random, draft: &mut MetadataDraft) {
    if random.once_in(8) {
        // With no names at all, only empty texts at 0 and NULLs are good.
        draft.names.clear();
    }
    let end = draft.names.len();
    for _ in 0..1 + random.below(3) {
        let text = edge_text(random, end);
        draft.put(random, text);
    }
}

/// NULL in any field; in two of them it may be right.
pub fn set_nulls(random: &mut Random, draft: &mut MetadataDraft) {
    for _ in 0..1 + random.below(3) {
        draft.put(random, NULL);
    }
}

/// Texts that look like NULL and are not, beside ones that are.
pub fn set_nearly_null(random: &mut Random, draft: &mut MetadataDraft) {
    let text = |start, length| Span { start, length };
    let end = draft.names.len() as u32;
    let good = [NULL, text(end, 0), text(0, 0)];
    let bad = [text(u32::MAX, 1), text(u32::MAX - 1, 0), text(u32::MAX, u32::MAX)];
    for row in &mut draft.references {
        row.table_name = random.pick(&good);
        row.column_name = random.pick(&good);
    }
    for row in &mut draft.references {
        if random.once_in(8) {
            row.table_name = random.pick(&bad);
        }
        if random.once_in(8) {
            row.column_name = random.pick(&bad);
        }
    }
}

/// What a reference may have as row id, parent, flags and spare: good and bad.
const FLAGS: [(i64, i64, u32, u32); 17] = [
    (0, 0, 0, 0),
    (0, 0, 1, 0),
    (0, 0, 2, 0),
    (0, 0, 3, 0),
    (7, 0, 1, 0),
    (0, 7, 2, 0),
    (i64::MIN, i64::MAX, 3, 0),
    (1, 0, 0, 0),
    (0, 1, 0, 0),
    (1 << 32, 0, 2, 0),
    (0, i64::MIN, 1, 0),
    (0, 0, 4, 0),
    (0, 0, 7, 0),
    (0, 0, u32::MAX, 0),
    (0, 0, 1 << 31, 0),
    (0, 0, 0, 1),
    (0, 0, 3, 1 << 31),
];

/// Some references with such numbers.
pub fn set_flags(random: &mut Random, draft: &mut MetadataDraft) {
    for _ in 0..1 + random.below(3) {
        let row = random.below(draft.references.len().max(1));
        let numbers = random.pick(&FLAGS);
        if let Some(row) = draft.references.get_mut(row) {
            (row.row_id, row.parent_id, row.flags, row.spare) = numbers;
        }
    }
}

pub fn set_7_and_8(random: &mut Random, draft: &mut MetadataDraft) {
    set_flags(random, draft);
    set_edge_texts(random, draft);
}

/// Some texts that are not well-formed, of octets that are added to the names.
pub fn set_ill_texts(random: &mut Random, draft: &mut MetadataDraft) {
    for _ in 0..1 + random.below(3) {
        let ill = ill_at_end(random, &mut draft.names);
        draft.put(random, ill);
    }
}

/// Faults of two or three of them together, so that their order and places show.
pub fn set_7_8_and_13(random: &mut Random, draft: &mut MetadataDraft) {
    set_ill_texts(random, draft);
    if random.once_in(2) {
        set_flags(random, draft);
    }
    if random.once_in(2) {
        let end = draft.names.len();
        let text = edge_text(random, end);
        draft.put(random, text);
    }
}

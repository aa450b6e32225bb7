//! Listings at the edge of refusals 7 and 8: texts at the end of the names,
//! NULLs, contents flags.

use super::{packs, small, Random};
use crate::make::{span, Draft, Span, NULL};

/// A listing that is accepted.
pub fn sound(random: &mut Random) -> Draft {
    match random.below(3) {
        0 => small::any(random),
        1 => small::overlapping(random),
        _ => packs::good(random),
    }
}

/// Any text field of any row of a table, if the table has rows, and the row.
pub fn any_text<'d>(
    random: &mut Random,
    draft: &'d mut Draft,
    table: usize,
) -> Option<(usize, &'d mut Span)> {
    let count = draft.counts()[table - 1];
    if count == 0 {
        return None;
    }
    let (row, field) = (random.below(count), random.below(4));
    let text = match (table, field) {
        (1, 0 | 1) => &mut draft.references[row].organization,
        (1, _) => &mut draft.references[row].definition,
        (2, 0 | 1) => &mut draft.contents[row].table_name,
        (2, 2) => &mut draft.contents[row].data_type,
        (2, _) => &mut draft.contents[row].last_change,
        (3, _) => &mut draft.sets[row].table_name,
        (4, _) => &mut draft.matrices[row].table_name,
        (5, _) => &mut draft.tiles[row].table_name,
        (_, 0) => &mut draft.extensions[row].table_name,
        (_, 1) => &mut draft.extensions[row].column_name,
        (_, 2) => &mut draft.extensions[row].extension_name,
        (_, _) => &mut draft.extensions[row].scope,
    };
    Some((row, text))
}

/// A text at the edge of a table of names with this many octets.
pub fn edge_text(random: &mut Random, end: usize) -> Span {
    let length = random.below(5).min(end);
    let max = u32::MAX;
    let texts = [
        span(end - length, length),
        span(end - length, length),
        span(end, 0),
        span(0, end),
        span(end - length, length + 1),
        span(end + 1, 0),
        span(end, 1),
        NULL,
        Span { start: max, length: 1 },
        Span { start: 1, length: max },
        Span { start: max, length: max },
        Span { start: max - 1, length: 0 },
        Span { start: end as u32 + 1, length: max },
    ];
    random.pick(&texts)
}

pub fn set_edge_texts(random: &mut Random, draft: &mut Draft, most: usize) {
    let end = draft.names.len();
    for _ in 0..1 + random.below(most) {
        let table = 1 + random.below(6);
        let text = edge_text(random, end);
        if let Some((_, field)) = any_text(random, draft, table) {
            *field = text;
        }
    }
}

pub fn text_edges(random: &mut Random) -> Vec<u8> {
    let mut draft = sound(random);
    if random.once_in(8) {
        // With no names at all, only empty texts at 0 and NULLs are good.
        draft.names.clear();
    }
    set_edge_texts(random, &mut draft, 3);
    draft.listing()
}

/// NULL in any table; in table 6 it may be right.
pub fn nulls(random: &mut Random) -> Vec<u8> {
    let mut draft = sound(random);
    for _ in 0..1 + random.below(3) {
        let table = random.pick(&[1, 2, 3, 4, 5, 6, 6, 6, 6, 6]);
        if let Some((_, field)) = any_text(random, &mut draft, table) {
            *field = NULL;
        }
    }
    draft.listing()
}

/// In table 6, texts that look like NULL and are not, beside ones that are.
pub fn nearly_null(random: &mut Random) -> Vec<u8> {
    let mut draft = small::extensions(random);
    let text = |start, length| Span { start, length };
    let end = draft.names.len() as u32;
    let good = [NULL, text(end, 0), text(0, 0)];
    let bad = [text(u32::MAX, 1), text(u32::MAX - 1, 0), text(u32::MAX, u32::MAX)];
    for row in &mut draft.extensions {
        row.table_name = random.pick(&good);
        row.column_name = random.pick(&good);
        if random.once_in(40) {
            row.table_name = random.pick(&bad);
        }
        if random.once_in(40) {
            row.column_name = random.pick(&bad);
        }
    }
    draft.listing()
}

/// What a contents row may have as srs_id, flag and spare: good and bad.
pub fn edge_flags(random: &mut Random) -> (i64, u32, u32) {
    random.pick(&[
        (0, 0, 0),
        (0, 1, 0),
        (4326, 1, 0),
        (i64::MIN, 1, 0),
        (0, 2, 0),
        (4326, 2, 0),
        (-1, 3, 0),
        (0, u32::MAX, 0),
        (0, 1, 1),
        (0, 0, 1 << 31),
        (1, 0, 0),
        (1 << 32, 0, 0),
        (i64::MIN, 0, 0),
    ])
}

pub fn set_flags(random: &mut Random, draft: &mut Draft) {
    for _ in 0..1 + random.below(3) {
        if draft.contents.is_empty() {
            return;
        }
        let row = random.below(draft.contents.len());
        let contents = &mut draft.contents[row];
        (contents.srs_id, contents.flag, contents.spare) = edge_flags(random);
    }
}

pub fn contents_flags(random: &mut Random) -> Vec<u8> {
    let mut draft = sound(random);
    set_flags(random, &mut draft);
    draft.listing()
}

/// Faults of 7 and 8 together, so that their order and places show.
pub fn several_refusals(random: &mut Random) -> Vec<u8> {
    let mut draft = sound(random);
    set_flags(random, &mut draft);
    set_edge_texts(random, &mut draft, 6);
    draft.listing()
}

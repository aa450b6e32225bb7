//! One fault in a good metadata listing, or what is nearly one: the maker knows
//! whether it must show.

use super::rows::{asks_for, near_miss, somewhere, IDS, MOMENTS, REFERENCE_SCOPES, SCOPES};
use super::{rows, Random, Tables};
use crate::make::{MetadataDraft, NULL};

type Plant = fn(&mut Random, Tables, &mut MetadataDraft) -> bool;

/// The codes, and what plants a fault of each.
const PLANTS: [(u32, Plant); 8] = [
    (945, plant_945),
    (965, plant_965),
    (975, plant_975),
    (985, plant_985),
    (995, plant_995),
    (1005, plant_1005),
    (1015, plant_1015),
    (1025, plant_1025),
];

pub fn one_fault(random: &mut Random, seed: u64, tables: Tables) -> (Vec<u8>, u32, bool) {
    let (code, plant) = PLANTS[(seed % PLANTS.len() as u64) as usize];
    let mut draft = rows::good(random, tables);
    let shows = plant(random, tables, &mut draft);
    (draft.listing(), code, shows)
}

pub fn planted(random: &mut Random, tables: Tables, code: u32) -> Vec<u8> {
    let mut draft = rows::good(random, tables);
    for (_, plant) in PLANTS.iter().filter(|(of, _)| *of == code) {
        plant(random, tables, &mut draft);
    }
    draft.listing()
}

pub fn many(random: &mut Random, tables: Tables) -> Vec<u8> {
    let mut draft = rows::good(random, tables);
    for _ in 0..2 + random.below(12) {
        let (_, plant) = random.pick(&PLANTS);
        plant(random, tables, &mut draft);
    }
    draft.listing()
}

/// A word or what is nearly one, and whether it is none.
fn word_or_miss(random: &mut Random, words: &[&str]) -> (String, bool) {
    let word = random.pick(words);
    match random.once_in(2) {
        true => (word.to_string(), false),
        false => {
            let miss = near_miss(random, word);
            let is_none = !words.contains(&miss.as_str());
            (miss, is_none)
        }
    }
}

fn plant_945(random: &mut Random, _: Tables, draft: &mut MetadataDraft) -> bool {
    let at = random.below(draft.metadata.len());
    let (scope, is_none) = word_or_miss(random, &SCOPES);
    draft.metadata[at].scope = somewhere(random, draft, scope);
    is_none
}

fn plant_965(random: &mut Random, _: Tables, draft: &mut MetadataDraft) -> bool {
    let at = random.below(draft.references.len());
    let (scope, is_none) = word_or_miss(random, &REFERENCE_SCOPES);
    draft.references[at].scope = somewhere(random, draft, scope);
    is_none
}

/// The scope of a reference, which is a good one.
fn scope_of(draft: &MetadataDraft, at: usize) -> &str {
    let scope = draft.references[at].scope;
    let octets = &draft.names[scope.start as usize..][..scope.length as usize];
    std::str::from_utf8(octets).unwrap_or_default()
}

/// NULL, a name elsewhere, and one that the contents have not.
fn plant_975(random: &mut Random, tables: Tables, draft: &mut MetadataDraft) -> bool {
    let at = random.below(draft.references.len());
    let [has_table, ..] = asks_for(scope_of(draft, at));
    let known = (!tables.is_empty()).then(|| tables[random.below(tables.len())].clone());
    let name = match (random.below(3), known) {
        (0, _) => None,
        (1, Some(known)) => Some(known),
        _ => Some(near_miss(random, "valley").into_bytes()),
    };
    let is_known = name.as_ref().is_some_and(|name| tables.contains(name));
    let shows = if has_table { !is_known } else { name.is_some() };
    let name = name.map_or(NULL, |name| somewhere(random, draft, name));
    draft.references[at].table_name = name;
    shows
}

/// Any column_name or none: of a good one only that it is there counts.
fn plant_985(random: &mut Random, _: Tables, draft: &mut MetadataDraft) -> bool {
    let at = random.below(draft.references.len());
    let [_, asks, _] = asks_for(scope_of(draft, at));
    let name = random.pick(&[None, None, Some(""), Some("c"), Some("undefined")]);
    let text = name.map_or(NULL, |name| somewhere(random, draft, name));
    draft.references[at].column_name = text;
    name.is_some() != asks
}

/// Any row_id_value or none; 0 is one.
fn plant_995(random: &mut Random, _: Tables, draft: &mut MetadataDraft) -> bool {
    let at = random.below(draft.references.len());
    let [.., asks] = asks_for(scope_of(draft, at));
    let row = &mut draft.references[at];
    let parent_id = (row.flags & 2 != 0).then_some(row.parent_id);
    let row_id = random.pick(&[None, None, None, Some(0), Some(-1), Some(i64::MAX)]);
    row.set_numbers(row_id, parent_id);
    row_id.is_some() != asks
}

fn plant_1005(random: &mut Random, _: Tables, draft: &mut MetadataDraft) -> bool {
    let at = random.below(draft.references.len());
    let bad = [
        "2023-02-29T00:00:00.000Z",
        "1900-02-29T00:00:00.000Z",
        "2024-04-31T00:00:00.000Z",
        "2024-02-29T24:00:00.000Z",
        "2024-02-29T00:00:60.000Z",
        "2024-02-29 00:00:00.000Z",
        "2024-02-29T00:00:00Z",
        "",
    ];
    let is_bad = random.once_in(2);
    let moment = if is_bad { random.pick(&bad) } else { random.pick(&MOMENTS) };
    draft.references[at].timestamp = somewhere(random, draft, moment);
    is_bad
}

fn has_id(draft: &MetadataDraft, id: i64) -> bool {
    draft.metadata.iter().any(|row| row.id == id)
}

fn plant_1015(random: &mut Random, _: Tables, draft: &mut MetadataDraft) -> bool {
    let at = random.below(draft.references.len());
    let id = random.pick(&IDS);
    draft.references[at].file_id = id;
    !has_id(draft, id)
}

/// Absent, any id, or that of the file.
fn plant_1025(random: &mut Random, _: Tables, draft: &mut MetadataDraft) -> bool {
    let at = random.below(draft.references.len());
    let row = &mut draft.references[at];
    let (file_id, any) = (row.file_id, random.pick(&IDS));
    let row_id = (row.flags & 1 != 0).then_some(row.row_id);
    let parent_id = random.pick(&[None, Some(any), Some(any), Some(any), Some(file_id)]);
    row.set_numbers(row_id, parent_id);
    parent_id.is_some_and(|id| !has_id(draft, id) || id == file_id)
}

//! Codes of the contents: 131, 151, 161, 162, 171, 401.

use super::dates::is_moment;
use super::hashing::QuickMap;
use super::judge::Judge;
use super::{over_rows, when, Finding, Findings};
use crate::listing::Contents;

fn is_tiles(row: &Contents) -> bool {
    row.data_type == b"tiles"
}

/// 131: an earlier row has its table_name.
pub fn rule_131<'j>(judge: &'j Judge<'_>) -> Findings<'j> {
    let mut first_with: QuickMap<u32, u32> = QuickMap::default();
    over_rows(131, judge.contents.len(), move |row| {
        let name = judge.contents_names[row];
        let first = *first_with.entry(name).or_insert(row as u32);
        (first < row as u32).then_some(first)
    })
}

/// 151: last_change is no moment.
pub fn rule_151<'j>(judge: &'j Judge<'_>) -> Findings<'j> {
    over_rows(151, judge.contents.len(), |row| when(!is_moment(judge.contents[row].last_change)))
}

/// 161: srs_id is present and no reference row has it.
pub fn rule_161<'j>(judge: &'j Judge<'_>) -> Findings<'j> {
    over_rows(161, judge.contents.len(), |row| {
        let srs_id = judge.contents[row].srs_id;
        when(srs_id.is_some_and(|id| judge.references.iter().all(|r| r.srs_id != id)))
    })
}

/// 162: a set row of its name has another srs_id; NULL matches none.
pub fn rule_162<'j>(judge: &'j Judge<'_>) -> Findings<'j> {
    over_rows(162, judge.contents.len(), |row| {
        let contents = &judge.contents[row];
        if !is_tiles(contents) {
            return None;
        }
        let sets = &judge.facts_of(judge.contents_names[row])?.sets;
        let is_other = |&set: &usize| contents.srs_id != Some(judge.sets[set].srs_id);
        sets.iter().copied().find(is_other).map(|set| set as u32)
    })
}

/// 171: no contents row has data_type "tiles" or "features".
pub fn rule_171<'j>(judge: &'j Judge<'_>) -> Findings<'j> {
    let has_data = |row: &Contents| is_tiles(row) || row.data_type == b"features";
    let is_broken = !judge.contents.iter().any(has_data);
    Box::new(is_broken.then(|| Finding::without_row(171)).into_iter())
}

/// 401: "tiles", and no set row of its name.
pub fn rule_401<'j>(judge: &'j Judge<'_>) -> Findings<'j> {
    over_rows(401, judge.contents.len(), |row| {
        let has_set =
            judge.facts_of(judge.contents_names[row]).is_some_and(|facts| !facts.sets.is_empty());
        when(is_tiles(&judge.contents[row]) && !has_set)
    })
}

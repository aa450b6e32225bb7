//! Codes of the matrix sets: 391, 392, 411.

use super::judge::Judge;
use super::{over_rows, when, Findings};

/// 391: no tiles name.
pub fn rule_391<'j>(judge: &'j Judge<'_>) -> Findings<'j> {
    over_rows(391, judge.sets.len(), |row| when(!judge.is_tiles_name(judge.set_names[row])))
}

/// 392: an earlier set row has its name.
pub fn rule_392<'j>(judge: &'j Judge<'_>) -> Findings<'j> {
    over_rows(392, judge.sets.len(), |row| {
        let first = *judge.facts_of(judge.set_names[row])?.sets.first()?;
        (first < row).then_some(first as u32)
    })
}

/// 411: no reference row has its srs_id.
pub fn rule_411<'j>(judge: &'j Judge<'_>) -> Findings<'j> {
    over_rows(411, judge.sets.len(), |row| {
        let srs_id = judge.sets[row].srs_id;
        when(judge.references.iter().all(|r| r.srs_id != srs_id))
    })
}

//! Codes of the extensions: 601, 621, 622, 641.

use std::collections::HashMap;

use super::judge::Judge;
use super::{over_rows, when, Findings};

/// 601: column_name present, table_name NULL.
pub fn rule_601<'j>(judge: &'j Judge<'_>) -> Findings<'j> {
    over_rows(601, judge.extensions.len(), |row| {
        let row = &judge.extensions[row];
        when(row.column_name.is_some() && row.table_name.is_none())
    })
}

/// 621: extension_name is not an author, an underscore and a name.
pub fn rule_621<'j>(judge: &'j Judge<'_>) -> Findings<'j> {
    over_rows(621, judge.extensions.len(), |row| {
        when(!is_extension_name(judge.extensions[row].extension_name))
    })
}

/// One or more letters or digits, an underscore, then one or more of those or
/// underscores. The author has no underscore, so the first one ends it.
fn is_extension_name(text: &[u8]) -> bool {
    let Some(end) = text.iter().position(|&octet| octet == b'_') else {
        return false;
    };
    let (author, name) = (&text[..end], &text[end + 1..]);
    let is_name_octet = |octet: &u8| octet.is_ascii_alphanumeric() || *octet == b'_';
    !author.is_empty()
        && author.iter().all(u8::is_ascii_alphanumeric)
        && !name.is_empty()
        && name.iter().all(is_name_octet)
}

/// 622: an earlier row equals it in its three names, none of them NULL.
pub fn rule_622<'j>(judge: &'j Judge<'_>) -> Findings<'j> {
    let mut first_with = HashMap::new();
    over_rows(622, judge.extensions.len(), move |row| {
        let extension = &judge.extensions[row];
        let key = (extension.table_name?, extension.column_name?, extension.extension_name);
        let first = *first_with.entry(key).or_insert(row as u32);
        (first < row as u32).then_some(first)
    })
}

/// 641: scope is neither "read-write" nor "write-only".
pub fn rule_641<'j>(judge: &'j Judge<'_>) -> Findings<'j> {
    over_rows(641, judge.extensions.len(), |row| {
        let scope = judge.extensions[row].scope;
        when(scope != b"read-write" && scope != b"write-only")
    })
}

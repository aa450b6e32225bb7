//! Faults in extensions.

use super::{any_row, copied};
use crate::generate::Random;
use crate::make::{Draft, NULL};

pub const SCOPES: [&str; 2] = ["read-write", "write-only"];

pub fn plant_601(random: &mut Random, draft: &mut Draft) -> bool {
    let (name, column, shows) = random.pick(&[
        (None, Some("geom"), true),
        (None, Some(""), true),
        (None, None, false),
        (Some(""), Some("geom"), false),
        (Some("paths"), None, false),
    ]);
    draft.extension(name, column, "x_y", random.pick(&SCOPES));
    shows
}

pub const NAMES: [(&str, bool); 20] = [
    ("a_b_c", false),
    ("a__", false),
    ("0_9", false),
    ("gpkg_zoom_other", false),
    ("Zz9_Zz9", false),
    ("gpkg_", true),
    ("_x", true),
    ("gpkg", true),
    ("", true),
    ("_", true),
    ("__", true),
    ("a-b_c", true),
    ("a_b-c", true),
    ("a_b ", true),
    ("a_\u{e4}", true),
    ("\u{e4}_a", true),
    ("a_b\0", true),
    ("a_@", true),
    ("`_b", true),
    ("a:_b", true),
];

pub fn plant_621(random: &mut Random, draft: &mut Draft) -> bool {
    let Some(row) = any_row(random, draft.extensions.len()) else {
        return false;
    };
    let (name, shows) = random.pick(&NAMES);
    draft.extensions[row].extension_name = draft.text(name);
    shows
}

pub fn plant_622(random: &mut Random, draft: &mut Draft) -> bool {
    let (name, column) = (Some("moor"), Some("tile_data"));
    draft.extension(name, column, "a_b", SCOPES[0]);
    draft.extension(name, column, "a_b", random.pick(&SCOPES));
    let last = draft.extensions.len() - 1;
    let empty = draft.text("");
    match random.below(9) {
        0 => draft.extensions[last].column_name = NULL,
        1 => draft.extensions[last].table_name = NULL,
        2 => {
            draft.extensions[last].column_name = NULL;
            draft.extensions[last - 1].column_name = NULL;
        }
        3 => {
            draft.extensions[last].table_name = NULL;
            draft.extensions[last - 1].table_name = NULL;
        }
        4 => {
            draft.extensions[last].column_name = NULL;
            draft.extensions[last - 1].column_name = empty;
        }
        5 => draft.extensions[last].extension_name = draft.text("a_bc"),
        6 => {
            draft.extensions[last].column_name = empty;
            draft.extensions[last - 1].column_name = empty;
            return true;
        }
        7 => {
            let row = draft.extensions[last];
            draft.extensions[last].table_name = copied(draft, row.table_name);
            draft.extensions[last].column_name = copied(draft, row.column_name);
            return true;
        }
        _ => {
            draft.extensions.push(draft.extensions[last]);
            return true;
        }
    }
    false
}

pub fn plant_641(random: &mut Random, draft: &mut Draft) -> bool {
    let Some(row) = any_row(random, draft.extensions.len()) else {
        return false;
    };
    let (scope, shows) = random.pick(&[
        ("read-write", false),
        ("write-only", false),
        ("readwrite", true),
        ("write_only", true),
        ("Write-Only", true),
        ("READ-WRITE", true),
        ("read-write ", true),
        ("", true),
    ]);
    draft.extensions[row].scope = draft.text(scope);
    shows
}

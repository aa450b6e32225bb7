//! Faults in reference systems, contents and sets.

use super::{any_row, copied, ghost, remove_sets_of, tiles_contents};
use crate::generate::Random;
use crate::make::{Draft, SetRow};

pub fn plant_101(random: &mut Random, draft: &mut Draft) -> bool {
    let Some(row) = any_row(random, draft.references.len()) else {
        return false;
    };
    let mut copy = draft.references[row];
    let shows = !random.once_in(3);
    if !shows {
        let far = copy.srs_id.wrapping_add(1 << 40);
        copy.srs_id = random.pick(&[12_345, i64::MAX, far]);
    }
    let copies = if shows { 1 + random.below(2) } else { 1 };
    draft.references.extend(std::iter::repeat_n(copy, copies));
    shows
}

pub fn plant_111(random: &mut Random, draft: &mut Draft) -> bool {
    let organizations = [
        ("ePSG", false),
        ("EPSG", false),
        ("EPS", true),
        ("EPSG ", true),
        ("EPSG\0", true),
        ("", true),
        ("NONE", true),
    ];
    let definitions = [("undefined", false), ("", false)];
    well_known(random, draft, 4326, &organizations, &definitions)
}

const NOBODY: [(&str, bool); 6] =
    [("NONE", false), ("noNe", false), ("NON", true), ("NONE ", true), ("", true), ("EPSG", true)];

const UNDEFINED: [(&str, bool); 5] = [
    ("undefined", false),
    ("Undefined", true),
    ("undefined ", true),
    ("undefine", true),
    ("", true),
];

pub fn plant_112(random: &mut Random, draft: &mut Draft) -> bool {
    well_known(random, draft, -1, &NOBODY, &UNDEFINED)
}

pub fn plant_113(random: &mut Random, draft: &mut Draft) -> bool {
    well_known(random, draft, 0, &NOBODY, &UNDEFINED)
}

/// Changes the row of a well-known id, takes it away, or repeats it.
fn well_known(
    random: &mut Random,
    draft: &mut Draft,
    srs_id: i64,
    organizations: &[(&str, bool)],
    definitions: &[(&str, bool)],
) -> bool {
    let at = draft.references.iter().position(|r| r.srs_id == srs_id);
    let Some(at) = at else {
        return true;
    };
    let mut row = draft.references[at];
    let shows = match random.below(5) {
        0 => {
            draft.references.remove(at);
            return true;
        }
        1 => {
            row.coordsys_id = random.pick(&[srs_id, srs_id + 1, -1 - srs_id, i64::MIN]);
            row.coordsys_id != srs_id
        }
        2 => {
            let (text, shows) = random.pick(definitions);
            row.definition = draft.text(text);
            shows
        }
        _ => {
            let (text, shows) = random.pick(organizations);
            row.organization = draft.text(text);
            shows
        }
    };
    match random.once_in(3) {
        true => draft.references.push(row),
        false => draft.references[at] = row,
    }
    shows
}

pub fn plant_131(random: &mut Random, draft: &mut Draft) -> bool {
    let Some(row) = any_row(random, draft.contents.len()) else {
        return false;
    };
    let mut copy = draft.contents[row];
    let shows = match random.below(4) {
        0 => {
            copy.table_name = draft.text(random.pick(&["VALLEY", "vall", "hill "]));
            false
        }
        1 => {
            copy.table_name = copied(draft, copy.table_name);
            true
        }
        _ => true,
    };
    if random.once_in(2) {
        copy.data_type = draft.text(random.pick(&["features", "attributes", "tiles"]));
    }
    let copies = if shows { 1 + random.below(2) } else { 1 };
    draft.contents.extend(std::iter::repeat_n(copy, copies));
    shows
}

const MOMENTS: [(&str, bool); 16] = [
    ("2024-02-29T00:00:00.000Z", false),
    ("2023-02-29T00:00:00.000Z", true),
    ("1900-02-29T00:00:00.000Z", true),
    ("0000-02-29T00:00:00.000Z", false),
    ("0400-02-29T00:00:00.000Z", false),
    ("2100-02-28T23:59:59.999Z", false),
    ("2024-04-31T00:00:00.000Z", true),
    ("2024-12-31T23:59:59.999Z", false),
    ("2024-12-31T24:00:00.000Z", true),
    ("2024-12-31T23:60:00.000Z", true),
    ("2024-12-31T23:59:60.000Z", true),
    ("2024-00-31T23:59:59.000Z", true),
    ("2024-13-01T23:59:59.000Z", true),
    ("2024-01-00T23:59:59.000Z", true),
    ("2024-01-01T23:59:59.00Z", true),
    ("", true),
];

pub fn plant_151(random: &mut Random, draft: &mut Draft) -> bool {
    let Some(row) = any_row(random, draft.contents.len()) else {
        return false;
    };
    let (moment, shows) = random.pick(&MOMENTS);
    draft.contents[row].last_change = draft.text(moment);
    shows
}

pub fn plant_161(random: &mut Random, draft: &mut Draft) -> bool {
    let Some(row) = any_row(random, draft.contents.len()) else {
        return false;
    };
    let (srs_id, flag, shows) = random.pick(&[
        (4326, 1, false),
        (0, 1, false),
        (0, 0, false),
        (-1, 1, false),
        (1, 1, true),
        (i64::MAX, 1, true),
        (4326 + (1 << 32), 1, true),
    ]);
    draft.contents[row].srs_id = srs_id;
    draft.contents[row].flag = flag;
    shows
}

pub fn plant_162(random: &mut Random, draft: &mut Draft) -> bool {
    let Some(row) = tiles_contents(random, draft) else {
        return false;
    };
    let contents = draft.contents[row];
    let other = match contents.srs_id {
        -1 => random.pick(&[0, 4326]),
        _ => -1,
    };
    let mut set =
        SetRow { table_name: contents.table_name, srs_id: contents.srs_id, corners: [0.0; 4] };
    match random.below(6) {
        0 => draft.contents[row].srs_id = other,
        1 => (draft.contents[row].srs_id, draft.contents[row].flag) = (0, 0),
        2 => {
            set.srs_id = other;
            draft.sets.push(set);
        }
        3 => {
            draft.sets.push(set);
            return false;
        }
        4 => {
            draft.contents[row].srs_id = other;
            draft.contents[row].data_type = draft.text("features");
            return false;
        }
        _ => {
            (draft.contents[row].srs_id, draft.contents[row].flag) = (0, 0);
            remove_sets_of(draft, contents.table_name);
            return false;
        }
    }
    true
}

pub fn plant_171(random: &mut Random, draft: &mut Draft) -> bool {
    let other = draft.text(random.pick(&["attributes", "Tiles", "feature", "tiles ", ""]));
    let kept = any_row(random, draft.contents.len()).filter(|_| random.once_in(3));
    for (row, contents) in draft.contents.iter_mut().enumerate() {
        if Some(row) != kept {
            contents.data_type = other;
        }
    }
    kept.is_none()
}

pub fn plant_391(random: &mut Random, draft: &mut Draft) -> bool {
    let Some(row) = any_row(random, draft.sets.len()) else {
        return false;
    };
    let mut copy = draft.sets[row];
    match random.below(3) {
        0 => {
            draft.sets[row].table_name = copied(draft, copy.table_name);
            false
        }
        1 => {
            draft.sets[row].table_name = ghost(random, draft);
            true
        }
        _ => {
            copy.table_name = ghost(random, draft);
            draft.sets.push(copy);
            true
        }
    }
}

pub fn plant_392(random: &mut Random, draft: &mut Draft) -> bool {
    let Some(row) = any_row(random, draft.sets.len()) else {
        return false;
    };
    let mut copy = draft.sets[row];
    let shows = match random.below(4) {
        0 => {
            copy.table_name = ghost(random, draft);
            false
        }
        1 => {
            copy.table_name = copied(draft, copy.table_name);
            true
        }
        _ => true,
    };
    let copies = if shows { 1 + random.below(2) } else { 1 };
    draft.sets.extend(std::iter::repeat_n(copy, copies));
    shows
}

pub fn plant_401(random: &mut Random, draft: &mut Draft) -> bool {
    let Some(row) = tiles_contents(random, draft) else {
        return false;
    };
    let name = draft.contents[row].table_name;
    match random.below(4) {
        0 => {
            draft.contents[row].data_type = draft.text(random.pick(&["features", "Tiles"]));
            remove_sets_of(draft, name);
            return false;
        }
        1 => {
            let mut copy = draft.contents[row];
            copy.table_name = ghost(random, draft);
            draft.contents.push(copy);
        }
        _ => remove_sets_of(draft, name),
    }
    true
}

pub fn plant_411(random: &mut Random, draft: &mut Draft) -> bool {
    let Some(row) = any_row(random, draft.sets.len()) else {
        return false;
    };
    let (srs_id, shows) = random.pick(&[
        (4326, false),
        (0, false),
        (-1, false),
        (1, true),
        (i64::MAX, true),
        (1 << 32, true),
    ]);
    draft.sets[row].srs_id = srs_id;
    shows
}

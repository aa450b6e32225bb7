//! Faults in single matrix rows.

use super::{any_row, copied, ghost};
use crate::generate::Random;
use crate::make::{Draft, MatrixRow};

pub fn plant_431(random: &mut Random, draft: &mut Draft) -> bool {
    let Some(row) = any_row(random, draft.matrices.len()) else {
        return false;
    };
    if random.once_in(3) {
        let name = draft.matrices[row].table_name;
        draft.matrices[row].table_name = copied(draft, name);
        return false;
    }
    let mut copy = draft.matrices[row];
    copy.table_name = ghost(random, draft);
    draft.matrices.push(copy);
    true
}

pub fn plant_432(random: &mut Random, draft: &mut Draft) -> bool {
    let Some(row) = any_row(random, draft.matrices.len()) else {
        return false;
    };
    let mut copy = draft.matrices[row];
    match random.below(4) {
        0 => copy.zoom = copy.zoom.wrapping_add(random.pick(&[100, 1 << 32, i64::MIN])),
        1 => copy.table_name = ghost(random, draft),
        _ => {
            copy.table_name = copied(draft, copy.table_name);
            let copies = 1 + random.below(2);
            draft.matrices.extend(std::iter::repeat_n(copy, copies));
            return true;
        }
    }
    draft.matrices.push(copy);
    false
}

pub fn plant_461(random: &mut Random, draft: &mut Draft) -> bool {
    let Some(row) = any_row(random, draft.matrices.len()) else {
        return false;
    };
    let zooms = [0, 50, i64::MAX, -1, -1, -2, i64::MIN, i64::MIN + 1];
    draft.matrices[row].zoom = random.pick(&zooms);
    draft.matrices[row].zoom < 0
}

/// Gives one side of a matrix row a value at the edge of what it may be.
fn plant_side(
    random: &mut Random,
    draft: &mut Draft,
    side: fn(&mut MatrixRow) -> &mut i64,
) -> bool {
    let Some(row) = any_row(random, draft.matrices.len()) else {
        return false;
    };
    let (value, shows) =
        random.pick(&[(1, false), (i64::MAX, false), (0, true), (-1, true), (i64::MIN, true)]);
    *side(&mut draft.matrices[row]) = value;
    shows
}

pub fn plant_471(random: &mut Random, draft: &mut Draft) -> bool {
    plant_side(random, draft, |row| &mut row.matrix_width)
}

pub fn plant_481(random: &mut Random, draft: &mut Draft) -> bool {
    plant_side(random, draft, |row| &mut row.matrix_height)
}

pub fn plant_491(random: &mut Random, draft: &mut Draft) -> bool {
    plant_side(random, draft, |row| &mut row.tile_width)
}

pub fn plant_501(random: &mut Random, draft: &mut Draft) -> bool {
    plant_side(random, draft, |row| &mut row.tile_height)
}

const SIZES: [(u64, bool); 14] = [
    (0x3ff0_0000_0000_0000, false),
    (0x0000_0000_0000_0001, false),
    (0x000f_ffff_ffff_ffff, false),
    (0x0010_0000_0000_0000, false),
    (0x7fef_ffff_ffff_ffff, false),
    (0x0000_0000_0000_0000, true),
    (0x8000_0000_0000_0000, true),
    (0x8000_0000_0000_0001, true),
    (0xbff0_0000_0000_0000, true),
    (0x7ff0_0000_0000_0000, true),
    (0xfff0_0000_0000_0000, true),
    (0x7ff8_0000_0000_0000, true),
    (0x7ff0_0000_0000_0001, true),
    (0xffff_ffff_ffff_ffff, true),
];

fn plant_size(
    random: &mut Random,
    draft: &mut Draft,
    size: fn(&mut MatrixRow) -> &mut f64,
) -> bool {
    let Some(row) = any_row(random, draft.matrices.len()) else {
        return false;
    };
    let (bits, shows) = random.pick(&SIZES);
    *size(&mut draft.matrices[row]) = f64::from_bits(bits);
    shows
}

pub fn plant_511(random: &mut Random, draft: &mut Draft) -> bool {
    plant_size(random, draft, |row| &mut row.pixel_x_size)
}

pub fn plant_521(random: &mut Random, draft: &mut Draft) -> bool {
    plant_size(random, draft, |row| &mut row.pixel_y_size)
}

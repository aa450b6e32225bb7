//! Faults in tiles.

use super::{any_row, copied, ghost, is_same};
use crate::generate::Random;
use crate::make::{Draft, MatrixRow, Span, TileRow};

pub fn plant_341(random: &mut Random, draft: &mut Draft) -> bool {
    let Some(row) = any_row(random, draft.tiles.len()) else {
        return false;
    };
    let shows = !random.once_in(3);
    let name = draft.tiles[row].table_name;
    draft.tiles[row].table_name = match shows {
        true => ghost(random, draft),
        false => copied(draft, name),
    };
    shows
}

/// Lowest and highest zoom of a name's matrix rows.
fn zooms(draft: &Draft, name: Span) -> Option<(i64, i64)> {
    let named = draft.matrices.iter();
    let named = named.filter(|matrix| is_same(draft, matrix.table_name, name));
    let zooms: Vec<i64> = named.map(|matrix| matrix.zoom).collect();
    Some((*zooms.iter().min()?, *zooms.iter().max()?))
}

/// The first matrix row of a tile's name and zoom.
fn matrix_of(draft: &Draft, tile: TileRow) -> Option<usize> {
    draft.matrices.iter().position(|matrix| {
        matrix.zoom == tile.zoom && is_same(draft, matrix.table_name, tile.table_name)
    })
}

pub fn plant_441(random: &mut Random, draft: &mut Draft) -> bool {
    let Some(row) = any_row(random, draft.tiles.len()) else {
        return false;
    };
    let tile = draft.tiles[row];
    match random.below(4) {
        0 => {
            draft.tiles[row].table_name = copied(draft, tile.table_name);
            return false;
        }
        1 => {
            let zooms = [-1, 99, i64::MIN, i64::MAX, tile.zoom.wrapping_add(1 << 32)];
            draft.tiles[row].zoom = random.pick(&zooms);
        }
        2 => draft.tiles[row].table_name = ghost(random, draft),
        _ => {
            if let Some(matrix) = matrix_of(draft, tile) {
                draft.matrices.remove(matrix);
            }
        }
    }
    true
}

pub fn plant_541(random: &mut Random, draft: &mut Draft) -> bool {
    let Some(row) = any_row(random, draft.tiles.len()) else {
        return false;
    };
    let mut copy = draft.tiles[row];
    let shows = random.once_in(2);
    if shows {
        if random.once_in(2) {
            copy.table_name = copied(draft, copy.table_name);
        }
    } else {
        match random.below(4) {
            0 => copy.zoom = copy.zoom.wrapping_add(random.pick(&[50, 1 << 32])),
            1 => copy.column = copy.column.wrapping_add(random.pick(&[1_000, 1 << 32])),
            2 => copy.row = copy.row.wrapping_sub(random.pick(&[1_000, 1 << 32])),
            _ => copy.table_name = ghost(random, draft),
        }
    }
    let copies = if shows { 1 + random.below(3) } else { 1 };
    for _ in 0..copies {
        let at = random.below(draft.tiles.len() + 1);
        draft.tiles.insert(at, copy);
    }
    shows
}

pub fn plant_551(random: &mut Random, draft: &mut Draft) -> bool {
    let Some(row) = any_row(random, draft.tiles.len()) else {
        return false;
    };
    let Some((low, high)) = zooms(draft, draft.tiles[row].table_name) else {
        return false;
    };
    if random.once_in(6) {
        draft.tiles[row].table_name = ghost(random, draft);
        draft.tiles[row].zoom = 99;
        return false;
    }
    let (zoom, shows) = random.pick(&[
        (low, false),
        (high, false),
        (low.wrapping_sub(1), true),
        (high.wrapping_add(1), true),
        (i64::MIN, true),
        (i64::MAX, true),
    ]);
    draft.tiles[row].zoom = zoom;
    shows
}

pub fn plant_561(random: &mut Random, draft: &mut Draft) -> bool {
    let column = |tile: &mut TileRow, at| tile.column = at;
    plant_outside(random, draft, column, |matrix| &mut matrix.matrix_width)
}

pub fn plant_571(random: &mut Random, draft: &mut Draft) -> bool {
    let row = |tile: &mut TileRow, at| tile.row = at;
    plant_outside(random, draft, row, |matrix| &mut matrix.matrix_height)
}

/// An address at the edge of its matrix, which may be there twice.
fn plant_outside(
    random: &mut Random,
    draft: &mut Draft,
    set_address: fn(&mut TileRow, i64),
    side_of: fn(&mut MatrixRow) -> &mut i64,
) -> bool {
    let Some(row) = any_row(random, draft.tiles.len()) else {
        return false;
    };
    let Some(matrix) = matrix_of(draft, draft.tiles[row]) else {
        return false;
    };
    let mut wider = draft.matrices[matrix];
    let side = *side_of(&mut wider);
    *side_of(&mut wider) = side.saturating_add(1);
    let (address, shows) = match random.below(6) {
        0 => {
            draft.matrices.push(wider);
            (side, true)
        }
        1 => {
            draft.matrices.insert(0, wider);
            (side, false)
        }
        2 => {
            *side_of(&mut draft.matrices[matrix]) = random.pick(&[0, -3, i64::MIN]);
            (random.pick(&[0, -1, -4]), true)
        }
        _ => random.pick(&[
            (0, false),
            (side.wrapping_sub(1), false),
            (side, true),
            (-1, true),
            (i64::MIN, true),
            (i64::MAX, true),
        ]),
    };
    set_address(&mut draft.tiles[row], address);
    shows
}

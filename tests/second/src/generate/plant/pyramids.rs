//! Faults between matrix rows, and between them and the sets: 351, 451, 452
//! and 531.

use super::{any_row, ghost, is_same};
use crate::generate::spans::{edge_size, span_edge, stepped, SpanEdge};
use crate::generate::Random;
use crate::make::{Draft, MatrixRow, SetRow, TileRow, NULL};

/// Steps on both sides of near, and whether they are too many.
const STEPS: [(i64, bool); 6] =
    [(4, false), (-4, false), (5, true), (-5, true), (5, true), (-6, true)];

/// The pixel size along an axis: 0 for x, 1 for y.
fn pixel_of(axis: usize, matrix: &mut MatrixRow) -> &mut f64 {
    match axis {
        0 => &mut matrix.pixel_x_size,
        _ => &mut matrix.pixel_y_size,
    }
}

/// Two rows of one name, the second one zoom level above the first.
fn two_levels(random: &mut Random, draft: &Draft) -> Option<(usize, usize)> {
    let rows = &draft.matrices;
    let is_above = |lower: &MatrixRow, upper: &MatrixRow| {
        lower.zoom.checked_add(1) == Some(upper.zoom)
            && is_same(draft, lower.table_name, upper.table_name)
    };
    let pairs: Vec<(usize, usize)> = (0..rows.len())
        .flat_map(|lower| (0..rows.len()).map(move |upper| (lower, upper)))
        .filter(|&(lower, upper)| is_above(&rows[lower], &rows[upper]))
        .collect();
    any_row(random, pairs.len()).map(|at| pairs[at])
}

/// A doubling that is just near or just not; then perhaps an exemption.
pub fn plant_351(random: &mut Random, draft: &mut Draft) -> bool {
    let Some((lower, upper)) = two_levels(random, draft) else {
        return false;
    };
    let axis = random.below(2);
    if random.once_in(4) {
        let strange = [0.0, -1.0, f64::NAN, f64::INFINITY, f64::MAX];
        *pixel_of(axis, &mut draft.matrices[upper]) = random.pick(&strange);
        return true;
    }
    let (steps, shows) = random.pick(&STEPS);
    let size = pixel_of(axis, &mut draft.matrices[lower]);
    *size = stepped(*size, steps);
    let name = draft.matrices[upper].table_name;
    let is_exempt = match random.below(6) {
        0 => exempt(random, draft, upper),
        1 => {
            let tiles = std::mem::take(&mut draft.tiles);
            let is_other = |tile: &TileRow| !is_same(draft, tile.table_name, name);
            draft.tiles = tiles.into_iter().filter(is_other).collect();
            true
        }
        _ => false,
    };
    shows && !is_exempt
}

/// An extension row that takes a name out of 351, or only nearly.
fn exempt(random: &mut Random, draft: &mut Draft, matrix: usize) -> bool {
    let name = draft.matrices[matrix].table_name;
    draft.extension(Some("paths"), None, "gpkg_zoom_other", "read-write");
    let last = draft.extensions.len() - 1;
    let ghost = ghost(random, draft);
    draft.extensions[last].column_name = random.pick(&[NULL, ghost]);
    draft.extensions[last].table_name = random.pick(&[name, name, NULL, ghost]);
    let is_named = draft.extensions[last].table_name == name;
    if is_named && random.once_in(3) {
        draft.extensions[last].extension_name = draft.text("gpkg_zoom_Other");
        return false;
    }
    is_named
}

pub fn plant_451(random: &mut Random, draft: &mut Draft) -> bool {
    plant_span(random, draft, 0)
}

pub fn plant_452(random: &mut Random, draft: &mut Draft) -> bool {
    plant_span(random, draft, 1)
}

fn plant_span(random: &mut Random, draft: &mut Draft, axis: usize) -> bool {
    let Some(row) = any_row(random, draft.matrices.len()) else {
        return false;
    };
    match random.below(4) {
        0 => plant_strange_span(random, draft, axis),
        1 => {
            let tiles = random.pick(&[0, -1, i64::MIN, i64::MAX, 1 << 62]);
            set_tiles_and_pixels(&mut draft.matrices[row], axis, tiles, 4);
            true
        }
        2 => plant_second_set(random, draft, row, axis),
        _ => plant_size_at_edge(random, draft, row, axis),
    }
}

/// A pixel size at the edge of fitting the first set row. Rows that other faults
/// were planted in may have none.
fn plant_size_at_edge(random: &mut Random, draft: &mut Draft, row: usize, axis: usize) -> bool {
    let Some(set) = first_set(draft, row) else {
        return false;
    };
    let (low, high) = (set.corners[axis], set.corners[axis + 2]);
    let matrix = &mut draft.matrices[row];
    let product = match axis {
        0 => matrix.matrix_width.wrapping_mul(matrix.tile_width),
        _ => matrix.matrix_height.wrapping_mul(matrix.tile_height),
    };
    let magnitude = low.abs().max(high.abs());
    let is_ordinary = (1e-9..1e9).contains(&magnitude) && (high - low) / magnitude > 1e-12;
    if !is_ordinary || !(1..1 << 40).contains(&product) {
        return false;
    }
    let (size, shows) = edge_size(random, low, high, product as u64);
    *pixel_of(axis, matrix) = size;
    shows
}

fn first_set(draft: &Draft, row: usize) -> Option<SetRow> {
    let name = draft.matrices[row].table_name;
    draft.sets.iter().find(|set| is_same(draft, set.table_name, name)).copied()
}

fn set_tiles_and_pixels(matrix: &mut MatrixRow, axis: usize, tiles: i64, pixels: i64) {
    match axis {
        0 => (matrix.matrix_width, matrix.tile_width) = (tiles, pixels),
        _ => (matrix.matrix_height, matrix.tile_height) = (tiles, pixels),
    }
}

/// A second set row that does not fit changes nothing; a first one does.
fn plant_second_set(random: &mut Random, draft: &mut Draft, row: usize, axis: usize) -> bool {
    let Some(mut misfit) = first_set(draft, row) else {
        return false;
    };
    misfit.corners[axis + 2] = misfit.corners[axis];
    let is_first = random.once_in(2);
    let at = if is_first { 0 } else { draft.sets.len() };
    draft.sets.insert(at, misfit);
    is_first
}

/// A pyramid of another name, which fits in the one axis and in the other is
/// at the edge of fitting.
fn plant_strange_span(random: &mut Random, draft: &mut Draft, axis: usize) -> bool {
    let SpanEdge { axis: edge, shows } = span_edge(random);
    draft.set("edge", 0, [0.0, 0.0, 1024.0, 1024.0]);
    draft.matrix("edge", 0, 4, 1.0);
    if let Some(set) = draft.sets.last_mut() {
        (set.corners[axis], set.corners[axis + 2]) = (edge.low, edge.high);
    }
    if let Some(matrix) = draft.matrices.last_mut() {
        set_tiles_and_pixels(matrix, axis, edge.tiles, edge.pixels);
        *pixel_of(axis, matrix) = edge.pixel_size;
    }
    shows
}

/// A size of the highest level against the one below it.
pub fn plant_531(random: &mut Random, draft: &mut Draft) -> bool {
    let Some((_, upper)) = two_levels(random, draft) else {
        return false;
    };
    let name = draft.matrices[upper].table_name;
    let is_named = |&row: &usize| is_same(draft, draft.matrices[row].table_name, name);
    let mut rows: Vec<usize> = (0..draft.matrices.len()).filter(is_named).collect();
    rows.sort_by_key(|&row| draft.matrices[row].zoom);
    let (below, top) = (rows[rows.len() - 2], rows[rows.len() - 1]);
    let axis = random.below(2);
    let size = *pixel_of(axis, &mut draft.matrices[below]);
    let (new_size, shows) = random.pick(&[
        (size, true),
        (stepped(size, -1), false),
        (stepped(size, 1), true),
        (f64::NAN, true),
        (f64::INFINITY, true),
        (0.0, false),
        (-1.0, false),
        (f64::NEG_INFINITY, false),
    ]);
    *pixel_of(axis, &mut draft.matrices[top]) = new_size;
    if random.once_in(6) {
        *pixel_of(axis, &mut draft.matrices[below]) = 0.0;
        *pixel_of(axis, &mut draft.matrices[top]) = -0.0;
        return true;
    }
    shows
}

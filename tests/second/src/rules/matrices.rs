//! Codes of the matrices: 351, 431, 432, 451, 452, 461 to 531.

use super::doubles::{is_near, is_size, Axis};
use super::judge::Judge;
use super::{over_rows, when, Findings};
use crate::listing::{Extent, Matrix};

/// The findings of a code that looks at one matrix row alone.
fn by_itself<'j>(judge: &'j Judge<'_>, code: u32, is_broken: fn(&Matrix) -> bool) -> Findings<'j> {
    over_rows(code, judge.matrices.len(), move |row| when(is_broken(&judge.matrices[row])))
}

/// 351: a row of the name one zoom level lower has a pixel size not near twice
/// this one's. Judged where the name has a tile row and no exemption.
pub fn rule_351<'j>(judge: &'j Judge<'_>) -> Findings<'j> {
    over_rows(351, judge.matrices.len(), |row| {
        let name = judge.matrix_names[row];
        if !judge.has_tile(name) || judge.facts_of(name)?.is_zoom_other {
            return None;
        }
        let upper = &judge.matrices[row];
        // The least zoom has no level below it.
        let rows_below = judge.matrices_at(name, upper.zoom.checked_sub(1)?);
        let is_twice = |&&below: &&u32| is_doubled(&judge.matrices[below as usize], upper);
        rows_below.iter().find(|below| !is_twice(below)).copied()
    })
}

fn is_doubled(lower: &Matrix, upper: &Matrix) -> bool {
    is_near(lower.pixel_x_size, 2.0 * upper.pixel_x_size)
        && is_near(lower.pixel_y_size, 2.0 * upper.pixel_y_size)
}

/// 431: no tiles name.
pub fn rule_431<'j>(judge: &'j Judge<'_>) -> Findings<'j> {
    over_rows(431, judge.matrices.len(), |row| when(!judge.is_tiles_name(judge.matrix_names[row])))
}

/// 432: an earlier row has its name and zoom.
pub fn rule_432<'j>(judge: &'j Judge<'_>) -> Findings<'j> {
    over_rows(432, judge.matrices.len(), |row| {
        let equals = judge.matrices_at(judge.matrix_names[row], judge.matrices[row].zoom);
        equals.first().copied().filter(|&first| first < row as u32)
    })
}

/// 451: the first set row's extent in x is not spanned.
pub fn rule_451<'j>(judge: &'j Judge<'_>) -> Findings<'j> {
    by_axis(judge, 451, x_axis)
}

/// 452: likewise for y.
pub fn rule_452<'j>(judge: &'j Judge<'_>) -> Findings<'j> {
    by_axis(judge, 452, y_axis)
}

fn x_axis(matrix: &Matrix, extent: Extent) -> Axis {
    Axis {
        low: extent.min_x,
        high: extent.max_x,
        tiles: matrix.matrix_width,
        pixels: matrix.tile_width,
        pixel_size: matrix.pixel_x_size,
    }
}

fn y_axis(matrix: &Matrix, extent: Extent) -> Axis {
    Axis {
        low: extent.min_y,
        high: extent.max_y,
        tiles: matrix.matrix_height,
        pixels: matrix.tile_height,
        pixel_size: matrix.pixel_y_size,
    }
}

/// The findings of a code that asks whether an axis is spanned.
fn by_axis<'j>(judge: &'j Judge<'_>, code: u32, axis: fn(&Matrix, Extent) -> Axis) -> Findings<'j> {
    over_rows(code, judge.matrices.len(), move |row| {
        when(!axis(&judge.matrices[row], first_extent(judge, row)?).is_spanned())
    })
}

/// What a matrix row is held against: the extent of the first set row of its
/// name, where there is one.
fn first_extent(judge: &Judge<'_>, row: usize) -> Option<Extent> {
    let set = *judge.facts_of(judge.matrix_names[row])?.sets.first()?;
    Some(judge.sets[set].extent)
}

/// What 451 and 452 look at, in each matrix row that they judge.
pub fn axes<'j>(judge: &'j Judge<'_>) -> impl Iterator<Item = [Axis; 2]> + 'j {
    let rows = judge.matrices.iter().enumerate();
    rows.filter_map(|(row, matrix)| {
        let extent = first_extent(judge, row)?;
        Some([x_axis(matrix, extent), y_axis(matrix, extent)])
    })
}

/// 461: zoom_level below 0.
pub fn rule_461<'j>(judge: &'j Judge<'_>) -> Findings<'j> {
    by_itself(judge, 461, |matrix| matrix.zoom < 0)
}

/// 471: matrix_width below 1.
pub fn rule_471<'j>(judge: &'j Judge<'_>) -> Findings<'j> {
    by_itself(judge, 471, |matrix| matrix.matrix_width < 1)
}

/// 481: matrix_height below 1.
pub fn rule_481<'j>(judge: &'j Judge<'_>) -> Findings<'j> {
    by_itself(judge, 481, |matrix| matrix.matrix_height < 1)
}

/// 491: tile_width below 1.
pub fn rule_491<'j>(judge: &'j Judge<'_>) -> Findings<'j> {
    by_itself(judge, 491, |matrix| matrix.tile_width < 1)
}

/// 501: tile_height below 1.
pub fn rule_501<'j>(judge: &'j Judge<'_>) -> Findings<'j> {
    by_itself(judge, 501, |matrix| matrix.tile_height < 1)
}

/// 511: pixel x size not finite and above 0.
pub fn rule_511<'j>(judge: &'j Judge<'_>) -> Findings<'j> {
    by_itself(judge, 511, |matrix| !is_size(matrix.pixel_x_size))
}

/// 521: pixel y size not finite and above 0.
pub fn rule_521<'j>(judge: &'j Judge<'_>) -> Findings<'j> {
    by_itself(judge, 521, |matrix| !is_size(matrix.pixel_y_size))
}

/// 531: a row of its name with a lower zoom has a pixel size that this row's
/// is not strictly below.
pub fn rule_531<'j>(judge: &'j Judge<'_>) -> Findings<'j> {
    over_rows(531, judge.matrices.len(), |row| {
        let matrix = &judge.matrices[row];
        let others = &judge.facts_of(judge.matrix_names[row])?.matrices;
        let breaks = |&&other: &&usize| {
            let other = &judge.matrices[other];
            other.zoom < matrix.zoom && !is_finer(matrix, other)
        };
        others.iter().find(breaks).map(|&other| other as u32)
    })
}

/// Strictly below in both sizes. Asked this way round, a NaN is never finer.
fn is_finer(matrix: &Matrix, other: &Matrix) -> bool {
    matrix.pixel_x_size < other.pixel_x_size && matrix.pixel_y_size < other.pixel_y_size
}

//! Listings in which every row is at the edge of some rule: many pyramids of
//! a few rows each, so that rare meetings come often.

use super::plant::{EXTENSION_NAMES, SCOPES};
use super::spans::{span_edge, stepped, wild_axis};
use super::Random;
use crate::make::{Draft, MatrixRow, NULL};
use crate::rules::Axis;

const MOMENT: &str = "2024-02-29T00:00:00.000Z";

/// One set row and one matrix row a name, each axis at or around the edge of
/// fitting.
pub fn spans(random: &mut Random) -> Draft {
    let mut draft = Draft::default();
    for number in 0..4 + random.below(30) {
        let axes = [0; 2].map(|_| match random.once_in(2) {
            true => wild_axis(random),
            false => span_edge(random).axis,
        });
        add_span(&mut draft, &format!("s{number}"), axes);
    }
    draft
}

/// One set row and one matrix row with these axes.
pub fn add_span(draft: &mut Draft, name: &str, [x, y]: [Axis; 2]) {
    draft.set(name, 0, [x.low, y.low, x.high, y.high]);
    let table_name = draft.text(name);
    draft.matrices.push(MatrixRow {
        table_name,
        zoom: 0,
        matrix_width: x.tiles,
        matrix_height: y.tiles,
        tile_width: x.pixels,
        tile_height: y.pixels,
        pixel_x_size: x.pixel_size,
        pixel_y_size: y.pixel_size,
    });
}

/// Some levels a name, at the least and the greatest zooms too, each size
/// near or just not near the double of the one above; tiles around them.
pub fn levels(random: &mut Random) -> Draft {
    let mut draft = Draft::default();
    let mut draft_names = Vec::new();
    for number in 0..2 + random.below(12) {
        let name = if number == 0 { String::new() } else { format!("l{number}") };
        if !random.once_in(4) {
            draft.content(&name, "tiles", MOMENT, None);
        }
        add_levels(random, &mut draft, &name);
        draft_names.push(name);
    }
    for name in &draft_names {
        if random.once_in(4) {
            let extension = random.pick(&["gpkg_zoom_other", "gpkg_zoom_other", "gpkg_zoom_oth"]);
            draft.extension(Some(name), None, extension, SCOPES[0]);
        }
    }
    if random.once_in(3) {
        draft.extension(None, None, "gpkg_zoom_other", SCOPES[0]);
    }
    random.shuffle(&mut draft.matrices);
    draft
}

fn add_levels(random: &mut Random, draft: &mut Draft, name: &str) {
    let first_zoom = random.pick(&[i64::MIN, -2, -1, 0, 0, 0, 1, i64::MAX - 1]);
    let bases = [1.0, 3.0, f64::MAX, f64::MIN_POSITIVE, f64::from_bits(9), 0.0, f64::NAN];
    let base = [0; 2].map(|_| random.pick(&bases));
    for level in 0..1 + random.below(4) {
        let size = base.map(|size| {
            let steps = random.pick(&[0, 0, 0, 0, 4, -4, 5, -5]);
            let halved = size / (1_u64 << level) as f64;
            if halved > 0.0 {
                stepped(halved, steps)
            } else {
                halved
            }
        });
        let mut zoom = first_zoom.wrapping_add(level as i64);
        if random.once_in(8) {
            zoom = random.pick(&[i64::MIN, i64::MAX, zoom, 7]);
        }
        let sides = [0; 2].map(|_| random.pick(&[1, 2, 4, 0]));
        let row = MatrixRow {
            table_name: draft.text(name),
            zoom,
            matrix_width: sides[0],
            matrix_height: sides[1],
            tile_width: 256,
            tile_height: 256,
            pixel_x_size: size[0],
            pixel_y_size: size[1],
        };
        draft.matrices.push(row);
        if random.once_in(3) {
            let at = zoom.wrapping_add(random.pick(&[0, 0, 1, -1]));
            draft.tile(name, at, random.from_to(-1, 4), random.from_to(-1, 4));
        }
    }
}

/// Extension rows whose names and scopes are at the edge, many of them alike.
pub fn extensions(random: &mut Random) -> Draft {
    let mut draft = Draft::default();
    let few = [0; 3].map(|_| random.pick(&EXTENSION_NAMES).0);
    for _ in 0..1 + random.below(40) {
        let any = random.pick(&EXTENSION_NAMES).0;
        let name = if random.once_in(2) { any } else { random.pick(&few) };
        let scope = random.pick(&["read-write", "write-only", "Read-Write", "WRITE-ONLY", ""]);
        let texts = [None, Some(""), Some("a"), Some("a"), Some("b")];
        let (table, column) = (random.pick(&texts), random.pick(&texts));
        draft.extension(table, column, name, scope);
        if let Some(row) = draft.extensions.last_mut() {
            // An empty text may start anywhere inside the names.
            if row.column_name != NULL && row.column_name.length == 0 {
                row.column_name.start = random.below(draft.names.len() + 1) as u32;
            }
        }
    }
    draft
}

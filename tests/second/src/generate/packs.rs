//! Good packs: every rule holds, by the way they are made.

use std::collections::HashSet;

use super::spans::last_size;
use super::Random;
use crate::make::{Draft, MatrixRow, SetRow, Span, TileRow};

const LAYERS: [&str; 8] =
    ["valley", "hill", "Hill", "lake_2", "", "moor tiles", "vall\u{e9}e", "\u{5c71}\u{1f404}"];

const MOMENTS: [&str; 5] = [
    "2024-02-29T00:00:00.000Z",
    "0000-02-29T23:59:59.999Z",
    "2000-02-29T00:00:00.000Z",
    "1999-12-31T23:59:59.999Z",
    "9999-06-30T12:30:45.678Z",
];

/// A pack without findings: one to four pyramids, each with two to four levels
/// and at least one tile, a contents row of features, and some extensions.
pub fn good(random: &mut Random) -> Draft {
    let mut draft = Draft::default();
    add_references(random, &mut draft);
    let mut layers = LAYERS;
    random.shuffle(&mut layers);
    let count = 1 + random.below(4);
    for name in &layers[..count] {
        add_layer(random, &mut draft, name);
    }
    let features_srs = random.pick(&[None, Some(0), Some(-1), Some(4326)]);
    let moment = random.pick(&MOMENTS);
    draft.content("paths", "features", moment, features_srs);
    add_extensions(random, &mut draft, &layers[..count]);
    random.shuffle(&mut draft.contents);
    random.shuffle(&mut draft.sets);
    random.shuffle(&mut draft.matrices);
    random.shuffle(&mut draft.tiles);
    draft
}

fn add_references(random: &mut Random, draft: &mut Draft) {
    let epsg = random.pick(&["EPSG", "epsg", "Epsg"]);
    let none = random.pick(&["NONE", "none", "nONE"]);
    draft.reference(4326, epsg, 4326, "GEOGCS[\"WGS 84\"]");
    draft.reference(-1, none, -1, "undefined");
    draft.reference(0, none, 0, "undefined");
    if random.once_in(2) {
        draft.reference(3857, "EPSG", 3857, "PROJCS[\"WGS 84 / Pseudo-Mercator\"]");
    }
    if random.once_in(4) {
        draft.reference(i64::MIN, "", 7, "");
    }
    random.shuffle(&mut draft.references);
}

/// The name, at the place where it already is or at a place of its own.
pub fn somewhere(random: &mut Random, draft: &mut Draft, name: &[u8]) -> Span {
    if random.once_in(3) {
        draft.text_apart(name)
    } else {
        draft.text(name)
    }
}

/// One axis of a layer: its corners, and the pixel size of its first level.
struct LayerAxis {
    low: f64,
    high: f64,
    pixel: f64,
}

/// Few bits each, so that every product and difference is exact.
fn near_axis(random: &mut Random, product: i64) -> LayerAxis {
    let pixel = random.from_to(1, 999) as f64 * random.pick(&[1.0, 0.125, 64.0]);
    let extent = product as f64 * pixel;
    let low = extent * random.pick(&[0.0, -0.5, 1.0, -1.0]);
    LayerAxis { low, high: low + extent, pixel }
}

/// A farm's: metres in tenths, fifths or thirds on a UTM grid, or degrees in
/// arc-seconds. A corner is off by half a gap at most, and the product, which is
/// below half the corner, by one: so extent and product are two gaps apart at
/// most. Half of the time the size is moved to the last that fits.
fn far_axis(random: &mut Random, product: i64) -> LayerAxis {
    let northing = (4_000_000, 9_990_000);
    let easting = (166_000, 834_000);
    let (parts, (least, most)) = random.pick(&[
        (10, northing),
        (10, easting),
        (5, northing),
        (3, easting),
        (3_600, (4, 84)),
        (3_600, (4, 178)),
    ]);
    let in_parts = |count: i64| count as f64 / parts as f64;
    let start = random.from_to(least * parts, most * parts);
    let pixel = random.pick(&[1, 2, 4]);
    let corners = (in_parts(start), in_parts(start + product * pixel));
    let is_mirrored = random.once_in(2);
    let (low, high) = if is_mirrored { (-corners.1, -corners.0) } else { corners };
    let pixel = match random.below(4) {
        0 => last_size(low, high, product as u64, true),
        1 => last_size(low, high, product as u64, false),
        _ => in_parts(pixel),
    };
    LayerAxis { low, high, pixel }
}

fn add_layer(random: &mut Random, draft: &mut Draft, name: &str) {
    let srs_id = random.pick(&[4326, -1, 0]);
    let moment = random.pick(&MOMENTS);
    draft.content(name, "tiles", moment, Some(srs_id));
    let tile_size = [0; 2].map(|_| random.pick(&[1, 128, 256, 300, 512]));
    let sides = [0; 2].map(|_| random.from_to(1, 3));
    let is_far = random.once_in(2);
    let [x, y] = [0, 1].map(|axis| {
        let product = sides[axis] * tile_size[axis];
        if is_far {
            far_axis(random, product)
        } else {
            near_axis(random, product)
        }
    });
    let set = SetRow {
        table_name: somewhere(random, draft, name.as_bytes()),
        srs_id,
        corners: [x.low, y.low, x.high, y.high],
    };
    draft.sets.push(set);
    let first_zoom = random.from_to(0, 3);
    for level in 0..random.from_to(2, 4) {
        let scale = (1_i64 << level) as f64;
        let matrix = MatrixRow {
            table_name: somewhere(random, draft, name.as_bytes()),
            zoom: first_zoom + level,
            matrix_width: sides[0] << level,
            matrix_height: sides[1] << level,
            tile_width: tile_size[0],
            tile_height: tile_size[1],
            pixel_x_size: x.pixel / scale,
            pixel_y_size: y.pixel / scale,
        };
        draft.matrices.push(matrix);
        add_tiles(random, draft, name, &matrix);
    }
}

/// Some different addresses of a level; the first is always there.
fn add_tiles(random: &mut Random, draft: &mut Draft, name: &str, matrix: &MatrixRow) {
    let mut taken = HashSet::new();
    for number in 0..1 + random.below(8) {
        let column = random.from_to(0, matrix.matrix_width - 1);
        let row = random.from_to(0, matrix.matrix_height - 1);
        let (column, row) = if number == 0 { (0, 0) } else { (column, row) };
        if taken.insert((column, row)) {
            let tile = TileRow {
                table_name: somewhere(random, draft, name.as_bytes()),
                zoom: matrix.zoom,
                column,
                row,
            };
            draft.tiles.push(tile);
        }
    }
}

fn add_extensions(random: &mut Random, draft: &mut Draft, layers: &[&str]) {
    let scopes = ["read-write", "write-only"];
    draft.extension(Some("paths"), Some("geom"), "gpkg_rtree_index", scopes[0]);
    for name in layers {
        let column = random.pick(&[None, Some("tile_data"), Some("")]);
        let extension = random.pick(&["gpkg_webp", "gpkg_zoom_more", "Z_9__"]);
        draft.extension(Some(name), column, extension, random.pick(&scopes));
    }
    if random.once_in(2) {
        draft.extension(None, None, "author_x", random.pick(&scopes));
        draft.extension(None, None, "author_x", random.pick(&scopes));
    }
    random.shuffle(&mut draft.extensions);
}

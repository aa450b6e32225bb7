//! The packs that the vectors start from.

use crate::make::Draft;

/// A moment that 151 lets pass.
pub const MOMENT: &str = "2024-02-29T00:00:00.000Z";

/// Octets from their hex digits; whatever else stands between is left out.
pub fn octets_of(hex: &str) -> Vec<u8> {
    let digits: Vec<u8> = hex.bytes().filter(u8::is_ascii_hexdigit).collect();
    let value = |digit: u8| (digit as char).to_digit(16).unwrap_or(0) as u8;
    let pairs = digits.chunks(2);
    pairs.map(|pair| value(pair[0]) * 16 + value(pair[1])).collect()
}

/// The header alone, in octets: version 1, length 64, counts 0, offsets 64.
pub fn header_alone() -> Vec<u8> {
    let mut octets = vec![1, 0, 0, 0, 64, 0, 0, 0];
    for _ in 0..7 {
        octets.extend([0, 0, 0, 0, 64, 0, 0, 0]);
    }
    octets
}

/// The three reference rows that every pack has: 4326, -1 and 0.
pub fn reference_rows() -> Draft {
    let mut draft = Draft::default();
    draft.reference(4326, "EPSG", 4326, "GEOGCS[\"WGS 84\"]");
    draft.reference(-1, "NONE", -1, "undefined");
    draft.reference(0, "NONE", 0, "undefined");
    draft
}

/// A pack without findings: one pyramid "valley" over 0 to 1024, with levels
/// 0, 1 and 2 (1, 2 and 4 tiles a side; pixels 4, 2 and 1) and three tiles.
pub fn valley() -> Draft {
    let mut draft = reference_rows();
    draft.content("valley", "tiles", MOMENT, Some(4326));
    draft.set("valley", 4326, [0.0, 0.0, 1024.0, 1024.0]);
    draft.matrix("valley", 0, 1, 4.0);
    draft.matrix("valley", 1, 2, 2.0);
    draft.matrix("valley", 2, 4, 1.0);
    draft.tile("valley", 0, 0, 0);
    draft.tile("valley", 1, 1, 0);
    draft.tile("valley", 2, 3, 3);
    draft.extension(Some("valley"), Some("tile_data"), "gpkg_webp", "read-write");
    draft
}

/// The valley with one level: zoom 0, 4 by 4 tiles of 256 pixels of 1.0, and
/// no tiles. Good as it stands.
pub fn one_level() -> Draft {
    let mut draft = valley();
    draft.matrices.clear();
    draft.tiles.clear();
    draft.matrix("valley", 0, 4, 1.0);
    draft
}

/// A pack "valley" without a set row (so 401 on contents row 0, and no 451 or
/// 452), with one matrix row of 1 by 1 tiles for each zoom and pair of pixel
/// sizes. With a tile row, or without.
pub fn levels(rows: &[(i64, f64, f64)], with_tile: bool) -> Draft {
    let mut draft = valley();
    draft.sets.clear();
    draft.matrices.clear();
    draft.tiles.clear();
    for &(zoom, pixel_x_size, pixel_y_size) in rows {
        draft.matrix("valley", zoom, 1, pixel_x_size);
        if let Some(row) = draft.matrices.last_mut() {
            row.pixel_y_size = pixel_y_size;
        }
    }
    if with_tile {
        draft.tile("valley", rows[0].0, 0, 0);
    }
    draft
}

/// The double so many steps above (or below) another, both positive.
pub fn steps(from: f64, count: i64) -> f64 {
    f64::from_bits(from.to_bits().wrapping_add_signed(count))
}

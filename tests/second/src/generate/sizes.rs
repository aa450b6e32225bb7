//! Listings of some size: around the desk program's limits, and some thousand
//! tiles.

use super::{packs, Random};
use crate::desk::{GREATEST_INPUT, ROOM};
use crate::make::{Draft, TileRow};

/// Around as many findings as the desk program has room for. A pack of tiles
/// alone has 111, 112, 113, 171, and 341 and 441 on each tile.
pub fn room_for_findings(random: &mut Random) -> Vec<u8> {
    let wanted = ROOM + random.below(7) - 3 + random.pick(&[0, 0, 0, 500, 2_000]);
    let mut draft = Draft::default();
    let without_tiles = 4 - wanted % 2;
    if without_tiles == 3 {
        draft.reference(0, "NONE", 0, "undefined");
    }
    for column in 0..(wanted - without_tiles) / 2 {
        draft.tile("a", 0, column as i64, 0);
    }
    draft.listing()
}

/// Just inside and just outside of what the desk program reads.
pub fn longest_for_the_desk(random: &mut Random) -> Vec<u8> {
    let mut draft = packs::good(random);
    let most = GREATEST_INPUT + random.pick(&[0, 0, 1, 2]) - random.pick(&[0, 0, 1]);
    if random.once_in(2) {
        // Filled with tiles first, each of which is there many times.
        let tiles = draft.tiles.clone();
        while draft.size() + 32 <= most {
            draft.tiles.push(random.pick(&tiles));
        }
    }
    let filling = most - draft.size();
    draft.names.extend(std::iter::repeat_n(b'x', filling));
    draft.listing()
}

/// Some thousand tiles on top of a good pack, some of them doubled.
pub fn mid_size(random: &mut Random) -> Vec<u8> {
    let mut draft = packs::good(random);
    let names: Vec<_> = draft.contents.iter().map(|row| row.table_name).collect();
    let count = 1_000 + random.below(3_000);
    let side = 1 << random.below(10);
    for _ in 0..count {
        let tile = TileRow {
            table_name: random.pick(&names),
            zoom: random.from_to(0, 7),
            column: random.from_to(-1, side),
            row: random.from_to(-1, side),
        };
        draft.tiles.push(tile);
    }
    draft.listing()
}

/// Some thousand tiles and some hundred matrices over few names.
pub fn mid_size_collisions(random: &mut Random) -> Vec<u8> {
    let mut draft = packs::good(random);
    let names: Vec<_> = draft.contents.iter().map(|row| row.table_name).collect();
    let matrices = draft.matrices.clone();
    for _ in 0..random.below(400) {
        let mut matrix = random.pick(&matrices);
        matrix.table_name = random.pick(&names);
        matrix.zoom = random.from_to(0, 40);
        matrix.pixel_x_size = random.from_to(1, 40) as f64;
        matrix.pixel_y_size = random.from_to(1, 40) as f64;
        draft.matrices.push(matrix);
    }
    for _ in 0..random.below(2_500) {
        let tile = TileRow {
            table_name: random.pick(&names),
            zoom: random.from_to(0, 41),
            column: random.from_to(0, 3),
            row: random.from_to(0, 3),
        };
        draft.tiles.push(tile);
    }
    draft.listing()
}

//! Listings of full size, for speed.

use super::{hostile, Random};
use crate::make::{Draft, MatrixRow, Span, TileRow};

/// The kinds that [`full`] makes, but for those of [`hostile`].
pub const FULL_KINDS: [&str; 13] = [
    "sorted",
    "shuffled",
    "pyramids",
    "reversed",
    "one-address",
    "own-place",
    "layers",
    "long-names",
    "folded",
    "one-name",
    "no-contents",
    "accents",
    "accents-shuffled",
];

const MOMENT: &str = "2024-02-29T00:00:00.000Z";

/// A listing of a kind with so many tiles; nothing for a kind that is none.
///
/// * `sorted`: 256 layers of 16 levels, by name and address; no findings;
/// * `shuffled`, `reversed`: the same in another order;
/// * `pyramids`: three pyramids, every address there twice, in any order;
/// * `one-address`: all tiles at one address;
/// * `own-place`: 16 layers, and each tile has its name at a place of its own;
/// * `layers`: 256 layers, the same address in each layer before the next;
/// * `long-names`: as `layers`, with names of 39 octets that differ inside;
/// * `folded`: 32,768 columns 2^32 - 31 apart, in one row after the other;
/// * `one-name`: 4,096 matrices of one name, each finer than the one before;
/// * `no-contents`: as `sorted`, without contents;
/// * `accents`, `accents-shuffled`: as `sorted` and `shuffled`, each name with
///   letters beyond ASCII.
pub fn full(kind: &str, tiles: usize) -> Option<Vec<u8>> {
    let mut random = Random::new(tiles as u64);
    let mut draft = match kind {
        "sorted" | "shuffled" | "reversed" | "layers" | "no-contents" => {
            layered(256, 16, tiles, short_name)
        }
        "long-names" => layered(256, 16, tiles, long_name),
        "accents" | "accents-shuffled" => layered(256, 16, tiles, accented_name),
        "pyramids" => layered(3, 12, tiles.div_ceil(2), short_name),
        "one-address" => one_address(tiles),
        "own-place" => own_place(tiles),
        "folded" => folded(tiles),
        "one-name" => one_name(tiles),
        _ => hostile(kind, tiles)?,
    };
    match kind {
        "shuffled" | "accents-shuffled" => random.shuffle(&mut draft.tiles),
        "reversed" => draft.tiles.reverse(),
        "no-contents" => draft.contents.clear(),
        // A stable sort: within an address the layers keep their order.
        "layers" | "long-names" => draft.tiles.sort_by_key(|t| (t.zoom, t.row, t.column)),
        "pyramids" => {
            draft.tiles.extend_from_within(..tiles / 2);
            random.shuffle(&mut draft.tiles);
        }
        _ => {}
    }
    Some(draft.listing())
}

/// The three reference rows, and one extension row.
fn start() -> Draft {
    let mut draft = Draft::default();
    draft.reference(4326, "EPSG", 4326, "GEOGCS[\"WGS 84\"]");
    draft.reference(-1, "NONE", -1, "undefined");
    draft.reference(0, "NONE", 0, "undefined");
    draft.extension(None, None, "gpkg_webp", "read-write");
    draft
}

/// A layer of so many levels over a square, each level with half the pixel
/// size of the one above it.
fn add_layer(draft: &mut Draft, name: &str, levels: u32) -> Span {
    draft.content(name, "tiles", MOMENT, Some(4326));
    let top = 1_048_576.0;
    draft.set(name, 4326, [0.0, 0.0, 256.0 * top, 256.0 * top]);
    for level in 0..levels {
        let side = 1_i64 << level;
        draft.matrix(name, i64::from(level), side, top / side as f64);
    }
    draft.text(name)
}

/// The address number so and so of a pyramid, level by level.
fn address(number: usize) -> (i64, i64, i64) {
    let (mut zoom, mut first) = (0, 0);
    while number >= first + (1 << (2 * zoom)) {
        first += 1 << (2 * zoom);
        zoom += 1;
    }
    let at = number - first;
    let side = 1 << zoom;
    (zoom, (at % side) as i64, (at / side) as i64)
}

fn tile(table_name: Span, number: usize) -> TileRow {
    let (zoom, column, row) = address(number);
    TileRow { table_name, zoom, column, row }
}

fn short_name(layer: usize) -> String {
    format!("layer_{layer:03}_tiles")
}

/// As many octets as a short name has.
fn accented_name(layer: usize) -> String {
    format!("h\u{f6}he_{layer:03}_t\u{e4}le")
}

/// Names that differ neither in their first, nor their middle, nor their last
/// eight octets.
fn long_name(layer: usize) -> String {
    format!("orthophoto_{layer:04}_region_north_2019_final")
}

/// So many layers, the tiles shared out evenly among them.
fn layered(layers: usize, levels: u32, tiles: usize, name_of: fn(usize) -> String) -> Draft {
    let mut draft = start();
    let mut left = tiles;
    for layer in 0..layers {
        let name = add_layer(&mut draft, &name_of(layer), levels);
        let share = left.div_ceil(layers - layer);
        draft.tiles.extend((0..share).map(|number| tile(name, number)));
        left -= share;
    }
    draft
}

fn one_address(tiles: usize) -> Draft {
    let mut draft = start();
    let name = add_layer(&mut draft, "layer", 16);
    draft.tiles.extend((0..tiles).map(|_| tile(name, 0)));
    draft
}

/// Names of three octets: a quarter of a million of them fit into the names.
fn own_place(tiles: usize) -> Draft {
    let mut draft = start();
    let name_of = |layer: usize| format!("t{layer:02}");
    for layer in 0..16 {
        add_layer(&mut draft, &name_of(layer), 16);
    }
    for number in 0..tiles {
        let name = draft.text_apart(name_of(number % 16));
        draft.tiles.push(tile(name, number / 16));
    }
    draft
}

/// One level of 2^48 by 2^48 tiles. All its columns have one sum of the lower
/// half and 31 times the upper: whoever hashes a number so has one long chain.
fn folded(tiles: usize) -> Draft {
    let mut draft = start();
    let name = add_layer(&mut draft, "layer", 0);
    let (side, pixels, size) = (1 << 48, 32, 1.0 / f64::from(1 << 25));
    draft.matrices.push(MatrixRow {
        table_name: name,
        zoom: 0,
        matrix_width: side,
        matrix_height: side,
        tile_width: pixels,
        tile_height: pixels,
        pixel_x_size: size,
        pixel_y_size: size,
    });
    let step = (1 << 32) - 31;
    for number in 0..tiles as i64 {
        let (column, row) = ((1 << 20) + number % 32_768 * step, number / 32_768);
        draft.tiles.push(TileRow { table_name: name, zoom: 0, column, row });
    }
    draft
}

/// 4,096 levels of one name. None breaks 531, so each is held against all.
fn one_name(tiles: usize) -> Draft {
    let mut draft = start();
    let name = add_layer(&mut draft, "layer", 1);
    draft.matrices.clear();
    for zoom in 0..4_096 {
        let size = (5_000 - zoom) as f64;
        draft.matrices.push(MatrixRow {
            table_name: name,
            zoom,
            matrix_width: 1_000,
            matrix_height: 1_000,
            tile_width: 256,
            tile_height: 256,
            pixel_x_size: size,
            pixel_y_size: size,
        });
    }
    for number in 0..tiles {
        let at = (number / 4_096) as i64;
        draft.tiles.push(TileRow {
            table_name: name,
            zoom: (number % 4_096) as i64,
            column: at % 1_000,
            row: at / 1_000,
        });
    }
    draft
}

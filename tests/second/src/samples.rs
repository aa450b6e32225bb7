//! The sample listings, each with what the desk program must print for it.
//! What is printed was worked out by hand; where it is long, by counting.

use std::fs;
use std::io;
use std::path::Path;

use crate::make::Draft;

pub struct Sample {
    pub name: &'static str,
    pub listing: Vec<u8>,
    pub printed: String,
}

/// Writes the samples into a folder and says which.
pub fn write(folder: &Path) -> io::Result<String> {
    fs::create_dir_all(folder)?;
    let mut told = String::new();
    for sample in samples() {
        let path = folder.join(sample.name);
        fs::write(path.with_extension("listing"), &sample.listing)?;
        fs::write(path.with_extension("printed"), &sample.printed)?;
        told += &format!("{} {} octets\n", sample.name, sample.listing.len());
    }
    Ok(told)
}

/// All samples, in the order of samples/README.md.
pub fn samples() -> Vec<Sample> {
    let sample =
        |name, listing, printed: &str| Sample { name, listing, printed: printed.to_string() };
    vec![
        sample("header-alone", Draft::default().listing(), HEADER_ALONE),
        sample("good-pack", valley().listing(), "total 0\n"),
        sample("doubled-address", doubled_address(), DOUBLED_ADDRESS),
        sample("many-kinds", many_kinds(), MANY_KINDS),
        sample("refused-version", version_2(), "refused 3 0 0\n"),
        sample("text-outside", text_outside(), "refused 7 5 3\n"),
        sample("named-in-utf-8", pack("vall\u{e9}e").listing(), "total 0\n"),
        sample("named-in-latin-1", named_in_latin_1(), "refused 13 2 0\n"),
        sample("many-findings", many_findings(), &many_findings_printed()),
        sample("longest", filled_up(65_536), "total 0\n"),
        sample("oversize", filled_up(65_537), "oversize\n"),
    ]
}

const HEADER_ALONE: &str = "\
finding 111 - -
finding 112 - -
finding 113 - -
finding 171 - -
total 4
";

/// A valley's pack without findings.
fn valley() -> Draft {
    pack("valley")
}

/// A pack of this name: levels 0 to 2 over a square of 1024.
fn pack(name: &str) -> Draft {
    let mut draft = Draft::default();
    draft.reference(4326, "EPSG", 4326, "GEOGCS[\"WGS 84\"]");
    draft.reference(-1, "NONE", -1, "undefined");
    draft.reference(0, "NONE", 0, "undefined");
    draft.content(name, "tiles", "2024-02-29T00:00:00.000Z", Some(4326));
    draft.set(name, 4326, [0.0, 0.0, 1024.0, 1024.0]);
    draft.matrix(name, 0, 1, 4.0);
    draft.matrix(name, 1, 2, 2.0);
    draft.matrix(name, 2, 4, 1.0);
    draft.tile(name, 0, 0, 0);
    draft.tile(name, 1, 0, 0);
    draft.tile(name, 1, 1, 0);
    draft.tile(name, 1, 0, 1);
    draft.tile(name, 1, 1, 1);
    draft.extension(Some(name), Some("tile_data"), "gpkg_webp", "read-write");
    draft
}

/// Two tiles at one address: rows 3 and 5 are both at zoom 1, column 0, row 1.
fn doubled_address() -> Vec<u8> {
    let mut draft = valley();
    draft.tile("valley", 1, 0, 1);
    draft.listing()
}

const DOUBLED_ADDRESS: &str = "\
finding 541 5 3
total 1
";

/// A fault of nearly every kind.
fn many_kinds() -> Vec<u8> {
    let mut draft = valley();
    draft.reference(4326, "OGC", 4326, "");
    draft.references.remove(2);
    draft.content("valley", "features", "2023-02-29T00:00:00.000Z", Some(7));
    draft.content("hill", "tiles", "2024-02-29T00:00:00.000Z", None);
    draft.set("valley", -1, [0.0, 0.0, 1024.0, 1024.0]);
    draft.set("lake", 9, [0.0, 0.0, 1.0, 1.0]);
    draft.matrix("valley", 2, 4, 2.0);
    draft.matrix("lake", -1, 0, 0.0);
    draft.tile("valley", 2, 4, -1);
    draft.tile("valley", 3, 0, 0);
    draft.tile("lake", -1, 0, 0);
    draft.tile("valley", 2, 4, -1);
    draft.extension(None, Some("tile_data"), "gpkg_", "readwrite");
    draft.extension(Some("valley"), Some("tile_data"), "gpkg_webp", "write-only");
    draft.listing()
}

/// Reference rows 0 to 2: 4326, -1, 4326 again. Contents rows: valley, valley
/// again, hill. Set rows: valley, valley again, lake. Matrix rows: valley 0,
/// 1, 2, 2 again with pixels of 2.0, lake -1. Tile rows 5 to 8: valley 2 4 -1,
/// valley 3 0 0, lake -1 0 0, valley 2 4 -1 again.
const MANY_KINDS: &str = "\
finding 101 2 0
finding 111 2 -
finding 113 - -
finding 131 1 0
finding 151 1 -
finding 161 1 -
finding 162 0 1
finding 341 7 -
finding 351 3 1
finding 391 2 -
finding 392 1 0
finding 401 2 -
finding 411 2 -
finding 431 4 -
finding 432 3 2
finding 441 6 -
finding 451 3 -
finding 451 4 -
finding 452 3 -
finding 452 4 -
finding 461 4 -
finding 471 4 -
finding 481 4 -
finding 511 4 -
finding 521 4 -
finding 531 3 1
finding 541 8 5
finding 551 6 -
finding 561 5 -
finding 561 7 -
finding 561 8 -
finding 571 5 -
finding 571 7 -
finding 571 8 -
finding 601 1 -
finding 621 1 -
finding 622 2 0
finding 641 1 -
total 38
";

fn version_2() -> Vec<u8> {
    let mut octets = valley().listing();
    octets[0] = 2;
    octets
}

/// The name of tile row 3 ends one octet past the names.
fn text_outside() -> Vec<u8> {
    let mut draft = valley();
    draft.tiles[3].table_name.start = draft.names.len() as u32 - 5;
    draft.listing()
}

/// A name in Latin-1, which no draft can be told: its one octet takes the place
/// of another that is nowhere else in the names.
fn named_in_latin_1() -> Vec<u8> {
    let mut draft = pack("vall?e");
    let octets = draft.names.iter_mut().filter(|octet| **octet == b'?');
    octets.for_each(|octet| *octet = 0xe9);
    draft.listing()
}

/// 700 tiles of a name that no contents row has.
fn many_findings() -> Vec<u8> {
    let mut draft = valley();
    draft.contents.clear();
    draft.sets.clear();
    draft.matrices.clear();
    draft.tiles.clear();
    for column in 0..700 {
        draft.tile("valley", 0, column, 0);
    }
    draft.listing()
}

/// 171, 341 on all 700 rows, then 441 on as many as there is room for: 1,365
/// less 701 is 664. The total is 1 and twice 700.
fn many_findings_printed() -> String {
    let mut text = String::from("finding 171 - -\n");
    for row in 0..700 {
        text += &format!("finding 341 {row} -\n");
    }
    for row in 0..664 {
        text += &format!("finding 441 {row} -\n");
    }
    text + "total 1401\n"
}

/// The good pack with name octets that nothing refers to, up to a length.
fn filled_up(length: usize) -> Vec<u8> {
    let mut draft = valley();
    let filling = length - draft.size();
    draft.names.extend(std::iter::repeat_n(b'.', filling));
    draft.listing()
}

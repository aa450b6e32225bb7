//! "The listing": one row of each table, spelled octet by octet.

use super::base::octets_of;
use super::Tally;
use crate::calls::{lookup, Question};
use crate::listing::{read, Contents, Extension, Extent, Matrix, MatrixSet, Reference, Tile};
use crate::make::{span, Draft, NULL};
use crate::make::{ContentsRow, ExtensionRow, MatrixRow, ReferenceRow, SetRow, TileRow};

/// Version 1, 315 octets, one row in tables 1 to 6, three name octets "abc".
pub const ONE_ROW_EACH: &str = "
    01000000 3b010000
    01000000 40000000  01000000 60000000  01000000 88000000  01000000 b8000000
    01000000 f8000000  01000000 18010000  03000000 38010000

    feffffffffffffff 0807060504030201 00000000 01000000 01000000 02000000

    00000000 02000000 02000000 01000000 03000000 00000000
    0500000000000000 01000000 00000000

    01000000 01000000 0700000000000000
    000000000000f03f 0000000000000040 000000000000e0bf 0000000000001040

    00000000 03000000 0100000000000000 0200000000000000 0300000000000000
    0400000000000000 0500000000000000 000000000000d03f 0000000000002040

    02000000 01000000 0900000000000000 ffffffffffffffff 0000000000000080

    ffffffff 00000000 00000000 00000000 00000000 01000000 01000000 01000000

    616263";

pub fn check(tally: &mut Tally) {
    let octets = octets_of(ONE_ROW_EACH);
    tally.same("one row of each table: 315 octets", octets.len(), 315);
    check_rows(tally, &octets);
    tally.judged(
        "one row of each table: its findings",
        &octets,
        "111 - -, 112 - -, 113 - -, 151 0 -, 161 0 -, 171 - -, 341 0 -, 391 0 -, 411 0 -, \
         431 0 -, 441 0 -, 601 0 -, 621 0 -, 641 0 -",
    );
    let question = Question { contents_row: 0, zoom: 9, column: -1, row: i64::MIN };
    let refused = lookup(&octets, question).map_err(|refusal| refusal.number);
    tally.same("lookup on data_type \"c\"", refused, Err(10));
    tally.same("the maker writes the same octets", made(), octets);
}

fn check_rows(tally: &mut Tally, octets: &[u8]) {
    let Ok(listing) = read(octets) else {
        tally.same("one row of each table is accepted", false, true);
        return;
    };
    let reference = Reference {
        srs_id: -2,
        coordsys_id: 72_623_859_790_382_856,
        organization: b"a",
        definition: b"bc",
    };
    tally.same("table 1's row", listing.references().collect(), vec![reference]);
    let contents =
        Contents { table_name: b"ab", data_type: b"c", last_change: b"", srs_id: Some(5) };
    tally.same("table 2's row", listing.contents().collect(), vec![contents]);
    let extent = Extent { min_x: 1.0, min_y: 2.0, max_x: -0.5, max_y: 4.0 };
    let set = MatrixSet { table_name: b"b", srs_id: 7, extent };
    tally.same("table 3's row", listing.sets().collect(), vec![set]);
    let matrix = Matrix {
        table_name: b"abc",
        zoom: 1,
        matrix_width: 2,
        matrix_height: 3,
        tile_width: 4,
        tile_height: 5,
        pixel_x_size: 0.25,
        pixel_y_size: 8.0,
    };
    tally.same("table 4's row", listing.matrices().collect(), vec![matrix]);
    let tile = Tile { table_name: b"c", zoom: 9, column: -1, row: -9_223_372_036_854_775_808 };
    tally.same("table 5's row", listing.tiles().collect(), vec![tile]);
    let extension =
        Extension { table_name: None, column_name: Some(b""), extension_name: b"a", scope: b"b" };
    tally.same("table 6's row", listing.extensions().collect(), vec![extension]);
    tally.same("table 7", listing.names(), b"abc");
}

/// The same listing from the maker.
fn made() -> Vec<u8> {
    let reference = ReferenceRow {
        srs_id: -2,
        coordsys_id: 72_623_859_790_382_856,
        organization: span(0, 1),
        definition: span(1, 2),
    };
    let contents = ContentsRow {
        table_name: span(0, 2),
        data_type: span(2, 1),
        last_change: span(3, 0),
        srs_id: 5,
        flag: 1,
        spare: 0,
    };
    let set = SetRow { table_name: span(1, 1), srs_id: 7, corners: [1.0, 2.0, -0.5, 4.0] };
    let tile = TileRow { table_name: span(2, 1), zoom: 9, column: -1, row: i64::MIN };
    let extension = ExtensionRow {
        table_name: NULL,
        column_name: span(0, 0),
        extension_name: span(0, 1),
        scope: span(1, 1),
    };
    let draft = Draft {
        references: vec![reference],
        contents: vec![contents],
        sets: vec![set],
        matrices: vec![made_matrix()],
        tiles: vec![tile],
        extensions: vec![extension],
        names: b"abc".to_vec(),
    };
    draft.listing()
}

fn made_matrix() -> MatrixRow {
    MatrixRow {
        table_name: span(0, 3),
        zoom: 1,
        matrix_width: 2,
        matrix_height: 3,
        tile_width: 4,
        tile_height: 5,
        pixel_x_size: 0.25,
        pixel_y_size: 8.0,
    }
}

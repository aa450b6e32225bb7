//! Every line of "Both sides of each line" and of "Readings that look right",
//! in the paper's order. The other files go around each of them.

use super::base::{header_alone, levels, one_level, steps, valley, MOMENT};
use super::Tally;

pub fn check(tally: &mut Tally) {
    check_starred(tally);
    check_run(tally);
    check_readings(tally);
}

fn check_starred(tally: &mut Tally) {
    let header = header_alone();
    let four = "111 - -, 112 - -, 113 - -, 171 - -";
    tally.judged("* The header alone has the four findings above", &header, four);
    tally.judged("* 63 octets: refusal 1", &header[..63], "refused 1 0 0");
    for (moment, want) in [
        ("2024-02-29T00:00:00.000Z", ""),
        ("2023-02-29T00:00:00.000Z", "151 0 -"),
        ("1900-02-29T00:00:00.000Z", "151 0 -"),
    ] {
        tally.changed(&format!("* {moment}"), want, |d| {
            d.contents[0].last_change = d.text_apart(moment);
        });
    }
    for (pixel, want) in [(1.0, ""), (steps(1.0, 4), ""), (steps(1.0, 5), "451 0 -")] {
        let mut draft = one_level();
        draft.matrices[0].pixel_x_size = pixel;
        let shows = "* Extent 0 to 1024, width 4, tile 256, pixel 1.0, four steps, five steps";
        tally.judged(shows, &draft.listing(), want);
    }
    for (column, want) in [(3, ""), (4, "561 2 -"), (-1, "561 2 -")] {
        tally.changed(&format!("* Width 4: column {column}"), want, |d| {
            d.tiles[2].column = column;
        });
    }
    for (name, want) in [("a_b_c", ""), ("gpkg_", "621 0 -"), ("_x", "621 0 -")] {
        tally.changed(&format!("* {name:?}"), want, |d| {
            d.extensions[0].extension_name = d.text_apart(name);
        });
    }
}

fn check_run(tally: &mut Tally) {
    for (with_tile, want) in [(true, "351 1 0, 401 0 -"), (false, "401 0 -")] {
        let draft = levels(&[(0, 3.0, 3.0), (1, 1.0, 1.0)], with_tile);
        let shows = "Levels 0 and 1 with pixels 3.0 and 1.0: 351 with a tile row, none without";
        tally.judged(shows, &draft.listing(), want);
    }
    tally.changed("Two extension rows alike with column NULL: no 622", "", |d| {
        d.extension(Some("valley"), None, "gpkg_webp", "read-write");
        d.extension(Some("valley"), None, "gpkg_webp", "read-write");
    });
}

fn check_readings(tally: &mut Tally) {
    let every = "131 1 0, 131 2 0, 151 0 -, 151 1 -, 151 2 -, 161 0 -, 161 1 -, 161 2 -, 162 0 0";
    tally.changed("Stopping at the first bad row of a rule, or rule", every, |d| {
        d.contents[0].srs_id = 77;
        d.contents[0].last_change = d.text("");
        d.content("valley", "features", "yesterday", Some(78));
        d.content("valley", "features", "2024-02-30T00:00:00.000Z", Some(79));
    });
    tally.changed("Treating NULLs as equal in 622", "601 1 -, 601 2 -", |d| {
        d.extension(None, Some("tile_data"), "gpkg_webp", "read-write");
        d.extension(None, Some("tile_data"), "gpkg_webp", "read-write");
    });
    tally.changed("Counting each pair of equal addresses", "541 3 0, 541 4 0", |d| {
        d.tile("valley", 0, 0, 0);
        d.tile("valley", 0, 0, 0);
    });
    // 2^62 + 256 times 4 is 2^64 + 1024, which wraps to the extent's 1024.
    let mut draft = one_level();
    draft.matrices[0].matrix_width = 4_611_686_018_427_388_160;
    draft.matrices[0].tile_width = 4;
    let shows = "Testing a width times a tile width by multiplying first";
    tally.judged(shows, &draft.listing(), "451 0 -");
    let draft = levels(&[(0, 2.0, 2.0), (1, f64::NAN, 1.0)], false);
    let shows = "Comparing NaN with \"greater or equal\" in 531";
    tally.judged(shows, &draft.listing(), "401 0 -, 511 1 -, 531 1 0");
    let mut draft = valley();
    draft.content("hill", "features", MOMENT, None);
    tally.judged("and a good pack stays good", &draft.listing(), "");
}

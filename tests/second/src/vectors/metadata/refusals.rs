//! Refusals 1 to 6 and 8 of a metadata listing, and all of the tile listing's before
//! them.

use super::super::base::valley;
use super::{header_alone, survey, Tally};
use crate::make::{set_count, set_offset, set_true_length, set_u32, Draft, MetadataReferenceRow};

pub fn check(tally: &mut Tally) {
    check_lengths(tally);
    check_version_and_length_field(tally);
    check_counts(tally);
    check_offsets(tally);
    check_order(tally);
    check_flags(tally);
    check_absent_numbers(tally);
    check_tile_listing_first(tally);
    check_exchanged(tally);
}

fn header_with(change: impl FnOnce(&mut Vec<u8>)) -> Vec<u8> {
    let mut octets = header_alone();
    change(&mut octets);
    octets
}

fn survey_with(change: impl FnOnce(&mut Vec<u8>)) -> Vec<u8> {
    let mut octets = survey().listing();
    change(&mut octets);
    octets
}

fn check_lengths(tally: &mut Tally) {
    tally.noted("no octets: 1", &[], "refused 1 0 0");
    tally.noted("31 octets: 1", &header_alone()[..31], "refused 1 0 0");
    tally.noted("1 before 3", &[0; 31], "refused 1 0 0");
    tally.noted("32 octets are enough for 3", &[0; 32], "refused 3 0 0");
    tally.noted("1,314,848 octets are not too many", &vec![0; 1_314_848], "refused 3 0 0");
    tally.noted("1,314,849 octets: 2 before 3", &vec![0; 1_314_849], "refused 2 0 0");
}

fn check_version_and_length_field(tally: &mut Tally) {
    for version in [0, 2, 256, 0x0100_0000, u32::MAX] {
        let octets = header_with(|o| set_u32(o, 0, version));
        tally.noted("version not 1", &octets, "refused 3 0 0");
    }
    for length in [0, 31, 33, 64, u32::MAX] {
        let octets = header_with(|o| set_u32(o, 4, length));
        tally.noted("length field not the octets lent", &octets, "refused 4 0 0");
    }
    let longer = header_with(|o| o.push(0));
    tally.noted("33 octets, length field 32", &longer, "refused 4 0 0");
    let both = header_with(|o| {
        set_u32(o, 0, 2);
        set_u32(o, 4, 33);
    });
    tally.noted("3 before 4", &both, "refused 3 0 0");
    let before_5 = header_with(|o| {
        set_u32(o, 4, 33);
        set_count(o, 11, 257);
    });
    tally.noted("4 before 5", &before_5, "refused 4 0 0");
}

/// 5.3: tables 11 to 13, in a listing of 32 octets.
fn check_counts(tally: &mut Tally) {
    for (table, most, want) in [
        (11, 256, "refused 6 12 0"),
        (12, 4_096, "refused 6 13 0"),
        (13, 1_048_576, "refused 6 13 0"),
    ] {
        let octets = header_with(|o| set_count(o, table, most));
        tally.noted("a count equal to its most is no 5", &octets, want);
    }
    for (table, count, want) in [
        (11, 257, "refused 5 11 0"),
        (12, 4_097, "refused 5 12 0"),
        (13, 1_048_577, "refused 5 13 0"),
        (11, u32::MAX, "refused 5 11 0"),
        (12, u32::MAX, "refused 5 12 0"),
        (13, u32::MAX, "refused 5 13 0"),
        // So many rows of 16 and of 64 octets are 2^32: they must not wrap to none.
        (11, 268_435_456, "refused 5 11 0"),
        (12, 67_108_864, "refused 5 12 0"),
    ] {
        let octets = header_with(|o| set_count(o, table, count));
        tally.noted("a count above its most", &octets, want);
    }
}

/// 5.3: the first offset is 32, and 13 is the place of the final end too.
fn check_offsets(tally: &mut Tally) {
    for (table, right, place) in [(11, 32, "6 11 0"), (12, 80, "6 12 0"), (13, 400, "6 13 0")] {
        let want = format!("refused {place}");
        for wrong in [right - 1, right + 1, right + 32, 0] {
            let octets = survey_with(|o| set_offset(o, table, wrong));
            tally.noted("an offset not as laid down", &octets, &want);
        }
        let octets = survey_with(|o| set_offset(o, table, right));
        tally.noted("the offset as laid down", &octets, "");
        let empty = header_with(|o| set_offset(o, table, 0));
        tally.noted("an empty table still states its offset", &empty, &want);
    }
    let two = survey_with(|o| {
        set_offset(o, 13, 401);
        set_offset(o, 12, 81);
    });
    tally.noted("the first such table", &two, "refused 6 12 0");
    let longer = survey_with(|o| {
        o.push(0);
        set_true_length(o);
    });
    tally.noted("an octet past the final end", &longer, "refused 6 13 0");
    let shorter = survey_with(|o| {
        o.pop();
        set_true_length(o);
    });
    tally.noted("an octet short of the final end", &shorter, "refused 6 13 0");
}

/// By reason over the whole metadata listing.
fn check_order(tally: &mut Tally) {
    let octets = header_with(|o| {
        set_count(o, 13, 1_048_577);
        set_count(o, 12, 4_097);
    });
    tally.noted("5: the first such table", &octets, "refused 5 12 0");
    let octets = header_with(|o| {
        set_offset(o, 11, 0);
        set_count(o, 13, 1_048_577);
    });
    tally.noted("all of 5 before any of 6", &octets, "refused 5 13 0");
    let octets = survey_with(|o| {
        set_offset(o, 13, 401);
        // The first file's md_scope, far outside.
        set_u32(o, 32 + 8, 1_000_000);
    });
    tally.noted("all of 6 before any of 7", &octets, "refused 6 13 0");
    tally.surveyed("all of 7 before any of 8", "refused 7 12 4", |d| {
        d.references[0].flags = 4;
        d.references[4].timestamp.length = 1_000_000;
    });
    tally.surveyed("all of 8 before any of 13", "refused 8 12 4", |d| {
        d.metadata[0].scope = d.text_apart(b"\xe9");
        d.references[4].spare = 1;
    });
    tally.surveyed("all of 7 before any of 13", "refused 7 12 4", |d| {
        d.metadata[0].scope = d.text_apart(b"\xe9");
        d.references[4].scope.length = 1_000_000;
    });
    tally.surveyed("8: lowest row", "refused 8 12 2", |d| {
        d.references[4].flags = 4;
        d.references[3].spare = 1;
        d.references[2].row_id = 1;
    });
}

type Change = fn(&mut MetadataReferenceRow);

/// 5.5: flags above 3 and a spare, in the first row and in the last.
fn check_flags(tally: &mut Tally) {
    let changes: [(&str, Change); 7] = [
        ("flags 4", |row| row.flags = 4),
        ("flags 7", |row| row.flags = 7),
        ("flags 256", |row| row.flags = 256),
        ("flags 2^31", |row| row.flags = 1 << 31),
        ("flags 2^32 - 1", |row| row.flags = u32::MAX),
        ("spare 1", |row| row.spare = 1),
        ("spare 2^31", |row| row.spare = 1 << 31),
    ];
    for (shows, change) in changes {
        for (row, want) in [(0, "refused 8 12 0"), (4, "refused 8 12 4")] {
            tally.surveyed(shows, want, |d| change(&mut d.references[row]));
        }
    }
    tally.surveyed("5.5: flags 3 with 0 and 0: both are present", "995 0 -, 1025 0 -", |d| {
        d.references[0].flags = 3;
    });
    tally.surveyed("5.5: flag 1 is the row id", "995 0 -", |d| d.references[0].flags = 1);
    tally.surveyed("5.5: flag 2 is the parent", "1025 0 -", |d| d.references[0].flags = 2);
}

/// 5.5: the whole number counts, and only where its flag is not set.
fn check_absent_numbers(tally: &mut Tally) {
    for number in [1, -1, 1 << 32, i64::MIN, i64::MAX, 256] {
        tally.surveyed("8: a row id without its flag", "refused 8 12 0", |d| {
            d.references[0].row_id = number;
        });
        tally.surveyed("8: the other flag does not help", "refused 8 12 1", |d| {
            d.references[1].row_id = number;
        });
        tally.surveyed("8: a parent without its flag", "refused 8 12 0", |d| {
            d.references[0].parent_id = number;
        });
        tally.surveyed("8: nor does that of the row id", "refused 8 12 4", |d| {
            d.references[4].flags = 1;
            d.references[4].parent_id = number;
        });
        tally.surveyed("5.5: a row id with its flag is any number", "", |d| {
            d.references[3].row_id = number;
        });
    }
    tally.surveyed("5.5: md_file_id is always there", "1015 0 -", |d| d.references[0].file_id = 0);
}

/// The tile listing's refusals, each with its place.
fn refused_listings() -> [(Vec<u8>, &'static str); 11] {
    let good = valley().listing();
    let changed = |at: usize, word: u32| {
        let mut octets = good.clone();
        set_u32(&mut octets, at, word);
        octets
    };
    let mut count = good.clone();
    set_count(&mut count, 6, 1_025);
    let drafted = |change: fn(&mut Draft)| {
        let mut draft = valley();
        change(&mut draft);
        draft.listing()
    };
    [
        (Vec::new(), "refused 1 0 0"),
        (good[..63].to_vec(), "refused 1 0 0"),
        (vec![0; 9_762_881], "refused 2 0 0"),
        (changed(0, 2), "refused 3 0 0"),
        (changed(4, 64), "refused 4 0 0"),
        (count, "refused 5 6 0"),
        (changed(12, 65), "refused 6 1 0"),
        (drafted(|d| d.tiles[2].table_name.length = 1_000_000), "refused 7 5 2"),
        (drafted(|d| d.contents[0].flag = 2), "refused 8 2 0"),
        (drafted(|d| d.tiles[1].table_name = d.text_apart([0xe9])), "refused 13 5 1"),
        (drafted(|d| d.extensions[0].scope = d.text_apart([0xff])), "refused 13 6 0"),
    ]
}

/// 5.2: all of the tile listing's, whatever the metadata listing is.
fn check_tile_listing_first(tally: &mut Tally) {
    let mut ill = survey();
    ill.metadata[0].scope = ill.text_apart(b"\xe9");
    let siblings = [
        survey().listing(),
        Vec::new(),
        vec![0; 1_314_849],
        survey_with(|o| set_u32(o, 0, 2)),
        survey_with(|o| set_u32(o, 4, 0)),
        survey_with(|o| set_count(o, 11, 257)),
        survey_with(|o| set_offset(o, 11, 64)),
        survey_with(|o| set_u32(o, 32 + 8, 1_000_000)),
        survey_with(|o| set_u32(o, 80 + 60, 1)),
        ill.listing(),
    ];
    for (listing, want) in refused_listings() {
        for metadata in &siblings {
            tally.beside("5.2: the tile listing's first", &listing, metadata, want);
        }
    }
}

/// One in the place of the other: version and length are good, and no count is above
/// its most, but the first table is not where it must be.
fn check_exchanged(tally: &mut Tally) {
    let (listing, metadata) = (valley().listing(), survey().listing());
    tally.beside("two metadata listings", &metadata, &metadata, "refused 6 1 0");
    tally.noted("two tile listings", &listing, "refused 6 11 0");
}

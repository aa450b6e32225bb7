//! "Reasons for turning a listing away": 1 to 6 and 8.

use super::base::{header_alone, valley};
use super::Tally;
use crate::make::{set_count, set_offset, set_true_length, set_u32};

pub fn check(tally: &mut Tally) {
    check_lengths(tally);
    check_version_and_length_field(tally);
    check_counts(tally);
    check_offsets(tally);
    check_order(tally);
    check_contents_flags(tally);
}

/// The header alone, changed.
fn header_with(change: impl FnOnce(&mut Vec<u8>)) -> Vec<u8> {
    let mut octets = header_alone();
    change(&mut octets);
    octets
}

/// The valley's octets, changed. It has 3 reference rows, 1 contents row, 1
/// set row, 3 matrix rows, 3 tile rows, 1 extension row: offsets 64, 160, 200,
/// 248, 440, 536, 568.
fn valley_with(change: impl FnOnce(&mut Vec<u8>)) -> Vec<u8> {
    let mut octets = valley().listing();
    change(&mut octets);
    octets
}

fn check_lengths(tally: &mut Tally) {
    let header = header_alone();
    let four = "111 - -, 112 - -, 113 - -, 171 - -";
    tally.judged("* the header alone has the four findings", &header, four);
    tally.judged("* 63 octets: refusal 1", &header[..63], "refused 1 0 0");
    tally.judged("no octets: refusal 1", &[], "refused 1 0 0");
    tally.judged("1 before 3", &[0; 63], "refused 1 0 0");
    tally.judged("64 octets are enough for 3", &[0; 64], "refused 3 0 0");
    let most = vec![0; 9_762_880];
    tally.judged("9,762,880 octets are not too many", &most, "refused 3 0 0");
    let above = vec![0; 9_762_881];
    tally.judged("9,762,881 octets: 2 before 3", &above, "refused 2 0 0");
}

fn check_version_and_length_field(tally: &mut Tally) {
    for version in [0, 2, 256, 0x0100_0000, u32::MAX] {
        let octets = header_with(|o| set_u32(o, 0, version));
        tally.judged("version not 1", &octets, "refused 3 0 0");
    }
    for length in [0, 63, 65, u32::MAX] {
        let octets = header_with(|o| set_u32(o, 4, length));
        tally.judged("length field not the octets lent", &octets, "refused 4 0 0");
    }
    let longer = header_with(|o| o.push(0));
    tally.judged("65 octets, length field 64", &longer, "refused 4 0 0");
    let both = header_with(|o| {
        set_u32(o, 0, 2);
        set_u32(o, 4, 65);
    });
    tally.judged("3 before 4", &both, "refused 3 0 0");
    let before_5 = header_with(|o| {
        set_u32(o, 4, 65);
        set_count(o, 1, 257);
    });
    tally.judged("4 before 5", &before_5, "refused 4 0 0");
}

/// Reading 4, on both sides, in a file of 64 octets.
fn check_counts(tally: &mut Tally) {
    let at_most = [
        (1, 256, "refused 6 2 0"),
        (2, 256, "refused 6 3 0"),
        (3, 256, "refused 6 4 0"),
        (4, 4_096, "refused 6 5 0"),
        (5, 262_144, "refused 6 6 0"),
        (6, 1_024, "refused 6 7 0"),
        (7, 1_048_576, "refused 6 7 0"),
    ];
    for (table, most, want) in at_most {
        let octets = header_with(|o| set_count(o, table, most));
        tally.judged("a count equal to its most is no 5", &octets, want);
    }
    let above = [
        (1, 257, "refused 5 1 0"),
        (2, 257, "refused 5 2 0"),
        (3, 257, "refused 5 3 0"),
        (4, 4_097, "refused 5 4 0"),
        (5, 262_145, "refused 5 5 0"),
        (6, 1_025, "refused 5 6 0"),
        (7, 1_048_577, "refused 5 7 0"),
        (5, u32::MAX, "refused 5 5 0"),
        (7, u32::MAX, "refused 5 7 0"),
        // 134,217,728 rows of 32 octets are 2^32: they must not wrap to none.
        (5, 134_217_728, "refused 5 5 0"),
    ];
    for (table, count, want) in above {
        let octets = header_with(|o| set_count(o, table, count));
        tally.judged("a count above its most", &octets, want);
    }
}

fn check_offsets(tally: &mut Tally) {
    let offsets = [64, 160, 200, 248, 440, 536, 568];
    let places = ["6 1 0", "6 2 0", "6 3 0", "6 4 0", "6 5 0", "6 6 0", "6 7 0"];
    for ((table, right), place) in (1..).zip(offsets).zip(places) {
        let want = format!("refused {place}");
        for wrong in [right - 1, right + 1, 0] {
            let octets = valley_with(|o| set_offset(o, table, wrong));
            tally.judged("an offset not as laid down", &octets, &want);
        }
        let octets = valley_with(|o| set_offset(o, table, right));
        tally.judged("the offset as laid down", &octets, "");
        let empty = header_with(|o| set_offset(o, table, 0));
        tally.judged("an empty table still states its offset", &empty, &want);
    }
    let two = valley_with(|o| {
        set_offset(o, 5, 441);
        set_offset(o, 2, 161);
    });
    tally.judged("the first such table", &two, "refused 6 2 0");
    let moved = header_with(|o| {
        for table in 1..=7 {
            set_offset(o, table, 65);
        }
        o.push(0);
        set_true_length(o);
    });
    tally.judged("no gap after the header", &moved, "refused 6 1 0");
    let longer = valley_with(|o| {
        o.push(0);
        set_true_length(o);
    });
    tally.judged("an octet past the final end", &longer, "refused 6 7 0");
    let shorter = valley_with(|o| {
        o.pop();
        set_true_length(o);
    });
    tally.judged("an octet short of the final end", &shorter, "refused 6 7 0");
}

/// Reading 3: by reason over the whole listing.
fn check_order(tally: &mut Tally) {
    let octets = header_with(|o| {
        set_count(o, 6, 1_025);
        set_count(o, 3, 257);
    });
    tally.judged("5: the first such table", &octets, "refused 5 3 0");
    let octets = header_with(|o| {
        set_offset(o, 1, 0);
        set_count(o, 7, 1_048_577);
    });
    tally.judged("all of 5 before any of 6", &octets, "refused 5 7 0");
    let octets = valley_with(|o| {
        set_offset(o, 7, 569);
        // The first reference row's organization, far outside.
        set_u32(o, 64 + 16, 1_000_000);
    });
    tally.judged("all of 6 before any of 7", &octets, "refused 6 7 0");
}

/// Reading 5 and refusal 8.
fn check_contents_flags(tally: &mut Tally) {
    tally.changed("flag 2", "refused 8 2 0", |d| d.contents[0].flag = 2);
    tally.changed("flag 4294967295", "refused 8 2 0", |d| {
        d.contents[0].flag = u32::MAX;
    });
    tally.changed("spare 1", "refused 8 2 0", |d| d.contents[0].spare = 1);
    tally.changed("spare 2147483648", "refused 8 2 0", |d| {
        d.contents[0].spare = 1 << 31;
    });
    tally.changed("flag 0 with srs_id 4326", "refused 8 2 0", |d| {
        d.contents[0].flag = 0;
    });
    tally.changed("flag 0: the whole i64 counts", "refused 8 2 0", |d| {
        d.contents[0].flag = 0;
        d.contents[0].srs_id = 1 << 32;
    });
    tally.changed("flag 0 with srs_id 0 is NULL", "162 0 0", |d| {
        d.contents[0].flag = 0;
        d.contents[0].srs_id = 0;
    });
    tally.changed("flag 1 with srs_id 0 is the id 0", "", |d| {
        d.contents[0].srs_id = 0;
        d.sets[0].srs_id = 0;
    });
    tally.changed("8: lowest row", "refused 8 2 1", |d| {
        d.contents.extend([d.contents[0]; 3]);
        d.contents[3].flag = 2;
        d.contents[2].spare = 1;
        d.contents[1].flag = 0;
    });
    tally.changed("all of 7 before any of 8", "refused 7 6 0", |d| {
        d.contents[0].flag = 2;
        d.extensions[0].scope.length = 1_000_000;
    });
}

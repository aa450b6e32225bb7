//! Request 2026-01: the writer, and its readings 1.1 to 1.12 on both sides.
//!
//! An expected write is `octets N`, or `refused N T R`.

use super::base::{header_alone, octets_of};
use super::layout::ONE_ROW_EACH;
use super::{report_as_text, Tally};
use crate::calls::{check_lengths, write, write_call, Parts};
use crate::desk::refused;
use crate::make::set_u32;

pub fn check(tally: &mut Tally) {
    check_a_listing_in_octets(tally);
    check_whole_rows(tally);
    check_counts(tally);
    check_beyond_a_word(tally);
    check_texts(tally);
    check_nulls(tally);
    check_flags(tally);
    check_order_of_7_and_8(tally);
    check_room(tally);
    check_room_is_last(tally);
    check_written_back(tally);
    check_answers(tally);
    check_short_answers(tally);
}

/// More than any listing has.
pub const AMPLE: usize = 9_762_881;

impl Tally {
    pub(super) fn written(&mut self, shows: &str, parts: &Parts, room: usize, want: &str) {
        let got = match write(parts, room) {
            Ok(listing) => format!("octets {}", listing.len()),
            Err(refusal) => refused(refusal),
        };
        self.same(shows, got, want.to_string());
    }
}

/// Parts of so many octets, all of them 0: every text is empty, every srs_id
/// of contents NULL.
fn zeros(lengths: [usize; 7]) -> Parts {
    lengths.map(|length| vec![0; length])
}

/// No octets in any part but this one.
pub fn alone(table: usize, length: usize) -> Parts {
    let mut lengths = [0; 7];
    lengths[table - 1] = length;
    zeros(lengths)
}

/// A contents row "hay" of "tiles", two tiles of "hay", an extension row with
/// both NULLs, and eight name octets.
const HAY: [&str; 7] = [
    "",
    "00000000 03000000  03000000 05000000  08000000 00000000  0000000000000000 00000000 00000000",
    "",
    "",
    "00000000 03000000  0100000000000000 0000000000000000 0200000000000000
     00000000 03000000  0100000000000000 ffffffffffffffff 0000000000000000",
    "ffffffff 00000000  ffffffff 00000000  00000000 03000000  07000000 01000000",
    "68617974696c6573",
];

/// The listing of these parts, 208 octets.
const HAY_LISTING: &str = "
    01000000 d0000000
    00000000 40000000  01000000 40000000  00000000 68000000  00000000 68000000
    02000000 68000000  01000000 a8000000  08000000 c8000000

    00000000 03000000 03000000 05000000 08000000 00000000
    0000000000000000 00000000 00000000

    00000000 03000000 0100000000000000 0000000000000000 0200000000000000
    00000000 03000000 0100000000000000 ffffffffffffffff 0000000000000000

    ffffffff 00000000 ffffffff 00000000 00000000 03000000 07000000 01000000

    68617974696c6573";

pub fn hay() -> Parts {
    HAY.map(octets_of)
}

/// The parts of "hay" with one u32 changed.
pub fn hay_with(table: usize, at: usize, word: u32) -> Parts {
    let mut parts = hay();
    set_u32(&mut parts[table - 1], at, word);
    parts
}

fn check_a_listing_in_octets(tally: &mut Tally) {
    let listing = octets_of(HAY_LISTING);
    tally.same("the listing in octets: 208 of them", listing.len(), 208);
    tally.same("parts in a listing, octet by octet", write(&hay(), 208), Ok(listing.clone()));
    let empty = zeros([0; 7]);
    tally.same("empty parts give the header alone", write(&empty, 64), Ok(header_alone()));
    let called = write_call(&hay(), &[0xaa; 211], &[0xbb; 16]);
    let kept = [listing.clone(), vec![0xaa; 3]].concat();
    tally.same("octets past the listing keep their values", &called.listing, &kept);
    let report = "111 - -, 112 - -, 113 - -, 151 0 -, 401 0 -, 441 0 -, 441 1 -, 621 0 -, 641 0 -";
    tally.judged("1.9: the first 208 octets are accepted", &called.listing[..208], report);
    tally.judged("1.9: with what follows", &called.listing, "refused 4 0 0");
}

/// Readings 1.1 to 1.3.
fn check_whole_rows(tally: &mut Tally) {
    let rows = [
        (1, 32, "octets 96", "refused 11 1 0"),
        (2, 40, "octets 104", "refused 11 2 0"),
        (3, 48, "octets 112", "refused 11 3 0"),
        (4, 64, "octets 128", "refused 11 4 0"),
        (5, 32, "octets 96", "refused 11 5 0"),
        (6, 32, "octets 96", "refused 11 6 0"),
    ];
    for (table, row, whole, ragged) in rows {
        tally.written("1.1: a row as it stands in a listing", &alone(table, row), AMPLE, whole);
        for length in [1, row - 1, row + 1, 2 * row - 1, 2 * row + 1] {
            let shows = format!("1.2: table {table} of {length} octets");
            tally.written(&shows, &alone(table, length), AMPLE, ragged);
        }
    }
    tally.written("1.2: 31 octets for table 1", &alone(1, 31), AMPLE, "refused 11 1 0");
    tally.written("1.2: 33 octets for table 1", &alone(1, 33), AMPLE, "refused 11 1 0");
    for (length, want) in [(1, "octets 65"), (31, "octets 95"), (33, "octets 97")] {
        tally.written("1.2: table 7 never has 11", &alone(7, length), AMPLE, want);
    }
    let two = zeros([0, 41, 0, 0, 33, 0, 0]);
    tally.written("11: the first such table", &two, AMPLE, "refused 11 2 0");
    let far = zeros([8_224, 0, 0, 0, 0, 1, 0]);
    tally.written("1.3: 257 rows in 1 and an octet in 6", &far, AMPLE, "refused 11 6 0");
    let both = alone(1, 8_225);
    tally.written("1.3: 257 rows and an octet in table 1", &both, AMPLE, "refused 11 1 0");
    let mut text = hay_with(2, 4, 9);
    text[4].pop();
    tally.written("11 before 7", &text, AMPLE, "refused 11 5 0");
    let mut flag = hay_with(2, 32, 2);
    flag[5].push(0);
    tally.written("11 before 8", &flag, AMPLE, "refused 11 6 0");
}

/// Readings 1.4 and 1.6.
fn check_counts(tally: &mut Tally) {
    let mosts = [
        (1, 8_192, "octets 8256", 8_224, "refused 5 1 0"),
        (2, 10_240, "octets 10304", 10_280, "refused 5 2 0"),
        (3, 12_288, "octets 12352", 12_336, "refused 5 3 0"),
        (4, 262_144, "octets 262208", 262_208, "refused 5 4 0"),
        (5, 8_388_608, "octets 8388672", 8_388_640, "refused 5 5 0"),
        (6, 32_768, "octets 32832", 32_800, "refused 5 6 0"),
        (7, 1_048_576, "octets 1048640", 1_048_577, "refused 5 7 0"),
    ];
    for (table, most, octets, above, refused) in mosts {
        tally.written("1.4: rows at their most", &alone(table, most), AMPLE, octets);
        tally.written("1.4: one row above", &alone(table, above), AMPLE, refused);
    }
    let full = [8_192, 10_240, 12_288, 262_144, 8_388_608, 32_768, 1_048_576];
    tally.written("1.6: all at their most", &zeros(full), 9_762_880, "octets 9762880");
    let mut more = full;
    more[6] = 1_048_577;
    tally.written("1.6: 5 where the reader would say 2", &zeros(more), AMPLE, "refused 5 7 0");
    more[4] = 8_388_640;
    tally.written("1.6: and a tile more", &zeros(more), AMPLE, "refused 5 5 0");
    let two = zeros([0, 0, 12_336, 0, 0, 32_800, 0]);
    tally.written("5: the first such table", &two, AMPLE, "refused 5 3 0");
    let mut text = hay_with(2, 4, 9);
    text[5] = vec![0; 32_800];
    tally.written("1.4: 5 before any of 7", &text, AMPLE, "refused 5 6 0");
    let mut flag = hay_with(2, 32, 2);
    flag[6] = vec![0; 1_048_577];
    tally.written("5 before 8", &flag, AMPLE, "refused 5 7 0");
}

/// 1.4: a count is a whole number. No such parts are made here: their lengths
/// decide.
fn check_beyond_a_word(tally: &mut Tally) {
    let mut checked = |shows: &str, table: usize, length: u64, want: &str| {
        let mut lengths = [0; 7];
        lengths[table - 1] = length;
        let got = check_lengths(&lengths).err().map(refused);
        tally.same(shows, got.as_deref(), Some(want));
    };
    checked("1.4: 2^32 + 1 names are no count of 1", 7, 4_294_967_297, "refused 5 7 0");
    checked("2^32 names are no count of 0", 7, 4_294_967_296, "refused 5 7 0");
    checked("2^32 + 1 tiles are no count of 1", 5, 137_438_953_504, "refused 5 5 0");
    checked("2^32 + 32 octets of tiles", 5, 4_294_967_328, "refused 5 5 0");
    checked("2^32 + 1 octets of tiles", 5, 4_294_967_297, "refused 11 5 0");
}

/// Every text field: its table, the octets of a row, its place in the row.
pub const TEXT_FIELDS: [(usize, usize, usize); 12] = [
    (1, 32, 16),
    (1, 32, 24),
    (2, 40, 0),
    (2, 40, 8),
    (2, 40, 16),
    (3, 48, 0),
    (4, 64, 0),
    (5, 32, 0),
    (6, 32, 0),
    (6, 32, 8),
    (6, 32, 16),
    (6, 32, 24),
];

/// 1.5: texts against the lent names, of which "hay" has eight.
fn check_texts(tally: &mut Tally) {
    let good = "octets 208";
    tally.written("a text that ends at the names' end", &hay_with(5, 4, 8), AMPLE, good);
    tally.written("a text that ends one past", &hay_with(5, 4, 9), AMPLE, "refused 7 5 0");
    tally.written("an empty text at the names' end", &hay_with(2, 16, 8), AMPLE, good);
    tally.written("an empty text one past", &hay_with(2, 16, 9), AMPLE, "refused 7 2 0");
    tally.written("no wrap", &hay_with(6, 28, u32::MAX), AMPLE, "refused 7 6 0");
    let mut shorter = hay();
    shorter[6].pop();
    tally.written("the same rows with one name octet less", &shorter, AMPLE, "refused 7 2 0");
    let mut longer = hay();
    longer[6].push(0xe9);
    tally.written("and with one more that no text covers (3.1)", &longer, AMPLE, "octets 209");
    let mut nameless = alone(3, 48);
    tally.written("no names: an empty text", &nameless, AMPLE, "octets 112");
    nameless[2][4] = 1;
    tally.written("no names: a text of one octet", &nameless, AMPLE, "refused 7 3 0");
    let mut two = hay_with(5, 32 + 4, 9);
    set_u32(&mut two[5], 20, 9);
    tally.written("7: the lowest table", &two, AMPLE, "refused 7 5 1");
    set_u32(&mut two[4], 4, 9);
    tally.written("7: the lowest row", &two, AMPLE, "refused 7 5 0");
    for (table, row, at) in TEXT_FIELDS {
        let mut parts = alone(table, 4 * row);
        set_u32(&mut parts[table - 1], 2 * row + at, 1);
        let want = format!("refused 7 {table} 2");
        tally.written("7: every text field", &parts, AMPLE, &want);
    }
}

/// NULL: start 4294967295 with length 0, in two fields of table 6 alone.
fn check_nulls(tally: &mut Tally) {
    let null_at = |table: usize, at: usize| hay_with(table, at, u32::MAX);
    let mut scope = null_at(6, 24);
    set_u32(&mut scope[5], 28, 0);
    tally.written("NULL for scope", &scope, AMPLE, "refused 7 6 0");
    let mut name = null_at(6, 16);
    set_u32(&mut name[5], 20, 0);
    tally.written("NULL for extension_name", &name, AMPLE, "refused 7 6 0");
    tally.written("NULL for last_change", &null_at(2, 16), AMPLE, "refused 7 2 0");
    let mut tile = null_at(5, 0);
    set_u32(&mut tile[4], 4, 0);
    tally.written("NULL for a tile's table_name", &tile, AMPLE, "refused 7 5 0");
    tally.written("NULL's start with length 1", &hay_with(6, 4, 1), AMPLE, "refused 7 6 0");
    let nearly = hay_with(6, 8, u32::MAX - 1);
    tally.written("NULL's start less one", &nearly, AMPLE, "refused 7 6 0");
}

fn check_flags(tally: &mut Tally) {
    let good = "octets 208";
    let bad = "refused 8 2 0";
    tally.written("flag 1 with srs_id 0", &hay_with(2, 32, 1), AMPLE, good);
    tally.written("flag 2", &hay_with(2, 32, 2), AMPLE, bad);
    tally.written("spare 1", &hay_with(2, 36, 1), AMPLE, bad);
    tally.written("flag 0 with srs_id 1", &hay_with(2, 24, 1), AMPLE, bad);
    tally.written("flag 0 with srs_id 2^32", &hay_with(2, 28, 1), AMPLE, bad);
    let mut rows = alone(2, 160);
    set_u32(&mut rows[1], 120 + 36, 1);
    tally.written("8: spare in row 3", &rows, AMPLE, "refused 8 2 3");
    set_u32(&mut rows[1], 80 + 32, 2);
    tally.written("8: the lowest row", &rows, AMPLE, "refused 8 2 2");
}

/// 1.5: all of 7 before any of 8.
fn check_order_of_7_and_8(tally: &mut Tally) {
    let mut both = hay_with(2, 32, 2);
    set_u32(&mut both[4], 32 + 4, 9);
    tally.written("1.5: flag 2 and a text outside", &both, AMPLE, "refused 7 5 1");
    let mut one_row = hay_with(2, 32, 2);
    set_u32(&mut one_row[1], 4, 9);
    tally.written("both in one row", &one_row, AMPLE, "refused 7 2 0");
}

/// Reading 1.7.
fn check_room(tally: &mut Tally) {
    let (empty, too_short) = (zeros([0; 7]), "refused 12 0 0");
    tally.written("1.7: exactly as long", &hay(), 208, "octets 208");
    tally.written("1.7: one fewer", &hay(), 207, too_short);
    for room in [209, 1_000, 9_762_880, 9_762_881, 20_000_000] {
        tally.written("1.7: any longer is good", &hay(), room, "octets 208");
    }
    for room in [0, 1, 63, 64, 144] {
        tally.written("the header alone would fit, or all but the names", &hay(), room, too_short);
    }
    tally.written("the header alone in 64 octets", &empty, 64, "octets 64");
    tally.written("the header alone in 63", &empty, 63, too_short);
    tally.written("the header alone in none", &empty, 0, too_short);
}

/// Reading 1.8: a faulty part gives its own reason, with an empty buffer too.
fn check_room_is_last(tally: &mut Tally) {
    for room in [0, 63, 64, 207] {
        let mut ragged = hay();
        ragged[5].push(0);
        tally.written("11 before 12", &ragged, room, "refused 11 6 0");
        tally.written("5 before 12", &alone(3, 12_336), room, "refused 5 3 0");
        tally.written("7 before 12", &hay_with(5, 4, 9), room, "refused 7 5 0");
        tally.written("8 before 12", &hay_with(2, 32, 2), room, "refused 8 2 0");
    }
}

/// Reading 1.10, on the listing with one row of each table.
fn check_written_back(tally: &mut Tally) {
    let cut_by_hand = |octets: &[u8]| -> Parts {
        [64..96, 96..136, 136..184, 184..248, 248..280, 280..312, 312..octets.len()]
            .map(|place| octets[place].to_vec())
    };
    let mut octets = octets_of(ONE_ROW_EACH);
    let parts = cut_by_hand(&octets);
    tally.same("1.10: one row of each table", write(&parts, 315), Ok(octets.clone()));
    // Two more name octets that no row refers to, and a NaN with a payload for
    // min_x: the length, 317, and the count of names, 5, follow.
    octets.extend([0, 0xff]);
    octets[4] = 0x3d;
    octets[56] = 5;
    octets[152..160].copy_from_slice(&[1, 2, 3, 4, 5, 6, 0xf7, 0xff]);
    let parts = cut_by_hand(&octets);
    tally.same("1.10: nothing is tidied", write(&parts, 400), Ok(octets.clone()));
    tally.same("and it is accepted", report_as_text(&octets).starts_with("111 - -"), true);
}

/// Reading 1.12: number, table, row, octets; and answers of 16 octets or more.
fn check_answers(tally: &mut Tally) {
    let written = [0, 0, 0, 0, 0, 0, 0, 0, 0, 0, 0, 0, 208, 0, 0, 0];
    let outside = [7, 0, 0, 0, 5, 0, 0, 0, 1, 0, 0, 0, 0, 0, 0, 0];
    let too_short = [12, 0, 0, 0, 0, 0, 0, 0, 0, 0, 0, 0, 0, 0, 0, 0];
    let cases = [
        ("written", hay(), 208, written, octets_of(HAY_LISTING)),
        ("refused 7", hay_with(5, 36, 9), 208, outside, vec![0xaa; 208]),
        ("refused 12", hay(), 207, too_short, vec![0xaa; 207]),
        ("refused 12 with an empty buffer", hay(), 0, too_short, vec![]),
    ];
    for (shows, parts, room, words, listing) in cases {
        for more in [0, 1, 20] {
            let called = write_call(&parts, &vec![0xaa; room], &vec![0xbb; 16 + more]);
            tally.same("write returns 1", called.returned, 1);
            let answer = [words.to_vec(), vec![0xbb; more]].concat();
            tally.same(&format!("1.12: {shows}, answer"), called.answer, answer);
            tally.same(&format!("1.12: {shows}, buffer"), called.listing, listing.clone());
        }
    }
    let ragged = write_call(&alone(6, 33), &[0xaa; 99], &[0; 16]);
    let words = vec![11, 0, 0, 0, 6, 0, 0, 0, 0, 0, 0, 0, 0, 0, 0, 0];
    tally.same("1.12: refused 11 6 0", ragged.answer, words);
    tally.same("1.12: nothing is written", ragged.listing, vec![0xaa; 99]);
}

/// Too short an answer: nothing is written anywhere, before any refusal.
fn check_short_answers(tally: &mut Tally) {
    for length in [0, 1, 4, 12, 15] {
        for parts in [hay(), alone(1, 31), alone(1, 8_224), hay_with(5, 4, 9)] {
            for room in [0, 208, 300] {
                let called = write_call(&parts, &vec![0xcc; room], &vec![0xdd; length]);
                tally.same("write: a short answer returns 0", called.returned, 0);
                tally.same("write: answer kept", called.answer, vec![0xdd; length]);
                tally.same("write: buffer kept", called.listing, vec![0xcc; room]);
            }
        }
    }
}

//! Request 2026-03: texts that are not well-formed UTF-8, and its readings 3.1
//! to 3.8 on both sides.

mod characters;
mod parts;

use super::base::{header_alone, octets_of, valley, MOMENT};
use super::texts::{TextOf, FIELDS};
use super::Tally;
use crate::calls::{lookup, report, verdict, Parts, Question, Verdict};
use crate::calls::{lookup_call, report_call, verdict_call, write_call};
use crate::desk::{printed, refused};
use crate::make::{set_count, set_offset, set_u32, span, Draft, TileRow, NULL};
use crate::vectors::writes::{alone, hay, hay_with, AMPLE, TEXT_FIELDS};

pub fn check(tally: &mut Tally) {
    characters::check(tally);
    parts::check(tally);
    check_every_field(tally);
    check_places(tally);
    check_neighbours(tally);
    check_order(tally);
    check_verdicts_and_lookups(tally);
    check_calls(tally);
    check_rules(tally);
    check_writes(tally);
    check_order_of_writes(tally);
    check_desk(tally);
}

/// The valley, its first definition such a text with these octets around it.
/// No rule looks at that definition.
fn defined_as(before: &[u8], octets: &[u8], after: &[u8]) -> Vec<u8> {
    let mut draft = valley();
    draft.text_apart(before);
    draft.references[0].definition = draft.text_apart(octets);
    draft.text_apart(after);
    draft.listing()
}

/// The valley with a text of these octets in one field.
fn valley_with(field: TextOf, octets: &[u8]) -> Draft {
    let mut draft = valley();
    let text = draft.text_apart(octets);
    *field(&mut draft) = text;
    draft
}

/// "é" in Latin-1.
const BAD: &[u8] = b"\xe9";

fn is_good(draft: &Draft) -> bool {
    report(&draft.listing()).is_ok()
}

/// Readings 3.1 and 3.6: each of the twelve fields.
fn check_every_field(tally: &mut Tally) {
    for (place, may_be_null, field) in FIELDS {
        let refused = format!("refused 13 {place}");
        for octets in [BAD, b"a\xe9", b"\xc3", b"\x80", b"read-write\xff"] {
            let listing = valley_with(field, octets).listing();
            tally.judged("3.1: a bad text in any field", &listing, &refused);
        }
        for octets in ["\u{e9}", "\u{20ac}uro", "\0", "\u{10ffff}"] {
            let draft = valley_with(field, octets.as_bytes());
            tally.same("3.1: a good text in any field", is_good(&draft), true);
        }
        check_parts_of_names(tally, field);
        let mut stray = valley();
        stray.text_apart(BAD);
        *field(&mut stray) = NULL;
        tally.same("3.3: a NULL is skipped", is_good(&stray), may_be_null);
    }
}

/// Readings 3.2 and 3.3. The valley's names are ASCII, 96 octets; "é" and a stray
/// octet follow.
fn check_parts_of_names(tally: &mut Tally, field: TextOf) {
    let mut draft = valley();
    draft.text_apart(b"\xc3\xa9\xff");
    for (start, length, want) in [
        (96, 2, true),
        (96, 1, false),
        (97, 1, false),
        (97, 0, true),
        (98, 0, true),
        (98, 1, false),
        (99, 0, true),
        (90, 8, true),
        (90, 7, false),
        (90, 9, false),
    ] {
        *field(&mut draft) = span(start, length);
        tally.same(&format!("3.2, 3.3: ({start}, {length})"), is_good(&draft), want);
    }
}

/// Reading 3.6: lowest table, then lowest row; the field does not show.
fn check_places(tally: &mut Tally) {
    tally.changed("3.6: table 5 before 6", "refused 13 5 2", |d| {
        d.extensions[0].table_name = d.text_apart(BAD);
        d.tiles[2].table_name = d.text_apart(BAD);
    });
    tally.changed("3.6: lowest table, whatever the row", "refused 13 1 2", |d| {
        d.contents[0].table_name = d.text_apart(BAD);
        d.references[2].definition = d.text_apart(BAD);
    });
    tally.changed("3.6: lowest row, whatever the field", "refused 13 1 1", |d| {
        d.references[2].organization = d.text_apart(BAD);
        d.references[1].definition = d.text_apart(BAD);
    });
    tally.changed("3.6: two in one row", "refused 13 6 0", |d| {
        d.extensions[0].column_name = d.text_apart(BAD);
        d.extensions[0].scope = d.text_apart(BAD);
    });
    tally.changed("3.6: the last of many rows", "refused 13 5 40", |d| {
        d.tiles.resize(40, d.tiles[0]);
        d.tile("valley", 2, 0, 0);
        d.tiles[40].table_name = d.text_apart(BAD);
    });
    tally.changed("3.1: the same bad text in many rows", "refused 13 4 1", |d| {
        let bad = d.text_apart(BAD);
        d.matrices[1].table_name = bad;
        d.matrices[2].table_name = bad;
        d.tiles.iter_mut().for_each(|tile| tile.table_name = bad);
    });
}

/// Readings 3.2 and 3.6: rows of one text, much like that of the row before. "é" is
/// the names 96 and 97; a stray octet follows, and there are 99.
fn check_neighbours(tally: &mut Tally) {
    let e = (96, 2);
    for (texts, want) in [
        ([e, e, e], None),
        ([e, (96, 0), e], None),
        ([(0, 96), (0, 98), e], None),
        ([(97, 0), (98, 0), (99, 0)], None),
        ([e, (96, 1), e], Some((13, 1))),
        ([e, e, (96, 3)], Some((13, 2))),
        ([e, (96, 4), e], Some((7, 1))),
        ([e, (97, 1), (96, 1)], Some((13, 1))),
        ([e, (95, 2), e], Some((13, 1))),
        ([e, (97, 2), e], Some((13, 1))),
        ([e, e, (98, 2)], Some((7, 2))),
        ([(0, 96), (0, 97), (0, 96)], Some((13, 1))),
        ([(0, 98), (0, 98), (0, 99)], Some((13, 2))),
        ([(98, 0), (98, 1), (98, 1)], Some((13, 1))),
        ([(98, 1), e, (98, 1)], Some((13, 0))),
        ([(96, 1), e, (100, 0)], Some((7, 2))),
    ] {
        check_rows(tally, texts, want);
    }
}

/// These texts in the rows of tables 4 and 5, and the reason and row to refuse for.
fn check_rows(tally: &mut Tally, texts: [(usize, usize); 3], want: Option<(u32, usize)>) {
    let mut draft = valley();
    draft.text_apart(b"\xc3\xa9\xff");
    let mut drafts = [draft.clone(), draft];
    for (row, (start, length)) in texts.into_iter().enumerate() {
        drafts[0].matrices[row].table_name = span(start, length);
        drafts[1].tiles[row].table_name = span(start, length);
    }
    for (table, draft) in (4..).zip(drafts) {
        let shows = format!("3.6: rows of table {table} with {texts:?}");
        let Some((number, row)) = want else {
            tally.same(&shows, is_good(&draft), true);
            continue;
        };
        let refused = format!("refused {number} {table} {row}");
        tally.judged(&shows, &draft.listing(), &refused);
    }
}

/// The octets of the valley with a bad text in table 1, changed. Its offsets are
/// 64, 160, 200, 248, 440, 536, 568, and it has 97 names.
fn bad_valley_with(change: impl FnOnce(&mut Vec<u8>)) -> Vec<u8> {
    let mut octets = defined_as(&[], BAD, &[]);
    change(&mut octets);
    octets
}

/// Reading 3.7: every other reason of the reader comes before 13.
fn check_order(tally: &mut Tally) {
    let bad = bad_valley_with(|_| ());
    tally.judged("13 alone", &bad, "refused 13 1 0");
    tally.judged("1 before 13", &bad[..63], "refused 1 0 0");
    let earlier = [
        ("3 before 13", "refused 3 0 0", bad_valley_with(|o| set_u32(o, 0, 2))),
        ("4 before 13", "refused 4 0 0", bad_valley_with(|o| set_u32(o, 4, 64))),
        ("5 before 13", "refused 5 7 0", bad_valley_with(|o| set_count(o, 7, 1_048_577))),
        ("6 before 13", "refused 6 7 0", bad_valley_with(|o| set_offset(o, 7, 567))),
        // The scope of the extension row: at 536 + 24, a length at 28.
        ("7 of table 6 before 13 of table 1", "refused 7 6 0", {
            bad_valley_with(|o| set_u32(o, 536 + 28, 98))
        }),
        // The flag of the contents row: at 160 + 32.
        ("8 before 13 of table 1", "refused 8 2 0", bad_valley_with(|o| set_u32(o, 160 + 32, 2))),
        ("7 before 8 before 13", "refused 7 5 2", {
            bad_valley_with(|o| {
                set_u32(o, 160 + 36, 1);
                set_u32(o, 440 + 64, 98);
            })
        }),
    ];
    for (shows, want, octets) in earlier {
        tally.judged(&format!("3.7: {shows}"), &octets, want);
    }
    check_order_in_a_row(tally);
}

fn check_order_in_a_row(tally: &mut Tally) {
    let one_row = |srs_id: i64, length: u32| {
        let mut draft = valley_with(|d| &mut d.contents[0].data_type, BAD);
        draft.contents[0].flag = 0;
        draft.contents[0].srs_id = srs_id;
        draft.contents[0].last_change.length = length;
        draft.listing()
    };
    tally.judged("3.7: 7, 8 and 13 in one row", &one_row(1, 98), "refused 7 2 0");
    tally.judged("3.7: 8 and 13 in one row", &one_row(1, 24), "refused 8 2 0");
    tally.judged("3.7: 13 left", &one_row(0, 24), "refused 13 2 0");
}

/// Reading 3.7: 9 comes first, and 10 after 13.
fn check_verdicts_and_lookups(tally: &mut Tally) {
    let bad = valley_with(|d| &mut d.extensions[0].scope, BAD).listing();
    let asked = |listing: &[u8], code| verdict(listing, code).map_err(refused);
    let wanted = |want: &str| Err(want.to_string());
    for code in [101, 171, 541, 641] {
        tally.same("3.7: a verdict", asked(&bad, code), wanted("refused 13 6 0"));
    }
    for code in [0, 13, 542] {
        tally.same("3.7: 9 before 13", asked(&bad, code), wanted("refused 9 0 0"));
    }
    let find = |listing: &[u8], contents_row, column| {
        lookup(listing, Question { contents_row, zoom: 2, column, row: 3 }).map_err(refused)
    };
    for (contents_row, column) in [(0, 3), (0, 2), (1, 3), (u32::MAX, 3)] {
        let got = find(&bad, contents_row, column);
        tally.same("3.7: 13 before 10", got, Err("refused 13 6 0".to_string()));
    }
    let not_tiles = valley_with(|d| &mut d.contents[0].data_type, b"tiles\xff").listing();
    let got = find(&not_tiles, 0, 3);
    tally.same("3.7: 13 where the data_type is bad", got, Err("refused 13 2 0".to_string()));
    let other = valley_with(|d| &mut d.contents[0].data_type, "tiles\u{ff}".as_bytes()).listing();
    tally.same("10 where it is good", find(&other, 0, 3), Err("refused 10 0 0".to_string()));
    let stray = defined_as(BAD, b"", BAD);
    tally.same("3.1: stray octets, a lookup", find(&stray, 0, 3), Ok(Some(2)));
    tally.same("3.1: stray octets, a verdict", asked(&stray, 541), Ok(Verdict::Pass));
}

/// The octets of the C calls: number 13, its place, nothing else written.
fn check_calls(tally: &mut Tally) {
    let bad = valley_with(|d| &mut d.tiles[2].table_name, BAD).listing();
    let none = [0xff; 4];
    let place = [13, 0, 0, 0, 5, 0, 0, 0, 2, 0, 0, 0];
    let called = report_call(&bad, &[7; 50], &[9; 21]);
    let answer = [&place[..], &[0; 8], &[9]].concat();
    tally.same("report, refused 13 5 2", (called.returned, called.answer), (1, answer));
    tally.same("its findings", called.findings, vec![7; 50]);
    let called = verdict_call(&bad, 541, &[9; 20]);
    let answer = [&[3, 0, 0, 0], &none[..], &place].concat();
    tally.same("verdict, refused 13 5 2", (called.returned, called.answer), (1, answer));
    let question = Question { contents_row: 9, zoom: 0, column: 0, row: 0 };
    let called = lookup_call(&bad, question, &[9; 16]);
    let answer = [&none[..], &place].concat();
    tally.same("lookup, refused 13 5 2", (called.returned, called.answer), (1, answer));
    let short = report_call(&bad, &[7; 50], &[9; 19]);
    tally.same("a short answer, before any refusal", short.returned, 0);
    tally.same("and kept", short.answer, vec![9; 19]);
}

/// Reading 3.8: the rules stay on octets, and letter case stays ASCII.
fn check_rules(tally: &mut Tally) {
    let named = |name: &str| {
        let mut draft = valley();
        let name = draft.text_apart(name);
        draft.contents[0].table_name = name;
        draft.sets[0].table_name = name;
        draft.matrices.iter_mut().for_each(|row| row.table_name = name);
        draft.tiles.iter_mut().for_each(|row| row.table_name = name);
        draft.extensions[0].table_name = name;
        draft
    };
    for name in ["vall\u{e9}e", "\u{8c37}", "\u{1f404}", "\u{feff}valley", "a\0b"] {
        tally.judged("3.8: a good name is a name", &named(name).listing(), "");
    }
    let mut twice = named("vall\u{e9}e");
    twice.content("valle\u{301}e", "features", MOMENT, None);
    tally.judged("3.8: another spelling is another name", &twice.listing(), "");
    twice.content("vall\u{e9}e", "features", MOMENT, None);
    tally.judged("3.8: the same octets are the same name", &twice.listing(), "131 2 0");
    tally.changed("3.8: no case but ASCII's: U+017F", "111 0 -", |d| {
        d.references[0].organization = d.text_apart("EP\u{17f}G");
    });
    tally.changed("3.8: nor U+FF2F", "112 1 -", |d| {
        d.references[1].organization = d.text_apart("N\u{ff2f}NE");
    });
    tally.changed("3.8: letters are ASCII's", "621 0 -", |d| {
        d.extensions[0].extension_name = d.text_apart("gpkg_\u{e9}");
    });
    tally.changed("3.8: digits are ASCII's", "151 0 -", |d| {
        d.contents[0].last_change = d.text_apart("20\u{662}-02-29T00:00:00.000Z");
    });
    tally.changed("3.8: 24 octets, not characters", "151 0 -", |d| {
        d.contents[0].last_change = d.text_apart("2024-02-29T00:00:00.000\u{ff3a}");
    });
}

/// The parts of "hay" with other names.
fn hay_named(names: &[u8]) -> Parts {
    let mut parts = hay();
    parts[6] = names.to_vec();
    parts
}

fn check_writes(tally: &mut Tally) {
    let bad = hay_named(b"h\xe9ytiles");
    tally.written("2026-03: \"h\u{e9}y\" in Latin-1", &bad, 208, "refused 13 2 0");
    tally.written("2026-03: in UTF-8", &hay_named("h\u{e9}tiles".as_bytes()), 208, "octets 208");
    let mut longer = hay_named(b"haytiles\xff");
    tally.written("3.1: an octet that no text covers", &longer, 209, "octets 209");
    set_u32(&mut longer[4], 32 + 4, 9);
    tally.written("3.1: and one that does", &longer, 209, "refused 13 5 1");
    set_u32(&mut longer[5], 28, 2);
    tally.written("3.6: the lowest table", &longer, 209, "refused 13 5 1");
    set_u32(&mut longer[4], 4, 9);
    tally.written("3.6: the lowest row", &longer, 209, "refused 13 5 0");
    for (table, row, at) in TEXT_FIELDS {
        let mut parts = alone(table, 4 * row);
        set_u32(&mut parts[table - 1], 2 * row + at + 4, 1);
        parts[6] = octets_of("c3 a9");
        let want = format!("refused 13 {table} 2");
        tally.written("13: every text field, cut", &parts, AMPLE, &want);
        set_u32(&mut parts[table - 1], 2 * row + at + 4, 2);
        let want = format!("octets {}", 64 + 4 * row + 2);
        tally.written("13: every text field, whole", &parts, AMPLE, &want);
    }
    let called = write_call(&bad, &[0xaa; 300], &[0xbb; 17]);
    let answer = vec![13, 0, 0, 0, 2, 0, 0, 0, 0, 0, 0, 0, 0, 0, 0, 0, 0xbb];
    tally.same("write, refused 13 2 0", (called.returned, called.answer), (1, answer));
    tally.same("nothing is written", called.listing, vec![0xaa; 300]);
}

/// In the writer 13 comes after 11, 5, 7 and 8, and before 12.
fn check_order_of_writes(tally: &mut Tally) {
    for room in [0, 63, 64, 207, 208, 300] {
        let bad = || hay_named(b"h\xe9ytiles");
        tally.written("13 before 12", &bad(), room, "refused 13 2 0");
        let mut ragged = bad();
        ragged[5].push(0);
        tally.written("11 before 13", &ragged, room, "refused 11 6 0");
        let mut above = bad();
        above[2] = vec![0; 12_336];
        tally.written("5 before 13", &above, room, "refused 5 3 0");
        let mut outside = bad();
        set_u32(&mut outside[5], 28, 2);
        tally.written("7 of table 6 before 13 of table 2", &outside, room, "refused 7 6 0");
        let mut flag = bad();
        set_u32(&mut flag[1], 36, 1);
        tally.written("8 before 13", &flag, room, "refused 8 2 0");
    }
    tally.written("12 where the names are good", &hay_with(2, 32, 1), 207, "refused 12 0 0");
}

/// Reading 3.8, and the samples of the readings 3.1 and 3.2, each whole.
fn check_desk(tally: &mut Tally) {
    // One tile, no other row; the names, its text, and what is printed.
    let findings = "finding 111 - -\nfinding 112 - -\nfinding 113 - -\nfinding 171 - -\n\
                    finding 341 0 -\nfinding 441 0 -\ntotal 6\n";
    let bad = "refused 13 5 0\n";
    for (names, start, length, want) in [
        ("61 ff", 0, 1, findings),
        ("61 ff", 0, 2, bad),
        ("61 ff", 1, 1, bad),
        ("c3 a9", 0, 2, findings),
        ("c3 a9", 0, 1, bad),
        ("c3 a9", 1, 1, bad),
        ("c3 a9", 1, 0, findings),
        ("c3 a9", 2, 0, findings),
    ] {
        let table_name = span(start, length);
        let tile = TileRow { table_name, zoom: 0, column: 0, row: 0 };
        let names_of = octets_of(names);
        let draft = Draft { tiles: vec![tile], names: names_of, ..Draft::default() };
        let shows = format!("3.1 to 3.3: names {names}, text ({start}, {length})");
        tally.same(&shows, printed(&draft.listing()).as_str(), want);
    }
    let mut stray = header_alone();
    // Two names, both stray: the length is 66, and the count of table 7 is 2.
    stray.extend([0xff, 0x80]);
    stray[4] = 66;
    stray[56] = 2;
    tally.judged("3.1: no texts", &stray, "111 - -, 112 - -, 113 - -, 171 - -");
}

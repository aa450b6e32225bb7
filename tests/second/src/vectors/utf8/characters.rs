//! Table 3-7 of the Unicode Standard, row by row: the ends of each range of
//! octets, one octet beyond each end, and each sequence cut at every place.
//! Texts are in hex, separated by commas.

use super::defined_as;
use crate::vectors::base::octets_of;
use crate::vectors::Tally;

/// A row of the table, texts that are well-formed, and texts that are not.
type Row = (&'static str, &'static str, &'static str);

const ROWS: [Row; 9] = [
    ("00..7F", "00, 01, 1f, 20, 61, 7e, 7f, 61 00 62", "80, bf, 61 80, 61 bf, 80 61"),
    (
        "C2..DF 80..BF",
        "c2 80, c2 bf, c3 a9, df 80, df bf",
        "c0, c0 80, c0 af, c0 bf, c1, c1 80, c1 bf, c2 7f, c2 c0, df 7f, df c0, c2, df, \
         c2 80 80, df bf bf, c2 c2 80",
    ),
    (
        "E0 A0..BF 80..BF",
        "e0 a0 80, e0 a0 bf, e0 bf 80, e0 bf bf",
        "e0 9f 80, e0 9f bf, e0 80 80, e0 80 af, e0 c0 80, e0 7f 80, e0 a0 7f, e0 a0 c0, \
         e0 bf 7f, e0 bf c0, e0, e0 a0, e0 bf, e0 a0 80 80",
    ),
    (
        "E1..EC 80..BF 80..BF",
        "e1 80 80, e1 80 bf, e1 bf 80, e1 bf bf, ec 80 80, ec bf bf, e2 82 ac",
        "e1 7f 80, e1 c0 80, e1 80 7f, e1 80 c0, e1 bf 7f, e1 bf c0, ec 7f bf, ec c0 bf, \
         ec 80 7f, ec 80 c0, e1, e1 80, e1 bf, ec, ec 80, ec bf, e2 82, e2 82 ac 80",
    ),
    (
        "ED 80..9F 80..BF",
        "ed 80 80, ed 80 bf, ed 9f 80, ed 9f bf",
        "ed a0 80, ed a0 bf, ed af bf, ed b0 80, ed bf bf, ed 7f 80, ed c0 80, ed 80 7f, \
         ed 80 c0, ed 9f 7f, ed 9f c0, ed, ed 80, ed 9f, ed a0, ed a0 bd ed b8 80",
    ),
    (
        "EE..EF 80..BF 80..BF",
        "ee 80 80, ee 80 bf, ee bf bf, ef 80 80, ef bf 80, ef bf bf",
        "ee 7f 80, ee c0 80, ee 80 7f, ee 80 c0, ef 7f bf, ef c0 bf, ef bf 7f, ef bf c0, ee, \
         ee 80, ee bf, ef, ef 80, ef bf, ef bf bf bf",
    ),
    (
        "F0 90..BF 80..BF 80..BF",
        "f0 90 80 80, f0 90 bf bf, f0 bf 80 80, f0 bf bf bf, f0 9f 90 84",
        "f0 8f 80 80, f0 8f bf bf, f0 80 80 80, f0 80 80 af, f0 c0 80 80, f0 7f 80 80, \
         f0 90 7f 80, f0 90 c0 80, f0 90 80 7f, f0 90 80 c0, f0 bf 7f bf, f0 bf c0 bf, \
         f0 bf bf 7f, f0 bf bf c0, f0, f0 90, f0 bf, f0 90 80, f0 bf bf, f0 9f 90, \
         f0 90 80 80 80",
    ),
    (
        "F1..F3 80..BF 80..BF 80..BF",
        "f1 80 80 80, f1 80 80 bf, f1 bf bf bf, f3 80 80 80, f3 bf bf bf",
        "f1 7f 80 80, f1 c0 80 80, f1 80 7f 80, f1 80 c0 80, f1 80 80 7f, f1 80 80 c0, \
         f3 7f bf bf, f3 c0 bf bf, f3 bf 7f bf, f3 bf c0 bf, f3 bf bf 7f, f3 bf bf c0, f1, \
         f1 80, f1 80 80, f3, f3 bf, f3 bf bf",
    ),
    (
        "F4 80..8F 80..BF 80..BF",
        "f4 80 80 80, f4 80 bf bf, f4 8f 80 80, f4 8f bf bf",
        "f4 90 80 80, f4 90 bf bf, f4 bf bf bf, f4 7f 80 80, f4 c0 80 80, f4 80 7f 80, \
         f4 80 c0 80, f4 80 80 7f, f4 80 80 c0, f4 8f 7f bf, f4 8f c0 bf, f4 8f bf 7f, \
         f4 8f bf c0, f4, f4 80, f4 8f, f4 80 80, f4 8f bf",
    ),
];

/// First octets that no row has, alone and with what would follow them if one
/// had; and the marks of UTF-16.
const IN_NO_ROW: &str =
    "f5, f5 80 80 80, f6 80 80 80, f7, f7 bf bf bf, f8, f8 88 80 80 80, fb bf bf bf bf, fc, \
     fc 84 80 80 80 80, fd bf bf bf bf bf, fe, ff, fe ff, ff fe, ff fe 76 00";

/// "vallée" and "Höhe" in Latin-1, a quotation in Windows-1252, "山" in Shift JIS.
const IN_CODE_PAGES: &str = "76 61 6c 6c e9 65, 48 f6 68 65, 93 68 61 79 94, 8e 52";

/// Reading 3.5: what cannot be printed, or is nothing yet, is good all the same.
const GOOD_ALL_THE_SAME: [(&str, &str); 13] = [
    ("U+0000", "00"),
    ("a control", "1b"),
    ("U+0085, a control of two octets", "c2 85"),
    ("noncharacter U+FFFE", "ef bf be"),
    ("noncharacter U+FFFF", "ef bf bf"),
    ("noncharacter U+FDD0", "ef b7 90"),
    ("noncharacter U+10FFFF", "f4 8f bf bf"),
    ("a leading U+FEFF", "ef bb bf 61"),
    ("U+FEFF further on", "61 ef bb bf"),
    ("unassigned U+0378", "cd b8"),
    ("private U+E000", "ee 80 80"),
    ("private U+F0000", "f3 b0 80 80"),
    ("a combining accent with nothing before it", "cc 81"),
];

pub fn check(tally: &mut Tally) {
    let bad = "refused 13 1 0";
    for (row, good_texts, bad_texts) in ROWS {
        check_texts(tally, row, good_texts, "");
        check_texts(tally, row, bad_texts, bad);
    }
    check_texts(tally, "in no row", IN_NO_ROW, bad);
    check_texts(tally, "in code pages", IN_CODE_PAGES, bad);
    for (shows, hex) in GOOD_ALL_THE_SAME {
        check_everywhere(tally, &format!("3.5: {shows}"), hex, "");
    }
}

fn check_texts(tally: &mut Tally, row: &str, texts: &str, want: &str) {
    for hex in texts.split(", ") {
        check_everywhere(tally, &format!("3.4: {row}"), hex, want);
    }
}

/// A text by itself between octets that it does not have, and one that goes on
/// before it and after it.
fn check_everywhere(tally: &mut Tally, shows: &str, hex: &str, want: &str) {
    let octets = octets_of(hex);
    for (before, after) in [("", ""), ("61", "61"), ("f0 90", "80 80 80"), ("ff", "ff")] {
        let listing = defined_as(&octets_of(before), &octets, &octets_of(after));
        let shows = format!("{shows}: {hex} between {before:?} and {after:?}");
        tally.judged(&shows, &listing, want);
    }
    for begun in [1, 3, 7, 8, 15, 16] {
        let begun = "a".repeat(begun);
        for (before, after) in
            [(begun.as_str(), ""), (&begun, "z"), ("\u{e9}\u{20ac}", "\u{1f404}")]
        {
            let text = [before.as_bytes(), &octets, after.as_bytes()].concat();
            let shows = format!("{shows}: {before:?}, {hex}, {after:?}");
            tally.judged(&shows, &defined_as(&[], &text, &[]), want);
        }
    }
}

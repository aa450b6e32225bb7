//! 1015 and 1025, and what is not judged.

use super::super::base::{valley, MOMENT};
use super::Tally;
use crate::calls::{verdict, Verdict};
use crate::listing::Refusal;
use crate::make::MetadataDraft;

pub fn check(tally: &mut Tally) {
    check_files(tally);
    check_parents(tally);
    check_far_ids(tally);
    check_not_judged(tally);
    check_verdicts(tally);
}

/// Files of these ids, and a reference of each file and parent.
fn judged(
    tally: &mut Tally,
    shows: &str,
    ids: &[i64],
    references: &[(i64, Option<i64>)],
    want: &str,
) {
    let mut draft = MetadataDraft::default();
    ids.iter().for_each(|&id| draft.metadata(id, "dataset"));
    for &(file_id, parent_id) in references {
        draft.reference("geopackage", [None, None], MOMENT, file_id);
        if let Some(row) = draft.references.last_mut() {
            row.set_numbers(None, parent_id);
        }
    }
    tally.noted(shows, &draft.listing(), want);
}

/// 5.14: the id of some row.
fn check_files(tally: &mut Tally) {
    judged(tally, "5.14: the first id", &[5, 6, 7], &[(5, None)], "");
    judged(tally, "5.14: the last id", &[5, 6, 7], &[(7, None)], "");
    judged(tally, "5.14: no row's", &[5, 6, 7], &[(4, None)], "1015 0 -");
    judged(tally, "5.14: a row number is no id", &[5, 6, 7], &[(0, None)], "1015 0 -");
    judged(tally, "5.14: no rows", &[], &[(0, None)], "1015 0 -");
    judged(tally, "5.14: id 0", &[0], &[(0, None)], "");
    let three = [(5, None), (4, None), (8, None)];
    judged(tally, "5.14: each row by itself", &[5, 6], &three, "1015 1 -, 1015 2 -");
    let last = &(0..256).collect::<Vec<i64>>()[..];
    judged(tally, "5.14: the last of 256", last, &[(255, None)], "");
    judged(tally, "5.14: not among 256", last, &[(256, None)], "1015 0 -");
}

/// 5.15: present, and no row's or this row's file; one finding though both hold.
fn check_parents(tally: &mut Tally) {
    judged(tally, "5.15: another's id", &[1, 2], &[(1, Some(2))], "");
    judged(tally, "5.15: absent", &[1, 2], &[(1, None)], "");
    judged(tally, "5.15: no row's", &[1, 2], &[(1, Some(3))], "1025 0 -");
    judged(tally, "5.15: its own file", &[1, 2], &[(1, Some(1))], "1025 0 -");
    judged(tally, "5.15: both", &[1, 2], &[(3, Some(3))], "1015 0 -, 1025 0 -");
    judged(tally, "5.15: good, the file no row's", &[1, 2], &[(3, Some(1))], "1015 0 -");
    judged(tally, "5.15: neither is a row's", &[1, 2], &[(3, Some(4))], "1015 0 -, 1025 0 -");
    judged(tally, "5.15: a present 0 needs an id 0", &[1, 2], &[(1, Some(0))], "1025 0 -");
    judged(tally, "5.15: and there is one", &[0, 1], &[(1, Some(0))], "");
    judged(tally, "5.15: 0 and 0", &[0, 1], &[(0, Some(0))], "1025 0 -");
    judged(tally, "5.15: an absent one is no 0", &[0, 1], &[(0, None)], "");
    judged(tally, "5.15: no rows", &[], &[(0, Some(0))], "1015 0 -, 1025 0 -");
    let four = [(1, Some(1)), (1, Some(2)), (2, Some(2)), (2, Some(9))];
    judged(tally, "5.15: each row by itself", &[1, 2], &four, "1025 0 -, 1025 2 -, 1025 3 -");
}

/// Whole numbers of 64 bits.
fn check_far_ids(tally: &mut Tally) {
    let far = [i64::MIN, -4_294_967_295, -1, 4_294_967_297, i64::MAX];
    for id in far {
        judged(tally, "a far id", &[id, 1], &[(id, Some(1)), (1, Some(id))], "");
    }
    let pairs = [
        (1, 4_294_967_297),
        (0, 4_294_967_296),
        (0, i64::MIN),
        (-1, 4_294_967_295),
        (1, 257),
        (1, i64::MIN + 1),
        (i64::MAX, -1),
    ];
    for (id, other) in pairs {
        let both = "1015 0 -, 1025 1 -";
        judged(tally, "no cut", &[id, 9], &[(other, Some(id)), (id, Some(other))], both);
        let both = [(id, Some(other)), (other, Some(id))];
        judged(tally, "two ids, not one", &[id, other], &both, "");
    }
}

/// 5.16: ids that repeat, and cycles of parents.
fn check_not_judged(tally: &mut Tally) {
    let all = [(5, Some(6)), (6, Some(5)), (5, None), (5, Some(6))];
    judged(tally, "5.16: ids that repeat", &[5, 5, 6, 6, 5], &all, "");
    let cycle = [(1, Some(2)), (2, Some(3)), (3, Some(1))];
    judged(tally, "5.16: a cycle of parents", &[1, 2, 3], &cycle, "");
    judged(tally, "5.16: two rows alike", &[1, 2], &[(1, Some(2)), (1, Some(2))], "");
    judged(tally, "5.16: two parents", &[1, 2, 3], &[(1, Some(2)), (1, Some(3))], "");
    judged(tally, "5.16: files without a reference", &[1, 2, 3], &[], "");
}

/// 5.17: no verdict is asked for, so each of them stays refusal 9.
fn check_verdicts(tally: &mut Tally) {
    let listing = valley().listing();
    for code in [935, 945, 955, 965, 975, 985, 995, 1_005, 1_015, 1_025, 1_035] {
        let got: Result<Verdict, Refusal> = verdict(&listing, code);
        tally.same("5.17: a verdict", got, Err(Refusal::at_large(9)));
    }
}

//! The octets of the C call.

use super::super::base::valley;
use super::super::calls::octets as words;
use super::{survey, Tally};
use crate::calls::report_metadata_call;

const NONE: u32 = 4_294_967_295;

pub fn check(tally: &mut Tally) {
    check_answers(tally);
    check_findings_buffers(tally);
    check_refused(tally);
    check_short_answers(tally);
}

/// The survey with three findings: 945 1, 995 0 and 1005 4.
fn with_findings() -> Vec<u8> {
    let mut draft = survey();
    draft.metadata[1].scope = draft.text("style");
    draft.references[0].flags = 1;
    draft.references[4].timestamp.length = 23;
    draft.listing()
}

const FINDINGS: [u32; 9] = [945, 1, NONE, 995, 0, NONE, 1_005, 4, NONE];

/// As report's: number, table, row, total, written.
fn check_answers(tally: &mut Tally) {
    let listing = valley().listing();
    let called = report_metadata_call(&listing, &survey().listing(), &[0xaa; 24], &[0xbb; 23]);
    tally.same("metadata returns 1", called.returned, 1);
    tally.same("octets past the answer", called.answer, words(&[0, 0, 0, 0, 0], &[0xbb; 3]));
    tally.same("no finding, no word", called.findings, vec![0xaa; 24]);
    let called = report_metadata_call(&listing, &with_findings(), &[0xaa; 40], &[0xbb; 20]);
    let answer = vec![0, 0, 0, 0, 0, 0, 0, 0, 0, 0, 0, 0, 3, 0, 0, 0, 3, 0, 0, 0];
    tally.same("metadata: answer", called.answer, answer);
    tally.same("metadata: findings", called.findings, words(&FINDINGS, &[0xaa; 4]));
    let called = report_metadata_call(&listing, &with_findings(), &[0; 12], &[0; 20]);
    let first = vec![0xb1, 3, 0, 0, 1, 0, 0, 0, 0xff, 0xff, 0xff, 0xff];
    tally.same("945 1 - in octets", called.findings, first);
}

/// Written is the smaller of the total and a third of the buffer's words.
fn check_findings_buffers(tally: &mut Tally) {
    let (listing, metadata) = (valley().listing(), with_findings());
    for (length, written) in [
        (0, 0),
        (1, 0),
        (4, 0),
        (11, 0),
        (12, 1),
        (13, 1),
        (23, 1),
        (24, 2),
        (35, 2),
        (36, 3),
        (37, 3),
        (48, 3),
    ] {
        let called = report_metadata_call(&listing, &metadata, &vec![0xaa; length], &[0xbb; 20]);
        let shows = format!("metadata: a findings buffer of {length}");
        tally.same(&shows, called.answer, words(&[0, 0, 0, 3, written as u32], &[]));
        let rest = vec![0xaa; length - 12 * written];
        tally.same(&shows, called.findings, words(&FINDINGS[..3 * written], &rest));
    }
}

fn check_refused(tally: &mut Tally) {
    let (listing, metadata) = (valley().listing(), with_findings());
    let mut outside = valley();
    outside.tiles[2].table_name.start = 97;
    let mut flags = survey();
    flags.references[3].flags = 4;
    let cases = [
        (&listing, &Vec::new(), [1, 0, 0, 0, 0]),
        (&outside.listing(), &metadata, [7, 5, 2, 0, 0]),
        (&outside.listing(), &Vec::new(), [7, 5, 2, 0, 0]),
        (&listing, &flags.listing(), [8, 12, 3, 0, 0]),
    ];
    for (listing, metadata, answer) in cases {
        let called = report_metadata_call(listing, metadata, &[0xaa; 36], &[0xbb; 21]);
        tally.same("a refused report on metadata returns 1", called.returned, 1);
        tally.same("metadata refused: answer", called.answer, words(&answer, &[0xbb]));
        tally.same("metadata refused: findings", called.findings, vec![0xaa; 36]);
    }
}

/// Too short an answer: nothing is written anywhere, before any refusal.
fn check_short_answers(tally: &mut Tally) {
    for listing in [valley().listing(), Vec::new()] {
        for metadata in [with_findings(), Vec::new()] {
            for length in [0, 1, 12, 16, 19] {
                let called =
                    report_metadata_call(&listing, &metadata, &[3; 36], &vec![0xee; length]);
                tally.same("metadata: a short answer returns 0", called.returned, 0);
                tally.same("metadata: answer kept", called.answer, vec![0xee; length]);
                tally.same("metadata: findings kept", called.findings, vec![3; 36]);
            }
        }
    }
}

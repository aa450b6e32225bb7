//! The octets of the three C calls.

use super::base::{header_alone, valley};
use super::Tally;
use crate::calls::{lookup_call, report_call, verdict_call, Question};
use crate::make::Draft;

const NONE: u32 = 4_294_967_295;

pub fn check(tally: &mut Tally) {
    check_report_answers(tally);
    check_findings_buffers(tally);
    check_refused_reports(tally);
    check_verdicts(tally);
    check_lookups(tally);
    check_short_answers(tally);
}

/// Words in octets, and what follows them.
pub fn octets(words: &[u32], after: &[u8]) -> Vec<u8> {
    let mut octets: Vec<u8> = words.iter().flat_map(|word| word.to_le_bytes()).collect();
    octets.extend_from_slice(after);
    octets
}

/// The valley with tile row 2's name outside the names: refused 7 5 2.
fn refused_listing() -> Vec<u8> {
    let mut draft: Draft = valley();
    draft.tiles[2].table_name.length = 1_000_000;
    draft.listing()
}

fn check_report_answers(tally: &mut Tally) {
    let called = report_call(&header_alone(), &[0xaa; 100], &[0xbb; 20]);
    tally.same("report returns 1", called.returned, 1);
    let want = vec![0, 0, 0, 0, 0, 0, 0, 0, 0, 0, 0, 0, 4, 0, 0, 0, 4, 0, 0, 0];
    tally.same("report: number, table, row, total, written", called.answer, want);
    let four =
        octets(&[111, NONE, NONE, 112, NONE, NONE, 113, NONE, NONE, 171, NONE, NONE], &[0xaa; 52]);
    tally.same("code, row and partner of each", called.findings, four);
    let called = report_call(&valley().listing(), &[0xaa; 24], &[0xbb; 23]);
    let want = octets(&[0, 0, 0, 0, 0], &[0xbb; 3]);
    tally.same("octets past the answer", called.answer, want);
    tally.same("no finding, no word", called.findings, vec![0xaa; 24]);
    let mut draft = valley();
    draft.tile("valley", 2, 3, 3);
    let called = report_call(&draft.listing(), &[0xaa; 12], &[0; 20]);
    let want = vec![0x1d, 2, 0, 0, 3, 0, 0, 0, 2, 0, 0, 0];
    tally.same("541 3 2 in octets", called.findings, want);
}

/// Written is the smaller of the total and a third of the buffer's words.
fn check_findings_buffers(tally: &mut Tally) {
    let header = header_alone();
    let all = [111, NONE, NONE, 112, NONE, NONE, 113, NONE, NONE, 171, NONE, NONE];
    for (length, written) in [
        (0, 0),
        (1, 0),
        (4, 0),
        (8, 0),
        (11, 0),
        (12, 1),
        (13, 1),
        (23, 1),
        (24, 2),
        (35, 2),
        (36, 3),
        (47, 3),
        (48, 4),
        (49, 4),
        (60, 4),
        (1_000, 4),
    ] {
        let called = report_call(&header, &vec![0x5a; length], &[0; 20]);
        let shows = format!("a findings buffer of {length} octets");
        let answer = octets(&[0, 0, 0, 4, written], &[]);
        tally.same(&shows, called.answer, answer);
        let words = 3 * written as usize;
        let kept = vec![0x5a; length - 4 * words];
        let findings = octets(&all[..words], &kept);
        tally.same(&shows, called.findings, findings);
    }
}

/// A refused report has total 0, written 0, and every word keeps its value.
fn check_refused_reports(tally: &mut Tally) {
    let called = report_call(&refused_listing(), &[7; 50], &[9; 20]);
    tally.same("a refused report returns 1", called.returned, 1);
    let want = octets(&[7, 5, 2, 0, 0], &[]);
    tally.same("a refused report's answer", called.answer, want);
    tally.same("a refused report's findings", called.findings, vec![7; 50]);
    let called = report_call(&[], &[7; 50], &[9; 20]);
    let want = octets(&[1, 0, 0, 0, 0], &[]);
    tally.same("a report on no octets", called.answer, want);
}

/// 0 pass, 1 fail, 2 not testable, 3 refused; then row, number and place.
fn check_verdicts(tally: &mut Tally) {
    let mut doubled = valley();
    doubled.tile("valley", 2, 3, 3);
    let (good, doubled) = (valley().listing(), doubled.listing());
    let (header, refused) = (header_alone(), refused_listing());
    let cases = [
        ("pass", &good, 541, [0, NONE, 0, 0, 0]),
        ("fail with a row", &doubled, 541, [1, 3, 0, 0, 0]),
        ("fail without a row", &header, 171, [1, NONE, 0, 0, 0]),
        ("not testable", &header, 541, [2, NONE, 0, 0, 0]),
        ("refused", &refused, 541, [3, NONE, 7, 5, 2]),
        ("unknown code", &refused, 542, [3, NONE, 9, 0, 0]),
    ];
    for (shows, listing, code, words) in cases {
        let called = verdict_call(listing, code, &[0xcc; 21]);
        tally.same("verdict returns 1", called.returned, 1);
        let want = octets(&words, &[0xcc]);
        tally.same(&format!("verdict: {shows}"), called.answer, want);
    }
}

fn check_lookups(tally: &mut Tally) {
    let question = |contents_row, column| Question { contents_row, zoom: 2, column, row: 3 };
    let good = valley().listing();
    let refused = refused_listing();
    let cases = [
        ("a tile", &good, question(0, 3), [2, 0, 0, 0]),
        ("no tile", &good, question(0, 2), [NONE, 0, 0, 0]),
        ("no contents row", &good, question(1, 3), [NONE, 10, 0, 0]),
        ("refused", &refused, question(0, 3), [NONE, 7, 5, 2]),
    ];
    for (shows, listing, question, words) in cases {
        let called = lookup_call(listing, question, &[0xdd; 18]);
        tally.same("lookup returns 1", called.returned, 1);
        let want = octets(&words, &[0xdd; 2]);
        tally.same(&format!("lookup: {shows}"), called.answer, want);
        let short = lookup_call(listing, question, &[0xdd; 15]);
        tally.same("lookup: 15 octets are too few", short.returned, 0);
        tally.same("lookup: nothing written", short.answer, vec![0xdd; 15]);
    }
}

/// Too short: nothing is written and 0 is returned before any refusal.
fn check_short_answers(tally: &mut Tally) {
    for length in [0, 1, 16, 19] {
        for listing in [header_alone(), refused_listing(), Vec::new()] {
            let answer = vec![0xee; length];
            let called = report_call(&listing, &[3; 48], &answer);
            tally.same("report: short answer returns 0", called.returned, 0);
            tally.same("report: answer kept", &called.answer, &answer);
            tally.same("report: findings kept", called.findings, vec![3; 48]);
            let called = verdict_call(&listing, 171, &answer);
            tally.same("verdict: short answer returns 0", called.returned, 0);
            tally.same("verdict: answer kept", &called.answer, &answer);
        }
    }
}

//! Reading 7: the longest listing has every table full.

use super::Tally;
use crate::calls::report;
use crate::make::{set_count, set_offset, set_true_length, set_u32};
use crate::rules::Finding;

/// Every table full of zeros: 9,762,880 octets.
fn all_full() -> Vec<u8> {
    let mut octets = vec![0; 9_762_880];
    set_u32(&mut octets, 0, 1);
    set_true_length(&mut octets);
    let header = [
        (256, 64),
        (256, 8_256),
        (256, 18_496),
        (4_096, 30_784),
        (262_144, 292_928),
        (1_024, 8_681_536),
        (1_048_576, 8_714_304),
    ];
    for (table, (count, offset)) in (1..).zip(header) {
        set_count(&mut octets, table, count);
        set_offset(&mut octets, table, offset);
    }
    octets
}

/// How many findings each code has there. All texts are empty, all numbers 0,
/// and every NULL flag is down.
const COUNTS: [(u32, usize); 27] = [
    (101, 255),
    (111, 1),
    (112, 1),
    (113, 256),
    (131, 255),
    (151, 256),
    (171, 1),
    (341, 262_144),
    (391, 256),
    (392, 255),
    (431, 4_096),
    (432, 4_095),
    (451, 4_096),
    (452, 4_096),
    (471, 4_096),
    (481, 4_096),
    (491, 4_096),
    (501, 4_096),
    (511, 4_096),
    (521, 4_096),
    (541, 262_143),
    (561, 262_144),
    (571, 262_144),
    (621, 1_024),
    (622, 1_023),
    (641, 1_024),
    (0, 1_094_141),
];

pub fn check(tally: &mut Tally) {
    let octets = all_full();
    let findings = report(&octets).unwrap_or_default();
    for (code, want) in COUNTS {
        let is_counted = |finding: &&Finding| code == 0 || finding.code == code;
        let got = findings.iter().filter(is_counted).count();
        let shows = format!("reading 7: all tables full, code {code} (0: all)");
        tally.same(&shows, got, want);
    }
    let words = |finding: Option<&Finding>| finding.map(Finding::words);
    tally.same("first", words(findings.first()), Some([101, 1, 0]));
    let last = Some([641, 1_023, 4_294_967_295]);
    tally.same("last", words(findings.last()), last);
    check_one_too_many(tally, octets);
}

/// The same with one octet more: it is too long before it is anything else.
fn check_one_too_many(tally: &mut Tally, mut octets: Vec<u8>) {
    octets.push(0);
    set_true_length(&mut octets);
    set_count(&mut octets, 7, 1_048_577);
    tally.judged("2 before 5", &octets, "refused 2 0 0");
}

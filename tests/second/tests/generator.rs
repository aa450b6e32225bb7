//! The maker against the judge: what the maker knows of its listings, by the
//! way it made them, the judge must say of them.

use std::collections::HashSet;

use second::calls::{lookup, report, verdict, Verdict};
use second::generate::{full, generate, good_pack, one_text, questions, OneText};
use second::generate::{one_fault, one_of_characters, one_span};
use second::generate::{FULL_KINDS, HOSTILE_KINDS, LIMITS, SERIES};
use second::listing::NONE;
use second::rules::CODES;

#[test]
fn good_packs_have_no_findings() {
    for seed in 0..500 {
        assert_eq!(report(&good_pack(seed)), Ok(vec![]), "seed {seed}");
    }
}

#[test]
fn planted_faults_show_and_their_near_misses_do_not() {
    let mut shown = [0; 2];
    for seed in 0..36 * 150 {
        let (listing, code, must_show) = one_fault(seed);
        let findings = report(&listing).unwrap_or_default();
        let shows = findings.iter().any(|finding| finding.code == code);
        assert_eq!(shows, must_show, "seed {seed}, code {code}");
        shown[usize::from(shows)] += 1;
    }
    assert!(shown[0] > 1_000 && shown[1] > 1_000, "{shown:?}");
}

#[test]
fn spans_show_where_they_are_beyond_the_edge() {
    let mut shown = [0; 2];
    for seed in 0..50_000 {
        let (listing, must_show) = one_span(seed);
        let shows = [451, 452].map(|code| verdict(&listing, code) == Ok(Verdict::Fail(0)));
        assert_eq!(shows, must_show, "seed {seed}");
        shown[usize::from(shows[0])] += 1;
    }
    assert!(shown[0] > 10_000 && shown[1] > 10_000, "{shown:?}");
}

#[test]
fn ill_texts_are_refused_at_their_place_and_no_others_are() {
    let mut counts = [0; 2];
    for seed in 0..6_000 {
        let (listing, place) = one_of_characters(seed);
        let refused = report(&listing).err().map(|r| (r.number, r.table, r.row));
        let must = place.map(|(table, row)| (13, table, row));
        assert_eq!(refused, must, "seed {seed}");
        counts[usize::from(must.is_some())] += 1;
    }
    assert!(counts.iter().all(|&count| count > 2_000), "{counts:?}");
}

/// The series of texts, each asked of `from_utf8` by itself.
#[test]
fn texts_are_refused_where_they_are_not_utf8() {
    let mut counts = [0; 2];
    let mut texts = HashSet::new();
    for number in 0..SERIES {
        let OneText { listing, text } = one_text(number);
        let refused = report(&listing).err().map(|r| r.number);
        let must = std::str::from_utf8(&text).err().map(|_| 13);
        assert_eq!(refused, must, "text {number}");
        counts[usize::from(must.is_some())] += 1;
        assert!(number % 2 == 1 || texts.insert(text), "text {number} is there twice");
    }
    assert!(counts[0] > 300 && counts[1] > 6_000, "{counts:?}");
}

#[test]
fn a_seed_always_makes_the_same_listing() {
    for seed in 0..128 {
        let (one, other) = (generate(seed), generate(seed));
        assert_eq!(one.kind, other.kind);
        assert!(one.listing == other.listing, "seed {seed}");
    }
}

#[test]
fn listings_are_mostly_small_enough_for_the_desk() {
    let sizes = (0..640).map(|seed| generate(seed).listing.len());
    let small = sizes.filter(|&size| size <= 65_536).count();
    assert!(small > 600, "{small} of 640");
}

/// The first finding of each code in the report is the verdict on that code.
#[test]
fn verdicts_agree_with_the_report() {
    for seed in 0..640 {
        let listing = generate(seed).listing;
        let outcome = report(&listing);
        for code in &CODES {
            let got = verdict(&listing, code.number);
            let findings = match &outcome {
                Ok(findings) => findings,
                Err(refusal) => {
                    assert_eq!(got, Err(*refusal), "seed {seed}");
                    continue;
                }
            };
            let first = findings.iter().find(|f| f.code == code.number);
            match (got, first) {
                (Ok(Verdict::Fail(row)), Some(finding)) => assert_eq!(row, finding.row),
                (Ok(Verdict::Pass | Verdict::NotTestable), None) => {}
                _ => panic!("seed {seed}, code {}: {got:?}, {first:?}", code.number),
            }
        }
    }
}

/// Findings come by code, then by row, none last, and no row twice in a code.
#[test]
fn findings_are_in_order() {
    for seed in 0..640 {
        let findings = report(&generate(seed).listing).unwrap_or_default();
        let is_rising = findings
            .windows(2)
            .all(|pair| (pair[0].code, pair[0].row) < (pair[1].code, pair[1].row));
        assert!(is_rising, "seed {seed}");
        assert!(findings.iter().all(|f| f.partner == NONE || f.row != NONE));
    }
}

#[test]
fn full_sizes_are_as_they_say() {
    for kind in FULL_KINDS.iter().chain(&HOSTILE_KINDS) {
        for tiles in [0, 1, 500, 3_000, 262_144] {
            let listing = full(kind, tiles).unwrap_or_default();
            let count = second::listing::read(&listing).map(|l| l.count(5));
            assert_eq!(count, Ok(tiles), "{kind}");
        }
    }
    assert!(full("nothing", 1).is_none());
    let clean = ["sorted", "shuffled", "reversed", "layers", "long-names", "folded", "own-place"];
    for kind in clean.iter().chain(&["accents", "accents-shuffled"]) {
        let findings = full(kind, 3_000).map(|listing| report(&listing));
        assert_eq!(findings, Some(Ok(vec![])), "{kind}");
    }
    let doubled = full("pyramids", 3_000).map(|listing| report(&listing));
    let doubled = doubled.and_then(Result::ok).unwrap_or_default();
    assert_eq!(doubled.len(), 1_500);
    assert!(doubled.iter().all(|finding| finding.code == 541));
}

#[test]
fn limits_are_at_the_limit() {
    for (name, make) in &LIMITS {
        let outcome = report(&make()).map(|_| ()).map_err(|r| (r.number, r.row));
        let want = match *name {
            "9,762,881 octets" => Err((2, 0)),
            "a text outside in the last row" => Err((7, 262_143)),
            "an ill text in the last row" => Err((13, 262_143)),
            name if name.contains("above") => Err((5, 0)),
            _ => Ok(()),
        };
        assert_eq!(outcome, want, "{name}");
    }
}

/// No octets make the judge panic; a lookup is refused where a report is.
#[test]
fn every_octet_string_has_an_answer() {
    for seed in 0..640 {
        let mut listing = generate(seed).listing;
        let asked = questions(seed, &listing);
        for at in (0..listing.len().min(700)).step_by(13) {
            listing[at] ^= 0x81;
            let outcome = report(&listing);
            for question in &asked.lookups {
                let answer = lookup(&listing, *question);
                let refused = answer.err().filter(|refusal| refusal.number != 10);
                assert_eq!(refused, outcome.as_ref().err().copied(), "seed {seed}");
            }
        }
    }
}

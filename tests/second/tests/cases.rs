//! The cases for the comparison: each listing meets the calls that matter, and
//! what is expected of a call agrees with what the paper says of all calls.

use second::calls::report;
use second::cases::{calls, column_calls, filled, metadata_calls, write_seeds, writes};
use second::cases::{Asked, Call, Expected, Given};
use second::generate::{generate, generate_columns, generate_metadata, generate_parts};
use second::listing::read;
use second::rules::CODES;

const SEEDS: std::ops::Range<u64> = 0..144;
const FULL_WORK: usize = 2 << 20;

fn cases() -> impl Iterator<Item = (u64, Vec<u8>, Vec<Call>)> {
    SEEDS.map(|seed| {
        let listing = generate(seed).listing;
        let calls = calls(seed, &listing);
        (seed, listing, calls)
    })
}

/// The lengths of a buffer in the reports among some calls.
fn lengths(calls: &[Call], length: fn(&Call) -> usize) -> Vec<usize> {
    calls.iter().filter(|call| call.asked == Asked::Report).map(length).collect()
}

#[test]
fn each_listing_meets_buffers_on_both_sides_of_their_lines() {
    for (seed, listing, calls) in cases() {
        let exact = report(&listing).map_or(0, |found| found.len()) * 12;
        let findings = lengths(&calls, |call| call.findings);
        for length in [11, exact, exact.saturating_sub(1)] {
            assert!(findings.contains(&length), "seed {seed}: findings of {length}");
        }
        assert!(findings.iter().any(|&length| length > exact), "seed {seed}");
        let answers = lengths(&calls, |call| call.answer);
        for length in [0, 19, 20] {
            assert!(answers.contains(&length), "seed {seed}: an answer of {length}");
        }
        let works = lengths(&calls, |call| call.work);
        for length in [0, FULL_WORK] {
            assert!(works.contains(&length), "seed {seed}: work of {length}");
        }
        assert!(works.iter().any(|work| (1..=64).contains(work)), "seed {seed}");
    }
}

#[test]
fn each_listing_meets_every_code_and_one_that_is_none() {
    for (seed, _, calls) in cases() {
        let asked = |code: u32| {
            let verdicts = calls.iter().filter(|call| call.asked == Asked::Verdict(code));
            verdicts.filter(|call| call.answer >= 20).count()
        };
        assert!(CODES.iter().all(|code| asked(code.number) > 0), "seed {seed}");
        let listed: usize = CODES.iter().map(|code| asked(code.number)).sum();
        let is_answered_verdict =
            |call: &&Call| matches!(call.asked, Asked::Verdict(_)) && call.answer >= 20;
        assert!(calls.iter().filter(is_answered_verdict).count() > listed, "seed {seed}");
    }
}

#[test]
fn a_short_answer_and_a_refusal_leave_everything_else_as_it_was() {
    for (seed, listing, calls) in cases() {
        for call in calls {
            let Expected { returned, output, answer, keeps_work } =
                call.expected(Given::alone(&listing));
            assert_eq!((output.len(), answer.len()), (call.findings, call.answer));
            if returned == 0 {
                assert_eq!(answer, filled(call.answer, call.fill), "seed {seed}");
            }
            if returned == 0 || read(&listing).is_err() {
                assert_eq!(output, filled(call.findings, call.fill), "seed {seed}");
                assert!(keeps_work || matches!(call.asked, Asked::Lookup(_)), "seed {seed}");
            }
        }
    }
}

/// Equal but for `work`, calls are to give equal octets.
#[test]
fn work_never_changes_what_is_expected() {
    for (seed, listing, calls) in cases() {
        for call in calls {
            let without = Call { work: 0, ..call };
            assert_eq!(
                without.expected(Given::alone(&listing)),
                call.expected(Given::alone(&listing)),
                "seed {seed}"
            );
        }
    }
}

#[test]
fn a_stream_depends_on_its_seeds_alone_and_ends_with_its_counts() {
    let written = || {
        let mut octets = Vec::new();
        write_seeds(&mut octets, 7, 72).map(|()| octets).unwrap_or_default()
    };
    let stream = written();
    assert!(stream == written());
    assert!(stream.starts_with(b"cases 4\n"));
    let made = (7..79).map(|seed| {
        let (listing, parts) = (generate(seed).listing, generate_parts(seed).parts);
        let by_rows = calls(seed, &listing).len() + writes(seed, &parts).len();
        let metadata = generate_metadata(seed, listing.clone());
        let columns = generate_columns(seed, listing);
        let by_columns = column_calls(seed, Given::of(&columns)).len();
        by_rows + by_columns + metadata_calls(seed, Given::both(&metadata)).len()
    });
    let counts = [0, 4 * 72, made.sum::<usize>() as u32];
    let end: Vec<u8> = counts.iter().flat_map(|count| count.to_le_bytes()).collect();
    assert!(stream.ends_with(&end));
}

//! The writer against the reader: what the papers say of both together.

use second::calls::{size_of, write, Parts};
use second::cases::{filled, writes, Expected};
use second::generate::{cut, full, generate_parts, FULL_KINDS, HOSTILE_KINDS, LIMITS};
use second::listing::read;

const SEEDS: std::ops::Range<u64> = 0..1_000;

/// The parts of an accepted listing write back to the same octets; of others
/// they do not, for what is written is accepted.
fn check_written_back(listing: &[u8], words: &str) -> bool {
    let written = write(&cut(listing), listing.len());
    let is_same = written.is_ok_and(|octets| octets == listing);
    assert_eq!(is_same, read(listing).is_ok(), "{words}");
    is_same
}

#[test]
fn accepted_listings_write_back_to_the_same_octets() {
    let listings = SEEDS.filter_map(|seed| Some((seed, generate_parts(seed).listing?)));
    let checked = listings.map(|(seed, octets)| check_written_back(&octets, &format!("{seed}")));
    let same = checked.filter(|is_same| *is_same).count();
    assert!(same > 300, "{same}");
    for (name, make) in &LIMITS {
        check_written_back(&make(), name);
    }
    for kind in FULL_KINDS.iter().chain(&HOSTILE_KINDS) {
        assert!(check_written_back(&full(kind, 3_000).unwrap_or_default(), kind));
    }
}

#[test]
fn what_is_written_is_accepted_with_the_same_rows_and_names() {
    let mut written = 0;
    for seed in SEEDS {
        let parts = generate_parts(seed).parts;
        match write(&parts, size_of(&parts)) {
            Ok(listing) => {
                let tables =
                    read(&listing).map(|read| [1, 2, 3, 4, 5, 6, 7].map(|n| read.table(n)));
                assert_eq!(tables, Ok(parts.each_ref().map(Vec::as_slice)), "seed {seed}");
                written += 1;
            }
            Err(refusal) => assert!([11, 5, 7, 8, 13].contains(&refusal.number), "seed {seed}"),
        }
    }
    assert!(written > 300 && written < 800, "{written}");
}

/// More room changes no answer, and too little comes after all else.
#[test]
fn room_is_the_last_that_counts() {
    for seed in SEEDS {
        let parts = generate_parts(seed).parts;
        let exact = write(&parts, size_of(&parts));
        assert!(write(&parts, 2 * size_of(&parts)) == exact, "seed {seed}");
        let refused = exact.err().map_or((12, 0, 0), |r| (r.number, r.table, r.row));
        for room in [0, 63, size_of(&parts) - 1] {
            let short = write(&parts, room).map_err(|r| (r.number, r.table, r.row));
            assert!(short == Err(refused), "seed {seed}");
        }
    }
}

#[test]
fn parts_meet_buffers_on_both_sides_of_their_lines() {
    for seed in SEEDS {
        let parts = generate_parts(seed).parts;
        let exact = size_of(&parts);
        let calls = writes(seed, &parts);
        let meets = |listing, answer: fn(usize) -> bool| {
            calls.iter().any(|call| call.listing == listing && answer(call.answer))
        };
        assert!(meets(exact, |answer| answer >= 16), "seed {seed}");
        assert!(meets(exact - 1, |answer| answer >= 16), "seed {seed}");
        assert!(meets(exact, |answer| answer == 15), "seed {seed}");
        assert!(calls.iter().any(|call| call.listing > exact), "seed {seed}");
    }
}

#[test]
fn a_short_answer_and_a_refusal_leave_the_buffer_as_it_was() {
    for seed in SEEDS {
        let parts: Parts = generate_parts(seed).parts;
        for call in writes(seed, &parts) {
            let Expected { returned, output, answer, .. } = call.expected(&parts);
            assert_eq!((output.len(), answer.len()), (call.listing, call.answer));
            let before = filled(call.listing, call.fill);
            if returned == 0 {
                assert_eq!(answer, filled(call.answer, call.fill), "seed {seed}");
            }
            let written = write(&parts, call.listing).ok().filter(|_| returned == 1);
            let octets = written.map_or(0, |listing| listing.len());
            assert!(output[octets..] == before[octets..], "seed {seed}");
        }
    }
}

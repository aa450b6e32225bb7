//! Columns against rows: what the papers say of both together.

use second::calls::{fill, lookup, lookup_columns, put_together, report, report_columns, Columns};
use second::cases::{column_calls, filled, Asked, Expected, Given};
use second::generate::{columns_kind_names, columns_of, cut, full, generate, generate_columns};
use second::generate::{kind_names, one_text, questions, text_columns};
use second::generate::{ColumnsCase, Random, FULL_KINDS, HOSTILE_KINDS, LIMITS, SERIES};
use second::listing::read;

const SEEDS: std::ops::Range<u64> = 0..1_000;

/// Columns of any octets, with room for so many tiles and some more.
fn any_columns(random: &mut Random, tiles: usize) -> Columns {
    [0; 4].map(|_| {
        let length = 8 * tiles + random.below(40);
        (0..length).map(|_| random.word() as u8).collect()
    })
}

/// Where a listing is accepted, filled columns give the report and the lookups of
/// its rows; where it is refused, all are refused alike.
fn check_filled(seed: u64, listing: &[u8], words: &str) -> bool {
    let tiles = read(listing).map_or(0, |listing| listing.count(5));
    let held = any_columns(&mut Random::new(seed), tiles);
    let columns = match fill(listing, &held) {
        Ok(columns) => columns,
        Err(refusal) => {
            assert_eq!(report(listing), Err(refusal), "{words}");
            assert_eq!(report_columns(listing, &held), Err(refusal), "{words}");
            return false;
        }
    };
    for (column, (made, held)) in columns.iter().zip(columns_of(listing).iter().zip(&held)) {
        assert!(column.starts_with(made), "{words}");
        assert!(column[made.len()..] == held[made.len()..], "{words}");
    }
    assert!(report_columns(listing, &columns) == report(listing), "{words}");
    for question in questions(seed, listing).lookups {
        let by_columns = lookup_columns(listing, &columns, question);
        assert_eq!(by_columns, lookup(listing, question), "{words}");
    }
    true
}

#[test]
fn filled_columns_give_what_the_rows_give() {
    let checked =
        SEEDS.filter(|&seed| check_filled(seed, &generate(seed).listing, &format!("{seed}")));
    let judged = checked.count();
    assert!(judged > 600, "{judged}");
    for (name, make) in &LIMITS {
        check_filled(0, &make(), name);
    }
    for kind in FULL_KINDS.iter().chain(&HOSTILE_KINDS) {
        assert!(check_filled(1, &full(kind, 400).unwrap_or_default(), kind));
    }
}

/// The tile rows that columns spell, made here from their numbers.
fn rows_of(columns: &Columns, tiles: usize) -> Vec<u8> {
    let number = |column: usize, entry: usize| -> [u8; 8] {
        columns[column][8 * entry..][..8].try_into().unwrap_or_default()
    };
    let row = |entry: usize| {
        let name = i64::from_le_bytes(number(0, entry));
        let start = name.div_euclid(1 << 32) as u32;
        let length = name.rem_euclid(1 << 32) as u32;
        let name = [start.to_le_bytes(), length.to_le_bytes()].concat();
        [name, number(1, entry).into(), number(2, entry).into(), number(3, entry).into()].concat()
    };
    (0..tiles).flat_map(row).collect()
}

#[test]
fn other_columns_are_judged_as_the_rows_that_they_spell() {
    let mut counts = [0; 2];
    for seed in SEEDS {
        let ColumnsCase { listing, columns, .. } = generate_columns(seed, generate(seed).listing);
        let tiles = read(&listing).map_or(usize::MAX, |listing| listing.count(5));
        if columns.iter().any(|column| column.len() / 8 < tiles) {
            continue;
        }
        let mut parts = cut(&listing);
        parts[4] = rows_of(&columns, tiles);
        let spelled = put_together(&parts);
        let by_columns = report_columns(&listing, &columns);
        assert!(by_columns == report(&spelled), "seed {seed}");
        for question in questions(seed, &spelled).lookups {
            let found = lookup_columns(&listing, &columns, question);
            assert_eq!(found, lookup(&spelled, question), "seed {seed}");
        }
        counts[usize::from(by_columns.is_ok())] += 1;
    }
    assert!(counts[0] > 100 && counts[1] > 300, "{counts:?}");
}

/// What is past the tile count, in whole entries and in octets, is neither judged
/// nor filled.
#[test]
fn entries_past_the_tile_count_change_nothing() {
    for seed in SEEDS {
        let ColumnsCase { listing, columns, .. } = generate_columns(seed, generate(seed).listing);
        let Some(tiles) = read(&listing).ok().map(|listing| listing.count(5)) else {
            continue;
        };
        if columns.iter().any(|column| column.len() / 8 < tiles) {
            continue;
        }
        let mut random = Random::new(seed);
        let exact = columns.each_ref().map(|column| column[..8 * tiles].to_vec());
        let mut longer = exact.clone();
        for (column, past) in longer.iter_mut().zip(any_columns(&mut random, 1)) {
            column.extend(past);
        }
        let by_exact = report_columns(&listing, &exact);
        assert!(report_columns(&listing, &longer) == by_exact, "seed {seed}");
        assert!(report_columns(&listing, &columns) == by_exact, "seed {seed}");
        let filled = fill(&listing, &longer).unwrap_or_default();
        for (column, held) in filled.iter().zip(&longer) {
            assert!(column[8 * tiles..] == held[8 * tiles..], "seed {seed}");
        }
    }
}

#[test]
fn a_column_is_too_short_by_an_octet_as_by_all() {
    for seed in SEEDS {
        let listing = generate(seed).listing;
        let columns = columns_of(&listing);
        if read(&listing).is_err() || columns[0].is_empty() {
            continue;
        }
        for column in 0..4 {
            for length in [0, columns[column].len() - 8, columns[column].len() - 1] {
                let mut short = columns.clone();
                short[column].truncate(length);
                let refused = report_columns(&listing, &short).err();
                let place = refused.map(|refusal| (refusal.number, refusal.table, refusal.row));
                assert_eq!(place, Some((14, 5, 0)), "seed {seed}");
                assert_eq!(fill(&listing, &short).err(), refused, "seed {seed}");
            }
        }
    }
}

/// The series of texts, each the name of an entry alone, asked of `from_utf8`.
#[test]
fn entries_are_refused_where_their_text_is_not_utf8() {
    for number in 0..SERIES {
        let ColumnsCase { listing, columns, .. } = text_columns(number);
        assert!(read(&listing).is_ok(), "text {number}");
        let refused = report_columns(&listing, &columns).err();
        let place = refused.map(|refusal| (refusal.number, refusal.table, refusal.row));
        let must = std::str::from_utf8(&one_text(number).text).err().map(|_| (13, 5, 0));
        assert_eq!(place, must, "text {number}");
    }
}

#[test]
fn a_short_answer_and_a_refusal_leave_the_rest_as_it_was() {
    for seed in SEEDS {
        let case = generate_columns(seed, generate(seed).listing);
        let given = Given::of(&case);
        let calls = column_calls(seed, given);
        assert!(calls.iter().any(|call| call.asked == Asked::Fill && call.answer == 12));
        assert!(calls.iter().any(|call| call.asked == Asked::ReportColumns && call.answer == 20));
        for call in calls {
            let Expected { returned, output, answer, keeps_work } = call.expected(given);
            let refused = match call.asked {
                Asked::Fill => fill(given.listing, given.columns).is_err(),
                _ => report_columns(given.listing, given.columns).is_err(),
            };
            if returned == 0 {
                assert_eq!(answer, filled(call.answer, call.fill), "seed {seed}");
            }
            if returned == 0 || refused {
                let before = match call.asked {
                    Asked::Fill => case.columns.each_ref().map(|c| filled(c.len(), call.fill)),
                    _ => [filled(call.findings, call.fill), vec![], vec![], vec![]],
                };
                assert!(output == before.concat(), "seed {seed}");
                assert!(keeps_work || call.asked != Asked::ReportColumns, "seed {seed}");
            }
        }
    }
}

/// Then seeds that follow one another have every kind of columns with every kind
/// of listing.
#[test]
fn kinds_of_columns_and_of_listings_have_no_factor_in_common() {
    let (columns, listings) = (columns_kind_names().count(), kind_names().count());
    assert!((2..=columns).all(|factor| columns % factor != 0 || listings % factor != 0));
}

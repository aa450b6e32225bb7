//! Metadata listings: what the maker knows of them the judge must say, and what the
//! papers say of both listings together must hold.

use std::collections::HashSet;

use second::calls::{report, report_metadata};
use second::cases::{filled, metadata_calls, Asked, Expected, Given};
use second::generate::{full_metadata, generate, generate_metadata, good_metadata, good_pack};
use second::generate::{kind_names, metadata_at_a_limit, metadata_kind_names, one_metadata_fault};
use second::generate::{metadata_of_characters, one_text, text_metadata, MetadataCase};
use second::generate::{FULL_METADATA_KINDS, METADATA_LIMITS, SERIES};
use second::listing::{read, read_metadata, Metadata, MetadataReference, NONE};
use second::rules::Finding;

const SEEDS: std::ops::Range<u64> = 0..2_000;

fn cases() -> impl Iterator<Item = (u64, MetadataCase)> {
    SEEDS.map(|seed| (seed, generate_metadata(seed, generate(seed).listing)))
}

#[test]
fn good_ones_have_no_findings() {
    for seed in 0..1_000 {
        let listing = good_pack(seed);
        let metadata = good_metadata(seed, &listing);
        assert_eq!(report_metadata(&listing, &metadata), Ok(vec![]), "seed {seed}");
    }
}

#[test]
fn planted_faults_show_and_their_near_misses_do_not() {
    let mut shown = [0; 2];
    for seed in 0..8 * 800 {
        let listing = good_pack(seed);
        let (metadata, code, must_show) = one_metadata_fault(seed, &listing);
        let findings = report_metadata(&listing, &metadata);
        let shows = findings.is_ok_and(|found| found.iter().any(|finding| finding.code == code));
        assert_eq!(shows, must_show, "seed {seed}, code {code}");
        shown[usize::from(shows)] += 1;
    }
    assert!(shown[0] > 1_000 && shown[1] > 1_000, "{shown:?}");
}

/// 151's test, written once more: by the days of each month of a year.
fn is_moment(text: &[u8]) -> bool {
    let Some(text) = std::str::from_utf8(text).ok().filter(|text| text.len() == 24) else {
        return false;
    };
    let form: String = text.chars().map(|c| if c.is_ascii_digit() { '0' } else { c }).collect();
    let part = |at: usize, length: usize| text[at..at + length].parse::<usize>().unwrap_or(99);
    if form != "0000-00-00T00:00:00.000Z" {
        return false;
    }
    let (year, month, day) = (part(0, 4), part(5, 2), part(8, 2));
    let february = if year % 400 == 0 || year % 4 == 0 && year % 100 != 0 { 29 } else { 28 };
    let days = [0, 31, february, 31, 30, 31, 30, 31, 31, 30, 31, 30, 31];
    days.get(month).is_some_and(|&days| 0 < day && day <= days)
        && part(11, 2) < 24
        && part(14, 2) < 60
        && part(17, 2) < 60
}

/// The codes that a reference breaks, sentence by sentence of the requirements.
fn broken_codes(
    row: &MetadataReference,
    contents: &HashSet<&[u8]>,
    files: &HashSet<i64>,
) -> Vec<u32> {
    let scope = std::str::from_utf8(row.scope).unwrap_or_default();
    let is_one_of = |scopes: &[&str]| scopes.contains(&scope);
    let is_null_or_named = match scope {
        "geopackage" => row.table_name.is_none(),
        _ => row.table_name.is_some_and(|name| contents.contains(name)),
    };
    let is_good_column = match is_one_of(&["geopackage", "table", "row"]) {
        true => row.column_name.is_none(),
        false => row.column_name.is_some(),
    };
    let is_good_row = match is_one_of(&["geopackage", "table", "column"]) {
        true => row.row_id.is_none(),
        false => row.row_id.is_some(),
    };
    let is_good_parent = match row.parent_id {
        None => true,
        Some(id) => files.contains(&id) && id != row.file_id,
    };
    let kept = [
        (965, is_one_of(&["geopackage", "table", "column", "row", "row/col"])),
        (975, is_null_or_named),
        (985, is_good_column),
        (995, is_good_row),
        (1005, is_moment(row.timestamp)),
        (1015, files.contains(&row.file_id)),
        (1025, is_good_parent),
    ];
    kept.into_iter().filter(|(_, is_kept)| !is_kept).map(|(code, _)| code).collect()
}

fn is_scope(row: &Metadata) -> bool {
    let table_21 = "undefined fieldSession collectionSession series dataset featureType feature \
                    attributeType attribute tile model catalog schema taxonomy software service \
                    collectionHardware nonGeographicDataset dimensionGroup";
    table_21.split_whitespace().any(|scope| scope.as_bytes() == row.scope)
}

/// Row by row and then sorted, where the judge goes code by code.
#[test]
fn findings_are_those_of_each_row_by_itself() {
    let mut judged = 0;
    for (seed, case) in cases() {
        let (Ok(listing), Ok(metadata)) = (read(&case.listing), read_metadata(&case.metadata))
        else {
            continue;
        };
        let contents: HashSet<&[u8]> = listing.contents().map(|row| row.table_name).collect();
        let files: HashSet<i64> = metadata.metadata().map(|row| row.id).collect();
        let bad_scopes = metadata.metadata().enumerate().filter(|(_, row)| !is_scope(row));
        let mut must: Vec<(u32, u32)> = bad_scopes.map(|(row, _)| (945, row as u32)).collect();
        for (row, reference) in metadata.references().enumerate() {
            let codes = broken_codes(&reference, &contents, &files);
            must.extend(codes.into_iter().map(|code| (code, row as u32)));
        }
        must.sort_unstable();
        let must = must.into_iter().map(|(code, row)| Finding { code, row, partner: NONE });
        let got = report_metadata(&case.listing, &case.metadata);
        assert_eq!(got, Ok(must.collect()), "seed {seed}");
        judged += 1;
    }
    assert!(judged > 700, "{judged}");
}

/// The tile listing's reasons are its report's, and those of the other come after.
#[test]
fn the_tile_listing_is_refused_first() {
    let mut counts = [0; 3];
    for (seed, case) in cases() {
        let refused = report_metadata(&case.listing, &case.metadata).err();
        let of_listing = report(&case.listing).err();
        let of_metadata = read_metadata(&case.metadata).err();
        assert_eq!(refused, of_listing.or(of_metadata), "seed {seed}");
        counts[0] += usize::from(of_listing.is_some());
        counts[1] += usize::from(of_metadata.is_some());
        counts[2] += usize::from(of_listing.is_some() && of_metadata.is_some());
    }
    assert!(counts.iter().all(|&count| count > 100), "{counts:?}");
}

/// Beside another tile listing with the same contents nothing changes.
#[test]
fn of_the_tile_listing_the_contents_alone_count() {
    for (seed, case) in cases() {
        let Ok(listing) = read(&case.listing) else {
            continue;
        };
        let mut draft = second::make::Draft::default();
        for contents in listing.contents() {
            let table_name = draft.text_apart(contents.table_name);
            draft.content("", "", "", None);
            if let Some(row) = draft.contents.last_mut() {
                row.table_name = table_name;
            }
        }
        let got = report_metadata(&draft.listing(), &case.metadata);
        assert_eq!(got, report_metadata(&case.listing, &case.metadata), "seed {seed}");
    }
}

#[test]
fn a_short_answer_and_a_refusal_leave_the_rest_as_it_was() {
    for (seed, case) in cases() {
        let given = Given::both(&case);
        let calls = metadata_calls(seed, given);
        assert!(calls.iter().all(|call| call.asked == Asked::ReportMetadata));
        assert!(calls.iter().any(|call| call.answer == 20), "seed {seed}");
        let is_refused = report_metadata(&case.listing, &case.metadata).is_err();
        for call in calls {
            let Expected { returned, output, answer, keeps_work } = call.expected(given);
            assert_eq!(returned, u32::from(call.answer >= 20), "seed {seed}");
            assert_eq!(keeps_work, returned == 0 || is_refused, "seed {seed}");
            if returned == 0 {
                assert_eq!(answer, filled(call.answer, call.fill), "seed {seed}");
            }
            if keeps_work {
                assert_eq!(output, filled(call.findings, call.fill), "seed {seed}");
            }
        }
    }
}

#[test]
fn ill_texts_are_refused_at_their_place_and_no_others_are() {
    let mut counts = [0; 2];
    for seed in 0..4_000 {
        let (metadata, place) = metadata_of_characters(seed);
        let refused = report_metadata(&good_pack(0), &metadata).err();
        let refused = refused.map(|refusal| (refusal.number, refusal.table, refusal.row));
        let must = place.map(|(table, row)| (13, table, row));
        assert_eq!(refused, must, "seed {seed}");
        counts[usize::from(must.is_some())] += 1;
    }
    assert!(counts.iter().all(|&count| count > 1_000), "{counts:?}");
}

/// The series of texts, each in a field by itself, asked of `from_utf8`.
#[test]
fn texts_are_refused_where_they_are_not_utf8() {
    let mut counts = [0; 2];
    for number in 0..SERIES {
        let MetadataCase { listing, metadata, .. } = text_metadata(number);
        let refused = report_metadata(&listing, &metadata).err();
        let must = std::str::from_utf8(&one_text(number).text).err().map(|_| 13);
        assert_eq!(refused.map(|refusal| refusal.number), must, "text {number}");
        counts[usize::from(must.is_some())] += 1;
    }
    assert!(counts[0] > 300 && counts[1] > 6_000, "{counts:?}");
}

#[test]
fn full_sizes_are_as_they_say() {
    for kind in FULL_METADATA_KINDS {
        let Some(MetadataCase { listing, metadata, .. }) = full_metadata(kind, 3_000) else {
            panic!("{kind} is no kind");
        };
        assert_eq!(metadata.len(), 1_314_848, "{kind}");
        assert_eq!(read(&listing).map(|listing| listing.count(2)), Ok(256), "{kind}");
        let found = report_metadata(&listing, &metadata).map(|found| found.len());
        let must = match kind {
            "bad" => 256 + 7 * 4_096,
            // All but those of the geopackage: four in five.
            "unknown-names" => 4_096 - 820,
            "overlapping" => 2 * 4_096,
            _ => 0,
        };
        assert_eq!(found, Ok(must), "{kind}");
    }
    assert!(full_metadata("nothing", 1).is_none());
}

#[test]
fn limits_are_at_the_limit() {
    for (number, (name, _)) in METADATA_LIMITS.iter().enumerate() {
        let Some(MetadataCase { listing, metadata, .. }) = metadata_at_a_limit(number) else {
            panic!("limit {number} is none");
        };
        let outcome = report_metadata(&listing, &metadata).map(|_| ());
        let outcome = outcome.map_err(|refusal| (refusal.number, refusal.table, refusal.row));
        let want = match *name {
            "table 11 above its most" => Err((5, 11, 0)),
            "table 12 above its most" => Err((5, 12, 0)),
            "table 13 above its most" => Err((5, 13, 0)),
            "a text outside in the last row" => Err((7, 12, 4_095)),
            "an ill text in the last row" => Err((13, 12, 4_095)),
            "a flag in the last row" => Err((8, 12, 4_095)),
            name if name.contains("too long") || name == "1,314,849 octets" => Err((2, 0, 0)),
            _ => Ok(()),
        };
        assert_eq!(outcome, want, "{name}");
    }
}

/// No octets make the judge panic, in either listing.
#[test]
fn every_octet_string_has_an_answer() {
    for (seed, MetadataCase { listing, mut metadata, .. }) in cases().take(400) {
        for at in (0..metadata.len().min(500)).step_by(11) {
            metadata[at] ^= 0x81;
            let refused = report_metadata(&listing, &metadata).err();
            let must = read(&listing).err().or(read_metadata(&metadata).err());
            assert_eq!(refused, must, "seed {seed}");
        }
    }
}

/// Then seeds that follow one another have every kind of metadata listing beside
/// every kind of tile listing.
#[test]
fn kinds_of_both_listings_have_no_factor_in_common() {
    let (metadata, listings) = (metadata_kind_names().count(), kind_names().count());
    assert!((2..=metadata).all(|factor| metadata % factor != 0 || listings % factor != 0));
}

//! The commands of the second program; README.md tells their use.

use std::io::{self, Read, Write};
use std::process::ExitCode;

use second::calls::{fill, lookup, lookup_columns, report, report_columns, report_metadata};
use second::calls::{verdict, write, Columns, Parts, Question, Verdict};
use second::generate::{ColumnsCase, MetadataCase};
use second::listing::Refusal;
use second::{cases, coverage, desk, generate, samples, vectors};

const USAGE: &str = "\
usage: second judge < LISTING
       second desk < LISTING
       second verdict CODE < LISTING
       second lookup CONTENTS ZOOM COLUMN ROW < LISTING
       second make SEED > LISTING
       second limit NUMBER > LISTING
       second full KIND TILES > LISTING
       second text NUMBER > LISTING
       second dates YEAR HALF > LISTING
       second parts SEED > PARTS
       second cut < LISTING > PARTS
       second write ROOM < PARTS
       second columns SEED < LISTING > LENT
       second text-columns NUMBER > LENT
       second fill < LENT
       second judge-columns < LENT
       second lookup-columns CONTENTS ZOOM COLUMN ROW < LENT
       second metadata SEED < LISTING > LENT
       second limit-metadata NUMBER > LENT
       second full-metadata KIND TILES > LENT
       second text-metadata NUMBER > LENT
       second dates-metadata YEAR > LENT
       second judge-metadata < LENT
       second cases FIRST COUNT > CASES
       second cases-limits TILES > CASES
       second cases-texts FIRST COUNT > CASES
       second cases-dates FIRST COUNT > CASES
       second time KIND TILES
       second time-metadata KIND TILES
       second coverage FIRST COUNT
       second samples DIR
       second vectors [SAMPLES-DIR]";

/// What a command came to: text or octets to print and whether all is well.
struct Outcome {
    printed: Vec<u8>,
    is_well: bool,
}

fn well(printed: impl Into<Vec<u8>>) -> Result<Outcome, String> {
    Ok(Outcome { printed: printed.into(), is_well: true })
}

fn main() -> ExitCode {
    let arguments: Vec<String> = std::env::args().skip(1).collect();
    let words: Vec<&str> = arguments.iter().map(String::as_str).collect();
    let outcome = run(&words).and_then(|outcome| {
        let mut out = io::stdout().lock();
        let printed = out.write_all(&outcome.printed).and_then(|()| out.flush());
        printed.map_err(told).map(|()| outcome.is_well)
    });
    match outcome {
        Ok(true) => ExitCode::SUCCESS,
        Ok(false) => ExitCode::FAILURE,
        Err(message) => {
            eprintln!("{message}");
            ExitCode::from(2)
        }
    }
}

fn run(words: &[&str]) -> Result<Outcome, String> {
    match words {
        ["judge"] => well(desk::printed_in_full(report(&input()?))),
        ["desk"] => well(desk::printed(&input()?)),
        ["verdict", code] => well(verdict_line(&input()?, number(code)?)),
        ["lookup", asked @ ..] => {
            let question = question(asked)?;
            well(lookup_line(lookup(&input()?, question)))
        }
        ["make", seed] => well(generate::generate(number(seed)?).listing),
        ["limit", limit] => well(limit_listing(number(limit)?)?),
        ["full", kind, tiles] => well(full(kind, number(tiles)?)?),
        ["text", text] => well(generate::text_listing(number(text)?)),
        ["parts", seed] => well(strings_as_octets(&generate::generate_parts(number(seed)?).parts)),
        ["cut"] => well(strings_as_octets(&generate::cut(&input()?))),
        ["write", room] => well(write_line(&strings_in(&input()?)?, number(room)?)),
        ["columns", seed] => well(lent(generate::generate_columns(number(seed)?, input()?))),
        ["text-columns", text] => well(lent(generate::text_columns(number(text)?))),
        ["fill"] => on_columns(fill_line),
        ["judge-columns"] => on_columns(|l, c| desk::printed_in_full(report_columns(l, c))),
        ["lookup-columns", asked @ ..] => {
            let question = question(asked)?;
            on_columns(|l, c| lookup_line(lookup_columns(l, c, question)))
        }
        ["time", kind, tiles] => well(coverage::timing(&full(kind, number(tiles)?)?)),
        ["coverage", first, count] => {
            let table = coverage::table(number(first)?, number(count)?);
            Ok(Outcome {
                printed: table.to_string().into_bytes(),
                is_well: table.empty_lines().is_empty(),
            })
        }
        ["cases", first, count] => {
            let (first, count) = (number(first)?, number(count)?);
            streamed(|out| cases::write_seeds(out, first, count))
        }
        ["cases-limits", tiles] => {
            let tiles = number(tiles)?;
            streamed(|out| cases::write_limits(out, tiles))
        }
        ["cases-texts", first, count] => {
            let (first, count) = (number(first)?, number(count)?);
            streamed(|out| cases::write_texts(out, first, count))
        }
        ["samples", folder] => well(samples::write(folder.as_ref()).map_err(told)?),
        ["vectors"] => checked(vectors::run(vectors::samples_folder())),
        ["vectors", folder] => checked(vectors::run(folder.into())),
        _ => run_on_metadata(words),
    }
}

fn run_on_metadata(words: &[&str]) -> Result<Outcome, String> {
    match words {
        ["metadata", seed] => well(both(generate::generate_metadata(number(seed)?, input()?))),
        ["limit-metadata", limit] => well(both(metadata_at_a_limit(number(limit)?)?)),
        ["full-metadata", kind, tiles] => well(both(full_metadata(kind, number(tiles)?)?)),
        ["text-metadata", text] => well(both(generate::text_metadata(number(text)?))),
        ["judge-metadata"] => {
            let [listing, metadata] = strings_in(&input()?)?;
            well(desk::printed_in_full(report_metadata(&listing, &metadata)))
        }
        ["time-metadata", kind, tiles] => {
            let case = full_metadata(kind, number(tiles)?)?;
            well(coverage::metadata_timing(&case))
        }
        _ => run_on_dates(words),
    }
}

fn run_on_dates(words: &[&str]) -> Result<Outcome, String> {
    match words {
        ["dates", year, half] => {
            let months = generate::HALVES.get(number::<usize>(half)?);
            let months = months.ok_or_else(|| "halves: 0 to 1".to_string())?;
            well(generate::date_listing(number(year)?, months.clone()))
        }
        ["dates-metadata", year] => well(both(generate::date_metadata(number(year)?))),
        ["cases-dates", first, count] => {
            let (first, count) = (number(first)?, number(count)?);
            streamed(|out| cases::write_dates(out, first, count))
        }
        _ => Err(USAGE.to_string()),
    }
}

fn told(error: io::Error) -> String {
    error.to_string()
}

fn number<N: std::str::FromStr>(word: &str) -> Result<N, String> {
    let mistake = || format!("not a number in range: {word}\n{USAGE}");
    word.parse().map_err(|_| mistake())
}

fn input() -> Result<Vec<u8>, String> {
    let mut octets = Vec::new();
    let read = io::stdin().lock().read_to_end(&mut octets);
    read.map_err(told).map(|_| octets)
}

fn full(kind: &str, tiles: usize) -> Result<Vec<u8>, String> {
    let kinds = [&generate::FULL_KINDS[..], &generate::HOSTILE_KINDS].concat();
    generate::full(kind, tiles).ok_or_else(|| format!("kinds: {}", kinds.join(" ")))
}

fn full_metadata(kind: &str, tiles: usize) -> Result<MetadataCase, String> {
    let kinds = || format!("kinds: {}", generate::FULL_METADATA_KINDS.join(" "));
    generate::full_metadata(kind, tiles).ok_or_else(kinds)
}

fn limit_listing(limit: usize) -> Result<Vec<u8>, String> {
    let found = generate::LIMITS.get(limit);
    let (_, make) = found.ok_or_else(|| limits(generate::LIMITS.len()))?;
    Ok(make())
}

fn metadata_at_a_limit(limit: usize) -> Result<MetadataCase, String> {
    let found = generate::metadata_at_a_limit(limit);
    found.ok_or_else(|| limits(generate::METADATA_LIMITS.len()))
}

fn limits(count: usize) -> String {
    format!("limits: 0 to {}", count - 1)
}

/// Parts and the like as the commands hand them on: each after its length, a u32.
fn strings_as_octets(strings: &[Vec<u8>]) -> Vec<u8> {
    let string = |string: &Vec<u8>| [&(string.len() as u32).to_le_bytes(), &string[..]].concat();
    strings.iter().flat_map(string).collect()
}

fn strings_in<const COUNT: usize>(octets: &[u8]) -> Result<[Vec<u8>; COUNT], String> {
    let mut rest = octets;
    let mut strings = [const { Vec::new() }; COUNT];
    for string in &mut strings {
        let breaks_off = || format!("fewer than {COUNT} strings of octets");
        let (length, after) = rest.split_first_chunk().ok_or_else(breaks_off)?;
        let length = u32::from_le_bytes(*length) as usize;
        let (octets, after) = after.split_at_checked(length).ok_or_else(breaks_off)?;
        *string = octets.to_vec();
        rest = after;
    }
    match rest {
        [] => Ok(strings),
        _ => Err(format!("more than {COUNT} strings of octets")),
    }
}

/// What is lent to the calls on columns: the listing, and then the columns.
fn lent(case: ColumnsCase) -> Vec<u8> {
    strings_as_octets(&[&[case.listing][..], &case.columns].concat())
}

/// What is lent to the call on metadata: the tile listing, and then the other.
fn both(case: MetadataCase) -> Vec<u8> {
    strings_as_octets(&[case.listing, case.metadata])
}

/// What is said of the listing and the columns in the input.
fn on_columns(line: impl FnOnce(&[u8], &Columns) -> String) -> Result<Outcome, String> {
    let [listing, columns @ ..] = strings_in::<5>(&input()?)?;
    well(line(&listing, &columns))
}

fn question(asked: &[&str]) -> Result<Question, String> {
    let [contents_row, zoom, column, row] = asked else {
        return Err(USAGE.to_string());
    };
    Ok(Question {
        contents_row: number(contents_row)?,
        zoom: number(zoom)?,
        column: number(column)?,
        row: number(row)?,
    })
}

/// Prints while it goes: the cases of some thousand listings are too many
/// octets to gather first.
fn streamed(
    write: impl FnOnce(io::BufWriter<io::StdoutLock>) -> io::Result<()>,
) -> Result<Outcome, String> {
    let out = io::BufWriter::with_capacity(1 << 16, io::stdout().lock());
    write(out).map_err(told)?;
    well("")
}

fn verdict_line(listing: &[u8], code: u32) -> String {
    match verdict(listing, code) {
        Ok(Verdict::Pass) => "pass\n".to_string(),
        Ok(Verdict::Fail(row)) => format!("fail {}\n", desk::row_or_dash(row)),
        Ok(Verdict::NotTestable) => "not testable\n".to_string(),
        Err(refusal) => format!("{}\n", desk::refused(refusal)),
    }
}

fn lookup_line(outcome: Result<Option<u32>, Refusal>) -> String {
    match outcome {
        Ok(Some(row)) => format!("tile {row}\n"),
        Ok(None) => "tile -\n".to_string(),
        Err(refusal) => format!("{}\n", desk::refused(refusal)),
    }
}

fn write_line(parts: &Parts, room: usize) -> String {
    match write(parts, room) {
        Ok(listing) => format!("octets {}\n", listing.len()),
        Err(refusal) => format!("{}\n", desk::refused(refusal)),
    }
}

fn fill_line(listing: &[u8], columns: &Columns) -> String {
    match fill(listing, columns) {
        Ok(_) => "filled\n".to_string(),
        Err(refusal) => format!("{}\n", desk::refused(refusal)),
    }
}

fn checked(tally: vectors::Tally) -> Result<Outcome, String> {
    Ok(Outcome { printed: tally.to_string().into_bytes(), is_well: tally.is_well() })
}

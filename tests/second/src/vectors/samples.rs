//! "The desk program": the samples, and the edges of what it reads.

use std::fs;
use std::path::Path;

use super::base::header_alone;
use super::Tally;
use crate::calls::report;
use crate::desk::{printed, printed_in_full};
use crate::samples::samples;

pub fn check(tally: &mut Tally, folder: &Path) {
    for sample in samples() {
        let name = sample.name;
        let shows = format!("what the desk prints for {name}");
        tally.same(&shows, printed(&sample.listing), sample.printed.clone());
        let file = |extension| fs::read(folder.join(name).with_extension(extension)).ok();
        let is_kept = file("listing") == Some(sample.listing);
        tally.same(&format!("{name}.listing in samples"), is_kept, true);
        let is_kept = file("printed") == Some(sample.printed.into_bytes());
        tally.same(&format!("{name}.printed in samples"), is_kept, true);
    }
    let five_lines =
        "finding 111 - -\nfinding 112 - -\nfinding 113 - -\nfinding 171 - -\ntotal 4\n";
    let got = printed(&header_alone());
    tally.same("the whole output for the header alone", &got[..], five_lines);
    check_edges(tally);
}

/// Reading 18.
fn check_edges(tally: &mut Tally) {
    tally.same("no octets", printed(&[]).as_str(), "refused 1 0 0\n");
    let longest = vec![0; 65_536];
    let got = printed(&longest);
    tally.same("65,536 octets are judged", got.as_str(), "refused 3 0 0\n");
    let longer = vec![0; 65_537];
    let got = printed(&longer);
    tally.same("65,537 octets are oversize", got.as_str(), "oversize\n");
    let got = printed_in_full(report(&longer));
    tally.same("judged in full all the same", got.as_str(), "refused 3 0 0\n");
    let too_long = vec![0; 9_762_881];
    let got = printed(&too_long);
    tally.same("2 cannot show at the desk", got.as_str(), "oversize\n");
    let many = samples().into_iter().find(|s| s.name == "many-findings");
    let many = many.map(|sample| sample.listing).unwrap_or_default();
    let lines = |text: String| text.lines().count();
    tally.same("1,365 findings and a total", lines(printed(&many)), 1_366);
    let in_full = lines(printed_in_full(report(&many)));
    tally.same("1,401 findings and a total", in_full, 1_402);
}

//! A metadata listing judged beside a tile listing, document 02, request 2026-05.

use crate::listing::{read, read_metadata, Refusal};
use crate::rules::{Finding, MetadataJudge};

/// All findings of a metadata listing, in order, or why the call is refused: all
/// reasons of the tile listing come before any of the metadata listing.
pub fn report_metadata(listing: &[u8], metadata: &[u8]) -> Result<Vec<Finding>, Refusal> {
    let listing = read(listing)?;
    let metadata = read_metadata(metadata)?;
    Ok(MetadataJudge::new(&listing, &metadata).findings())
}

//! Desterlin's second program: an independent judge and writer of listings,
//! written from documents 01 and 02 alone, and a maker of listings to judge.
//!
//! * [`listing`] reads octets, of a tile or a metadata listing, or says why it turns
//!   them away;
//! * [`rules`] holds the 36 codes and the eight of metadata, and finds what breaks
//!   them;
//! * [`calls`] answers report, verdict, lookup and write, fill, report and lookup by
//!   columns, and the report on metadata, in the papers' terms and in the octets of
//!   the C calls;
//! * [`cases`] chooses calls, and says what must come of each in every octet;
//! * [`desk`] says what the desk program must print;
//! * [`make`] and [`generate`] make listings, parts, columns and metadata listings;
//! * [`coverage`] counts what the made listings reach;
//! * [`samples`] and [`vectors`] hold what was worked out by hand.

pub mod calls;
pub mod cases;
pub mod coverage;
pub mod desk;
pub mod generate;
pub mod listing;
pub mod make;
pub mod rules;
pub mod samples;
pub mod vectors;

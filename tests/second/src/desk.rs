//! What the desk program must print.

use std::fmt::Write;

use crate::calls::report;
use crate::listing::{Refusal, NONE};
use crate::rules::Finding;

/// The longest listing that the desk program reads.
pub const GREATEST_INPUT: usize = 65_536;
/// How many findings it has room for.
pub const ROOM: usize = 1_365;

/// What the desk program prints for its standard input.
pub fn printed(input: &[u8]) -> String {
    if input.len() > GREATEST_INPUT {
        return "oversize\n".to_string();
    }
    printed_with_room(report(input), ROOM)
}

/// A report in the same form, without limits on the input and on the findings
/// printed.
pub fn printed_in_full(outcome: Result<Vec<Finding>, Refusal>) -> String {
    printed_with_room(outcome, usize::MAX)
}

fn printed_with_room(outcome: Result<Vec<Finding>, Refusal>, room: usize) -> String {
    match outcome {
        Ok(findings) => printed_findings(&findings, room),
        Err(refusal) => format!("{}\n", refused(refusal)),
    }
}

fn printed_findings(findings: &[Finding], room: usize) -> String {
    let mut text = String::new();
    for finding in findings.iter().take(room) {
        let Finding { code, row, partner } = *finding;
        let (row, partner) = (row_or_dash(row), row_or_dash(partner));
        // Writing to a String cannot fail.
        let _ = writeln!(text, "finding {code} {row} {partner}");
    }
    let _ = writeln!(text, "total {}", findings.len());
    text
}

/// A refusal as the desk program prints it.
pub fn refused(refusal: Refusal) -> String {
    let Refusal { number, table, row } = refusal;
    format!("refused {number} {table} {row}")
}

/// A row as the desk program prints it: "-" for none.
pub fn row_or_dash(row: u32) -> String {
    match row {
        NONE => "-".to_string(),
        row => row.to_string(),
    }
}

//! The constant table of the 36 codes, ascending, each with its table.

use super::judge::Judge;
use super::{contents, extensions, matrices, references, sets, tiles, Findings};
use crate::listing::layout::{CONTENTS, EXTENSIONS, MATRICES, REFERENCES, SETS, TILES};

type Rule = for<'j, 'a> fn(&'j Judge<'a>) -> Findings<'j>;

/// A code, the table that it belongs to, and its rule.
pub struct Code {
    pub number: u32,
    pub table: usize,
    pub(super) rule: Rule,
}

impl Code {
    /// Can a verdict be given where the code's table is empty?
    pub fn is_testable_without_rows(&self) -> bool {
        matches!(self.number, 111 | 112 | 113 | 171)
    }
}

/// The code with this number, if it is one of the 36.
pub fn code_named(number: u32) -> Option<&'static Code> {
    CODES.iter().find(|code| code.number == number)
}

const fn code(number: u32, table: usize, rule: Rule) -> Code {
    Code { number, table, rule }
}

pub static CODES: [Code; 36] = [
    code(101, REFERENCES, references::rule_101),
    code(111, REFERENCES, references::rule_111),
    code(112, REFERENCES, references::rule_112),
    code(113, REFERENCES, references::rule_113),
    code(131, CONTENTS, contents::rule_131),
    code(151, CONTENTS, contents::rule_151),
    code(161, CONTENTS, contents::rule_161),
    code(162, CONTENTS, contents::rule_162),
    code(171, CONTENTS, contents::rule_171),
    code(341, TILES, tiles::rule_341),
    code(351, MATRICES, matrices::rule_351),
    code(391, SETS, sets::rule_391),
    code(392, SETS, sets::rule_392),
    code(401, CONTENTS, contents::rule_401),
    code(411, SETS, sets::rule_411),
    code(431, MATRICES, matrices::rule_431),
    code(432, MATRICES, matrices::rule_432),
    code(441, TILES, tiles::rule_441),
    code(451, MATRICES, matrices::rule_451),
    code(452, MATRICES, matrices::rule_452),
    code(461, MATRICES, matrices::rule_461),
    code(471, MATRICES, matrices::rule_471),
    code(481, MATRICES, matrices::rule_481),
    code(491, MATRICES, matrices::rule_491),
    code(501, MATRICES, matrices::rule_501),
    code(511, MATRICES, matrices::rule_511),
    code(521, MATRICES, matrices::rule_521),
    code(531, MATRICES, matrices::rule_531),
    code(541, TILES, tiles::rule_541),
    code(551, TILES, tiles::rule_551),
    code(561, TILES, tiles::rule_561),
    code(571, TILES, tiles::rule_571),
    code(601, EXTENSIONS, extensions::rule_601),
    code(621, EXTENSIONS, extensions::rule_621),
    code(622, EXTENSIONS, extensions::rule_622),
    code(641, EXTENSIONS, extensions::rule_641),
];

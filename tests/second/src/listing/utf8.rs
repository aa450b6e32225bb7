//! Which parts of some octets are well-formed UTF-8, by Rust's own reading.
//!
//! `from_utf8` on each text would do, but a listing may have 262,144 texts of
//! nearly a megabyte each, one over the other. So the octets are read once, into
//! their well-formed pieces and what stands between them. A text is well-formed
//! exactly where it is a part of one piece, cut between characters:
//!
//! * such a part has whole characters and nothing else;
//! * the first octet of a well-formed text is not 80 to BF. A step of the reading
//!   is a character or an ill-formed sequence, and but for its first octet either
//!   has none other than these. So no step goes past the text's start, and from
//!   there on each step is one of the text's own characters.

use std::ops::Range;

/// The well-formed pieces of some octets, in order.
pub struct Pieces<'a> {
    pieces: Vec<(usize, &'a str)>,
}

impl<'a> Pieces<'a> {
    pub fn of(octets: &'a [u8]) -> Pieces<'a> {
        let mut start = 0;
        let mut pieces = Vec::new();
        for chunk in octets.utf8_chunks() {
            pieces.push((start, chunk.valid()));
            start += chunk.valid().len() + chunk.invalid().len();
        }
        Pieces { pieces }
    }

    /// Are the octets at these places, by themselves, well-formed?
    pub fn is_well_formed(&self, places: Range<usize>) -> bool {
        if places.is_empty() {
            return true;
        }
        let after = self.pieces.partition_point(|&(start, _)| start <= places.start);
        let piece = after.checked_sub(1).map(|at| self.pieces[at]);
        piece.is_some_and(|(start, text)| {
            text.get(places.start - start..places.end - start).is_some()
        })
    }
}

#[cfg(test)]
mod tests {
    use super::Pieces;
    use std::str::from_utf8;

    /// Each part of some octets by itself. Answers how many are well-formed.
    fn check_parts(octets: &[u8]) -> [usize; 2] {
        let pieces = Pieces::of(octets);
        let mut counts = [0; 2];
        for start in 0..=octets.len() {
            for end in start..=octets.len() {
                let is_good = from_utf8(&octets[start..end]).is_ok();
                let got = pieces.is_well_formed(start..end);
                assert_eq!(got, is_good, "{start}..{end} of {octets:02x?}");
                counts[usize::from(is_good)] += 1;
            }
        }
        counts
    }

    /// The ends of every range of octets that Table 3-7 knows, and one beyond.
    const EDGES: [u8; 29] = [
        0x00, 0x61, 0x7f, 0x80, 0x8f, 0x90, 0x9f, 0xa0, 0xbf, 0xc0, 0xc1, 0xc2, 0xdf, 0xe0, 0xe1,
        0xec, 0xed, 0xee, 0xef, 0xf0, 0xf1, 0xf3, 0xf4, 0xf5, 0xf7, 0xf8, 0xfc, 0xfe, 0xff,
    ];

    #[test]
    fn every_part_of_four_octets_at_the_edges() {
        let edge = |number: usize, at: u32| EDGES[number / EDGES.len().pow(at) % EDGES.len()];
        for number in 0..EDGES.len().pow(4) {
            check_parts(&[0, 1, 2, 3].map(|at| edge(number, at)));
        }
    }

    /// Longer ones, mostly characters, in which pieces end in every way.
    #[test]
    fn every_part_of_longer_octets() {
        let mut random = crate::generate::Random::new(3);
        let mut counts = [0; 2];
        for _ in 0..3_000 {
            let mut octets = Vec::new();
            for _ in 0..random.below(16) {
                match random.below(5) {
                    0 => octets.push(random.pick(&EDGES)),
                    1 => octets.push(random.pick(&[0x80, 0xbf])),
                    _ => octets
                        .extend(random.pick(&["a", "\u{e9}", "\u{20ac}", "\u{1f404}"]).bytes()),
                }
            }
            let [bad, good] = check_parts(&octets);
            counts = [counts[0] + bad, counts[1] + good];
        }
        assert!(counts.iter().all(|&count| count > 50_000), "{counts:?}");
    }
}

//! Packs over few names and small numbers, in which rows collide often.

use super::Random;
use crate::make::{span, ContentsRow, Draft, ExtensionRow, MatrixRow, ReferenceRow};
use crate::make::{SetRow, Span, TileRow, NULL};

/// Few names, some of them parts of others, some stored twice.
const NAMES: [&str; 8] = ["", "a", "b", "ab", "A", "a", "b", "\u{e9}"];

/// Sizes that are often near one another, half of one another, or no sizes.
fn pixel(random: &mut Random) -> f64 {
    let one = 1.0_f64.to_bits();
    let special = [
        0,
        0x8000_0000_0000_0000,
        1,
        5,
        0x7ff0_0000_0000_0000,
        0xfff0_0000_0000_0000,
        0x7ff8_0000_0000_0000,
        0xfff0_0000_0000_0001,
        0x7fef_ffff_ffff_ffff,
        0x7fdf_ffff_ffff_ffff,
        0xbff0_0000_0000_0000,
        one + 4,
        one + 5,
        one - 4,
        one - 5,
    ];
    match random.below(4) {
        0 => f64::from_bits(random.pick(&special)),
        _ => random.pick(&[4.0, 2.0, 2.0, 1.0, 1.0, 0.5]),
    }
}

fn corner(random: &mut Random) -> f64 {
    match random.below(8) {
        0 => pixel(random),
        1 => -pixel(random),
        2 => 512.0,
        _ => random.pick(&[0.0, -0.0, 0.0, 256.0, 1.0]),
    }
}

fn side(random: &mut Random) -> i64 {
    match random.below(16) {
        0 => random.pick(&[i64::MIN, i64::MAX, 1 << 32, 1 << 53, (1 << 53) + 1, 1 << 62]),
        1 => random.from_to(-2, 0),
        _ => random.from_to(1, 3),
    }
}

fn zoom(random: &mut Random) -> i64 {
    match random.below(24) {
        0 => random.pick(&[i64::MIN, i64::MIN + 1, i64::MAX, 1 << 32]),
        _ => random.from_to(-1, 2),
    }
}

/// What every small pack starts from: the words that the rules know, and the
/// few names, each at a place of its own.
struct Domain {
    draft: Draft,
    names: Vec<Span>,
    ids: Vec<i64>,
}

impl Domain {
    fn new(random: &mut Random) -> Domain {
        let mut draft = Draft::default();
        for word in ["tiles", "features", "undefined", "EPSG", "NONE"] {
            draft.text_apart(word);
        }
        let mut names: Vec<Span> = NAMES.iter().map(|n| draft.text_apart(n)).collect();
        names.truncate(2 + random.below(NAMES.len() - 1));
        random.shuffle(&mut names);
        let ids = vec![4326, -1, 0, 0, 7, 4326 + (1 << 32)];
        Domain { draft, names, ids }
    }

    fn name(&self, random: &mut Random) -> Span {
        random.pick(&self.names)
    }

    fn name_or_null(&self, random: &mut Random) -> Span {
        match random.below(4) {
            0 => NULL,
            _ => self.name(random),
        }
    }

    fn id(&self, random: &mut Random) -> i64 {
        random.pick(&self.ids)
    }

    fn add_references(&mut self, random: &mut Random, count: usize) {
        for _ in 0..count {
            let srs_id = self.id(random);
            let is_same = !random.once_in(4);
            let coordsys_id = if is_same { srs_id } else { self.id(random) };
            let organizations = ["EPSG", "epsg", "NONE", "none", "NoNe", "", "EPSG "];
            let organization = self.draft.text(random.pick(&organizations));
            let definitions = ["undefined", "undefined", "Undefined", ""];
            let definition = self.draft.text(random.pick(&definitions));
            self.draft.references.push(ReferenceRow {
                srs_id,
                coordsys_id,
                organization,
                definition,
            });
        }
    }

    fn add_contents(&mut self, random: &mut Random, count: usize) {
        for _ in 0..count {
            let data_types = ["tiles", "tiles", "tiles", "features", "Tiles", ""];
            let moments = ["2024-02-29T00:00:00.000Z", "2023-02-29T00:00:00.000Z"];
            let flag = u32::from(!random.once_in(4));
            let row = ContentsRow {
                table_name: self.name(random),
                data_type: self.draft.text(random.pick(&data_types)),
                last_change: self.draft.text(random.pick(&moments)),
                srs_id: self.id(random) * i64::from(flag),
                flag,
                spare: 0,
            };
            self.draft.contents.push(row);
        }
    }

    fn add_sets(&mut self, random: &mut Random, count: usize) {
        for _ in 0..count {
            let row = SetRow {
                table_name: self.name(random),
                srs_id: self.id(random),
                corners: [0; 4].map(|_| corner(random)),
            };
            self.draft.sets.push(row);
        }
    }

    fn add_matrices(&mut self, random: &mut Random, count: usize) {
        for _ in 0..count {
            let other_side = side(random);
            let row = MatrixRow {
                table_name: self.name(random),
                zoom: zoom(random),
                matrix_width: side(random),
                matrix_height: side(random),
                tile_width: random.pick(&[1, 128, 256, 256, 0]),
                tile_height: random.pick(&[1, 128, 256, 256, other_side]),
                pixel_x_size: pixel(random),
                pixel_y_size: pixel(random),
            };
            self.draft.matrices.push(row);
        }
    }

    fn add_tiles(&mut self, random: &mut Random, count: usize) {
        for _ in 0..count {
            let far = random.pick(&[i64::MIN, i64::MAX, 1 << 32]);
            let mut at = || match random.below(32) {
                0 => far,
                _ => random.from_to(-1, 3),
            };
            let (column, row) = (at(), at());
            let tile = TileRow { table_name: self.name(random), zoom: zoom(random), column, row };
            self.draft.tiles.push(tile);
        }
    }

    fn add_extensions(&mut self, random: &mut Random, count: usize) {
        for _ in 0..count {
            let names = ["gpkg_zoom_other", "gpkg_zoom_other", "a_b", "a_", "_b", ""];
            let scopes = ["read-write", "write-only", "write_only"];
            let row = ExtensionRow {
                table_name: self.name_or_null(random),
                column_name: self.name_or_null(random),
                extension_name: self.draft.text(random.pick(&names)),
                scope: self.draft.text(random.pick(&scopes)),
            };
            self.draft.extensions.push(row);
        }
    }

    /// Rows in every table: up to so many in each.
    fn filled(mut self, random: &mut Random, mosts: [usize; 6]) -> Draft {
        let counts = mosts.map(|most| random.below(most + 1));
        self.add_references(random, counts[0]);
        self.add_contents(random, counts[1]);
        self.add_sets(random, counts[2]);
        self.add_matrices(random, counts[3]);
        self.add_tiles(random, counts[4]);
        self.add_extensions(random, counts[5]);
        self.draft
    }
}

fn filled(random: &mut Random, mosts: [usize; 6]) -> Draft {
    Domain::new(random).filled(random, mosts)
}

pub fn any(random: &mut Random) -> Draft {
    filled(random, [5, 4, 4, 6, 12, 5])
}

pub fn tiles(random: &mut Random) -> Draft {
    filled(random, [3, 3, 2, 5, 200, 1])
}

pub fn matrices(random: &mut Random) -> Draft {
    filled(random, [3, 3, 4, 40, 4, 1])
}

pub fn sets(random: &mut Random) -> Draft {
    filled(random, [4, 12, 12, 6, 3, 1])
}

pub fn extensions(random: &mut Random) -> Draft {
    filled(random, [3, 2, 2, 4, 2, 40])
}

pub fn references(random: &mut Random) -> Draft {
    filled(random, [24, 8, 6, 1, 1, 1])
}

/// Moments whose parts are at the edge of what they may be.
pub fn dates(random: &mut Random) -> Draft {
    let mut draft = Draft::default();
    for _ in 0..1 + random.below(20) {
        let row = ContentsRow {
            table_name: span(0, 0),
            data_type: span(0, 0),
            last_change: draft.text_apart(edge_moment(random)),
            srs_id: 0,
            flag: 0,
            spare: 0,
        };
        draft.contents.push(row);
    }
    draft
}

/// A moment whose parts are at the edge, or none.
pub fn edge_moment(random: &mut Random) -> Vec<u8> {
    let mut text = moment(random);
    if random.once_in(3) {
        let at = random.below(text.len());
        text[at] = random.pick(b"0129/:-T tZz.\x00\x7f");
    }
    if random.once_in(20) {
        // A digit of two octets for two of one: 24 octets, and no moment.
        let at = random.below(text.len() - 1);
        text[at..at + 2].copy_from_slice("\u{660}".as_bytes());
    }
    match random.below(12) {
        0 => text.truncate(random.below(25)),
        1 => text.push(random.pick(b"Z0 \0")),
        _ => {}
    }
    text
}

fn moment(random: &mut Random) -> Vec<u8> {
    let years = [0, 4, 96, 100, 400, 1900, 2000, 2023, 2024, 2100, 9999];
    let year = match random.below(3) {
        0 => random.below(10_000),
        _ => random.pick(&years),
    };
    let month = match random.below(3) {
        0 => 2,
        _ => random.below(14),
    };
    let day = random.pick(&[0, 1, 28, 29, 30, 31, 32]);
    let hour = random.pick(&[0, 9, 19, 23, 23, 24]);
    let (minute, second) = (random.pick(&[0, 59, 59, 60]), random.pick(&[0, 59, 59, 60]));
    let thousandth = random.below(1_000);
    format!("{year:04}-{month:02}-{day:02}T{hour:02}:{minute:02}:{second:02}.{thousandth:03}Z")
        .into_bytes()
}

/// Names that are any parts of a few letters: equal at different places, one
/// the beginning of another, empty at the very end.
pub fn overlapping(random: &mut Random) -> Draft {
    let mut domain = Domain::new(random);
    let alphabet = random.pick(&[["a", "b"], ["a", "\u{e9}"], ["\u{e8}", "\u{e9}"]]);
    // The places between the letters.
    let mut places = vec![domain.draft.names.len()];
    for _ in 0..2 + random.below(9) {
        domain.draft.text_apart(random.pick(&alphabet));
        places.push(domain.draft.names.len());
    }
    domain.names = (0..12)
        .map(|_| {
            let from = random.below(places.len());
            let count = random.below(places.len() - from).min(3);
            span(places[from], places[from + count] - places[from])
        })
        .collect();
    let mut draft = domain.filled(random, [2, 6, 6, 16, 40, 6]);
    // Whatever was added behind the letters, empty texts may stand at the end.
    let end = draft.names.len();
    for row in draft.tiles.iter_mut().filter(|row| row.table_name.length == 0) {
        row.table_name = span(end, 0);
    }
    draft
}

//! The judge: the rows of a listing and what the rules look up in them.

use std::cell::OnceCell;

use super::codes::{Code, CODES};
use super::hashing::QuickMap;
use super::names::{LatePlaces, NameBook, NameId};
use super::{Finding, Findings};
use crate::listing::layout::TILES;
use crate::listing::{Contents, Extension, Listing, Matrix, MatrixSet, Reference, NONE};

/// What the tables other than the tiles say of one name.
#[derive(Default)]
pub(super) struct NameFacts {
    pub is_tiles_name: bool,
    /// The name's set rows and matrix rows, ascending.
    pub sets: Vec<usize>,
    pub matrices: Vec<usize>,
    /// Lowest and highest zoom of the name's matrix rows.
    pub zooms: Option<(i64, i64)>,
    /// Has an extension row taken the name out of 351?
    pub is_zoom_other: bool,
}

/// Everything that is worked out of the tiles, at the first need.
#[derive(Default)]
struct TileFacts {
    names: OnceCell<Vec<NameId>>,
    matrices: OnceCell<Vec<u32>>,
    named: OnceCell<Vec<bool>>,
}

/// A listing's rows, ready to be judged.
pub struct Judge<'a> {
    pub(super) listing: Listing<'a>,
    pub(super) references: Vec<Reference<'a>>,
    pub(super) contents: Vec<Contents<'a>>,
    pub(super) sets: Vec<MatrixSet<'a>>,
    pub(super) matrices: Vec<Matrix<'a>>,
    pub(super) extensions: Vec<Extension<'a>>,
    pub(super) contents_names: Vec<NameId>,
    pub(super) set_names: Vec<NameId>,
    pub(super) matrix_names: Vec<NameId>,
    book: NameBook<'a>,
    facts: Vec<NameFacts>,
    matrices_at: QuickMap<(NameId, i64), Vec<u32>>,
    tile_facts: TileFacts,
}

impl<'a> Judge<'a> {
    pub fn new(listing: Listing<'a>) -> Judge<'a> {
        let contents: Vec<_> = listing.contents().collect();
        let sets: Vec<_> = listing.sets().collect();
        let matrices: Vec<_> = listing.matrices().collect();
        let mut book = NameBook::default();
        let contents_names = contents.iter().map(|c| book.enter(c.table_name)).collect();
        let set_names = sets.iter().map(|s| book.enter(s.table_name)).collect();
        let matrix_names = matrices.iter().map(|m| book.enter(m.table_name)).collect();
        let mut judge = Judge {
            listing,
            references: listing.references().collect(),
            contents,
            sets,
            matrices,
            extensions: listing.extensions().collect(),
            contents_names,
            set_names,
            matrix_names,
            book,
            facts: Vec::new(),
            matrices_at: QuickMap::default(),
            tile_facts: TileFacts::default(),
        };
        judge.gather_facts();
        judge
    }

    fn gather_facts(&mut self) {
        // The extension rows come last: a name that only they have is in no rule.
        self.facts.resize_with(self.book.len(), NameFacts::default);
        for (row, &name) in self.contents_names.iter().enumerate() {
            self.facts[name as usize].is_tiles_name |= self.contents[row].data_type == b"tiles";
        }
        for (row, &name) in self.set_names.iter().enumerate() {
            self.facts[name as usize].sets.push(row);
        }
        for (row, &name) in self.matrix_names.iter().enumerate() {
            let zoom = self.matrices[row].zoom;
            let facts = &mut self.facts[name as usize];
            facts.matrices.push(row);
            facts.zooms = Some(match facts.zooms {
                None => (zoom, zoom),
                Some((low, high)) => (low.min(zoom), high.max(zoom)),
            });
            let rows = self.matrices_at.entry((name, zoom)).or_default();
            rows.push(row as u32);
        }
        for extension in &self.extensions {
            let Some(name) = extension.table_name else {
                continue;
            };
            if extension.extension_name == b"gpkg_zoom_other" {
                let name = self.book.enter(name) as usize;
                if let Some(facts) = self.facts.get_mut(name) {
                    facts.is_zoom_other = true;
                }
            }
        }
    }

    /// What is known of a name; nothing, if only tiles or extensions have it.
    pub(super) fn facts_of(&self, name: NameId) -> Option<&NameFacts> {
        self.facts.get(name as usize)
    }

    pub(super) fn is_tiles_name(&self, name: NameId) -> bool {
        self.facts_of(name).is_some_and(|facts| facts.is_tiles_name)
    }

    /// The matrix rows of a name at a zoom, ascending.
    pub(super) fn matrices_at(&self, name: NameId, zoom: i64) -> &[u32] {
        self.matrices_at.get(&(name, zoom)).map_or(&[], Vec::as_slice)
    }

    pub(super) fn tile_count(&self) -> usize {
        self.listing.count(TILES)
    }

    /// The name of each tile row.
    pub(super) fn tile_names(&self) -> &[NameId] {
        self.tile_facts.names.get_or_init(|| {
            let mut book = self.book.clone();
            let mut late = LatePlaces::new(&mut book);
            let tiles = self.listing.tiles();
            tiles.map(|tile| late.enter(&mut book, tile.table_name)).collect()
        })
    }

    /// The first matrix row of each tile's name and zoom, or [`NONE`].
    pub(super) fn tile_matrices(&self) -> &[u32] {
        self.tile_facts.matrices.get_or_init(|| {
            let names = self.tile_names();
            let first_at = |name, zoom| self.matrices_at(name, zoom).first().copied();
            let mut latest = None;
            let mut answer = NONE;
            let rows = self.listing.tiles().zip(names);
            rows.map(|(tile, &name)| {
                if latest != Some((name, tile.zoom)) {
                    latest = Some((name, tile.zoom));
                    answer = first_at(name, tile.zoom).unwrap_or(NONE);
                }
                answer
            })
            .collect()
        })
    }

    /// Has this name a tile row?
    pub(super) fn has_tile(&self, name: NameId) -> bool {
        let named = self.tile_facts.named.get_or_init(|| {
            let mut named = vec![false; self.facts.len()];
            for &name in self.tile_names() {
                if let Some(seen) = named.get_mut(name as usize) {
                    *seen = true;
                }
            }
            named
        });
        named.get(name as usize).copied().unwrap_or(false)
    }

    /// The findings of one code.
    pub fn findings_of(&self, code: &Code) -> Findings<'_> {
        (code.rule)(self)
    }

    /// All findings, by code and then by row.
    pub fn findings(&self) -> Vec<Finding> {
        let mut findings = Vec::new();
        for code in &CODES {
            findings.extend(self.findings_of(code));
        }
        findings
    }
}

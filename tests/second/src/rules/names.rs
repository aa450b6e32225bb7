//! Names as numbers: texts with equal octets get one number, so that the rules
//! compare numbers.

use super::hashing::{settle, stir, QuickMap};

/// A number that stands for the octets of a name.
pub type NameId = u32;

/// The names met so far.
#[derive(Clone, Default)]
pub struct NameBook<'a> {
    ids: QuickMap<&'a [u8], NameId>,
}

impl<'a> NameBook<'a> {
    /// The number of a name, a new one if the name is new.
    pub fn enter(&mut self, name: &'a [u8]) -> NameId {
        let next = self.ids.len() as NameId;
        *self.ids.entry(name).or_insert(next)
    }

    /// How many names there are; their numbers are below this.
    pub fn len(&self) -> usize {
        self.ids.len()
    }
}

/// The texts entered lately, by the place where they are stored: most tiles
/// share few of these, and a text at a known place need not be read again.
pub struct LatePlaces<'a> {
    slots: Vec<(&'a [u8], NameId)>,
}

const LATE_PLACES: usize = 1024;

impl<'a> LatePlaces<'a> {
    pub fn new(book: &mut NameBook<'a>) -> LatePlaces<'a> {
        LatePlaces { slots: vec![(&[], book.enter(&[])); LATE_PLACES] }
    }

    /// The number of a name, from the book where its place is not known.
    #[inline]
    pub fn enter(&mut self, book: &mut NameBook<'a>, name: &'a [u8]) -> NameId {
        let place = stir(name.as_ptr() as u64, name.len() as u64);
        let slot = &mut self.slots[settle(place) as usize % LATE_PLACES];
        // Same place and same length: the same octets.
        if !std::ptr::eq(slot.0, name) {
            *slot = (name, book.enter(name));
        }
        slot.1
    }
}

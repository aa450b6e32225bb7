//! The same for metadata listings.

use super::{put_header, put_i64s, put_texts, put_u32s, text_apart_in, text_in, Span, NULL};
use crate::listing::layout::METADATA_LISTING;

#[derive(Clone, Copy, Debug)]
pub struct MetadataRow {
    pub id: i64,
    pub scope: Span,
}

#[derive(Clone, Copy, Debug)]
pub struct MetadataReferenceRow {
    pub scope: Span,
    pub table_name: Span,
    pub column_name: Span,
    pub timestamp: Span,
    pub row_id: i64,
    pub file_id: i64,
    pub parent_id: i64,
    pub flags: u32,
    pub spare: u32,
}

impl MetadataReferenceRow {
    /// `None` is NULL, and its flag is not set.
    pub fn set_numbers(&mut self, row_id: Option<i64>, parent_id: Option<i64>) {
        (self.row_id, self.parent_id) = (row_id.unwrap_or(0), parent_id.unwrap_or(0));
        self.flags = u32::from(row_id.is_some()) + 2 * u32::from(parent_id.is_some());
    }
}

/// A metadata listing in the making.
#[derive(Clone, Debug, Default)]
pub struct MetadataDraft {
    pub metadata: Vec<MetadataRow>,
    pub references: Vec<MetadataReferenceRow>,
    pub names: Vec<u8>,
}

impl MetadataDraft {
    /// A text with these octets, wherever it is already.
    pub fn text(&mut self, octets: impl AsRef<[u8]>) -> Span {
        text_in(&mut self.names, octets.as_ref())
    }

    /// A text with these octets at a place of its own.
    pub fn text_apart(&mut self, octets: impl AsRef<[u8]>) -> Span {
        text_apart_in(&mut self.names, octets.as_ref())
    }

    fn text_or_null(&mut self, octets: Option<&[u8]>) -> Span {
        octets.map_or(NULL, |octets| self.text(octets))
    }

    pub fn metadata(&mut self, id: i64, scope: &str) {
        let scope = self.text(scope);
        self.metadata.push(MetadataRow { id, scope });
    }

    /// A reference to a file, without a row id and a parent; `None` is NULL.
    pub fn reference(
        &mut self,
        scope: &str,
        [table_name, column_name]: [Option<&[u8]>; 2],
        timestamp: &str,
        file_id: i64,
    ) {
        let row = MetadataReferenceRow {
            scope: self.text(scope),
            table_name: self.text_or_null(table_name),
            column_name: self.text_or_null(column_name),
            timestamp: self.text(timestamp),
            row_id: 0,
            file_id,
            parent_id: 0,
            flags: 0,
            spare: 0,
        };
        self.references.push(row);
    }

    pub fn listing(&self) -> Vec<u8> {
        let mut out = Vec::new();
        let counts = [self.metadata.len(), self.references.len(), self.names.len()];
        put_header(&mut out, &METADATA_LISTING, &counts);
        for row in &self.metadata {
            put_i64s(&mut out, &[row.id]);
            put_texts(&mut out, &[row.scope]);
        }
        for row in &self.references {
            put_texts(&mut out, &[row.scope, row.table_name, row.column_name, row.timestamp]);
            put_i64s(&mut out, &[row.row_id, row.file_id, row.parent_id]);
            put_u32s(&mut out, &[row.flags, row.spare]);
        }
        out.extend_from_slice(&self.names);
        out
    }
}

//! Generated texts and contents of sources, by lines.

use std::fmt;
use std::iter::FusedIterator;
use std::sync::Arc;

use crate::detector::{locate_sourcemap_reference_slice, SourceMapRef};
use crate::errors::Result;
use crate::handle::ViewHandle;
use crate::types::Token;
use crate::utils::must;

/// A text with the table of its lines. Columns count UTF-16 units.
pub struct SourceView {
    handle: ViewHandle,
}

/// The lines of a text.
pub struct Lines<'a> {
    sv: &'a SourceView,
    /// None after line `u32::MAX`.
    next: Option<u32>,
}

impl SourceView {
    pub(crate) fn of_text(text: &str) -> SourceView {
        SourceView {
            handle: must(ViewHandle::open(text)),
        }
    }

    pub(crate) fn handle(&self) -> &ViewHandle {
        &self.handle
    }

    /// Makes a view of a text.
    pub fn new(source: Arc<str>) -> SourceView {
        SourceView::of_text(&source)
    }

    /// Makes a view of a text.
    pub fn from_string(source: String) -> SourceView {
        SourceView::of_text(&source)
    }

    /// Returns a line without its end.
    pub fn get_line(&self, idx: u32) -> Option<&str> {
        self.handle.line(idx)
    }

    /// Returns the part of a line that begins at a column and has `span` UTF-16
    /// units. If the part would begin or end inside a character of two units, it
    /// begins or ends after this character. Returns none if there is no such line,
    /// or if the line is too short.
    pub fn get_line_slice(&self, line: u32, col: u32, span: u32) -> Option<&str> {
        self.handle.slice(line, col, span)
    }

    /// Returns the lines, but at most the first 4294967296.
    pub fn lines(&self) -> Lines<'_> {
        Lines {
            sv: self,
            next: Some(0),
        }
    }

    /// Returns the whole text.
    pub fn source(&self) -> &str {
        self.handle.source()
    }

    /// Guesses the original name of the function that contains a token, as [the
    /// token's map](crate::SourceMap::get_original_function_name) does.
    /// `minified_name` is the name of the function in the generated text. Call this
    /// on a view of the generated text of that map.
    pub fn get_original_function_name<'map>(
        &self,
        token: Token<'map>,
        minified_name: &str,
    ) -> Option<&'map str> {
        let map = token.sourcemap().regular_handle();
        map.function_name(token.lookup_position(), minified_name, &self.handle)
    }

    /// Returns how many lines there are.
    pub fn line_count(&self) -> usize {
        self.handle.line_count()
    }

    /// Returns the first reference to a map in the text, as
    /// [`locate_sourcemap_reference_slice`] does.
    pub fn sourcemap_reference(&self) -> Result<Option<SourceMapRef>> {
        locate_sourcemap_reference_slice(self.source().as_bytes())
    }
}

impl Clone for SourceView {
    fn clone(&self) -> SourceView {
        SourceView {
            handle: must(self.handle.share()),
        }
    }
}

impl PartialEq for SourceView {
    fn eq(&self, other: &SourceView) -> bool {
        self.source() == other.source()
    }
}

impl fmt::Debug for SourceView {
    fn fmt(&self, f: &mut fmt::Formatter<'_>) -> fmt::Result {
        f.debug_struct("SourceView")
            .field("source", &self.source())
            .finish()
    }
}

impl<'a> Iterator for Lines<'a> {
    type Item = &'a str;

    fn next(&mut self) -> Option<&'a str> {
        let line = self.sv.get_line(self.next?)?;
        self.next = self.next?.checked_add(1);
        Some(line)
    }
}

impl FusedIterator for Lines<'_> {}

//! Iterators over what a map has.

use std::iter::FusedIterator;

use crate::types::{RawToken, SourceMap, Token};

/// How many tokens are read by one call of the library.
const BLOCK: usize = 256;

/// The tokens of a map, in order. If the map has more than 4294967295 tokens, the
/// iterator does not end.
pub struct TokenIter<'a> {
    sm: &'a SourceMap,
    /// The index of the token after those in the block.
    after_block: u32,
    block: Vec<RawToken>,
    at: usize,
}

impl<'a> TokenIter<'a> {
    pub(crate) fn new(sm: &'a SourceMap) -> TokenIter<'a> {
        TokenIter {
            sm,
            after_block: 0,
            block: Vec::new(),
            at: 0,
        }
    }

    /// Continues after the closest token to a position. Returns whether there is
    /// one; if not, the iterator is as it was.
    pub fn seek(&mut self, line: u32, col: u32) -> bool {
        let Some(index) = self.sm.handle().lookup_index(line, col) else {
            return false;
        };
        self.after_block = index.saturating_add(1);
        self.block.clear();
        self.at = 0;
        true
    }

    fn read_block(&mut self) {
        self.block.resize(BLOCK, RawToken::ZERO);
        let read = self.sm.read_tokens(self.after_block, &mut self.block);
        self.block.truncate(read);
        // The library takes the index of a token in 32 bits.
        self.after_block = self.after_block.saturating_add(read as u32);
        self.at = 0;
    }
}

impl<'a> Iterator for TokenIter<'a> {
    type Item = Token<'a>;

    #[inline]
    fn next(&mut self) -> Option<Token<'a>> {
        if self.at == self.block.len() {
            self.read_block();
        }
        let raw = *self.block.get(self.at)?;
        self.at += 1;
        Some(Token::of_raw(self.sm, raw))
    }
}

impl FusedIterator for TokenIter<'_> {}

/// The sources of a map, resolved against its source root.
pub struct SourceIter<'a> {
    sm: &'a SourceMap,
    next: u32,
}

/// The contents of each source of a map, or none for a source without contents.
pub struct SourceContentsIter<'a> {
    sm: &'a SourceMap,
    next: u32,
}

/// The names of a map.
pub struct NameIter<'a> {
    sm: &'a SourceMap,
    next: u32,
}

impl<'a> SourceIter<'a> {
    pub(crate) fn new(sm: &'a SourceMap) -> SourceIter<'a> {
        SourceIter { sm, next: 0 }
    }
}

impl<'a> SourceContentsIter<'a> {
    pub(crate) fn new(sm: &'a SourceMap) -> SourceContentsIter<'a> {
        SourceContentsIter { sm, next: 0 }
    }
}

impl<'a> NameIter<'a> {
    pub(crate) fn new(sm: &'a SourceMap) -> NameIter<'a> {
        NameIter { sm, next: 0 }
    }
}

impl<'a> Iterator for SourceIter<'a> {
    type Item = &'a str;

    fn next(&mut self) -> Option<&'a str> {
        let source = self.sm.get_source(self.next)?;
        self.next += 1;
        Some(source)
    }
}

impl<'a> Iterator for SourceContentsIter<'a> {
    type Item = Option<&'a str>;

    fn next(&mut self) -> Option<Option<&'a str>> {
        if self.next >= self.sm.get_source_count() {
            return None;
        }
        let contents = self.sm.get_source_contents(self.next);
        self.next += 1;
        Some(contents)
    }
}

impl<'a> Iterator for NameIter<'a> {
    type Item = &'a str;

    fn next(&mut self) -> Option<&'a str> {
        let name = self.sm.get_name(self.next)?;
        self.next += 1;
        Some(name)
    }
}

impl FusedIterator for SourceIter<'_> {}
impl FusedIterator for SourceContentsIter<'_> {}
impl FusedIterator for NameIter<'_> {}

//! Tokens.

use std::cmp::Ordering;
use std::fmt;

use crate::sourceview::SourceView;
use crate::types::SourceMap;

/// A token by its numbers.
#[repr(C)]
#[derive(PartialEq, Eq, Copy, Clone, Debug)]
pub struct RawToken {
    /// The line of the generated text, from 0.
    pub dst_line: u32,
    /// The column of the generated text, from 0.
    pub dst_col: u32,
    /// The original line, from 0. In a decoded map it is `!0` if the token has no
    /// source.
    pub src_line: u32,
    /// The original column, from 0. In a decoded map it is `!0` if the token has no
    /// source.
    pub src_col: u32,
    /// The id of the source, or `!0` without an id. In a map that was built, an id may
    /// name no source.
    pub src_id: u32,
    /// The id of the name, or `!0` without an id. In a map that was built, or whose
    /// names were removed, an id may name nothing.
    pub name_id: u32,
    /// Whether the token is a range token. It then also maps the columns after it,
    /// on its own generated line and before the next token. A column that lies N
    /// columns after the token maps to N columns after its original column, but at
    /// most to 4294967295.
    pub is_range: bool,
}

impl RawToken {
    pub(crate) const ZERO: RawToken = RawToken {
        dst_line: 0,
        dst_col: 0,
        src_line: 0,
        src_col: 0,
        src_id: 0,
        name_id: 0,
        is_range: false,
    };

    pub(crate) fn dst(&self) -> (u32, u32) {
        (self.dst_line, self.dst_col)
    }
}

/// A token of a map, which it borrows.
///
/// Tokens are equal if their numbers are, as [`Token::get_raw_token`] returns them. The order
/// compares what the getters return: the generated position, the text of the source, the
/// original position, the text of the name, and whether it is a range token.
#[derive(Copy, Clone)]
pub struct Token<'a> {
    sm: &'a SourceMap,
    /// As in the map, but the original column of a range token includes the
    /// distance to the position looked up.
    answer: RawToken,
    /// The generated column of the position looked up, or of the token if that
    /// position is on another line.
    column: u32,
}

impl<'a> Token<'a> {
    /// A token as it is in its map.
    #[inline]
    pub(crate) fn of_raw(sm: &'a SourceMap, raw: RawToken) -> Token<'a> {
        Token::of_answer(sm, raw, raw.dst())
    }

    /// The answer to a position. The original column that a range token has in its
    /// map is computed only when it is asked for, so that lookups stay fast.
    #[inline]
    pub(crate) fn of_answer(
        sm: &'a SourceMap,
        answer: RawToken,
        position: (u32, u32),
    ) -> Token<'a> {
        let column = match position {
            (line, column) if line == answer.dst_line => column,
            _ => answer.dst_col,
        };
        Token { sm, answer, column }
    }

    /// For a range token the position that was looked up, if it is on the token's
    /// line; else the token's own generated position.
    pub(crate) fn lookup_position(&self) -> (u32, u32) {
        if self.answer.is_range {
            (self.answer.dst_line, self.column)
        } else {
            self.answer.dst()
        }
    }

    /// The original column of the token in its map.
    fn listed_src_col(&self) -> u32 {
        let position = self.lookup_position();
        match (position.1 - self.answer.dst_col, self.answer.src_col) {
            (0, column) => column,
            // The sum may have stopped at the last column, so the map is asked.
            (_, u32::MAX) => self
                .sm
                .closest(position)
                .map_or(u32::MAX, |token| token.src_col),
            (distance, column) => column - distance,
        }
    }

    /// Returns the map of the token.
    pub fn sourcemap(&self) -> &'a SourceMap {
        self.sm
    }

    /// Returns the line of the generated text.
    pub fn get_dst_line(&self) -> u32 {
        self.answer.dst_line
    }

    /// Returns the column of the generated text.
    pub fn get_dst_col(&self) -> u32 {
        self.answer.dst_col
    }

    /// Returns the line and the column of the generated text.
    pub fn get_dst(&self) -> (u32, u32) {
        self.answer.dst()
    }

    /// Returns the original line. In a decoded map it is `!0` if the token has no
    /// source.
    pub fn get_src_line(&self) -> u32 {
        self.answer.src_line
    }

    /// Returns the original column. In a decoded map it is `!0` if the token has no
    /// source. If a lookup returned a range token for a position on the token's
    /// line, the distance in columns from the token to that position is added. The
    /// sum stops at 4294967295.
    pub fn get_src_col(&self) -> u32 {
        self.answer.src_col
    }

    /// Returns the original line and column, as [`Token::get_src_line`] and
    /// [`Token::get_src_col`] do.
    pub fn get_src(&self) -> (u32, u32) {
        (self.get_src_line(), self.get_src_col())
    }

    /// Returns the id of the source, or `!0` without an id. In a map that was built, an
    /// id may name no source.
    pub fn get_src_id(&self) -> u32 {
        self.answer.src_id
    }

    /// Returns the source, resolved against the source root.
    pub fn get_source(&self) -> Option<&'a str> {
        self.has_source()
            .then(|| self.sm.get_source(self.answer.src_id))
            .flatten()
    }

    /// Returns whether the token has a source id other than `!0`. In a map that was
    /// built, such an id may name no source.
    pub fn has_source(&self) -> bool {
        self.answer.src_id != !0
    }

    /// Returns the name.
    pub fn get_name(&self) -> Option<&'a str> {
        (self.answer.name_id != !0)
            .then(|| self.sm.get_name(self.answer.name_id))
            .flatten()
    }

    /// Returns whether the token has a name.
    pub fn has_name(&self) -> bool {
        self.get_name().is_some()
    }

    /// Returns the id of the name, or `!0` without an id. In a map that was built, or
    /// whose names were removed, an id may name nothing.
    pub fn get_name_id(&self) -> u32 {
        self.answer.name_id
    }

    /// Returns the source, the original line, the original column and the name. The
    /// source is the empty text if [`Token::get_source`] returns none.
    pub fn to_tuple(&self) -> (&'a str, u32, u32, Option<&'a str>) {
        (
            self.get_source().unwrap_or_default(),
            self.get_src_line(),
            self.get_src_col(),
            self.get_name(),
        )
    }

    /// Returns the numbers of the token as they are in its map.
    pub fn get_raw_token(&self) -> RawToken {
        RawToken {
            src_col: self.listed_src_col(),
            ..self.answer
        }
    }

    /// Returns the contents of the source with their lines.
    pub fn get_source_view(&self) -> Option<&SourceView> {
        self.sm.get_source_view(self.answer.src_id)
    }

    /// Returns whether the token maps a range.
    pub fn is_range(&self) -> bool {
        self.answer.is_range
    }
}

impl PartialEq for Token<'_> {
    fn eq(&self, other: &Token<'_>) -> bool {
        self.get_raw_token() == other.get_raw_token()
    }
}

impl Eq for Token<'_> {}

impl PartialOrd for Token<'_> {
    fn partial_cmp(&self, other: &Token<'_>) -> Option<Ordering> {
        Some(self.cmp(other))
    }
}

impl Ord for Token<'_> {
    fn cmp(&self, other: &Token<'_>) -> Ordering {
        self.get_dst()
            .cmp(&other.get_dst())
            .then_with(|| self.get_source().cmp(&other.get_source()))
            .then_with(|| self.get_src().cmp(&other.get_src()))
            .then_with(|| self.get_name().cmp(&other.get_name()))
            .then_with(|| self.is_range().cmp(&other.is_range()))
    }
}

impl fmt::Display for Token<'_> {
    fn fmt(&self, f: &mut fmt::Formatter<'_>) -> fmt::Result {
        f.write_str(&self.sm.token_text(self.answer, self.lookup_position()))?;
        if f.alternate() {
            let range = if self.is_range() { " (range)" } else { "" };
            write!(
                f,
                " ({}:{}){range}",
                self.get_dst_line(),
                self.get_dst_col()
            )?;
        }
        Ok(())
    }
}

impl fmt::Debug for Token<'_> {
    fn fmt(&self, f: &mut fmt::Formatter<'_>) -> fmt::Result {
        write!(f, "<Token {self:#}>")
    }
}

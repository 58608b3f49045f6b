//! Random positions in a generated text. The same seed gives the same positions on every run.

use sourcemap::SourceMap;

/// The generator splitmix64: a counter with a fixed step, whose values are scrambled.
pub struct Draws {
    count: u64,
}

impl Draws {
    pub fn with_seed(count: u64) -> Draws {
        Draws { count }
    }

    fn next(&mut self) -> u64 {
        self.count = self.count.wrapping_add(0x9E37_79B9_7F4A_7C15);
        let first = self.count;
        let second = (first ^ (first >> 30)).wrapping_mul(0xBF58_476D_1CE4_E5B9);
        let third = (second ^ (second >> 27)).wrapping_mul(0x94D0_49BB_1331_11EB);
        third ^ (third >> 31)
    }

    /// A position at a token, or up to three columns after it. (0, 0) for a map without tokens.
    pub fn beside_token(&mut self, map: &SourceMap) -> (u32, u32) {
        let drawn = self.next();
        let columns = (self.next() % 4) as u32;
        let index = drawn
            .checked_rem(u64::from(map.get_token_count()))
            .unwrap_or(0);
        match map.get_token(index as usize) {
            Some(token) => (
                token.get_dst_line(),
                token.get_dst_col().saturating_add(columns),
            ),
            None => (0, 0),
        }
    }

    /// A position at any column. The line is one of the map's lines or of the two lines after them.
    pub fn anywhere(&mut self, map: &SourceMap) -> (u32, u32) {
        let last = map
            .tokens()
            .last()
            .map_or(0, |token| u64::from(token.get_dst_line()));
        let line = (self.next() % (last + 3)) as u32;
        let bits = self.next() % 33;
        (line, (self.next() % (1 << bits)) as u32)
    }
}

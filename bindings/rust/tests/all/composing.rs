use std::collections::BTreeSet;

use sourcemap::{Error, RawToken, SourceMap};

use crate::{raw_tokens, regular, token, COOLSTUFF};

fn of_tokens(tokens: &[RawToken]) -> SourceMap {
    SourceMap::new(None, tokens.to_vec(), vec![], vec!["a.js".into()], None)
}

fn compose(originals: &[RawToken], adjustments: &[RawToken]) -> Vec<RawToken> {
    let mut map = of_tokens(originals);
    map.adjust_mappings(&of_tokens(adjustments));
    raw_tokens(&map)
}

#[test]
fn originals_move_with_the_stretch_that_covers_them() {
    let originals = [token((8, 28), (102, 35)), token((8, 40), (102, 50))];
    let adjustments = [token((17, 23), (8, 30))];
    let expected = [token((17, 23), (102, 35)), token((17, 33), (102, 50))];
    assert_eq!(compose(&originals, &adjustments), expected);
}

#[test]
fn of_two_adjustments_of_one_position_the_later_has_the_stretch() {
    let adjustments = [token((3, 0), (0, 5)), token((4, 0), (0, 5))];
    let before = [token((0, 0), (9, 0))];
    assert_eq!(
        compose(&before, &adjustments),
        [token((3, 0), (9, 0)), token((4, 0), (9, 0))]
    );
    let there = [token((0, 5), (9, 0))];
    assert_eq!(compose(&there, &adjustments), [token((4, 0), (9, 0))]);
}

#[test]
fn a_token_past_the_last_column_is_refused() {
    let last = token((0, u32::MAX), (0, 0));
    let adjustment = of_tokens(&[last]);
    let mut map = of_tokens(&[token((0, 0), (1, 0)), token((0, 1), (2, 0))]);
    let before = map.clone();
    let result = map.try_adjust_mappings(&adjustment);
    assert!(matches!(result, Err(Error::IncompatibleSourceMap)));
    assert_eq!(map, before);
    let alone = compose(&[token((0, 0), (1, 0))], &[last]);
    assert_eq!(alone, [token((0, u32::MAX), (1, 0))]);
}

#[test]
fn texts_are_those_of_the_original() {
    let mut map = regular(COOLSTUFF);
    // The text moves one line down.
    map.adjust_mappings(&of_tokens(&[token((1, 0), (0, 0))]));
    assert!(map.lookup_token(0, 9).is_none());
    let token = map.lookup_token(1, 18).expect("a token");
    assert_eq!(format!("{token:#}"), "coolstuff.js:2:2 name=alert (1:18)");
}

/// Texts have this many lines and columns.
const SIZE: u32 = 10;

type Position = (u32, u32);

/// An original position, its source and its name.
type Answer<'a> = (Position, Option<&'a str>, Option<&'a str>);

/// Draws numbers, the same ones for a seed.
struct Draws(u64);

impl Draws {
    /// A number below `end`, by the generator splitmix64.
    fn below(&mut self, end: u32) -> u32 {
        self.0 = self.0.wrapping_add(0x9e37_79b9_7f4a_7c15);
        let mut bits = self.0;
        bits = (bits ^ (bits >> 30)).wrapping_mul(0xbf58_476d_1ce4_e5b9);
        bits = (bits ^ (bits >> 27)).wrapping_mul(0x94d0_49bb_1331_11eb);
        ((bits ^ (bits >> 31)) % u64::from(end)) as u32
    }

    fn position(&mut self) -> Position {
        (self.below(SIZE), self.below(SIZE))
    }

    /// Up to 40 positions, sorted.
    fn positions(&mut self) -> BTreeSet<Position> {
        (0..=self.below(40)).map(|_| self.position()).collect()
    }

    /// A map of three sources and three names, with one token at each of some
    /// positions.
    fn map(&mut self) -> SourceMap {
        let tokens = self.positions().into_iter().map(|dst| RawToken {
            src_id: self.below(3),
            name_id: [0, 1, 2, !0][self.below(4) as usize],
            ..token(dst, self.position())
        });
        let tokens = tokens.collect();
        let names = ["x", "y", "z"].map(Into::into).to_vec();
        let sources = ["a.js", "b.js", "c.js"].map(Into::into).to_vec();
        SourceMap::new(None, tokens, names, sources, None)
    }
}

/// What a map says of each position, and past the ends of lines and text.
fn answers(map: &SourceMap) -> Vec<Option<Answer<'_>>> {
    let positions = (0..=SIZE).flat_map(|line| (0..=SIZE).map(move |column| (line, column)));
    positions
        .map(|(line, column)| {
            let token = map.lookup_token(line, column)?;
            Some((token.get_src(), token.get_source(), token.get_name()))
        })
        .collect()
}

fn identity(positions: impl IntoIterator<Item = Position>) -> SourceMap {
    let tokens: Vec<_> = positions.into_iter().map(|at| token(at, at)).collect();
    of_tokens(&tokens)
}

fn line_starts() -> impl Iterator<Item = Position> {
    (0..SIZE).map(|line| (line, 0))
}

#[test]
fn a_map_adjusted_by_the_identity_is_the_same() {
    for seed in 0..200 {
        let mut draws = Draws(seed);
        let map = draws.map();
        let mut adjusted = map.clone();
        adjusted.adjust_mappings(&identity(line_starts()));
        assert_eq!(adjusted, map, "of seed {seed}");
        assert_eq!(raw_tokens(&adjusted), raw_tokens(&map), "of seed {seed}");
    }
}

#[test]
fn a_map_adjusted_by_a_finer_identity_answers_the_same() {
    for seed in 0..200 {
        let mut draws = Draws(seed);
        let map = draws.map();
        let mut positions = draws.positions();
        positions.extend(line_starts());
        let mut adjusted = map.clone();
        adjusted.adjust_mappings(&identity(positions));
        assert_eq!(answers(&adjusted), answers(&map), "of seed {seed}");
    }
}

#[test]
fn the_identity_adjusted_by_a_map_is_that_map() {
    for seed in 0..200 {
        let mut draws = Draws(seed);
        let mut generated: Vec<_> = draws.positions().into_iter().collect();
        for i in 1..generated.len() {
            generated.swap(i, draws.below(i as u32 + 1) as usize);
        }
        let pairs = generated.into_iter().zip(draws.positions());
        let mut tokens: Vec<_> = pairs.map(|(dst, src)| token(dst, src)).collect();
        tokens.sort_by_key(|token| (token.dst_line, token.dst_col));
        let mut adjusted = identity(tokens.iter().map(|token| (token.src_line, token.src_col)));
        adjusted.adjust_mappings(&of_tokens(&tokens));
        assert_eq!(raw_tokens(&adjusted), tokens, "of seed {seed}");
    }
}

/// Whole lines are inserted and deleted after a first change: the composition is
/// the map of both changes at once.
#[test]
fn whole_lines_move_with_their_tokens() {
    for seed in 0..200 {
        let mut draws = Draws(seed);
        let map = draws.map();
        let mut expected = raw_tokens(&map);
        let mut moves = Vec::new();
        let mut moved = 0;
        for line in 0..SIZE {
            moved += draws.below(4) / 2 * draws.below(3);
            if draws.below(4) == 0 {
                expected.retain(|token| token.dst_line != line);
                continue;
            }
            moves.push((line, moved));
            moved += 1;
        }
        for token in &mut expected {
            let (_, moved) = moves
                .iter()
                .find(|(line, _)| *line == token.dst_line)
                .expect("the line is kept");
            token.dst_line = *moved;
        }
        let lines: Vec<_> = moves
            .iter()
            .map(|(line, moved)| token((*moved, 0), (*line, 0)))
            .collect();
        let mut adjusted = map.clone();
        adjusted.adjust_mappings(&of_tokens(&lines));
        assert_eq!(raw_tokens(&adjusted), expected, "of seed {seed}");
    }
}

//! Repeats operations so that they can be timed, and computes checksums of their results.

use crate::draws::Draws;
use crate::{flat, index, regular};
use sourcemap::ram_bundle::{split_ram_bundle, RamBundle};
use sourcemap::{
    decode, decode_slice, DecodedMap, Error, Result, RewriteOptions, SourceMap, SourceView, Token,
};
use std::str;
use std::sync::Arc;

const POSITIONS: usize = 1_000_000;
/// The distance in tokens between the starts of two walks. A walk of the crate visits at most this
/// many tokens.
const WALKED: usize = 128;
/// No function in the timed texts has this name, so no walk ends early.
const ABSENT_NAME: &str = "nameOfNoFunction";

#[derive(Clone, Copy)]
pub enum Operation {
    Decode,
    DecodeReader,
    Lookup,
    Tokens,
    Encode,
    Rewrite,
    Flatten,
    Compose,
    Lines,
    Names,
    Split,
}

fn mix(sum: u32, number: u32) -> u32 {
    sum.wrapping_mul(31).wrapping_add(number)
}

/// The number that a token adds to a checksum. It is 0 if there is no token, or if the token has no
/// source.
fn worth(token: Option<Token<'_>>) -> u32 {
    match token {
        Some(token) if token.has_source() => token
            .get_src_line()
            .wrapping_add(token.get_src_col().wrapping_mul(7))
            .wrapping_add(1),
        _ => 0,
    }
}

/// The number of sections of an index map, or the number of tokens of another map.
fn count(map: &DecodedMap) -> u32 {
    match map {
        DecodedMap::Regular(map) => map.get_token_count(),
        DecodedMap::Index(map) => map.get_section_count(),
        DecodedMap::Hermes(map) => map.get_token_count(),
    }
}

/// A length as 32 bits. A greater length becomes `u32::MAX`.
fn short(length: usize) -> u32 {
    u32::try_from(length).unwrap_or(u32::MAX)
}

fn drawn_positions(map: &SourceMap) -> Vec<(u32, u32)> {
    let mut draws = Draws::with_seed(1);
    (0..POSITIONS).map(|_| draws.beside_token(map)).collect()
}

/// The generated position of every 128th token, from the last token backwards.
fn walk_starts(map: &SourceMap) -> Vec<(u32, u32)> {
    (0..map.get_token_count() as usize)
        .rev()
        .step_by(WALKED)
        .filter_map(|index| map.get_token(index))
        .map(|token| token.get_dst())
        .collect()
}

/// The checksum after `count` rounds. Each round gets the checksum of the rounds before it.
fn rounds(count: u32, mut round: impl FnMut(u32) -> Result<u32>) -> Result<u32> {
    (0..count).try_fold(0, |sum, _| round(sum))
}

fn text_of(bytes: &[u8]) -> Result<&str> {
    str::from_utf8(bytes).map_err(Error::from)
}

impl Operation {
    pub fn from_word(word: &str) -> Option<Operation> {
        Some(match word {
            "decode" => Operation::Decode,
            "decode-reader" => Operation::DecodeReader,
            "lookup" => Operation::Lookup,
            "tokens" => Operation::Tokens,
            "encode" => Operation::Encode,
            "rewrite" => Operation::Rewrite,
            "flatten" => Operation::Flatten,
            "compose" => Operation::Compose,
            "lines" => Operation::Lines,
            "names" => Operation::Names,
            "split" => Operation::Split,
            _ => return None,
        })
    }

    /// Repeats the operation `times` times on the input in `bytes`. Returns the checksum of the
    /// results.
    pub fn repeat(self, bytes: &[u8], times: u32) -> Result<u32> {
        let map = || decode_slice(bytes);
        let regular_map = || map().and_then(regular);
        match self {
            Operation::Decode => rounds(times, |sum| Ok(mix(sum, count(&map()?)))),
            Operation::DecodeReader => {
                rounds(times, |sum| Ok(mix(sum, count(&decode(bytes)?))))
            }
            Operation::Lookup => {
                let positions = drawn_positions(&*map().and_then(flat)?);
                let map = map()?;
                rounds(times, |sum| {
                    let answers = positions
                        .iter()
                        .map(|&(line, column)| worth(map.lookup_token(line, column)));
                    Ok(answers.fold(sum, mix))
                })
            }
            Operation::Tokens => {
                let map = regular_map()?;
                rounds(times, |sum| {
                    Ok(map
                        .tokens()
                        .map(|token| worth(Some(token)))
                        .fold(sum, mix))
                })
            }
            Operation::Encode => {
                let map = map()?;
                rounds(times, |sum| {
                    let mut text = Vec::new();
                    map.to_writer(&mut text)?;
                    Ok(mix(sum, short(text.len())))
                })
            }
            Operation::Rewrite => {
                let map = regular_map()?;
                rounds(times, |sum| {
                    let new = map.clone().rewrite(&RewriteOptions::default())?;
                    Ok(mix(sum, new.get_source_count()))
                })
            }
            Operation::Compose => {
                let mut lines = bytes.split(|&byte| byte == b'\n');
                let mut next = || decode_slice(lines.next().unwrap_or_default()).and_then(regular);
                let (map, adjustment) = (next()?, next()?);
                rounds(times, |sum| {
                    let mut copy = map.clone();
                    copy.adjust_mappings(&adjustment);
                    Ok(mix(sum, copy.get_token_count()))
                })
            }
            Operation::Flatten => {
                let map = map().and_then(index)?;
                rounds(times, |sum| {
                    Ok(mix(sum, map.flatten()?.get_token_count()))
                })
            }
            Operation::Lines => {
                // The views share the text, so that no round copies it.
                let text: Arc<str> = text_of(bytes)?.into();
                rounds(times, |sum| {
                    let view = SourceView::new(Arc::clone(&text));
                    Ok(view.lines().map(|line| short(line.len())).fold(sum, mix))
                })
            }
            Operation::Names => {
                let (line, text) = text_of(bytes)?.split_once('\n').unwrap_or_default();
                let map = decode_slice(line.as_bytes()).and_then(regular)?;
                let (view, starts) = (SourceView::new(text.into()), walk_starts(&map));
                rounds(times, |sum| {
                    let names = starts.iter().map(|&(line, column)| {
                        map.get_original_function_name(line, column, ABSENT_NAME, &view)
                    });
                    Ok(names
                        .map(|name| name.map_or(0, |name| short(name.len() + 1)))
                        .fold(sum, mix))
                })
            }
            Operation::Split => {
                let end = bytes.iter().position(|&byte| byte == b'\n');
                let (line, rest) = bytes.split_at(end.unwrap_or(bytes.len()));
                let map = decode_slice(line).and_then(index)?;
                let bundle = RamBundle::parse_indexed_from_slice(rest.get(1..).unwrap_or_default())?;
                rounds(times, |sum| {
                    split_ram_bundle(&bundle, &map)?.try_fold(sum, |sum, item| {
                        let (_, view, map) = item?;
                        Ok(mix(mix(sum, short(view.source().len())), map.get_source_count()))
                    })
                })
            }
        }
    }
}

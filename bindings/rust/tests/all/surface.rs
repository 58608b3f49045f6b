//! The signatures of the crate `sourcemap` 9.3.2. This file compiles against the
//! crate as it does against this package, which is what makes it a check.

// The types are those of the crate.
#![allow(clippy::type_complexity)]

use std::error;
use std::fmt::{Debug, Display};
use std::hash::Hash;
use std::io;
use std::ops::DerefMut;
use std::path::{Path, PathBuf};
use std::sync::Arc;

use sourcemap::ram_bundle::{
    self, RamBundle, RamBundleHeader, RamBundleModule, RamBundleModuleIter, RamBundleType,
    SplitRamBundleModuleIter,
};
use sourcemap::{
    DecodedMap, Error, NameIter, RawToken, Result, RewriteOptions, SourceContentsIter, SourceIter,
    SourceMap, SourceMapBuilder, SourceMapHermes, SourceMapIndex, SourceMapRef, SourceMapSection,
    SourceMapSectionIter, SourceView, Token, TokenIter,
};

type Reader = &'static [u8];
type Writer = Vec<u8>;
type Position = (u32, u32);
type Text = Option<Arc<str>>;

/// States the types of functions, by their names in a type or a module.
macro_rules! signatures {
    ($($function:path: $signature:ty;)*) => {
        $(const _: $signature = $function;)*
    };
}

signatures! {
    sourcemap::decode::<Reader>: fn(Reader) -> Result<DecodedMap>;
    sourcemap::decode_slice: fn(&[u8]) -> Result<DecodedMap>;
    sourcemap::decode_data_url: fn(&str) -> Result<DecodedMap>;
    sourcemap::is_sourcemap::<Reader>: fn(Reader) -> bool;
    sourcemap::is_sourcemap_slice: fn(&[u8]) -> bool;
    sourcemap::locate_sourcemap_reference::<Reader>: fn(Reader) -> Result<Option<SourceMapRef>>;
    sourcemap::locate_sourcemap_reference_slice: fn(&[u8]) -> Result<Option<SourceMapRef>>;
    sourcemap::make_relative_path: fn(&str, &str) -> String;
    sourcemap::vlq::parse_vlq_segment: fn(&str) -> Result<Vec<i64>>;
    sourcemap::vlq::generate_vlq_segment: fn(&[i64]) -> Result<String>;

    DecodedMap::Regular: fn(SourceMap) -> DecodedMap;
    DecodedMap::Index: fn(SourceMapIndex) -> DecodedMap;
    DecodedMap::Hermes: fn(SourceMapHermes) -> DecodedMap;
    DecodedMap::from_reader::<Reader>: fn(Reader) -> Result<DecodedMap>;
    DecodedMap::to_writer::<Writer>: fn(&DecodedMap, Writer) -> Result<()>;
    DecodedMap::lookup_token: for<'a> fn(&'a DecodedMap, u32, u32) -> Option<Token<'a>>;

    SourceMapRef::Ref: fn(String) -> SourceMapRef;
    SourceMapRef::LegacyRef: fn(String) -> SourceMapRef;
    SourceMapRef::get_url: fn(&SourceMapRef) -> &str;
    SourceMapRef::resolve: fn(&SourceMapRef, &str) -> Option<String>;
    SourceMapRef::resolve_path: fn(&SourceMapRef, &Path) -> Option<PathBuf>;
    SourceMapRef::get_embedded_sourcemap: fn(&SourceMapRef) -> Result<Option<DecodedMap>>;
}

signatures! {
    SourceMap::from_reader::<Reader>: fn(Reader) -> Result<SourceMap>;
    SourceMap::from_slice: fn(&[u8]) -> Result<SourceMap>;
    SourceMap::to_writer::<Writer>: fn(&SourceMap, Writer) -> Result<()>;
    SourceMap::to_data_url: fn(&SourceMap) -> Result<String>;
    SourceMap::new: fn(Text, Vec<RawToken>, Vec<Arc<str>>, Vec<Arc<str>>, Option<Vec<Text>>) -> SourceMap;
    SourceMap::get_file: fn(&SourceMap) -> Option<&str>;
    SourceMap::set_file::<&str>: fn(&mut SourceMap, Option<&'static str>);
    SourceMap::set_file::<Arc<str>>: fn(&mut SourceMap, Option<Arc<str>>);
    SourceMap::get_source_root: fn(&SourceMap) -> Option<&str>;
    SourceMap::set_source_root::<String>: fn(&mut SourceMap, Option<String>);
    SourceMap::add_to_ignore_list: fn(&mut SourceMap, u32);
    SourceMap::get_token: for<'a> fn(&'a SourceMap, usize) -> Option<Token<'a>>;
    SourceMap::get_token_count: fn(&SourceMap) -> u32;
    SourceMap::tokens: for<'a> fn(&'a SourceMap) -> TokenIter<'a>;
    SourceMap::lookup_token: for<'a> fn(&'a SourceMap, u32, u32) -> Option<Token<'a>>;
    SourceMap::get_source_count: fn(&SourceMap) -> u32;
    SourceMap::get_source: fn(&SourceMap, u32) -> Option<&str>;
    SourceMap::set_source: fn(&mut SourceMap, u32, &str);
    SourceMap::sources: for<'a> fn(&'a SourceMap) -> SourceIter<'a>;
    SourceMap::get_source_view: fn(&SourceMap, u32) -> Option<&SourceView>;
    SourceMap::get_source_contents: fn(&SourceMap, u32) -> Option<&str>;
    SourceMap::set_source_contents: fn(&mut SourceMap, u32, Option<&str>);
    SourceMap::source_contents: for<'a> fn(&'a SourceMap) -> SourceContentsIter<'a>;
    SourceMap::names: for<'a> fn(&'a SourceMap) -> NameIter<'a>;
    SourceMap::get_name_count: fn(&SourceMap) -> u32;
    SourceMap::has_names: fn(&SourceMap) -> bool;
    SourceMap::get_name: fn(&SourceMap, u32) -> Option<&str>;
    SourceMap::remove_names: fn(&mut SourceMap);
    SourceMap::rewrite: fn(SourceMap, &RewriteOptions<'_>) -> Result<SourceMap>;
    SourceMap::adjust_mappings: fn(&mut SourceMap, &SourceMap);

    SourceMapHermes::from_reader::<Reader>: fn(Reader) -> Result<SourceMapHermes>;
    SourceMapHermes::from_slice: fn(&[u8]) -> Result<SourceMapHermes>;
    SourceMapHermes::to_writer::<Writer>: fn(&SourceMapHermes, Writer) -> Result<()>;
    SourceMapHermes::get_original_function_name: fn(&SourceMapHermes, u32) -> Option<&str>;
    SourceMapHermes::rewrite: fn(SourceMapHermes, &RewriteOptions<'_>) -> Result<SourceMapHermes>;
}

signatures! {
    Token::sourcemap: for<'a> fn(&'a Token<'static>) -> &'static SourceMap;
    Token::get_dst_line: for<'a> fn(&'a Token<'static>) -> u32;
    Token::get_dst_col: for<'a> fn(&'a Token<'static>) -> u32;
    Token::get_dst: for<'a> fn(&'a Token<'static>) -> Position;
    Token::get_src_line: for<'a> fn(&'a Token<'static>) -> u32;
    Token::get_src_col: for<'a> fn(&'a Token<'static>) -> u32;
    Token::get_src: for<'a> fn(&'a Token<'static>) -> Position;
    Token::get_src_id: for<'a> fn(&'a Token<'static>) -> u32;
    Token::get_source: for<'a> fn(&'a Token<'static>) -> Option<&'static str>;
    Token::has_source: for<'a> fn(&'a Token<'static>) -> bool;
    Token::get_name: for<'a> fn(&'a Token<'static>) -> Option<&'static str>;
    Token::has_name: for<'a> fn(&'a Token<'static>) -> bool;
    Token::get_name_id: for<'a> fn(&'a Token<'static>) -> u32;
    Token::to_tuple: for<'a> fn(&'a Token<'static>) -> (&'static str, u32, u32, Option<&'static str>);
    Token::get_raw_token: for<'a> fn(&'a Token<'static>) -> RawToken;
    Token::get_source_view: for<'a> fn(&'a Token<'static>) -> Option<&'a SourceView>;
    Token::is_range: for<'a> fn(&'a Token<'static>) -> bool;
    TokenIter::seek: for<'a> fn(&'a mut TokenIter<'static>, u32, u32) -> bool;

    SourceView::new: fn(Arc<str>) -> SourceView;
    SourceView::from_string: fn(String) -> SourceView;
    SourceView::get_line: fn(&SourceView, u32) -> Option<&str>;
    SourceView::get_line_slice: fn(&SourceView, u32, u32, u32) -> Option<&str>;
    SourceView::source: fn(&SourceView) -> &str;
    SourceView::line_count: fn(&SourceView) -> usize;
    SourceView::sourcemap_reference: fn(&SourceView) -> Result<Option<SourceMapRef>>;
}

signatures! {
    SourceMapIndex::new: fn(Option<String>, Vec<SourceMapSection>) -> SourceMapIndex;
    SourceMapIndex::new_ram_bundle_compatible: fn(Option<String>, Vec<SourceMapSection>, Option<Vec<Option<u32>>>, Option<Vec<String>>) -> SourceMapIndex;
    SourceMapIndex::from_reader::<Reader>: fn(Reader) -> Result<SourceMapIndex>;
    SourceMapIndex::from_slice: fn(&[u8]) -> Result<SourceMapIndex>;
    SourceMapIndex::to_writer::<Writer>: fn(&SourceMapIndex, Writer) -> Result<()>;
    SourceMapIndex::get_file: fn(&SourceMapIndex) -> Option<&str>;
    SourceMapIndex::set_file: fn(&mut SourceMapIndex, Option<&str>);
    SourceMapIndex::get_section_count: fn(&SourceMapIndex) -> u32;
    SourceMapIndex::get_section: fn(&SourceMapIndex, u32) -> Option<&SourceMapSection>;
    SourceMapIndex::get_section_mut: fn(&mut SourceMapIndex, u32) -> Option<&mut SourceMapSection>;
    SourceMapIndex::sections: for<'a> fn(&'a SourceMapIndex) -> SourceMapSectionIter<'a>;
    SourceMapIndex::lookup_token: for<'a> fn(&'a SourceMapIndex, u32, u32) -> Option<Token<'a>>;
    SourceMapIndex::flatten: fn(&SourceMapIndex) -> Result<SourceMap>;
    SourceMapIndex::flatten_and_rewrite: fn(SourceMapIndex, &RewriteOptions<'_>) -> Result<SourceMap>;
    SourceMapIndex::is_for_ram_bundle: fn(&SourceMapIndex) -> bool;
    SourceMapIndex::x_facebook_offsets: fn(&SourceMapIndex) -> Option<&[Option<u32>]>;
    SourceMapIndex::x_metro_module_paths: fn(&SourceMapIndex) -> Option<&[String]>;
    SourceMapIndex::adjust_sections_offset_rows: fn(&mut SourceMapIndex, u32) -> bool;

    SourceMapSection::new: fn(Position, Option<String>, Option<DecodedMap>) -> SourceMapSection;
    SourceMapSection::get_offset_line: fn(&SourceMapSection) -> u32;
    SourceMapSection::get_offset_col: fn(&SourceMapSection) -> u32;
    SourceMapSection::get_offset: fn(&SourceMapSection) -> Position;
    SourceMapSection::get_url: fn(&SourceMapSection) -> Option<&str>;
    SourceMapSection::set_url: fn(&mut SourceMapSection, Option<&str>);
    SourceMapSection::get_sourcemap: fn(&SourceMapSection) -> Option<&DecodedMap>;
    SourceMapSection::get_sourcemap_mut: fn(&mut SourceMapSection) -> Option<&mut DecodedMap>;
    SourceMapSection::set_sourcemap: fn(&mut SourceMapSection, Option<DecodedMap>);

    SourceMapBuilder::new: fn(Option<&str>) -> SourceMapBuilder;
    SourceMapBuilder::set_file::<&str>: fn(&mut SourceMapBuilder, Option<&'static str>);
    SourceMapBuilder::get_file: fn(&SourceMapBuilder) -> Option<&str>;
    SourceMapBuilder::set_source_root::<String>: fn(&mut SourceMapBuilder, Option<String>);
    SourceMapBuilder::get_source_root: fn(&SourceMapBuilder) -> Option<&str>;
    SourceMapBuilder::add_source: fn(&mut SourceMapBuilder, &str) -> u32;
    SourceMapBuilder::set_source: fn(&mut SourceMapBuilder, u32, &str);
    SourceMapBuilder::get_source: fn(&SourceMapBuilder, u32) -> Option<&str>;
    SourceMapBuilder::add_to_ignore_list: fn(&mut SourceMapBuilder, u32);
    SourceMapBuilder::set_source_contents: fn(&mut SourceMapBuilder, u32, Option<&str>);
    SourceMapBuilder::get_source_contents: fn(&SourceMapBuilder, u32) -> Option<&str>;
    SourceMapBuilder::has_source_contents: fn(&SourceMapBuilder, u32) -> bool;
    SourceMapBuilder::load_local_source_contents: fn(&mut SourceMapBuilder, Option<&Path>) -> Result<usize>;
    SourceMapBuilder::add_name: fn(&mut SourceMapBuilder, &str) -> u32;
    SourceMapBuilder::add_token: fn(&mut SourceMapBuilder, &Token<'_>, bool) -> RawToken;
    SourceMapBuilder::strip_prefixes::<&str>: fn(&mut SourceMapBuilder, &[&'static str]);
    SourceMapBuilder::into_sourcemap: fn(SourceMapBuilder) -> SourceMap;
}

signatures! {
    ram_bundle::is_ram_bundle_slice: fn(&[u8]) -> bool;
    ram_bundle::is_unbundle_path: fn(&Path) -> bool;
    RamBundleHeader::is_valid_magic: fn(&RamBundleHeader) -> bool;
    RamBundle::parse_indexed_from_slice: fn(&'static [u8]) -> Result<RamBundle<'static>>;
    RamBundle::parse_indexed_from_vec: fn(Vec<u8>) -> Result<RamBundle<'static>>;
    RamBundle::parse_indexed_from_path: fn(&Path) -> Result<RamBundle<'static>>;
    RamBundle::parse_unbundle_from_path: fn(&Path) -> Result<RamBundle<'static>>;
    RamBundle::bundle_type: for<'a> fn(&'a RamBundle<'static>) -> RamBundleType;
    RamBundle::get_module: for<'a> fn(&'a RamBundle<'static>, usize) -> Result<Option<RamBundleModule<'a>>>;
    RamBundle::module_count: for<'a> fn(&'a RamBundle<'static>) -> usize;
    RamBundle::startup_code: for<'a> fn(&'a RamBundle<'static>) -> Result<&'a [u8]>;
    RamBundle::iter_modules: for<'a> fn(&'a RamBundle<'static>) -> RamBundleModuleIter<'a>;
    RamBundleModule::id: for<'a> fn(&'a RamBundleModule<'static>) -> usize;
    RamBundleModule::data: for<'a> fn(&'a RamBundleModule<'static>) -> &'static [u8];
    RamBundleModule::source_view: for<'a> fn(&'a RamBundleModule<'static>) -> Result<SourceView>;
}

const _: u32 = ram_bundle::RAM_BUNDLE_MAGIC;

/// Calls whose types cannot be stated by a constant.
#[allow(dead_code)]
fn calls(sm: &SourceMap, builder: &mut SourceMapBuilder, bundle: &RamBundle, smi: &SourceMapIndex) {
    let _: Vec<&u32> = sm.ignore_list().collect();
    let _: RawToken = builder.add(0, 0, 0, 0, Some(""), Some(""), false);
    let _: RawToken = builder.add_raw(0, 0, 0, 0, Some(0), Some(0), false);
    let _: Result<SplitRamBundleModuleIter<'_>> = ram_bundle::split_ram_bundle(bundle, smi);
}

#[allow(dead_code)]
fn names<'a>(map: &'a DecodedMap, sm: &'a SourceMap, token: Token<'a>, view: &SourceView) {
    let _: Option<&'a str> = map.get_original_function_name(0, 0, Some(""), Some(view));
    let _: Option<&'a str> = sm.get_original_function_name(0, 0, "", view);
    let _: Option<&'a str> = view.get_original_function_name(token, "");
}

#[allow(dead_code)]
fn scope<'a>(map: &'a SourceMapHermes, token: Token<'_>) -> Option<&'a str> {
    map.get_scope_for_token(token)
}

#[allow(dead_code)]
fn options<'a>(base: &'a Path, prefixes: &'a [&'a str]) -> RewriteOptions<'a> {
    RewriteOptions {
        with_names: true,
        with_source_contents: true,
        load_local_source_contents: false,
        base_path: Some(base),
        strip_prefixes: prefixes,
    }
}

/// Every variant by name, and what it holds where that is a type of the standard
/// library.
#[allow(dead_code)]
fn variants(error: &Error) -> Option<&dyn error::Error> {
    match error {
        Error::Io(error) => Some(error as &io::Error),
        Error::Utf8(error) => Some(error as &std::str::Utf8Error),
        Error::Scroll(error) => Some(error),
        Error::BadJson(error) => Some(error),
        Error::InvalidRangeMappingIndex(error) => Some(error),
        Error::BadSegmentSize(0u32) | Error::BadSourceReference(0u32) => None,
        Error::BadNameReference(0u32) | Error::InvalidBase64('!') => None,
        Error::CannotFlatten(reason) if reason.as_str() == "" => None,
        Error::VlqLeftover | Error::VlqNoValues | Error::VlqOverflow => None,
        Error::IncompatibleSourceMap | Error::InvalidDataUrl => None,
        Error::InvalidRamBundleMagic | Error::InvalidRamBundleIndex => None,
        Error::InvalidRamBundleEntry | Error::NotARamBundle => None,
        _ => None,
    }
}

const fn is_value<T: Clone + Debug + PartialEq + Send>() {}
const fn is_copy<T: Copy + Debug + Eq>() {}
const fn is_token<T: Copy + Debug + Display + Ord>() {}
const fn is_error<T: error::Error + From<io::Error> + From<std::string::FromUtf8Error>>() {}
const fn is_deref<T: DerefMut<Target = SourceMap>>() {}
const fn is_iterator<T: Iterator>() {}

const _: () = {
    is_value::<SourceMap>();
    is_value::<SourceMapIndex>();
    is_value::<SourceMapSection>();
    is_value::<SourceMapHermes>();
    is_value::<DecodedMap>();
    is_value::<SourceView>();
    is_copy::<RawToken>();
    is_token::<Token<'static>>();
    is_error::<Error>();
    is_deref::<SourceMapHermes>();
    is_iterator::<RamBundleModuleIter<'static>>();
    is_iterator::<SplitRamBundleModuleIter<'static>>();
};

const fn is_kind<T: Clone + Debug + Hash + Ord>() {}
const _: () = is_kind::<RamBundleType>();

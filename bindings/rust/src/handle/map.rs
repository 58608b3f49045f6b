//! Maps: open, share, read, look up, write.

use std::mem::MaybeUninit;
use std::ptr;

use super::shared::{take_both, Shared, Taken};
use super::span::Span;
use super::{check, lent_text, Handle, ViewHandle};
use crate::debug_id::DebugId;
use crate::errors::Result;
use crate::ffi;
use crate::types::RawToken;

/// The kind of a map.
#[derive(Clone, Copy, Debug, PartialEq, Eq)]
pub(crate) enum Kind {
    Regular,
    Index,
    Hermes,
}

/// A map of any kind.
pub(crate) struct MapHandle(pub(super) Shared);

/// Where a section of an index map begins, and the URL that it has.
pub(crate) struct Section<'a> {
    pub offset: (u32, u32),
    pub url: Option<&'a str>,
}

impl MapHandle {
    /// The map that a call fills a handle with.
    pub(super) fn fill(
        call: impl FnOnce(*mut ffi::Handle, *mut ffi::Error) -> ffi::Code,
    ) -> Result<MapHandle> {
        Shared::fill(call).map(MapHandle)
    }

    #[inline]
    fn take(&self) -> Taken<'_> {
        self.0.take()
    }

    /// The text that a call points to in the map.
    ///
    /// # Safety
    ///
    /// If the call succeeds, it points to UTF-8 in the handle that it is given.
    #[inline]
    unsafe fn text(
        &self,
        ask: impl FnOnce(*mut ffi::Handle, *mut ffi::Text) -> ffi::Code,
    ) -> Option<&str> {
        let map = self.take();
        // SAFETY: what this function asks of its caller. The handle is changed or closed
        // only while the map is borrowed mutably.
        unsafe { lent_text(|text| ask(map.at(), text)) }
    }

    pub fn open(bytes: &[u8]) -> Result<MapHandle> {
        // SAFETY: the slice is where it says.
        MapHandle::fill(|map, error| unsafe {
            ffi::sm_open(map, bytes.as_ptr(), bytes.len(), error)
        })
    }

    pub fn open_url(url: &str) -> Result<MapHandle> {
        // SAFETY: the text is where it says.
        MapHandle::fill(|map, error| unsafe {
            ffi::sm_open_url(map, url.as_ptr(), url.len(), error)
        })
    }

    /// Another handle that shares the same map, without a copy.
    pub fn share(&self) -> Result<MapHandle> {
        self.0.share().map(MapHandle)
    }

    /// A copy of the regular map in a Hermes map.
    pub fn hermes_map(&self) -> Result<MapHandle> {
        // SAFETY: both are handles, and not the same.
        MapHandle::fill(|regular, error| unsafe {
            ffi::sm_hermes_map(self.take().at(), regular, error)
        })
    }

    pub fn kind(&self) -> Kind {
        // SAFETY: it is a handle.
        match unsafe { ffi::sm_kind(self.take().at()) } {
            ffi::SM_KIND_INDEX => Kind::Index,
            ffi::SM_KIND_HERMES => Kind::Hermes,
            _ => Kind::Regular,
        }
    }

    pub fn counts(&self) -> ffi::Counts {
        let mut counts = ffi::Counts::default();
        // SAFETY: it is a handle. It holds a map, so the call writes the counts.
        unsafe { ffi::sm_count(self.take().at(), &mut counts) };
        counts
    }

    pub fn file(&self) -> Option<&str> {
        // SAFETY: the text is in the map.
        unsafe { self.text(|map, text| ffi::sm_file(map, text)) }
    }

    pub fn source_root(&self) -> Option<&str> {
        // SAFETY: the text is in the map.
        unsafe { self.text(|map, text| ffi::sm_source_root(map, text)) }
    }

    pub fn debug_id(&self) -> Option<DebugId> {
        let mut id = DebugId::nil();
        // SAFETY: it is a handle.
        let code = unsafe { ffi::sm_get_debug_id(self.take().at(), &mut id) };
        (code == ffi::SM_OK).then_some(id)
    }

    pub fn source(&self, id: u32) -> Option<&str> {
        // SAFETY: the text is in the map.
        unsafe { self.text(|map, text| ffi::sm_source(map, id, text)) }
    }

    pub fn name(&self, id: u32) -> Option<&str> {
        // SAFETY: the text is in the map.
        unsafe { self.text(|map, text| ffi::sm_name(map, id, text)) }
    }

    pub fn contents(&self, id: u32) -> Option<&str> {
        // SAFETY: the text is in the map.
        unsafe { self.text(|map, text| ffi::sm_contents(map, id, text)) }
    }

    pub fn ignore_list(&self) -> Box<[u32]> {
        let mut ids = vec![0; self.counts().ignored as usize];
        // SAFETY: the call writes at most as many ids as there are.
        let written =
            unsafe { ffi::sm_ignore_list_from(self.take().at(), 0, ids.as_mut_ptr(), ids.len()) };
        ids.truncate(written);
        ids.into_boxed_slice()
    }

    /// Reads tokens from number `first` on, and returns how many it read.
    pub fn tokens(&self, first: u32, tokens: &mut [RawToken]) -> usize {
        // SAFETY: the call writes at most as many tokens as there are.
        unsafe { ffi::sm_tokens(self.take().at(), first, tokens.as_mut_ptr(), tokens.len()) }
    }

    /// The text of the token of this index, in a map that is no index map.
    pub fn token_text(&self, index: u32) -> Result<Option<String>> {
        // SAFETY: both are handles, and not the same.
        Handle::fill_text_if_any(|text, error| unsafe {
            ffi::sm_token_text(self.take().at(), index, text, error)
        })
    }

    /// The line at which each module of a RAM bundle begins, if an index map has the
    /// list.
    pub fn module_offsets(&self) -> Option<Vec<Option<u32>>> {
        let mut offsets = Vec::new();
        let mut block = [0; 256];
        loop {
            let first = u32::try_from(offsets.len()).ok()?;
            let mut written = 0;
            // SAFETY: the call writes at most as many numbers as there are.
            let code = unsafe {
                let (at, length) = (block.as_mut_ptr(), block.len());
                ffi::sm_module_offsets(self.take().at(), first, at, length, &mut written)
            };
            if code != ffi::SM_OK {
                return None;
            }
            let lines = &block[..written];
            offsets.extend(
                lines
                    .iter()
                    .map(|&line| Some(line).filter(|&line| line != ffi::SM_NONE)),
            );
            if written < block.len() {
                return Some(offsets);
            }
        }
    }

    /// How many paths of modules there are, if an index map has the list.
    pub fn module_path_count(&self) -> Option<usize> {
        let mut paths = 0;
        // SAFETY: it is a handle.
        let code = unsafe { ffi::sm_module_path_count(self.take().at(), &mut paths) };
        (code == ffi::SM_OK).then_some(paths)
    }

    /// The path of a module of a RAM bundle.
    pub fn module_path(&self, id: u32) -> Option<&str> {
        // SAFETY: the text is in the map.
        unsafe { self.text(|map, text| ffi::sm_module_path(map, id, text)) }
    }

    /// The closest token, with the original column of the position looked up.
    #[inline]
    pub fn lookup(&self, line: u32, column: u32) -> Option<RawToken> {
        let mut found = ffi::Found::NONE;
        // SAFETY: it is a handle, and the answer begins as zeros.
        let code = unsafe { ffi::sm_lookup(self.take().at(), line, column, &mut found) };
        (code == ffi::SM_OK).then_some(found.token)
    }

    /// The closest token, as [`MapHandle::lookup`] returns it, of a map that is no index
    /// map. This thread keeps the answer, and takes no handle as long as it holds.
    #[inline(always)]
    pub fn lookup_kept(&self, position: (u32, u32)) -> Option<RawToken> {
        let state = self.0.state();
        Span::with(state, |span| {
            if !span.has(state, position) {
                span.begin(state, position);
                let code = match self.0.take_first() {
                    Some(map) => look_up(&map, position, span),
                    None => self.look_up_met(position, span),
                };
                if code != ffi::SM_OK {
                    return None;
                }
            }
            Some(span.token())
        })
    }

    /// Looks up where calls meet. Apart, since it needs more registers.
    #[cold]
    #[inline(never)]
    fn look_up_met(&self, position: (u32, u32), span: &Span) -> ffi::Code {
        look_up(&self.0.take_other(), position, span)
    }

    /// The text of the closest token, with the original column of the position
    /// looked up.
    pub fn lookup_text(&self, line: u32, column: u32) -> Result<Option<String>> {
        // SAFETY: both are handles, and not the same.
        Handle::fill_text_if_any(|text, error| unsafe {
            ffi::sm_lookup_text(self.take().at(), line, column, text, error)
        })
    }

    /// The index of the closest token, in a map that is no index map.
    pub fn lookup_index(&self, line: u32, column: u32) -> Option<u32> {
        let mut index = 0;
        // SAFETY: it is a handle.
        let code = unsafe { ffi::sm_lookup_index(self.take().at(), line, column, &mut index) };
        (code == ffi::SM_OK).then_some(index)
    }

    pub fn function_name(
        &self,
        (line, column): (u32, u32),
        minified: &str,
        view: &ViewHandle,
    ) -> Option<&str> {
        // The name may be a slice of the view's text, but arguments must not overlap.
        let minified = minified.to_owned();
        let (at, length) = (minified.as_ptr(), minified.len());
        let (map, view) = take_both(&self.0, &view.0);
        // SAFETY: both are handles, and not the same. The name is one of the map.
        unsafe {
            lent_text(|text| {
                ffi::sm_function_name(map.at(), line, column, at, length, view.at(), text)
            })
        }
    }

    pub fn hermes_function_name(&self, offset: u32) -> Option<&str> {
        // SAFETY: the name is one of the map.
        unsafe { self.text(|map, text| ffi::sm_hermes_function_name(map, offset, text)) }
    }

    /// The name of the function that contains an original position, in a Hermes map.
    pub fn scope_for(&self, source: u32, (line, column): (u32, u32)) -> Option<&str> {
        // SAFETY: the name is one of the map.
        unsafe { self.text(|map, text| ffi::sm_scope_for(map, source, line, column, text)) }
    }

    /// Calls a function with the JSON text of the map.
    pub fn with_json<T>(&self, read: impl FnOnce(&str) -> T) -> Result<T> {
        // SAFETY: both are handles, and not the same.
        let text =
            Handle::fill(|text, error| unsafe { ffi::sm_write(self.take().at(), text, error) })?;
        Ok(read(text.made_text()))
    }

    pub fn data_url(&self) -> Result<String> {
        // SAFETY: both are handles, and not the same.
        Handle::fill_text(|text, error| unsafe { ffi::sm_write_url(self.take().at(), text, error) })
    }

    /// The bytes of the compiled map.
    pub fn compiled(&self, with_contents: bool) -> Result<Vec<u8>> {
        // SAFETY: both are handles, and not the same.
        let bytes = Handle::fill(|bytes, error| unsafe {
            ffi::sm_compile(self.take().at(), with_contents, bytes, error)
        })?;
        Ok(bytes.made_bytes().to_owned())
    }

    /// A section of an index map.
    pub fn section(&self, id: u32) -> Option<Section<'_>> {
        // The bytes between fields are to be zeros too.
        let mut start = MaybeUninit::<ffi::SectionStart>::zeroed();
        // SAFETY: it is a handle.
        let code = unsafe { ffi::sm_section_start_of(self.take().at(), id, start.as_mut_ptr()) };
        if code != ffi::SM_OK {
            return None;
        }
        // SAFETY: zeros are a value of the struct, and so is what the call wrote.
        let start = unsafe { start.assume_init() };
        Some(Section {
            offset: (start.line, start.column),
            // SAFETY: the text is in the map.
            url: unsafe { self.text(|map, text| ffi::sm_section_url(map, id, text)) },
        })
    }

    /// A copy of the map of a section, if it has one.
    pub fn section_map(&self, id: u32) -> Result<Option<MapHandle>> {
        // SAFETY: both are handles, and not the same.
        let map = Handle::fill_if_any(|map, error| unsafe {
            ffi::sm_section(self.take().at(), id, map, error)
        })?;
        Ok(map.map(Shared::of).transpose()?.map(MapHandle))
    }
}

/// Asks the library for the closest token, and for the end of the span that begins here.
#[inline(always)]
fn look_up(map: &Taken<'_>, (line, column): (u32, u32), span: &Span) -> ffi::Code {
    // SAFETY: it is a handle, and both structs have a value.
    let code = unsafe { ffi::sm_lookup_span(map.at(), line, column, span.found(), span.until()) };
    span.end(code == ffi::SM_OK);
    code
}

/// Maps are equal if they are of one kind and hold the same.
impl PartialEq for MapHandle {
    fn eq(&self, other: &MapHandle) -> bool {
        if ptr::eq(self, other) {
            return true;
        }
        let mut answer = false;
        let (one, other) = take_both(&self.0, &other.0);
        // SAFETY: both are handles, and not the same. Both hold maps, so the call
        // writes the answer.
        unsafe { ffi::sm_equal(one.at(), other.at(), &mut answer) };
        answer
    }
}

/// Whether bytes hold a source map.
pub(crate) fn is_source_map(bytes: &[u8]) -> Result<bool> {
    let mut answer = false;
    // SAFETY: the slice is where it says.
    check(|error| unsafe {
        ffi::sm_is_source_map(bytes.as_ptr(), bytes.len(), &mut answer, error)
    })?;
    Ok(answer)
}

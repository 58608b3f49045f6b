//! Index maps.

use std::fmt;
use std::io::{Read, Write};

use crate::compiled::WithContents;
use crate::debug_id::DebugId;
use crate::decoder::{decode, decode_slice};
use crate::errors::{Error, Result};
use crate::handle::{MapHandle, SectionsHandle};
use crate::once::Once;
use crate::sourceview::SourceView;
use crate::types::{DecodedMap, RewriteOptions, SourceMap, Token};
use crate::utils::{must, write_all};

/// A section of an index map. It has a start, and may have a map, the URL of a map,
/// both or neither.
#[derive(Clone)]
pub struct SourceMapSection {
    offset: (u32, u32),
    url: Option<String>,
    // Set in each section that a caller sees: the index map copies it when the section is
    // first read.
    map: Once<Option<DecodedMap>>,
}

/// The sections of an index map.
pub struct SourceMapSectionIter<'a> {
    smi: &'a SourceMapIndex,
    next: u32,
}

/// An index map: a list of sections. Each section has a map, the URL of a map, both
/// or neither.
pub struct SourceMapIndex {
    // Either the handle exists, and the lists and the maps of sections are read from it on
    // first use; or all fields below are set, and the handle is made of them on first use.
    handle: Once<MapHandle>,
    file: Option<String>,
    debug_id: Option<DebugId>,
    sections: Once<Vec<SourceMapSection>>,
    module_offsets: Once<Option<Vec<Option<u32>>>>,
    module_paths: Once<Option<Vec<String>>>,
}

impl SourceMapIndex {
    pub(crate) fn of_handle(handle: MapHandle) -> SourceMapIndex {
        SourceMapIndex {
            handle: Once::from(handle),
            file: None,
            debug_id: None,
            sections: Once::new(),
            module_offsets: Once::new(),
            module_paths: Once::new(),
        }
    }

    /// Makes an index map of its parts. Give the sections in the order of their
    /// offsets, since lookups need this order. In another order a lookup may return
    /// the wrong token, or none.
    ///
    /// ```
    /// use sourcemap::{SourceMapIndex, SourceMapSection};
    /// let section = SourceMapSection::new((0, 3), Some("a.map".into()), None);
    /// let index = SourceMapIndex::new(Some("all.js".into()), vec![section]);
    /// assert_eq!(index.get_section(0).unwrap().get_url(), Some("a.map"));
    /// ```
    pub fn new(file: Option<String>, sections: Vec<SourceMapSection>) -> SourceMapIndex {
        SourceMapIndex::new_ram_bundle_compatible(file, sections, None, None)
    }

    /// Makes an index map of its parts, and of the lists of a RAM bundle: the line at
    /// which each module begins, and the path of each module.
    pub fn new_ram_bundle_compatible(
        file: Option<String>,
        sections: Vec<SourceMapSection>,
        x_facebook_offsets: Option<Vec<Option<u32>>>,
        x_metro_module_paths: Option<Vec<String>>,
    ) -> SourceMapIndex {
        SourceMapIndex {
            handle: Once::new(),
            file,
            debug_id: None,
            sections: Once::from(sections),
            module_offsets: Once::from(x_facebook_offsets),
            module_paths: Once::from(x_metro_module_paths),
        }
    }

    pub(crate) fn handle(&self) -> &MapHandle {
        self.handle.get_or_init(|| must(self.make_handle()))
    }

    fn handle_mut(&mut self) -> &mut MapHandle {
        self.handle();
        self.handle.get_mut().expect("the handle was made")
    }

    /// A handle made of the parts, which must all be set.
    fn make_handle(&self) -> Result<MapHandle> {
        let mut sections = SectionsHandle::new()?;
        for section in self.section_list() {
            let map = section.get_sourcemap().map(DecodedMap::handle);
            sections.add(section.offset, section.get_url(), map)?;
        }
        let file = self.file.as_deref();
        let mut map =
            sections.finish(file, self.x_facebook_offsets(), self.x_metro_module_paths())?;
        if self.debug_id.is_some() {
            map.set_debug_id(self.debug_id)?;
        }
        Ok(map)
    }

    /// Reads all parts from the handle, then drops the handle. The next call of
    /// [`SourceMapIndex::handle`] makes a new one.
    fn drop_handle(&mut self) {
        self.sections().for_each(drop);
        self.x_facebook_offsets();
        self.x_metro_module_paths();
        if let Some(handle) = self.handle.take() {
            self.file = handle.file().map(str::to_owned);
            self.debug_id = handle.debug_id();
        }
    }

    /// Reads an index map from its JSON text, after a junk header if there is
    /// one. A map of another kind is [`Error::IncompatibleSourceMap`].
    pub fn from_reader<R: Read>(rdr: R) -> Result<SourceMapIndex> {
        SourceMapIndex::of_decoded(decode(rdr)?)
    }

    /// Reads an index map from its JSON text, as [`SourceMapIndex::from_reader`]
    /// does.
    pub fn from_slice(slice: &[u8]) -> Result<SourceMapIndex> {
        SourceMapIndex::of_decoded(decode_slice(slice)?)
    }

    fn of_decoded(map: DecodedMap) -> Result<SourceMapIndex> {
        match map {
            DecodedMap::Index(smi) => Ok(smi),
            _ => Err(Error::IncompatibleSourceMap),
        }
    }

    /// Returns the bytes of the compiled map, as [`DecodedMap::compile`] does.
    pub fn compile(&self, contents: WithContents) -> Result<Vec<u8>> {
        self.handle().compiled(contents == WithContents::Yes)
    }

    /// Writes the map as JSON.
    pub fn to_writer<W: Write>(&self, w: W) -> Result<()> {
        self.handle().with_json(|text| write_all(w, text))?
    }

    pub(crate) fn debug_id(&self) -> Option<DebugId> {
        match self.handle.get() {
            Some(handle) => handle.debug_id(),
            None => self.debug_id,
        }
    }

    pub(crate) fn set_debug_id(&mut self, debug_id: Option<DebugId>) {
        match self.handle.get_mut() {
            Some(handle) => must(handle.set_debug_id(debug_id)),
            None => self.debug_id = debug_id,
        }
    }

    /// Returns the name of the generated file.
    pub fn get_file(&self) -> Option<&str> {
        match self.handle.get() {
            Some(handle) => handle.file(),
            None => self.file.as_deref(),
        }
    }

    /// Sets or removes the name of the generated file.
    pub fn set_file(&mut self, value: Option<&str>) {
        match self.handle.get_mut() {
            Some(handle) => must(handle.set_file(value)),
            None => self.file = value.map(str::to_owned),
        }
    }

    /// Returns how many sections there are, but at most 4294967295.
    pub fn get_section_count(&self) -> u32 {
        match self.sections.get() {
            Some(sections) => u32::try_from(sections.len()).unwrap_or(u32::MAX),
            None => self.handle().counts().sections,
        }
    }

    /// Returns the section with this number, counted from 0, or none if there is no
    /// such section.
    pub fn get_section(&self, idx: u32) -> Option<&SourceMapSection> {
        let section = self.section_list().get(idx as usize)?;
        self.map_of(section, idx);
        Some(section)
    }

    /// Returns the section with this number, to be changed. Sections that were not read yet
    /// are copied. The next call that writes, flattens, splits by, shifts or compares the
    /// index map, or names a function, builds it anew, with copies of all sections.
    pub fn get_section_mut(&mut self, idx: u32) -> Option<&mut SourceMapSection> {
        self.get_section(idx)?;
        self.drop_handle();
        self.sections.get_mut()?.get_mut(idx as usize)
    }

    /// Returns the sections.
    pub fn sections(&self) -> SourceMapSectionIter<'_> {
        SourceMapSectionIter { smi: self, next: 0 }
    }

    /// Returns the original name of the function at a generated position, as
    /// [`SourceMap::get_original_function_name`] does. The search stays in the map of
    /// the closest token. The text is read at the positions of the tokens in that map:
    /// the start of the section is not added. If the sections are not in order at every
    /// level, the name may be wrong or missing.
    pub fn get_original_function_name(
        &self,
        line: u32,
        col: u32,
        minified_name: &str,
        sv: &SourceView,
    ) -> Option<&str> {
        self.handle()
            .function_name((line, col), minified_name, sv.handle())
    }

    /// Returns the closest token to a generated position. Only one section is
    /// searched: the first section that begins at the position, else the last
    /// section that begins before it. If this section has no map, there is no token.
    /// The token is one of the section's map; if index maps are nested, one of the
    /// innermost section's map. Its generated line counts from the first line of that
    /// section. On that line its generated column counts from the column where the
    /// section begins. If the sections are not in order at every level, the result may
    /// be the wrong token, or none.
    pub fn lookup_token(&self, line: u32, col: u32) -> Option<Token<'_>> {
        let (section, id) = self.closest_section((line, col))?;
        let (first_line, first_col) = section.offset;
        let col = if line == first_line {
            col - first_col
        } else {
            col
        };
        self.map_of(section, id)?
            .lookup_token(line - first_line, col)
    }

    /// The section that answers a position, and its number: the first that begins at it, else
    /// the last before it. It is looked for here and not by the library, because the token
    /// borrows the section's map from this value.
    fn closest_section(&self, position: (u32, u32)) -> Option<(&SourceMapSection, u32)> {
        let sections = self.section_list();
        let before = sections.partition_point(|section| section.offset < position);
        let closest = match sections.get(before) {
            Some(section) if section.offset == position => before,
            _ => before.checked_sub(1)?,
        };
        Some((sections.get(closest)?, closest as u32))
    }

    /// Returns this map as one regular map. Wherever the index map has an answer,
    /// the regular map has the same. One premise: in the index map, and in each
    /// index map inside of it, each section and all its tokens start before the next
    /// section. Fails with [`Error::CannotFlatten`] if a section at any level has no
    /// map, if there are more than 4294967295 sources or names, or if a line or column
    /// of a token would exceed 4294967295.
    pub fn flatten(&self) -> Result<SourceMap> {
        let mut flat = self.handle().share()?;
        flat.flatten()?;
        Ok(SourceMap::of_handle(flat))
    }

    /// Flattens this map, as [`SourceMapIndex::flatten`] does, and rewrites the
    /// regular map.
    pub fn flatten_and_rewrite(self, options: &RewriteOptions<'_>) -> Result<SourceMap> {
        self.flatten()?.rewrite(options)
    }

    /// Returns whether the map has both lists of a RAM bundle.
    pub fn is_for_ram_bundle(&self) -> bool {
        self.x_facebook_offsets().is_some() && self.x_metro_module_paths().is_some()
    }

    /// Returns the list of the lines at which the modules of a RAM bundle begin, by
    /// the numbers of the modules. An item is none if no module has its number. In a
    /// decoded map an item is also none if the module begins on line 4294967295.
    /// Returns none if the map has no such list.
    pub fn x_facebook_offsets(&self) -> Option<&[Option<u32>]> {
        let offsets = self
            .module_offsets
            .get_or_init(|| self.handle().module_offsets());
        offsets.as_deref()
    }

    /// Returns the paths of the modules of a RAM bundle, or none if the map has no
    /// such list.
    pub fn x_metro_module_paths(&self) -> Option<&[String]> {
        let paths = self
            .module_paths
            .get_or_init(|| read_module_paths(self.handle()));
        paths.as_deref()
    }

    /// Moves each section down by `amount` lines. Returns false, and changes
    /// nothing, if a section would pass line 4294967295.
    pub fn adjust_sections_offset_rows(&mut self, amount: u32) -> bool {
        let is_possible = must(self.handle_mut().shift(amount));
        if is_possible {
            for section in self.sections.get_mut().into_iter().flatten() {
                section.offset.0 += amount;
            }
        }
        is_possible
    }

    /// The map of a section of this number, which is copied if it has not been read yet.
    fn map_of<'a>(&self, section: &'a SourceMapSection, id: u32) -> Option<&'a DecodedMap> {
        let map = section.map.get_or_init(|| {
            let map = must(self.handle().section_map(id));
            map.map(DecodedMap::of_handle)
        });
        map.as_ref()
    }

    /// The sections. Those that were not read yet have no maps.
    fn section_list(&self) -> &[SourceMapSection] {
        self.sections.get_or_init(|| read_sections(self.handle()))
    }
}

/// The paths of the modules of a RAM bundle.
fn read_module_paths(handle: &MapHandle) -> Option<Vec<String>> {
    let count = handle.module_path_count()?;
    let paths = (0..).map_while(|id| handle.module_path(id));
    Some(paths.take(count).map(str::to_owned).collect())
}

/// The sections of an index map, without their maps.
fn read_sections(handle: &MapHandle) -> Vec<SourceMapSection> {
    let sections = (0..handle.counts().sections).map_while(|id| handle.section(id));
    sections
        .map(|section| SourceMapSection {
            offset: section.offset,
            url: section.url.map(str::to_owned),
            map: Once::new(),
        })
        .collect()
}

impl SourceMapSection {
    /// Makes a section of its parts.
    pub fn new(
        offset: (u32, u32),
        url: Option<String>,
        map: Option<DecodedMap>,
    ) -> SourceMapSection {
        SourceMapSection {
            offset,
            url,
            map: Once::from(map),
        }
    }

    /// Returns the line where the section begins.
    pub fn get_offset_line(&self) -> u32 {
        self.offset.0
    }

    /// Returns the column where the section begins.
    pub fn get_offset_col(&self) -> u32 {
        self.offset.1
    }

    /// Returns the line and the column where the section begins.
    pub fn get_offset(&self) -> (u32, u32) {
        self.offset
    }

    /// Returns the URL of the map.
    pub fn get_url(&self) -> Option<&str> {
        self.url.as_deref()
    }

    /// Sets or removes the URL of the map.
    pub fn set_url(&mut self, value: Option<&str>) {
        self.url = value.map(str::to_owned);
    }

    /// Returns the map.
    pub fn get_sourcemap(&self) -> Option<&DecodedMap> {
        self.map.get()?.as_ref()
    }

    /// Returns the map, to be changed.
    pub fn get_sourcemap_mut(&mut self) -> Option<&mut DecodedMap> {
        self.map.get_mut()?.as_mut()
    }

    /// Sets or removes the map.
    pub fn set_sourcemap(&mut self, sm: Option<DecodedMap>) {
        self.map = Once::from(sm);
    }
}

impl PartialEq for SourceMapSection {
    fn eq(&self, other: &SourceMapSection) -> bool {
        (self.offset, &self.url, self.get_sourcemap())
            == (other.offset, &other.url, other.get_sourcemap())
    }
}

impl fmt::Debug for SourceMapSection {
    fn fmt(&self, f: &mut fmt::Formatter<'_>) -> fmt::Result {
        f.debug_struct("SourceMapSection")
            .field("offset", &self.offset)
            .field("url", &self.url)
            .field("map", &self.get_sourcemap())
            .finish()
    }
}

impl<'a> Iterator for SourceMapSectionIter<'a> {
    type Item = &'a SourceMapSection;

    fn next(&mut self) -> Option<&'a SourceMapSection> {
        let section = self.smi.get_section(self.next)?;
        self.next += 1;
        Some(section)
    }
}

impl Clone for SourceMapIndex {
    fn clone(&self) -> SourceMapIndex {
        let handle = self.handle.get().map(|handle| must(handle.share()));
        SourceMapIndex {
            handle: handle.map_or_else(Once::new, Once::from),
            file: self.file.clone(),
            debug_id: self.debug_id,
            sections: self.sections.clone(),
            module_offsets: self.module_offsets.clone(),
            module_paths: self.module_paths.clone(),
        }
    }
}

/// Index maps are equal if they hold the same, the maps of their sections
/// included.
impl PartialEq for SourceMapIndex {
    fn eq(&self, other: &SourceMapIndex) -> bool {
        self.handle() == other.handle()
    }
}

impl fmt::Debug for SourceMapIndex {
    fn fmt(&self, f: &mut fmt::Formatter<'_>) -> fmt::Result {
        f.debug_struct("SourceMapIndex")
            .field("file", &self.get_file())
            .field("debug_id", &self.debug_id())
            .field("x_facebook_offsets", &self.x_facebook_offsets())
            .field("x_metro_module_paths", &self.x_metro_module_paths())
            .field("sections", &self.sections().collect::<Vec<_>>())
            .finish()
    }
}

#[cfg(test)]
mod tests;

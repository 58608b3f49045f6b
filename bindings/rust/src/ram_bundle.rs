//! RAM bundles of React Native.

use std::collections::BTreeMap;
use std::fmt;
use std::fs::{self, File};
use std::io::Read;
use std::marker::PhantomData;
use std::ops::Range;
use std::path::Path;

use crate::errors::{Error, RangeError, Result};
use crate::handle::{BundleHandle, SplitHandle};
use crate::sourceview::SourceView;
use crate::types::{SourceMap, SourceMapIndex};
use crate::utils::must;

/// The number that an indexed RAM bundle begins with, in little-endian order.
pub const RAM_BUNDLE_MAGIC: u32 = 0xFB0B_D1E5;

const HEADER_SIZE: usize = 12;
const ENTRY_SIZE: usize = 8;
const MODULES_FOLDER: &str = "js-modules";
const MAGIC_FILE: &str = "UNBUNDLE";

/// What an indexed RAM bundle begins with. It is read from the bytes of a bundle:
///
/// ```
/// use sourcemap::ram_bundle::RamBundleHeader;
/// let header = RamBundleHeader::try_from(&b"\xe5\xd1\x0b\xfb\x01\0\0\0\x02\0\0\0.."[..]).unwrap();
/// assert!(header.is_valid_magic());
/// ```
#[derive(Debug, Clone, Copy)]
pub struct RamBundleHeader {
    magic: u32,
    #[allow(dead_code)] // printed
    module_count: u32,
    #[allow(dead_code)]
    startup_code_size: u32,
}

impl RamBundleHeader {
    /// Returns whether the bytes begin as an indexed bundle does.
    pub fn is_valid_magic(&self) -> bool {
        self.magic == RAM_BUNDLE_MAGIC
    }
}

/// Fails with [`Error::Scroll`] if there are fewer than 12 bytes.
impl TryFrom<&[u8]> for RamBundleHeader {
    type Error = Error;

    fn try_from(bytes: &[u8]) -> Result<RamBundleHeader> {
        let header = bytes.first_chunk().ok_or(Error::Scroll(RangeError {
            start: 0,
            size: HEADER_SIZE as u64,
            len: bytes.len() as u64,
        }))?;
        let [magic, module_count, startup_code_size] = words(header);
        Ok(RamBundleHeader {
            magic,
            module_count,
            startup_code_size,
        })
    }
}

/// Three numbers in little-endian order.
fn words(bytes: &[u8; HEADER_SIZE]) -> [u32; 3] {
    [0, 4, 8].map(|at| u32::from_le_bytes([bytes[at], bytes[at + 1], bytes[at + 2], bytes[at + 3]]))
}

/// The form of a RAM bundle.
#[derive(Debug, Clone, PartialEq, Eq, Hash, Ord, PartialOrd)]
pub enum RamBundleType {
    /// One file with a table of its modules.
    Indexed,
    /// A folder with a file for each module.
    Unbundle,
}

/// A RAM bundle.
#[derive(Debug, Clone)]
pub struct RamBundle<'a> {
    repr: Repr<'a>,
}

#[derive(Debug, Clone)]
enum Repr<'a> {
    Indexed(Indexed<'a>),
    Unbundle(Unbundle),
}

struct Indexed<'a> {
    /// Has a copy of the bytes.
    handle: BundleHandle,
    size: usize,
    bytes: PhantomData<&'a [u8]>,
}

#[derive(Clone)]
struct Unbundle {
    startup_code: Vec<u8>,
    modules: BTreeMap<usize, Vec<u8>>,
}

/// A module of a RAM bundle.
#[derive(Debug)]
pub struct RamBundleModule<'a> {
    id: usize,
    data: &'a [u8],
}

/// The modules of a RAM bundle.
pub struct RamBundleModuleIter<'a> {
    ids: Range<usize>,
    ram_bundle: &'a RamBundle<'a>,
}

/// The modules of a RAM bundle, each with a file name, its text and its map. A module is read
/// when it is asked for.
pub struct SplitRamBundleModuleIter<'a> {
    split: SplitHandle,
    ids: Range<usize>,
    bundle: Whole<'a>,
}

/// A bundle in the indexed form.
enum Whole<'a> {
    Indexed(&'a BundleHandle),
    /// What a bundle of files is in that form.
    Image(BundleHandle),
}

impl<'a> RamBundle<'a> {
    /// Reads an indexed bundle.
    pub fn parse_indexed_from_slice(bytes: &'a [u8]) -> Result<Self> {
        RamBundle::parse_indexed(bytes)
    }

    /// Reads an indexed bundle.
    pub fn parse_indexed_from_vec(bytes: Vec<u8>) -> Result<Self> {
        RamBundle::parse_indexed(&bytes)
    }

    /// Reads an indexed bundle from a file.
    pub fn parse_indexed_from_path(path: &Path) -> Result<Self> {
        RamBundle::parse_indexed_from_vec(fs::read(path)?)
    }

    /// Reads a bundle of files. The path is that of the startup file. Beside this
    /// file is the folder `js-modules`. The folder has the file `UNBUNDLE`, and a
    /// file `NUMBER.js` for each module. Links and folders in `js-modules` are ignored,
    /// but `UNBUNDLE` may be a link to a file. NUMBER has only ASCII digits, and is
    /// below `usize::MAX`. If two files have the same number, the later name in the
    /// order of bytes counts. Fails with [`Error::NotARamBundle`] if
    /// [`is_unbundle_path`] returns false for the path, and with
    /// [`Error::InvalidRamBundleIndex`] if a plain file has another name.
    pub fn parse_unbundle_from_path(bundle_path: &Path) -> Result<Self> {
        let repr = Repr::Unbundle(Unbundle::read(bundle_path)?);
        Ok(RamBundle { repr })
    }

    fn parse_indexed(bytes: &[u8]) -> Result<Self> {
        let repr = Repr::Indexed(Indexed {
            handle: BundleHandle::open(bytes)?,
            size: bytes.len(),
            bytes: PhantomData,
        });
        Ok(RamBundle { repr })
    }

    /// Returns the form of the bundle.
    pub fn bundle_type(&self) -> RamBundleType {
        match self.repr {
            Repr::Indexed(_) => RamBundleType::Indexed,
            Repr::Unbundle(_) => RamBundleType::Unbundle,
        }
    }

    /// Returns the module with this number, or none if there is no such module. In
    /// an indexed bundle a number that is not less than [`RamBundle::module_count`]
    /// is [`Error::InvalidRamBundleIndex`]; in a bundle of files it is none.
    pub fn get_module(&self, id: usize) -> Result<Option<RamBundleModule<'_>>> {
        let data = match &self.repr {
            Repr::Indexed(indexed) => indexed.handle.module(id)?,
            Repr::Unbundle(unbundle) => unbundle.modules.get(&id).map(Vec::as_slice),
        };
        Ok(data.map(|data| RamBundleModule { id, data }))
    }

    /// Returns how many numbers of modules the bundle has. Numbers count from 0, and
    /// some may have no module. In a bundle of files this is the largest number plus
    /// 1, or 1 if there are no modules.
    pub fn module_count(&self) -> usize {
        match &self.repr {
            Repr::Indexed(indexed) => indexed.handle.module_count(),
            Repr::Unbundle(unbundle) => unbundle.module_count(),
        }
    }

    /// Returns the startup code.
    pub fn startup_code(&self) -> Result<&[u8]> {
        match &self.repr {
            Repr::Indexed(indexed) => indexed.handle.startup_code(),
            Repr::Unbundle(unbundle) => Ok(&unbundle.startup_code),
        }
    }

    /// Returns the modules, by rising number.
    pub fn iter_modules(&self) -> RamBundleModuleIter<'_> {
        RamBundleModuleIter {
            ids: 0..self.module_count(),
            ram_bundle: self,
        }
    }

    fn whole(&self) -> Result<Whole<'_>> {
        Ok(match &self.repr {
            Repr::Indexed(indexed) => Whole::Indexed(&indexed.handle),
            Repr::Unbundle(unbundle) => Whole::Image(BundleHandle::open(&unbundle.image()?)?),
        })
    }
}

impl Clone for Indexed<'_> {
    fn clone(&self) -> Self {
        Indexed {
            handle: must(self.handle.share()),
            size: self.size,
            bytes: PhantomData,
        }
    }
}

impl fmt::Debug for Indexed<'_> {
    fn fmt(&self, f: &mut fmt::Formatter<'_>) -> fmt::Result {
        f.debug_struct("Indexed")
            .field("size", &self.size)
            .field("modules", &self.handle.module_count())
            .finish()
    }
}

impl fmt::Debug for Unbundle {
    fn fmt(&self, f: &mut fmt::Formatter<'_>) -> fmt::Result {
        f.debug_struct("Unbundle")
            .field("startup_size", &self.startup_code.len())
            .field("modules", &self.modules.len())
            .finish()
    }
}

impl Unbundle {
    fn read(bundle_path: &Path) -> Result<Unbundle> {
        if !is_unbundle_path(bundle_path) {
            return Err(Error::NotARamBundle);
        }
        let startup_code = fs::read(bundle_path)?;
        let folder = bundle_path.with_file_name(MODULES_FOLDER);
        let mut modules = BTreeMap::new();
        for name in file_names(&folder)? {
            if name != MAGIC_FILE {
                modules.insert(module_number(&name)?, fs::read(folder.join(name))?);
            }
        }
        Ok(Unbundle {
            startup_code,
            modules,
        })
    }

    fn module_count(&self) -> usize {
        self.modules
            .last_key_value()
            .map_or(1, |(&last, _)| last + 1)
    }

    /// The same modules as an indexed bundle, the only form that the library splits.
    /// Its table has 8 bytes for each number up to the largest.
    fn image(&self) -> Result<Vec<u8>> {
        let count = number_bytes(self.module_count())?;
        let mut table = zeros(self.table_size()?)?;
        let mut code = self.startup_code.clone();
        for (id, module) in &self.modules {
            let entry = &mut table[HEADER_SIZE + id * ENTRY_SIZE..][..ENTRY_SIZE];
            entry[..4].copy_from_slice(&number_bytes(code.len())?);
            entry[4..].copy_from_slice(&number_bytes(module.len() + 1)?);
            code.extend_from_slice(module);
            code.push(0);
        }
        table[..4].copy_from_slice(&RAM_BUNDLE_MAGIC.to_le_bytes());
        table[4..8].copy_from_slice(&count);
        table[8..12].copy_from_slice(&number_bytes(self.startup_code.len())?);
        table.append(&mut code);
        Ok(table)
    }

    fn table_size(&self) -> Result<usize> {
        let entries = self.module_count().checked_mul(ENTRY_SIZE);
        let size = entries.and_then(|entries| entries.checked_add(HEADER_SIZE));
        size.ok_or(Error::InvalidRamBundleEntry)
    }
}

/// Zero bytes. Systems commonly give them memory only when they are written.
fn zeros(size: usize) -> Result<Vec<u8>> {
    // `vec!` would abort if memory ran out, so this is tried first.
    Vec::<u8>::new()
        .try_reserve_exact(size)
        .map_err(|_| Error::OutOfMemory)?;
    Ok(vec![0; size])
}

/// A number in the four bytes that an indexed bundle has for it.
fn number_bytes(number: usize) -> Result<[u8; 4]> {
    let number = u32::try_from(number).map_err(|_| Error::InvalidRamBundleEntry)?;
    Ok(number.to_le_bytes())
}

/// The names of the plain files of a folder, sorted. So if two files have one module
/// number, the later name counts.
fn file_names(folder: &Path) -> Result<Vec<String>> {
    let mut names = Vec::new();
    for entry in folder.read_dir()? {
        let entry = entry?;
        if entry.file_type()?.is_file() {
            let name = entry.file_name().into_string();
            names.push(name.map_err(|_| Error::InvalidRamBundleIndex)?);
        }
    }
    names.sort();
    Ok(names)
}

/// The number of the module in a file of this name.
fn module_number(file_name: &str) -> Result<usize> {
    let digits = file_name.strip_suffix(".js").unwrap_or_default();
    let is_number = digits.bytes().all(|digit| digit.is_ascii_digit());
    let number = digits
        .parse()
        .ok()
        .filter(|&number| is_number && number < usize::MAX);
    number.ok_or(Error::InvalidRamBundleIndex)
}

impl<'a> RamBundleModule<'a> {
    /// Returns the number of the module.
    pub fn id(&self) -> usize {
        self.id
    }

    /// Returns the bytes of the module.
    pub fn data(&self) -> &'a [u8] {
        self.data
    }

    /// Returns the text of the module. Fails with [`Error::Utf8`] if the bytes are not
    /// UTF-8.
    pub fn source_view(&self) -> Result<SourceView> {
        Ok(SourceView::of_text(std::str::from_utf8(self.data)?))
    }
}

impl<'a> Iterator for RamBundleModuleIter<'a> {
    type Item = Result<RamBundleModule<'a>>;

    fn next(&mut self) -> Option<Self::Item> {
        let ram_bundle = self.ram_bundle;
        // The numbers of files may be far apart.
        if let Repr::Unbundle(unbundle) = &ram_bundle.repr {
            let (&id, data) = unbundle.modules.range(self.ids.clone()).next()?;
            self.ids.start = id + 1;
            return Some(Ok(RamBundleModule { id, data }));
        }
        self.ids
            .find_map(|id| ram_bundle.get_module(id).transpose())
    }
}

impl Iterator for SplitRamBundleModuleIter<'_> {
    type Item = Result<(String, SourceView, SourceMap)>;

    fn next(&mut self) -> Option<Self::Item> {
        let bundle = match &self.bundle {
            Whole::Indexed(bundle) => bundle,
            Whole::Image(bundle) => bundle,
        };
        let module = |id| self.split.module(bundle, id).transpose();
        let (text, map) = match self.ids.find_map(module)? {
            Ok(module) => module,
            Err(error) => return Some(Err(error)),
        };
        let name = map.file().unwrap_or_default().to_owned();
        Some(Ok((
            name,
            SourceView::of_text(text),
            SourceMap::of_handle(map),
        )))
    }
}

/// Splits a bundle into its modules, each with a file name, its text and its map, by
/// the index map of the bundle. The file name is the number in decimal digits, without
/// leading zeros, and `.js`. The index map is flattened at once, and a module is split off when
/// the iterator comes to it.
///
/// A module begins on the line that the list [`SourceMapIndex::x_facebook_offsets`]
/// has for its number. The iterator skips modules that are missing. A module for which
/// the list has none is skipped too, unless reading the module from the bundle fails.
/// Line 4294967295 is an exception. In a decoded map the list has none for a module on
/// this line, but the module is not skipped, unless [`SourceMapIndex::get_section_mut`]
/// returned a section. In a map that [`SourceMapIndex::new_ram_bundle_compatible`] made
/// the list has this line, but the module is skipped as if the list had none.
/// The iterator returns [`Error::InvalidRamBundleEntry`] for each invalid module. A
/// module is invalid if reading it from the bundle fails, if its text is not UTF-8, or
/// if the list is too short to have its number. It is also invalid if the flat map has
/// no token at or before the start of the module's first line. The split itself fails
/// if [`SourceMapIndex::flatten`] fails, and with [`Error::NotARamBundle`] if the index
/// map has no such list. For a bundle of files it fails with
/// [`Error::InvalidRamBundleEntry`] if a number or a size in the indexed form of the
/// bundle exceeds 4294967295.
pub fn split_ram_bundle<'a>(
    ram_bundle: &'a RamBundle<'_>,
    smi: &SourceMapIndex,
) -> Result<SplitRamBundleModuleIter<'a>> {
    Ok(SplitRamBundleModuleIter {
        split: SplitHandle::open(smi.handle())?,
        ids: 0..ram_bundle.module_count(),
        bundle: ram_bundle.whole()?,
    })
}

/// Returns whether bytes are an indexed bundle, by their header.
pub fn is_ram_bundle_slice(slice: &[u8]) -> bool {
    slice
        .get(..HEADER_SIZE)
        .is_some_and(|header| BundleHandle::open(header).is_ok())
}

/// Returns whether a path is that of the startup file of a bundle of files, by
/// the file `js-modules/UNBUNDLE` beside it.
pub fn is_unbundle_path(bundle_path: &Path) -> bool {
    let magic_path = bundle_path.with_file_name(MODULES_FOLDER).join(MAGIC_FILE);
    if !bundle_path.is_file() || !magic_path.is_file() {
        return false;
    }
    let mut magic = [0; 4];
    let read = File::open(magic_path).and_then(|mut file| file.read_exact(&mut magic));
    read.is_ok() && magic == RAM_BUNDLE_MAGIC.to_le_bytes()
}

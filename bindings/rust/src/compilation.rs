//! The directories of compilations.

use crate::calls::{call, unless, whole};
use crate::error::Error;

/// The sections of a linked program that say where it was compiled. One that a program lacks is of
/// no bytes.
#[derive(Clone, Copy, Debug)]
pub struct CompilationSections<'a> {
    /// The section `.debug_info`.
    pub debug_info: &'a [u8],
    /// The section `.debug_abbrev`.
    pub debug_abbrev: &'a [u8],
    /// The section `.debug_line_str`.
    pub debug_line_str: &'a [u8],
    /// The section `.debug_str`.
    pub debug_str: &'a [u8],
    /// The section `.debug_str_offsets`.
    pub debug_str_offsets: &'a [u8],
    /// Whether the most significant byte of a number comes first.
    pub big_endian: bool,
}

impl CompilationSections<'_> {
    /// The directory of the compilation whose line program begins at an offset of `.debug_line`, as
    /// a `Unit` has it. None where no unit that can be read has one. The first entry of each unit is
    /// read for each call: ask once for each unit.
    ///
    /// # Errors
    ///
    /// [`Error::OUT_OF_MEMORY`].
    pub fn comp_dir(&self, offset: u64) -> Result<Option<Vec<u8>>, Error> {
        let directory = whole(256, |room, size| {
            // The pointers are those of slices and of a local.
            Error::of(unsafe {
                call!(gimli_line_proved_comp_dir(
                    [self.debug_info], [self.debug_abbrev], [self.debug_line_str], [self.debug_str],
                    [self.debug_str_offsets], self.big_endian, offset, [mut room], size
                ))
            })
        });
        unless(Error::NO_COMP_DIR, directory)
    }
}

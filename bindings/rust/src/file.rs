//! The files of a unit.

use crate::calls::{self, call, whole};
use crate::error::Error;
use crate::Sections;

/// Where a text stands.
#[derive(Clone, Debug, PartialEq, Eq, Hash)]
pub enum Text {
    /// In the section `.debug_line` itself: these bytes.
    Here(Vec<u8>),
    /// In the section `.debug_line_str`, at an offset, up to a zero byte.
    DebugLineStr(u64),
    /// In the section `.debug_str`, likewise.
    DebugStr(u64),
    /// In the section `.debug_str` of the supplementary file, likewise.
    DebugStrSup(u64),
    /// By an index into the string offsets of the unit.
    Index(u64),
}

impl Text {
    /// A text whose bytes stand there where it is in the section itself; none where there is none.
    pub(crate) fn new(text: &calls::Text, bytes: Vec<u8>) -> Option<Text> {
        match text.kind {
            1 => Some(Text::Here(bytes)),
            2 => Some(Text::DebugLineStr(text.first)),
            3 => Some(Text::DebugStr(text.first)),
            4 => Some(Text::DebugStrSup(text.first)),
            5 => Some(Text::Index(text.first)),
            _ => None,
        }
    }
}

/// A source file.
#[derive(Clone, Debug, PartialEq, Eq, Hash)]
pub struct File {
    /// Its path, full or from the directory on.
    pub path: Option<Text>,
    /// The directory; none where no directory has its number, as number 0 up to version 4.
    pub directory: Option<Text>,
    /// The number of the directory.
    pub directory_number: u64,
    /// When the file was last changed, in a measure of the producer's own, where its unit says that of files.
    pub timestamp: Option<u64>,
    /// The size in bytes, likewise.
    pub size: Option<u64>,
    /// The MD5 digest, likewise.
    pub md5: Option<[u8; 16]>,
}

impl File {
    pub(crate) fn new(file: &calls::File, path: Vec<u8>, directory: Vec<u8>) -> File {
        File {
            path: Text::new(&file.path, path),
            directory: Text::new(&file.directory, directory),
            directory_number: file.directory_number,
            timestamp: (file.details & 1 != 0).then_some(file.timestamp),
            size: (file.details & 2 != 0).then_some(file.size),
            md5: (file.details & 4 != 0).then_some(file.md5),
        }
    }
}

impl Sections<'_> {
    /// The file of a number of the unit at an offset, as rows have it: up to version 4 from 1 on, in version 5 from 0 on.
    ///
    /// # Errors
    ///
    /// [`Error::NO_SUCH_FILE`], [`Error::OUT_OF_MEMORY`], or why the unit can't be read.
    pub fn file(&self, offset: usize, number: u64) -> Result<File, Error> {
        let mut file = calls::File::default();
        let mut directory = vec![0; 256];
        let path = whole(256, |path, size| {
            // The pointers are those of slices, of vectors and of a local.
            let answer = Error::of(unsafe {
                call!(gimli_line_proved_read_file(
                    [self.debug_line], self.big_endian, self.address_size, offset, number, &mut file, [mut path], [mut directory]
                ))
            });
            *size = file.path.size as usize;
            directory.resize(file.directory.size as usize, 0);
            answer
        })?;
        Ok(File::new(&file, path, directory))
    }

    /// The directory of a number of the unit at an offset, as files have it; none where its text is of no known kind.
    ///
    /// # Errors
    ///
    /// [`Error::NO_SUCH_DIRECTORY`], [`Error::OUT_OF_MEMORY`], or why the unit can't be read.
    pub fn directory(&self, offset: usize, number: u64) -> Result<Option<Text>, Error> {
        let mut text = calls::Text::default();
        let bytes = whole(256, |room, size| {
            // The pointers are those of slices, of a vector and of a local.
            let answer = Error::of(unsafe {
                call!(gimli_line_proved_read_directory(
                    [self.debug_line], self.big_endian, self.address_size, offset, number, &mut text, [mut room]
                ))
            });
            *size = text.size as usize;
            answer
        })?;
        Ok(Text::new(&text, bytes))
    }

    /// The whole path of the file of a number of the unit at an offset. `comp_dir` is the directory of the compilation
    /// (`DW_AT_comp_dir`, as [`CompilationSections::comp_dir`](crate::CompilationSections::comp_dir) gives it), from which a relative
    /// path goes on up to version 4. In version 5 directory 0 of the unit is that directory, and `comp_dir` counts only if it is empty.
    /// If the directory is relative or has no bytes, so is the path.
    ///
    /// # Errors
    ///
    /// [`Error::NO_SUCH_FILE`], [`Error::UNKNOWN_PATH`] where a string of the path can't be told, [`Error::OUT_OF_MEMORY`], or why the
    /// unit can't be read.
    pub fn path(&self, offset: usize, number: u64, comp_dir: &[u8]) -> Result<Vec<u8>, Error> {
        whole(256, |room, size| {
            // The pointers are those of slices and of a local.
            Error::of(unsafe {
                call!(gimli_line_proved_read_path(
                    [self.debug_line], [self.debug_line_str], [self.debug_str], self.big_endian, self.address_size, offset, number,
                    [comp_dir], [mut room], size
                ))
            })
        })
    }
}

//! ELF files, from which sections are taken.

use crate::calls::{self, call, most_of, unless, whole};
use crate::error::Error;

/// An ELF file.
#[derive(Clone, Copy, Debug)]
pub struct Elf<'a> {
    bytes: &'a [u8],
    found: calls::Elf,
}

/// The name of the file with a program's debug information (`.gnu_debuglink`).
#[derive(Clone, Debug, PartialEq, Eq)]
pub struct DebugLink {
    /// The name of the file, without a directory.
    pub name: Vec<u8>,
    /// The CRC-32 of its bytes, as zlib has it.
    pub checksum: u32,
}

impl<'a> Elf<'a> {
    /// The ELF file that these bytes are.
    ///
    /// # Errors
    ///
    /// [`Error::NO_ELF`] where they are none that can be read.
    pub fn open(bytes: &'a [u8]) -> Result<Elf<'a>, Error> {
        let mut found = calls::Elf::default();
        // The pointers are those of a slice and of a local.
        Error::of(unsafe { call!(gimli_line_proved_elf_open([bytes], &mut found)) })?;
        Ok(Elf { bytes, found })
    }

    /// The lowest address of a section of code that isn't empty: a linker leaves code that it drops below it. In an object file, whose
    /// sections all stand at 0, it is 0.
    pub fn lowest(&self) -> u64 {
        if self.found.relocatable { 0 } else { self.found.lowest }
    }

    /// The number of bytes of an address: 4 or 8.
    pub fn address_size(&self) -> u8 {
        self.found.address_size
    }

    /// Whether the most significant byte of a number comes first.
    pub fn is_big_endian(&self) -> bool {
        self.found.big
    }

    /// What the first section of a name holds: made whole where it is compressed by zlib, and relocated in an object file. None where
    /// there is no such section.
    ///
    /// # Errors
    ///
    /// [`Error::BAD_SECTION`] where it can't be read, or is compressed and states more bytes than 256 times the file's and 64 MiB, and
    /// [`Error::OUT_OF_MEMORY`].
    pub fn section(&self, name: &str) -> Result<Option<Vec<u8>>, Error> {
        let most = self.most();
        let bytes = whole(0, |room, size| {
            // The pointers are those of slices and of a local.
            let status = unsafe { call!(gimli_line_proved_elf_section([self.bytes], [name.as_bytes()], [mut room], size)) };
            Error::of(if *size > most { Error::BAD_SECTION.number() } else { status })
        });
        unless(Error::NO_SECTION, bytes)
    }

    /// The most bytes that a section may have that is made whole, and the paths of an index.
    pub(crate) fn most(&self) -> usize {
        most_of(self.bytes.len())
    }

    /// The build id. None where there is none.
    ///
    /// # Errors
    ///
    /// [`Error::BAD_SECTION`] where the section of it can't be read.
    pub fn build_id(&self) -> Result<Option<Vec<u8>>, Error> {
        let id = whole(20, |room, size| {
            // The pointers are those of slices and of a local.
            Error::of(unsafe { call!(gimli_line_proved_elf_build_id([self.bytes], [mut room], size)) })
        });
        unless(Error::NO_SECTION, id)
    }

    /// The name and the checksum of the file with the debug information. None where there is none, or its section ends before the
    /// checksum does.
    ///
    /// # Errors
    ///
    /// [`Error::BAD_SECTION`] where the section of it can't be read.
    pub fn debug_link(&self) -> Result<Option<DebugLink>, Error> {
        let mut checksum = 0;
        let name = whole(64, |room, size| {
            // The pointers are those of slices and of locals.
            Error::of(unsafe { call!(gimli_line_proved_elf_debug_link([self.bytes], [mut room], size, &mut checksum)) })
        });
        Ok(unless(Error::NO_SECTION, name)?.map(|name| DebugLink { name, checksum }))
    }
}

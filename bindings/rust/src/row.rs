//! Rows and units, as plain values.

use crate::calls::{self, call};
use crate::error::Error;
use crate::Sections;
use std::num::NonZeroU64;

/// The column of a row.
#[derive(Clone, Copy, Debug, PartialEq, Eq, Hash)]
pub enum ColumnType {
    /// The left edge of the line.
    LeftEdge,
    /// A column, from 1 on.
    Column(NonZeroU64),
}

/// A row of a line program.
#[derive(Clone, Copy, Debug, PartialEq, Eq, Hash)]
pub struct LineRow {
    address: u64,
    op_index: u64,
    file: u64,
    line: u64,
    column: u64,
    isa: u64,
    discriminator: u64,
    flags: u64,
}

impl LineRow {
    pub(crate) fn new(row: &calls::Row) -> LineRow {
        LineRow {
            address: row.address,
            op_index: row.op_index,
            file: row.file,
            line: row.line,
            column: row.column,
            isa: row.isa,
            discriminator: row.discriminator,
            flags: row.flags,
        }
    }

    /// A row at an address, of no file, no line and no flags: to be written.
    pub fn at(address: u64) -> LineRow {
        LineRow::new(&calls::Row { address, ..Default::default() })
    }

    /// The same of a file.
    pub fn with_file(self, file: u64) -> LineRow {
        LineRow { file, ..self }
    }

    /// The same of a line, 0 for none.
    pub fn with_line(self, line: u64) -> LineRow {
        LineRow { line, ..self }
    }

    /// The same of a column, 0 for the left edge.
    pub fn with_column(self, column: u64) -> LineRow {
        LineRow { column, ..self }
    }

    /// The same as a good place for a breakpoint.
    pub fn with_statement(self) -> LineRow {
        LineRow { flags: self.flags | 1, ..self }
    }

    /// The same as the end of a prologue.
    pub fn with_prologue_end(self) -> LineRow {
        LineRow { flags: self.flags | 8, ..self }
    }

    /// The same of a block that this number tells apart, from version 4 on.
    pub fn with_discriminator(self, discriminator: u64) -> LineRow {
        LineRow { discriminator, ..self }
    }

    /// The same as the end of its sequence.
    pub fn with_end(self) -> LineRow {
        LineRow { flags: self.flags | 4, ..self }
    }

    /// The row as the library has it.
    pub(crate) fn call(&self) -> calls::Row {
        calls::Row {
            address: self.address,
            op_index: self.op_index,
            file: self.file,
            line: self.line,
            column: self.column,
            isa: self.isa,
            discriminator: self.discriminator,
            flags: self.flags,
        }
    }

    /// The address of the machine instruction, in bytes.
    pub fn address(&self) -> u64 {
        self.address
    }

    /// Which operation of the machine instruction, from 0 on.
    pub fn op_index(&self) -> u64 {
        self.op_index
    }

    /// The index of the source file: from 1 on up to version 4, from 0 on in version 5.
    pub fn file_index(&self) -> u64 {
        self.file
    }

    /// The line, from 1 on; none where the instruction belongs to no line.
    pub fn line(&self) -> Option<NonZeroU64> {
        NonZeroU64::new(self.line)
    }

    /// The column.
    pub fn column(&self) -> ColumnType {
        NonZeroU64::new(self.column).map_or(ColumnType::LeftEdge, ColumnType::Column)
    }

    /// The instruction set, by the machine's own numbers.
    pub fn isa(&self) -> u64 {
        self.isa
    }

    /// Tells blocks of one source place apart.
    pub fn discriminator(&self) -> u64 {
        self.discriminator
    }

    /// A good place for a breakpoint.
    pub fn is_stmt(&self) -> bool {
        self.flags & 1 != 0
    }

    /// A basic block begins here.
    pub fn basic_block(&self) -> bool {
        self.flags & 2 != 0
    }

    /// The first byte after a sequence. What else the row says means nothing then.
    pub fn end_sequence(&self) -> bool {
        self.flags & 4 != 0
    }

    /// The prologue of a function ends here.
    pub fn prologue_end(&self) -> bool {
        self.flags & 8 != 0
    }

    /// The epilogue of a function begins here.
    pub fn epilogue_begin(&self) -> bool {
        self.flags & 16 != 0
    }
}

/// A unit of the section, and its rows up to its program's first fault.
#[derive(Clone, Debug)]
pub struct Unit {
    /// The offset of the unit.
    pub offset: usize,
    /// The offset of what follows it.
    pub next: usize,
    /// Its version, from 2 to 5.
    pub version: u32,
    /// How many directories its table has.
    pub directories: u64,
    /// How many files it has, those that its program defines included.
    pub files: u64,
    /// The first fault of its program.
    pub fault: Option<Error>,
    rows: Vec<LineRow>,
}

impl Unit {
    /// Reads the unit at an offset. Its program is run twice: first its rows are counted.
    ///
    /// # Errors
    ///
    /// Why the unit can't be read, as [`Error::UNEXPECTED_EOF`] and [`Error::UNKNOWN_VERSION`], or [`Error::OUT_OF_MEMORY`]. A fault
    /// of the program is none: `fault` has it.
    pub fn read(sections: &Sections<'_>, offset: usize) -> Result<Unit, Error> {
        Unit::read_or_next(sections, offset).map_err(|(error, _)| error)
    }

    /// The same; where the unit is refused, also where the next one is: None where its length can't be read.
    fn read_or_next(sections: &Sections<'_>, offset: usize) -> Result<Unit, (Error, Option<usize>)> {
        let (section, big, size) = (sections.debug_line, sections.big_endian, sections.address_size);
        let mut found = calls::Unit::default();
        // The pointers are those of a slice and of a local.
        let read = Error::of(unsafe { call!(gimli_line_proved_read_unit([section], big, size, offset, &mut found)) });
        let next = found.next;
        read.map_err(|error| (error, (next > offset).then_some(next)))?;
        let mut rows = vec![calls::Row::default(); found.rows as usize];
        let mut count = 0;
        // The pointers are those of a slice, a vector and a local.
        let status = unsafe { call!(gimli_line_proved_read_rows([section], big, size, offset, 0, [mut rows], &mut count)) };
        let fault = Error::fault(status);
        if fault == Some(Error::OUT_OF_MEMORY) {
            return Err((Error::OUT_OF_MEMORY, Some(next)));
        }
        Ok(Unit {
            offset,
            next,
            version: found.version,
            directories: found.directories,
            files: found.files,
            fault,
            rows: rows.iter().map(LineRow::new).collect(),
        })
    }

    /// Its rows.
    pub fn rows(&self) -> std::slice::Iter<'_, LineRow> {
        self.rows.iter()
    }
}

/// The units of a section, one after the other. After a unit that is refused the next one follows, unless its length can't be read.
pub struct Units<'a> {
    sections: Sections<'a>,
    offset: usize,
}

impl<'a> Units<'a> {
    pub(crate) fn new(sections: Sections<'a>) -> Units<'a> {
        Units { sections, offset: 0 }
    }
}

impl Iterator for Units<'_> {
    type Item = Result<Unit, Error>;

    fn next(&mut self) -> Option<Self::Item> {
        if self.offset >= self.sections.debug_line.len() {
            return None;
        }
        let unit = Unit::read_or_next(&self.sections, self.offset);
        self.offset = match &unit {
            Ok(unit) => unit.next,
            Err((_, next)) => next.unwrap_or(usize::MAX),
        };
        Some(unit.map_err(|(error, _)| error))
    }
}

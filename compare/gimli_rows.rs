//! Rows as gimli reads them, in the form of `linetool rows`: `gimli_rows FILE little|big SIZE OFFSET`.
//!
//! The gimli is the one that Rust's own standard library is built with, so nothing has to be fetched; it needs a nightly
//! compiler. After the rows the first fault is the line `fault`; a unit that is refused is the line `refused`.
#![feature(rustc_private)]
extern crate gimli;

use gimli::{ColumnType, DebugLine, DebugLineOffset, EndianSlice, LineRow, RunTimeEndian};

fn main() {
    let words: Vec<String> = std::env::args().collect();
    let bytes = std::fs::read(&words[1]).expect("the file can't be read");
    let order = if words[2] == "big" { RunTimeEndian::Big } else { RunTimeEndian::Little };
    let size = words[3].parse().expect("the size is no number");
    let offset = words[4].parse().expect("the offset is no number");
    let section = DebugLine::from(EndianSlice::new(&bytes, order));
    let Ok(program) = section.program(DebugLineOffset(offset), size, None, None) else {
        return println!("refused");
    };
    let mut rows = program.rows();
    loop {
        match rows.next_row() {
            Ok(Some((_, row))) => print(row),
            Ok(None) => return,
            Err(_) => return println!("fault"),
        }
    }
}

fn print(row: &LineRow) {
    let line = row.line().map_or(0, |line| line.get());
    let column = match row.column() {
        ColumnType::LeftEdge => 0,
        ColumnType::Column(column) => column.get(),
    };
    let flags: String = [
        (row.is_stmt(), 's'),
        (row.basic_block(), 'b'),
        (row.end_sequence(), 'e'),
        (row.prologue_end(), 'p'),
        (row.epilogue_begin(), 'q'),
    ]
    .iter()
    .filter_map(|(holds, flag)| holds.then_some(*flag))
    .collect();
    let flags = if flags.is_empty() { "-" } else { &flags };
    let (address, op, file) = (row.address(), row.op_index(), row.file_index());
    let (isa, discriminator) = (row.isa(), row.discriminator());
    println!("{address:016x} {op} {file} {line} {column} {isa} {discriminator} {flags}");
}

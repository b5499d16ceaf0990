//! What crates/bench does with `read` and `write`, by gimli: `with_gimli read FILE TIMES [sequences]`, `with_gimli write SEQUENCES`.
use gimli::read::{ColumnType, DebugLine, EndianSlice, IncompleteLineProgram, LineRow};
use gimli::write::{self, Address, EndianVec, LineProgram, LineString};
use gimli::{DebugLineOffset, Encoding, Format, LineEncoding, LittleEndian};

type Slice<'a> = EndianSlice<'a, LittleEndian>;

/// A word in which each register of a row counts.
fn word_of(row: &LineRow) -> u64 {
    let flags = u64::from(row.is_stmt())
        | u64::from(row.basic_block()) << 1
        | u64::from(row.end_sequence()) << 2
        | u64::from(row.prologue_end()) << 3
        | u64::from(row.epilogue_begin()) << 4;
    let column = match row.column() {
        ColumnType::Column(column) => column.get(),
        ColumnType::LeftEdge => 0,
    };
    row.address()
        ^ row.line().map_or(0, |line| line.get()).rotate_left(20)
        ^ row.file_index().rotate_left(40)
        ^ column.rotate_left(50)
        ^ row.op_index().rotate_left(56)
        ^ row.isa().rotate_left(12)
        ^ row.discriminator().rotate_left(32)
        ^ flags.rotate_left(59)
}

fn add(sum: &mut (u64, u64), word: u64) {
    *sum = (sum.0 + 1, sum.1.rotate_left(1).wrapping_add(word));
}

fn read(program: IncompleteLineProgram<Slice>, is_cut: bool, sum: &mut (u64, u64)) {
    if is_cut {
        for sequence in program.sequences().unwrap().1 {
            add(sum, sequence.start ^ sequence.end.rotate_left(32));
        }
        return;
    }
    let mut rows = program.rows();
    while let Ok(Some((_, row))) = rows.next_row() {
        add(sum, word_of(row));
    }
}

/// One pass over all units of a section.
fn pass(section: &[u8], is_cut: bool) -> (u64, u64) {
    let lines = DebugLine::new(section, LittleEndian);
    let (mut offset, mut sum) = (0, (0, 0));
    while offset < section.len() {
        let program = lines.program(DebugLineOffset(offset), 8, None, None).unwrap();
        offset += 4 + program.header().unit_length();
        read(program, is_cut, &mut sum);
    }
    sum
}

/// A section with the unit of so many sequences of 1,000 rows.
fn section_of(sequences: u64) -> Vec<u8> {
    let encoding = Encoding { format: Format::Dwarf32, version: 4, address_size: 8 };
    let text = |text: &str| LineString::String(text.into());
    let mut program = LineProgram::new(encoding, LineEncoding::default(), text("d"), text("a.c"), None);
    let directory = program.default_directory();
    let file = program.add_file(text("a.c"), directory, None);
    let mut seed: u64 = 1;
    for i in 0..sequences {
        program.begin_sequence(Some(Address::Constant(i * 0x10000)));
        program.row().file = file;
        for _ in 0..1000 {
            seed = seed.wrapping_mul(6364136223846793005).wrapping_add(1442695040888963407);
            let row = program.row();
            row.address_offset += (seed >> 33) & 15;
            row.line = 1 + ((seed >> 40) & 63) + ((seed >> 50) & 7);
            if (seed >> 60) & 1 == 1 {
                row.column = (seed >> 56) & 15;
            }
            row.is_statement = (seed >> 62) & 1 == 1;
            program.generate_row();
        }
        let end = program.row().address_offset + 4;
        program.end_sequence(end);
    }
    let line_strings = write::LineStringTable::default().write(&mut write::DebugLineStr::from(EndianVec::new(LittleEndian)));
    let strings = write::StringTable::default().write(&mut write::DebugStr::from(EndianVec::new(LittleEndian)));
    let mut section = write::DebugLine::from(EndianVec::new(LittleEndian));
    program.write(&mut section, encoding, &line_strings.unwrap(), &strings.unwrap()).unwrap();
    section.0.into_vec()
}

fn main() {
    let words: Vec<String> = std::env::args().collect();
    if words[1] == "read" {
        let section = std::fs::read(&words[2]).unwrap();
        for _ in 0..words[3].parse().unwrap() {
            println!("{:?}", pass(&section, words.len() > 4));
        }
    } else {
        for _ in 0..7 {
            let section = section_of(words[2].parse().unwrap());
            let sum = section.iter().zip(0u64..).fold(0u64, |sum, (byte, i)| sum.wrapping_add(u64::from(*byte) ^ i));
            println!("{} {sum}", section.len());
        }
    }
}

//! The index and the rows of a program that the C compiler makes, against addr2line of binutils. Where a tool is missing the test
//! says so, and ends well.

use gimli_line_proved::{
    version, ColumnType, CompilationSections, Contents, DebugLink, Elf, Encoding, Error, LineRow, Index, Sections, Text,
};
use std::collections::BTreeSet;
use std::fs;
use std::path::{Path, PathBuf};
use std::process::Command;

/// A program of a version, and its sections.
struct Built {
    program: PathBuf,
    line: Vec<u8>,
    line_str: Vec<u8>,
    info: Vec<u8>,
    abbrev: Vec<u8>,
    str: Vec<u8>,
}

fn sources() -> PathBuf {
    Path::new(env!("CARGO_MANIFEST_DIR")).join("../../compare")
}

/// The bytes of a section; none where the program lacks it.
fn section(program: &Path, name: &str) -> Vec<u8> {
    let file = program.with_extension(name.trim_start_matches('.'));
    let _ = fs::remove_file(&file);
    let _ = Command::new("objcopy")
        .arg("--dump-section")
        .arg(format!("{name}={}", file.display()))
        .arg(program)
        .arg(program.with_extension("copy"))
        .output();
    fs::read(&file).unwrap_or_default()
}

/// A program of each version; none where a tool is missing.
fn built() -> Vec<Built> {
    let folder = PathBuf::from(env!("CARGO_TARGET_TMPDIR"));
    if ["cc", "objcopy", "addr2line"].iter().any(|tool| Command::new(tool).arg("--version").output().is_err()) {
        eprintln!("not tried: cc, objcopy or addr2line is missing");
        return Vec::new();
    }
    let mut all = Vec::new();
    for version in 2..=5 {
        let program = folder.join(format!("built_{}_{version}", std::thread::current().name().unwrap_or("t").replace("::", "_")));
        let status = Command::new("cc")
            .current_dir(sources())
            .args(["-g", &format!("-gdwarf-{version}"), "-O1", "sources/main.c", "sources/sums.c", "-o"])
            .arg(&program)
            .status()
            .expect("cc runs");
        assert!(status.success());
        let line = section(&program, ".debug_line");
        let line_str = section(&program, ".debug_line_str");
        let info = section(&program, ".debug_info");
        let abbrev = section(&program, ".debug_abbrev");
        let str = section(&program, ".debug_str");
        assert!(!line.is_empty() && !info.is_empty());
        all.push(Built { program, line, line_str, info, abbrev, str });
    }
    all
}

impl Built {
    fn sections(&self) -> Sections<'_> {
        Sections {
            debug_line: &self.line,
            debug_line_str: &self.line_str,
            debug_str: &self.str,
            big_endian: false,
            address_size: 8,
        }
    }

    fn compilations(&self) -> CompilationSections<'_> {
        CompilationSections {
            debug_info: &self.info,
            debug_abbrev: &self.abbrev,
            debug_line_str: &self.line_str,
            debug_str: &self.str,
            debug_str_offsets: &[],
            big_endian: false,
        }
    }

    /// What addr2line says of an address: a path and a line.
    fn addr2line(&self, address: u64) -> String {
        let output = Command::new("addr2line")
            .arg("-e")
            .arg(&self.program)
            .arg(format!("{address:x}"))
            .output()
            .expect("addr2line runs");
        let answer = String::from_utf8(output.stdout).expect("its answer is text");
        answer.split_whitespace().next().unwrap_or("").to_string()
    }

    /// The addresses of rows that end nothing.
    fn addresses(&self) -> BTreeSet<u64> {
        self.sections()
            .units()
            .flat_map(|unit| unit.expect("the unit is read").rows().copied().collect::<Vec<_>>())
            .filter(|row| !row.end_sequence())
            .map(|row| row.address())
            .collect()
    }
}

#[test]
fn places_are_those_of_addr2line() {
    for built in built() {
        let bytes = Index::write(&built.sections(), &built.compilations(), 0, &[]).expect("the index is made");
        let index = Index::open(&bytes).expect("it is an index");
        let addresses = built.addresses();
        assert!(addresses.len() > 4);
        for address in addresses {
            let place = index.find(address).expect("a row covers it");
            let path = String::from_utf8(place.path.expect("it has a path").to_vec()).expect("the path is text");
            assert_eq!(format!("{path}:{}", place.line), built.addr2line(address));
        }
    }
}

#[test]
fn paths_of_files_are_those_of_the_index() {
    for built in built() {
        let bytes = Index::write(&built.sections(), &built.compilations(), 0, &[]).expect("the index is made");
        let index = Index::open(&bytes).expect("it is an index");
        for unit in built.sections().units() {
            let unit = unit.expect("the unit is read");
            let comp_dir = built.compilations().comp_dir(unit.offset as u64).expect("there is memory");
            let comp_dir = comp_dir.expect("the unit has one");
            let rows: Vec<_> = unit.rows().collect();
            // Of several rows at one address the last one holds.
            for pair in rows.windows(2).filter(|pair| pair[0].address() < pair[1].address() && !pair[0].end_sequence()) {
                let row = pair[0];
                let path = built.sections().path(unit.offset, row.file_index(), &comp_dir).expect("the path is told");
                let place = index.find(row.address()).expect("a row covers it");
                assert_eq!((place.path, place.unit), (Ok(path.as_slice()), unit.offset as u64));
            }
        }
    }
}

#[test]
fn an_elf_file_has_the_index_of_its_sections() {
    for built in built() {
        let file = fs::read(&built.program).expect("it is there");
        let elf = Elf::open(&file).expect("it is an ELF file");
        assert_eq!((elf.address_size(), elf.is_big_endian()), (8, false));
        assert_eq!(elf.section(".debug_line"), Ok(Some(built.line.clone())));
        assert_eq!(elf.section(".no_such_section"), Ok(None));
        let id = elf.build_id().expect("it can be read").unwrap_or_default();
        let bytes = Index::write(&built.sections(), &built.compilations(), elf.lowest(), &id).expect("the index is made");
        assert_eq!(Index::write_elf(&elf), Ok(bytes));
    }
    assert_eq!(Elf::open(b"no ELF").map(|_| ()), Err(Error::NO_ELF));
}

#[test]
fn an_elf_file_has_the_link_that_objcopy_adds() {
    for built in built() {
        let file = fs::read(&built.program).expect("it is there");
        assert_eq!(Elf::open(&file).expect("it is an ELF file").debug_link(), Ok(None));
        // The CRC-32 of these nine bytes is the check value that each list of checksums has.
        let folder = built.program.parent().expect("it has a folder");
        let (other, linked) = (folder.join("nine.debug"), built.program.with_extension("linked"));
        fs::write(&other, "123456789").expect("it is written");
        let add = format!("--add-gnu-debuglink={}", other.display());
        let added = Command::new("objcopy").arg(add).args([&built.program, &linked]).status().expect("objcopy runs");
        assert!(added.success());
        let file = fs::read(&linked).expect("it is there");
        let found = Elf::open(&file).expect("it is an ELF file").debug_link();
        assert_eq!(found, Ok(Some(DebugLink { name: b"nine.debug".to_vec(), checksum: 0xcbf4_3926 })));
    }
}

#[test]
fn no_unit_has_another_line_program() {
    for built in built() {
        assert_eq!(built.compilations().comp_dir(u64::MAX), Ok(None));
    }
}

#[test]
fn a_unit_that_is_cut_has_no_directory() {
    for built in built() {
        let first = u32::from_le_bytes(built.info[..4].try_into().expect("it has four bytes"));
        let whole = built.compilations();
        assert!(whole.comp_dir(0).expect("there is memory").is_some());
        for length in 0..4 + first as usize {
            let debug_info = &built.info[..length];
            let cut = CompilationSections { debug_info, ..whole };
            assert_eq!(cut.comp_dir(0), Ok(None));
        }
    }
}

#[test]
fn many_addresses_are_found_as_one_is() {
    for built in built() {
        let bytes = Index::write(&built.sections(), &built.compilations(), 0, &[]).expect("the index is made");
        let index = Index::open(&bytes).expect("it is an index");
        let mut addresses: Vec<u64> = built.addresses().into_iter().flat_map(|address| [address, address + 1]).collect();
        addresses.extend([0, u64::MAX]);
        let each: Vec<_> = addresses.iter().map(|address| index.find(*address)).collect();
        assert!(each.iter().any(Option::is_some) && each.iter().any(Option::is_none));
        assert_eq!(index.find_all(&addresses), each);
    }
}

/// What linetool prints of a row.
fn printed(row: &LineRow) -> String {
    let flags: String = [
        (row.is_stmt(), 's'),
        (row.basic_block(), 'b'),
        (row.end_sequence(), 'e'),
        (row.prologue_end(), 'p'),
        (row.epilogue_begin(), 'q'),
    ]
    .iter()
    .filter(|(holds, _)| *holds)
    .map(|(_, letter)| *letter)
    .collect();
    let flags = if flags.is_empty() { "-" } else { &flags };
    let line = row.line().map_or(0, |line| line.get());
    let column = match row.column() {
        ColumnType::LeftEdge => 0,
        ColumnType::Column(column) => column.get(),
    };
    format!(
        "{:016x} {} {} {line} {column} {} {} {flags}",
        row.address(),
        row.op_index(),
        row.file_index(),
        row.isa(),
        row.discriminator(),
    )
}

#[test]
fn rows_are_those_of_linetool() {
    let linetool = sources().join("../crates/linetool/out/linetool");
    if !linetool.exists() {
        eprintln!("not tried: {} isn't built", linetool.display());
        return;
    }
    for built in built() {
        let section = built.program.with_extension("debug_line");
        for unit in built.sections().units() {
            let unit = unit.expect("the unit is read");
            let output = Command::new(&linetool)
                .arg("rows")
                .arg(&section)
                .args(["little", "8", &unit.offset.to_string()])
                .output()
                .expect("linetool runs");
            let expected = String::from_utf8(output.stdout).expect("its answer is text");
            let lines: Vec<String> = unit.rows().map(printed).collect();
            assert_eq!(lines, expected.lines().collect::<Vec<_>>());
        }
    }
}

/// A unit of version 2 with this program: minimum instruction length 1, line base 0, line range 1, opcode base 10, and no tables
/// (DWARF 2, section 6.2).
fn unit_of(program: &[u8]) -> Vec<u8> {
    let tables = [1, 1, 0, 1, 10, 0, 1, 1, 1, 1, 0, 0, 0, 1, 0, 0];
    let mut section = Vec::new();
    section.extend((2 + 4 + tables.len() as u32 + program.len() as u32).to_le_bytes());
    section.extend(2u16.to_le_bytes());
    section.extend((tables.len() as u32).to_le_bytes());
    section.extend(tables);
    section.extend(program);
    section
}

fn sections_of(section: &[u8]) -> Sections<'_> {
    Sections {
        debug_line: section,
        debug_line_str: &[],
        debug_str: &[],
        big_endian: false,
        address_size: 8,
    }
}

#[test]
fn fault_comes_after_the_rows_before_it() {
    // The address 0x10, a row, and half of an instruction.
    let section = unit_of(&[0, 9, 2, 0x10, 0, 0, 0, 0, 0, 0, 0, 1, 2]);
    let unit = sections_of(&section).units().next().expect("there is a unit").expect("the unit is read");
    assert_eq!(unit.rows().map(|row| row.address()).collect::<Vec<_>>(), [0x10]);
    assert_eq!(unit.fault, Some(Error::UNEXPECTED_EOF));
    assert_eq!((unit.next, sections_of(&section).units().count()), (section.len(), 1));
}

#[test]
fn file_that_a_program_defines_has_a_path() {
    // The file d.c of directory 0; the address 0x10, a row of file 1; four bytes on, the end.
    let section = unit_of(&[
        0, 8, 3, b'd', b'.', b'c', 0, 0, 0, 0, 0, 9, 2, 0x10, 0, 0, 0, 0, 0, 0, 0, 1, 2, 4, 0, 1, 1,
    ]);
    let sections = sections_of(&section);
    assert_eq!(sections.path(0, 1, b"/comp"), Ok(b"/comp/d.c".to_vec()));
    assert_eq!(sections.path(0, 1, b""), Ok(b"d.c".to_vec()));
    assert_eq!(sections.path(0, 2, b"/comp"), Err(Error::NO_SUCH_FILE));
    assert_eq!(sections.path(1, 1, b"/comp").map_err(Error::number), Err(1));
}

#[test]
fn units_have_the_files_that_they_say() {
    for built in built() {
        let sections = built.sections();
        for unit in sections.units() {
            let unit = unit.expect("the unit is read");
            let first = u64::from(unit.version <= 4);
            assert!(sections.file(unit.offset, first + unit.files - 1).is_ok());
            assert!(sections.directory(unit.offset, first + unit.directories - 1).is_ok());
            assert_eq!(sections.file(unit.offset, first + unit.files), Err(Error::NO_SUCH_FILE));
            assert_eq!(sections.directory(unit.offset, first + unit.directories), Err(Error::NO_SUCH_DIRECTORY));
        }
    }
}

#[test]
fn a_refused_unit_has_a_next_one() {
    // Eight bytes of version 9, and a unit of no instructions; then three bytes of a length.
    let mut section = vec![4, 0, 0, 0, 9, 0, 0, 0];
    section.extend(unit_of(&[]));
    section.extend([1, 2, 3]);
    let units: Vec<_> = sections_of(&section).units().map(|unit| unit.map(|unit| unit.offset)).collect();
    assert_eq!(units, [Err(Error::UNKNOWN_VERSION), Ok(8), Err(Error::UNEXPECTED_EOF)]);
}

#[test]
fn addresses_of_a_line_have_that_line() {
    for built in built() {
        let bytes = Index::write(&built.sections(), &built.compilations(), 0, &[]).expect("the index is made");
        let index = Index::open(&bytes).expect("it is an index");
        for address in built.addresses() {
            let place = index.find(address).expect("a row covers it");
            let path = place.path.expect("it has a path");
            if let Some(found) = index.addresses_of(path, u64::from(place.line)) {
                assert!(found.line >= u64::from(place.line));
                assert!(found.addresses.iter().all(|at| built.addresses().contains(at)));
                let name = path.rsplit(|byte| *byte == b'/').next().expect("there is a last component");
                assert_eq!(index.addresses_of(name, u64::from(place.line)), Some(found.clone()));
                assert_eq!(index.addresses_of(&[b"./x/../", name].concat(), u64::from(place.line)), Some(found));
                assert_eq!(index.addresses_of(&[b"x/", name].concat(), u64::from(place.line)), None);
            }
            assert_eq!(index.addresses_of(path, u64::MAX), None);
        }
        assert_eq!(index.addresses_of(b"no such file", 1), None);
    }
}

#[test]
fn what_is_bad_is_refused() {
    let sections = Sections {
        debug_line: &[1, 2, 3],
        debug_line_str: &[],
        debug_str: &[],
        big_endian: false,
        address_size: 8,
    };
    assert_eq!(sections.path(0, 0, &[]).map_err(Error::number), Err(1));
    let size = Sections { address_size: 3, ..sections };
    assert_eq!(size.path(0, 0, &[]).map_err(Error::number), Err(6));
    assert_eq!(sections.units().next().expect("bytes are left").map(|_| ()).map_err(Error::number), Err(1));
    assert_eq!(version(), 100);
}

#[test]
fn files_and_directories_are_told() {
    // The file d.c of directory 0, which the program defines.
    let section = unit_of(&[
        0, 8, 3, b'd', b'.', b'c', 0, 0, 0, 0, 0, 9, 2, 0x10, 0, 0, 0, 0, 0, 0, 0, 1, 2, 4, 0, 1, 1,
    ]);
    let sections = sections_of(&section);
    let file = sections.file(0, 1).expect("there is such a file");
    assert_eq!((file.path, file.directory, file.directory_number), (Some(Text::Here(b"d.c".to_vec())), None, 0));
    assert_eq!((file.timestamp, file.size, file.md5), (Some(0), Some(0), None));
    assert_eq!(sections.file(0, 2).map(|_| ()), Err(Error::NO_SUCH_FILE));
    assert_eq!(sections.file(1, 1).map(|_| ()).map_err(Error::number), Err(1));
    assert_eq!(sections.directory(0, 0), Err(Error::NO_SUCH_DIRECTORY));
}

#[test]
fn what_is_written_is_read() {
    for version in 2..=5 {
        let mut contents = Contents::new(Encoding::new(version));
        let first = u64::from(version <= 4);
        contents.directory(b"/source");
        contents.file(b"main.c", first);
        let rows: Vec<LineRow> = (0..200)
            .map(|i| LineRow::at(0x1000 + i * 3).with_file(first).with_line(1 + i % 50).with_column(i % 7).with_statement())
            .collect();
        rows.iter().for_each(|row| contents.row(*row));
        contents.row(LineRow::at(0x2000).with_end());
        let unit = contents.write().expect("it can be written");
        let read = sections_of(&unit).units().next().expect("there is a unit").expect("it is read");
        assert_eq!((read.version, read.next, read.fault), (u32::from(version), unit.len(), None));
        let again: Vec<LineRow> = read.rows().copied().collect();
        assert_eq!(again[..200], rows);
        assert_eq!(sections_of(&unit).path(0, first, &[]), Ok(b"/source/main.c".to_vec()));
        contents.row(LineRow::at(0).with_file(9));
        assert_eq!(contents.write().map_err(Error::from), Err(Error::NO_SUCH_FILE));
    }
    assert_eq!(Contents::new(Encoding::new(6)).write().map_err(Error::from), Err(Error::UNKNOWN_VERSION));
}

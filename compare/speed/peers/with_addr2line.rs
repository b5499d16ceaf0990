//! By the crate addr2line: what ask.h says, of an ELF file whose sections aren't compressed.
use addr2line::gimli::{Dwarf, EndianSlice, LittleEndian, SectionId};
use addr2line::object::{File, Object, ObjectSection};
use addr2line::Context;

fn main() {
    let words: Vec<String> = std::env::args().collect();
    let bytes = std::fs::read(&words[1]).unwrap();
    let count: u64 = words[2].parse().unwrap();
    let lowest = u64::from_str_radix(&words[3], 16).unwrap();
    let highest = u64::from_str_radix(&words[4], 16).unwrap();
    let file = File::parse(&*bytes).unwrap();
    let section = |id: SectionId| {
        let section = file.section_by_name(id.name());
        let bytes = section.map_or(&[][..], |section| section.data().unwrap());
        Ok::<_, addr2line::gimli::Error>(EndianSlice::new(bytes, LittleEndian))
    };
    let context = Context::from_dwarf(Dwarf::load(section).unwrap()).unwrap();
    let (mut seed, mut found, mut lines, mut paths) = (1u64, 0u64, 0u64, 0u64);
    for _ in 0..count {
        seed = seed
            .wrapping_mul(6364136223846793005)
            .wrapping_add(1442695040888963407);
        let address = lowest + (seed >> 20) % (highest - lowest);
        if let Some(place) = context.find_location(address).unwrap() {
            found += 1;
            lines += u64::from(place.line.unwrap_or(0));
            paths += place.file.map_or(0, |path| path.len() as u64);
        }
    }
    println!("{found} {lines} {paths}");
}

//! Prints the path, line and column of addresses of an ELF file.
//!
//!   cargo run --example where_is PROGRAM ADDRESS..

use gimli_line_proved::{Elf, Index};
use std::error::Error;
use std::{env, fs};

fn main() -> Result<(), Box<dyn Error>> {
    let arguments: Vec<String> = env::args().skip(1).collect();
    let [program, addresses @ ..] = arguments.as_slice() else {
        return Err("usage: where_is PROGRAM ADDRESS..".into());
    };
    let file = fs::read(program)?;
    let bytes = Index::write_elf(&Elf::open(&file)?)?;
    let index = Index::open(&bytes)?;
    for address in addresses {
        match index.find(u64::from_str_radix(address, 16)?) {
            Some(place) => {
                let path = String::from_utf8_lossy(place.path.unwrap_or(b"??"));
                println!("{path}:{}:{}", place.line, place.column);
            }
            None => println!("none"),
        }
    }
    Ok(())
}

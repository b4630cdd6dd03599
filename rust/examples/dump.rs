//! Every field of every record of a type or id stream, as `{:?}` has it; the elements of lists stand with them.
//!
//!     cargo run --example dump -- ../samples/rich-x64.tpi
//!     cargo run --example dump -- --ids ../samples/rich-x64.ipi
use pdb_types::{IdInformation, TypeInformation};
use std::io::{self, BufWriter, Write};

fn main() -> Result<(), Box<dyn std::error::Error>> {
    let mut words: Vec<String> = std::env::args().skip(1).collect();
    let ids = words.first().is_some_and(|word| word == "--ids");
    if ids {
        words.remove(0);
    }
    let bytes = std::fs::read(words.first().ok_or("usage: dump [--ids] STREAM")?)?;
    let mut out = BufWriter::new(io::stdout().lock());
    if ids {
        for item in IdInformation::parse(&bytes)? {
            let item = item?;
            match item.parse() {
                Ok(data) => writeln!(out, "{} {data:?}", item.index())?,
                Err(e) => writeln!(out, "{} {} {e}", item.index(), item.leaf()?)?,
            }
        }
    } else {
        for item in TypeInformation::parse(&bytes)? {
            let item = item?;
            match item.parse() {
                Ok(data) => writeln!(out, "{} {data:?}", item.index())?,
                Err(e) => writeln!(out, "{} {} {e}", item.index(), item.leaf()?)?,
            }
        }
    }
    out.flush()?;
    Ok(())
}

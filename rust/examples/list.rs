//! A line for each record of a type stream: its index, its leaf, its length, and its declaration or its name.
//!
//!     cargo run --example list -- ../samples/rich-x64.tpi
use pdb_types::Types;
use std::io::{self, BufWriter, Write};

fn main() -> Result<(), Box<dyn std::error::Error>> {
    let path = std::env::args().nth(1).ok_or("usage: list STREAM")?;
    let bytes = std::fs::read(path)?;
    let types = Types::parse(&bytes)?;
    let mut out = BufWriter::new(io::stdout().lock());
    for item in &types {
        let item = item?;
        let leaf = item.leaf()?.to_string();
        match types.declare(item.index()) {
            Ok(text) => writeln!(out, "{} {leaf:14} {:5} {text}", item.index(), item.len())?,
            // lists, methods and the like have no declaration
            Err(_) => writeln!(out, "{} {leaf:14} {:5}", item.index(), item.len())?,
        }
    }
    out.flush()?;
    Ok(())
}

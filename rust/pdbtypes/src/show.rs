//! `show`: records by their indices, as `dump` prints them.
use crate::args::Call;
use crate::dump::Dump;
use crate::fail::Failure;
use crate::input::Input;
use crate::output::{self, shown};
use pdb_types::TypeIndex;
use std::io::Write;

pub fn run(call: &Call) -> Result<(), Failure> {
    let named = call.indices_from(1)?;
    let input = Input::stream_of(call)?;
    let dump = Dump::of(&input)?;
    let mut out = output::standard()?;
    let mut wrong = Vec::new();
    for index in named.into_iter().map(TypeIndex) {
        match dump.types.get(index) {
            Ok(item) if item.place().is_some() => dump.put_text(&mut out, &item)?,
            // below the stream's lowest index there is no record: a primitive type has a declaration alone
            Ok(_) => match dump.types.declare_bytes(index) {
                Ok(text) => writeln!(out, "{} primitive type: {}", index.0, shown(&text))?,
                Err(e) => wrong.push(format!("{}: {}: {e}", input.name, index.0)),
            },
            Err(e) => wrong.push(format!("{}: {e}", input.name)),
        }
    }
    out.flush()?;
    Failure::of_lines(wrong)
}

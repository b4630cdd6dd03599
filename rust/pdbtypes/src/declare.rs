//! `declare`: types as C declarations, a line for each.
use crate::args::Call;
use crate::fail::Failure;
use crate::input::Input;
use crate::output::{self, shown};
use crate::progress::Progress;
use pdb_types::TypeIndex;
use std::io::Write;

pub fn run(call: &Call) -> Result<(), Failure> {
    let named = call.indices_from(1)?;
    let input = Input::stream_of(call)?;
    let types = input.types()?;
    let mut out = output::standard()?;
    if named.is_empty() {
        // what has no declaration says so in its place: argument lists, field lists and others have none
        let progress = Progress::of("declaring", types.len() as u64);
        for item in types.iter().map_while(Result::ok) {
            let index = item.index();
            match types.declare_bytes(index) {
                Ok(text) => writeln!(out, "{} {}", index.0, shown(&text))?,
                Err(e) => writeln!(out, "{} {e}", index.0)?,
            }
            progress.step();
        }
        out.flush()?;
        return input.refused(types.end().map_or(Ok(()), Err));
    }
    let mut wrong = Vec::new();
    for index in named {
        match types.declare_bytes(TypeIndex(index)) {
            Ok(text) => writeln!(out, "{index} {}", shown(&text))?,
            Err(e) => wrong.push(format!("{}: {index}: {e}", input.name)),
        }
    }
    out.flush()?;
    Failure::of_lines(wrong)
}

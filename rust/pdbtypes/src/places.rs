//! `keep` and `lookup`: the places of a stream in a file, and records found by it.
use crate::args::Call;
use crate::fail::Failure;
use crate::input::{self, Input};
use crate::list::put_line;
use crate::memory;
use crate::output;
use crate::progress::Progress;
use pdb_types::{Error, TypeIndex, TypeInformation};
use std::io::Write;

pub fn keep(call: &Call) -> Result<(), Failure> {
    let input = Input::stream_of(call)?;
    let information: TypeInformation<'_> = input.refused(TypeInformation::parse(&input.bytes))?;
    let progress = Progress::of("indexing", information.len() as u64);
    let kept = information.finder_by(call.shift.unwrap_or(3)).and_then(|mut finder| {
        finder.index()?;
        finder.save()
    });
    let file = input.refused(kept)?;
    drop(progress);
    output::write_bytes(call.out.as_deref(), &file)
}

pub fn lookup(call: &Call) -> Result<(), Failure> {
    let named = call.indices_from(2)?;
    let input = Input::stream_of(call)?;
    // call.words has three words at least
    let places = call.words.get(1).map(|word| word.as_os_str()).unwrap_or_default();
    let file = input::bytes(places, Error::FileWrong)?;
    let information: TypeInformation<'_> = input.refused(TypeInformation::parse(&input.bytes))?;
    let loaded = information.load(&file).and_then(|finder| memory::left(memory::RECORD).map(|()| finder));
    let finder = loaded.map_err(|e| Failure::of(&input::name(places), e))?;
    let mut out = output::standard()?;
    let mut wrong = Vec::new();
    for index in named {
        match finder.find(TypeIndex(index)) {
            Ok(item) => put_line(&mut out, &item)?,
            Err(e) => wrong.push(format!("{}: {e}", input.name)),
        }
    }
    out.flush()?;
    Failure::of_lines(wrong)
}

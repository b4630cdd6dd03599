//! `sections`: the records of an object file's section, and the type stream that is made of it.
use crate::args::Call;
use crate::fail::Failure;
use crate::input::{self, Input, Kind};
use crate::{list, output};
use pdb_types::{Error, Section};

pub fn run(call: &Call) -> Result<(), Failure> {
    if call.out.is_some() && !call.stream {
        return Err(Failure::Usage("-o is for --stream, which writes a type stream".to_string()));
    }
    let bytes = input::bytes(call.file(), Error::TooLong)?;
    if input::kind(&bytes) == Kind::Database {
        let why = "a whole program database, which has no section .debug$T";
        return Err(Failure::File(input::name(call.file()), why.to_string()));
    }
    let mut input = Input::told(call.file(), bytes, false)?;
    // whatever it is: what does not start with 4 is refused as no section
    input.kind = Kind::Section;
    if !call.stream {
        return list::put_input(&input, call.json);
    }
    let stream = input.refused(Section::parse(&input.bytes).and_then(|section| section.to_stream()))?;
    output::write_bytes(call.out.as_deref(), &stream)
}

//! `pdbtypes`: type and id streams of program databases at the command line. All reading and writing of records is the library's, whose code is proved;
//! what stands here opens files, asks it, and prints.
#![forbid(unsafe_code)]

mod args;
mod compose;
mod declare;
mod decompose;
mod dump;
mod extract;
mod fail;
mod fields;
mod help;
mod input;
mod json;
mod list;
mod memory;
mod outline;
mod output;
mod places;
mod progress;
mod resolve;
mod section;
mod show;
mod whole;
mod words;

use args::Asked;
use fail::Failure;
use std::io::Write;
use std::process::ExitCode;

fn run() -> Result<(), Failure> {
    match args::parse(std::env::args_os().skip(1))? {
        Asked::Text(text) => {
            let mut out = output::standard()?;
            out.write_all(text.as_bytes())?;
            Ok(out.flush()?)
        }
        Asked::Call(command, call) => (command.run)(&call),
    }
}

fn main() -> ExitCode {
    match run() {
        Ok(()) => ExitCode::SUCCESS,
        Err(failure) => {
            failure.say();
            ExitCode::from(failure.status())
        }
    }
}

//! Why the program ends without having done what was asked, and the status that says so.
use crate::output::shown;
use pdb_types::Error;
use std::io::{self, Write};

/// Why a command is not done.
#[derive(Debug)]
pub enum Failure {
    /// It was called wrong: status 2.
    Usage(String),
    /// A file cannot be read or written, or what would take a stream out of it is not there or fails: status 2.
    File(String, String),
    /// There is no memory for what a file needs: status 2.
    Memory(String),
    /// The library refuses a file: status 1.
    Refused(String, Error),
    /// There is an answer, and it is no: status 1. It stands on standard output, on standard error by now, or here, a line for each thing that is wrong.
    No(Vec<String>),
    /// Nobody reads standard output any longer. That is no failure: status 0, and no word.
    Pipe,
}

impl Failure {
    /// Done where no line says what is wrong.
    pub fn of_lines(wrong: Vec<String>) -> Result<(), Failure> {
        if wrong.is_empty() {
            return Ok(());
        }
        Err(Failure::No(wrong))
    }

    /// What the library says of a file. 19, a buffer without room, is the memory: what this program lends is as long as it must be.
    pub fn of(file: &str, e: Error) -> Failure {
        match e {
            Error::NoRoom => Failure::Memory(file.to_string()),
            e => Failure::Refused(file.to_string(), e),
        }
    }

    /// The status that the program ends with.
    pub fn status(&self) -> u8 {
        match self {
            Failure::Usage(_) | Failure::File(..) | Failure::Memory(_) => 2,
            Failure::Refused(..) | Failure::No(_) => 1,
            Failure::Pipe => 0,
        }
    }

    /// Says on standard error what is wrong.
    pub fn say(&self) {
        match self {
            Failure::Usage(line) => say(line),
            Failure::File(file, why) => say(&format!("{file}: {why}")),
            Failure::Memory(file) => say(&format!("{file}: out of memory")),
            Failure::Refused(file, e) => say(&format!("{file}: {e}")),
            Failure::No(lines) => lines.iter().for_each(|line| say(line)),
            Failure::Pipe => {}
        }
    }
}

/// Says a line on standard error; it stays one, whatever a file's name has in it. Where standard error is closed there is nobody to tell.
pub fn say(line: &str) {
    let line = format!("pdbtypes: {}\n", shown(line.as_bytes()));
    let _ = io::stderr().write_all(line.as_bytes());
}

/// What an error of the system says, without its number.
pub fn reason(e: &io::Error) -> String {
    let text = e.to_string();
    match text.split_once(" (os error") {
        Some((words, _)) => words.to_string(),
        None => text,
    }
}

/// An error that comes up without a file's name is one of standard output: all others are given their names where they arise.
impl From<io::Error> for Failure {
    fn from(e: io::Error) -> Failure {
        match e.kind() {
            io::ErrorKind::BrokenPipe => Failure::Pipe,
            _ => Failure::File("standard output".to_string(), format!("cannot be written: {}", reason(&e))),
        }
    }
}

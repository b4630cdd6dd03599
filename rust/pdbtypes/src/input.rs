//! Files: read whole, and told apart by what they hold.
use crate::args::Call;
use crate::extract;
use crate::fail::{reason, Failure};
use crate::memory;
use pdb_types::{Error, Item, ItemInformation, Leaf, Section, TypeIndex, Types};
use std::ffi::OsStr;
use std::fs::File;
use std::io::{self, IsTerminal, Read, Seek};
use std::os::fd::AsFd;

/// What a file holds.
#[derive(Debug, Clone, Copy, PartialEq, Eq)]
pub enum Kind {
    /// A type or id stream; what is nothing else counts as one, and is refused as such.
    Stream,
    /// A section `.debug$T` of an object file.
    Section,
    /// The places of a stream.
    Places,
    /// A whole program database.
    Database,
    /// An object file.
    Object,
    /// A library of object files.
    Library,
    /// A program or a DLL.
    Program,
}

/// How a program database begins.
const DATABASE: &[u8] = b"Microsoft C/C++ MSF";
/// The machines whose object files are known: x86-64, x86 and Arm64.
const MACHINES: [u16; 3] = [0x8664, 0x014c, 0xaa64];
/// No stream, section or places file has more bytes.
const LONGEST: u64 = u32::MAX as u64 - 1;

fn number(bytes: &[u8], at: usize) -> Option<u32> {
    let four = bytes.get(at..at.checked_add(4)?)?;
    Some(u32::from_le_bytes([four[0], four[1], four[2], four[3]]))
}

/// Whether the bytes end as a places file does: its own length, and its letters.
fn ends_as_places(bytes: &[u8]) -> bool {
    let letters = bytes.ends_with(b"PTIX") || bytes.ends_with(b"PTIY");
    letters && bytes.len() >= 8 && number(bytes, bytes.len() - 8) == u32::try_from(bytes.len()).ok()
}

/// What the bytes of a file are.
pub fn kind(bytes: &[u8]) -> Kind {
    if bytes.starts_with(DATABASE) {
        return Kind::Database;
    }
    if ends_as_places(bytes) {
        return Kind::Places;
    }
    match bytes {
        [4, 0, 0, 0, ..] => Kind::Section,
        // an object file of more sections than its first form counts
        [0, 0, 0xff, 0xff, ..] => Kind::Object,
        [b'M', b'Z', ..] => Kind::Program,
        _ if bytes.starts_with(b"!<arch>\n") => Kind::Library,
        [low, high, ..] if MACHINES.contains(&u16::from_le_bytes([*low, *high])) => Kind::Object,
        _ => Kind::Stream,
    }
}

/// A file's name, as it is said.
pub fn name(word: &OsStr) -> String {
    match word.to_str() {
        Some("-") => "standard input".to_string(),
        _ => word.to_string_lossy().into_owned(),
    }
}

/// Whether a file, and nothing that can be read but once, begins as a program database does. It may be large, and only the tool needs to read it.
fn is_database_file(word: &OsStr) -> bool {
    let begins = || -> io::Result<bool> {
        let mut file = std::fs::File::open(word)?;
        let mut first = [0; DATABASE.len()];
        Ok(file.read_exact(&mut first).is_ok() && first == DATABASE)
    };
    // a fifo is not opened: that would take its writer's bytes
    word != "-" && std::fs::metadata(word).is_ok_and(|about| about.is_file()) && begins().unwrap_or(false)
}

/// What is said of a file that the system does not give.
fn cannot(word: &OsStr) -> impl Fn(io::Error) -> Failure + '_ {
    |e| Failure::File(name(word), format!("cannot be read: {}", reason(&e)))
}

/// A file, or standard input for `-`: as a file of its own, since std's would be empty where it cannot be read at all.
fn opened(word: &OsStr) -> Result<File, Failure> {
    if word != "-" {
        return File::open(word).map_err(cannot(word));
    }
    if io::stdin().is_terminal() {
        return Err(Failure::Usage("no file; give one, or pipe it in".to_string()));
    }
    let input = io::stdin().as_fd().try_clone_to_owned();
    Ok(File::from(input.map_err(cannot(word))?))
}

/// The bytes of a file of any length.
pub fn text(word: &OsStr) -> Result<Vec<u8>, Failure> {
    let mut bytes = Vec::new();
    opened(word)?.read_to_end(&mut bytes).map_err(cannot(word))?;
    Ok(bytes)
}

/// The bytes of a file that is to be a stream, a section or a places file, and by what a longer one than any of these is refused. Of that one no more is read
/// than tells what it is; a pipe, which does not say how long it is, is read up to there.
pub fn bytes(word: &OsStr, too_long: Error) -> Result<Vec<u8>, Failure> {
    let (mut file, mut bytes) = (opened(word)?, Vec::new());
    let read = |file: &mut File, most: u64, bytes: &mut Vec<u8>| file.take(most).read_to_end(bytes).map_err(cannot(word));
    // 0 of a pipe, and of what is made while it is read
    let whole = file.metadata().map_or(0, |about| about.len());
    let length = whole.saturating_sub(file.stream_position().unwrap_or(0));
    if length <= LONGEST {
        bytes.try_reserve_exact(length as usize).map_err(|e| cannot(word)(e.into()))?;
        read(&mut file, LONGEST + 1, &mut bytes)?;
    } else {
        read(&mut file, 64, &mut bytes)?;
    }
    if length.max(bytes.len() as u64) <= LONGEST {
        return Ok(bytes);
    }
    match kind(&bytes) {
        // a database is longer than its streams
        Kind::Database => read(&mut file, u64::MAX, &mut bytes).map(|_| bytes),
        // which is all that is said of it
        Kind::Library | Kind::Program => Ok(bytes),
        _ => Err(Failure::Refused(name(word), too_long)),
    }
}

/// A stream or a section: what every command but `lookup` and `compose` starts from.
pub struct Input {
    /// The file's name, as it is said.
    pub name: String,
    pub bytes: Vec<u8>,
    pub kind: Kind,
    /// Whether it is an id stream, whose type indices are those of another stream.
    pub ids: bool,
}

impl Input {
    /// The first file of a call.
    pub fn of(call: &Call) -> Result<Input, Failure> {
        Input::open(call.file(), call.ids)
    }

    /// A file. A stream is taken out of a database, and a section out of an object file, by the tools that do so.
    pub fn open(word: &OsStr, ids: bool) -> Result<Input, Failure> {
        if is_database_file(word) {
            let bytes = extract::stream(word, None, ids)?;
            let (name, kind, ids) = (name(word), Kind::Stream, ids || is_ids(&bytes));
            return Input { name, bytes, kind, ids }.with_room();
        }
        Input::told(word, bytes(word, Error::TooLong)?, ids)
    }

    /// The same of bytes that were read.
    pub fn told(word: &OsStr, mut bytes: Vec<u8>, ids: bool) -> Result<Input, Failure> {
        let (name, mut kind) = (name(word), kind(&bytes));
        match kind {
            Kind::Database => bytes = extract::stream(word, Some(&bytes), ids)?,
            Kind::Object => bytes = extract::section(word, Some(&bytes))?,
            Kind::Stream | Kind::Section => {}
            Kind::Places => {
                let why = "a places file, which goes with its stream: pdbtypes lookup STREAM PLACES INDEX";
                return Err(Failure::File(name, why.to_string()));
            }
            Kind::Library => {
                let why = format!("a library of object files; get them out by: ar x {}", extract::quoted(word));
                return Err(Failure::File(name, why));
            }
            Kind::Program => {
                let why = "a program or a DLL, whose types are in its program database, a file that ends in .pdb";
                return Err(Failure::File(name, why.to_string()));
            }
        }
        kind = match kind {
            Kind::Object => Kind::Section,
            Kind::Database => Kind::Stream,
            kind => kind,
        };
        let ids = kind == Kind::Stream && (ids || is_ids(&bytes));
        Input { name, bytes, kind, ids }.with_room()
    }

    /// The same, if there is memory left for a record of it.
    fn with_room(self) -> Result<Input, Failure> {
        self.refused(memory::left(memory::RECORD))?;
        Ok(self)
    }

    /// The same as a stream: a section is made into one, whose header counts its records.
    pub fn into_stream(mut self) -> Result<Input, Failure> {
        if self.kind == Kind::Section {
            self.bytes = self.refused(Section::parse(&self.bytes).and_then(|section| section.to_stream()))?;
        }
        self.with_room()
    }

    /// The first file of a call as a stream.
    pub fn stream_of(call: &Call) -> Result<Input, Failure> {
        Input::of(call)?.into_stream()
    }

    /// The types of a stream, all of which are found by their index, if there is memory left for a record of it.
    pub fn types(&self) -> Result<Types<'_>, Failure> {
        let types = self.refused(Types::parse(&self.bytes))?;
        self.refused(memory::left(memory::RECORD))?;
        Ok(types)
    }

    /// An answer of the library, or its refusal with the file's name.
    pub fn refused<T>(&self, answer: pdb_types::Result<T>) -> Result<T, Failure> {
        answer.map_err(|e| Failure::of(&self.name, e))
    }
}

/// Whether a leaf is one of ids.
pub fn is_id_leaf(leaf: u16) -> bool {
    (0x1601..=0x1607).contains(&leaf) && Leaf(leaf).name().is_some()
}

/// Whether a stream has ids alone.
fn is_ids(stream: &[u8]) -> bool {
    let Ok(information) = ItemInformation::<TypeIndex>::parse(stream) else {
        return false;
    };
    let is_id = |item: &Item<'_, TypeIndex>| item.raw_kind().is_ok_and(is_id_leaf);
    let mut items = information.iter().map_while(Result::ok).peekable();
    items.peek().is_some() && items.all(|item| is_id(&item))
}

#[cfg(test)]
mod tests {
    use super::*;

    #[test]
    fn kinds() {
        let sample = |name: &str| std::fs::read(format!("../../samples/{name}")).expect(name);
        assert_eq!(kind(&sample("rich-x64.tpi")), Kind::Stream);
        assert_eq!(kind(&sample("rich-x64.debugT")), Kind::Section);
        assert_eq!(kind(b"Microsoft C/C++ MSF 7.00\r\n"), Kind::Database);
        assert_eq!(kind(b"\x64\x86\x08\0"), Kind::Object);
        assert_eq!(kind(b"\0\0\xff\xff\x02\0"), Kind::Object);
        assert_eq!(kind(b"!<arch>\n"), Kind::Library);
        assert_eq!(kind(b"MZ\x90\0"), Kind::Program);
        assert_eq!(kind(b""), Kind::Stream);
        assert_eq!(kind(b"PTIX"), Kind::Stream);
        assert_eq!(kind(b"\0\0\0\0\x0c\0\0\0PTIX"), Kind::Places);
        assert!(is_ids(&sample("rich-x64.ipi")) && is_ids(&sample("hand.ipi")));
        assert!(!is_ids(&sample("rich-x64.tpi")) && !is_ids(b""));
    }
}

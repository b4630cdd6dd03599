//! Streams out of program databases, and sections out of object files, by the tools that do so where they are installed.
use crate::fail::{reason, Failure};
use crate::input;
use std::ffi::{OsStr, OsString};
use std::io;
use std::path::{Path, PathBuf};
use std::process::{Command, Stdio};

/// A folder of its own for what the tools write, which goes with it.
struct Scratch(PathBuf);

impl Scratch {
    fn new() -> io::Result<Scratch> {
        for n in 0.. {
            let path = std::env::temp_dir().join(format!("pdbtypes-{}-{n}", std::process::id()));
            match std::fs::create_dir(&path) {
                Err(e) if e.kind() == io::ErrorKind::AlreadyExists && n < 1000 => continue,
                made => return made.map(|()| Scratch(path)),
            }
        }
        Err(io::ErrorKind::AlreadyExists.into())
    }
}

impl Drop for Scratch {
    fn drop(&mut self) {
        let _ = std::fs::remove_dir_all(&self.0);
    }
}

/// What came of the tools.
enum Ran {
    Taken(Vec<u8>),
    /// The first of them that is there, and what it said.
    Failed(String, Vec<u8>),
    Missing,
}

/// Runs the tools that are there, one after the other, until one has written a file. One may know a kind of file that another does not.
fn first_of(tools: &[String], words: &[OsString], wanted: &Path) -> io::Result<Ran> {
    let mut ran = Ran::Missing;
    for tool in tools {
        let output = match Command::new(tool).args(words).stdin(Stdio::null()).output() {
            Err(e) if e.kind() == io::ErrorKind::NotFound => continue,
            output => output?,
        };
        if output.status.success() && wanted.exists() {
            return std::fs::read(wanted).map(Ran::Taken);
        }
        if let Ran::Missing = ran {
            ran = Ran::Failed(tool.clone(), output.stderr);
        }
    }
    Ok(ran)
}

/// An option and a path behind it in one word, as both tools want them.
fn joined(option: &str, path: &Path) -> OsString {
    let mut word = OsString::from(option);
    word.push(path);
    word
}

/// What one of the tools takes out of a file, or why not. The bytes are those of what is no file that the tool could read itself, such as a pipe. The words are
/// made from the file to read and the one to write.
fn taken(word: &OsStr, bytes: Option<&[u8]>, tools: &[String], words: impl Fn(&Path, &Path) -> Vec<OsString>, missing: String) -> Result<Vec<u8>, Failure> {
    let name = input::name(word);
    let cannot = |e: io::Error| Failure::File(name.clone(), format!("cannot be taken out: {}", reason(&e)));
    let scratch = Scratch::new().map_err(cannot)?;
    let (mut given, wanted) = (scratch.0.join("given"), scratch.0.join("wanted"));
    match bytes {
        Some(bytes) => std::fs::write(&given, bytes).map_err(cannot)?,
        // a name that starts as an option does is no option behind a folder's
        None => given = Path::new(".").join(word),
    }
    match first_of(tools, &words(&given, &wanted), &wanted).map_err(cannot)? {
        Ran::Taken(bytes) => Ok(bytes),
        Ran::Missing => Err(Failure::File(name, missing)),
        Ran::Failed(tool, said) => {
            let first = said.split(|c| *c == b'\n').next().unwrap_or_default();
            let line = match String::from_utf8_lossy(first).trim_end() {
                "" => "it gave no reason".to_string(),
                line => line.replace(&*given.to_string_lossy(), &name),
            };
            Err(Failure::File(name, format!("{tool} takes nothing out of it: {line}")))
        }
    }
}

/// A name for a shell's command line.
pub fn quoted(word: &OsStr) -> String {
    let name = if word == "-" { "FILE".into() } else { word.to_string_lossy() };
    let plain = |c: char| c.is_ascii_alphanumeric() || "/._-+,:@%=".contains(c);
    if !name.is_empty() && name.chars().all(plain) {
        return name.into_owned();
    }
    format!("'{}'", name.replace('\'', "'\\''"))
}

/// The names of a tool of LLVM, as Debian has them.
fn versions(tool: &str) -> Vec<String> {
    let numbered = (11..=30).rev().map(|n| format!("{tool}-{n}"));
    std::iter::once(tool.to_string()).chain(numbered).collect()
}

/// The type stream of a program database, or its id stream.
pub fn stream(word: &OsStr, bytes: Option<&[u8]>, ids: bool) -> Result<Vec<u8>, Failure> {
    let tools = versions("llvm-pdbutil");
    let (number, kind, file) = if ids { (4, "id", "ids.ipi") } else { (2, "type", "types.tpi") };
    let missing = format!(
        "a whole program database; get its {kind} stream out by: llvm-pdbutil export --stream={number} --out={file} {}",
        quoted(word)
    );
    let words = |given: &Path, wanted: &Path| {
        vec![
            "export".into(),
            format!("--stream={number}").into(),
            joined("--out=", wanted),
            given.as_os_str().to_owned(),
        ]
    };
    taken(word, bytes, &tools, words, missing)
}

/// The section `.debug$T` of an object file.
pub fn section(word: &OsStr, bytes: Option<&[u8]>) -> Result<Vec<u8>, Failure> {
    // GNU's knows x86 and x86-64 alone, LLVM's takes sections out of object files of Windows since a later version than 14
    let mut tools = ["objcopy", "x86_64-w64-mingw32-objcopy", "aarch64-w64-mingw32-objcopy"]
        .map(str::to_string)
        .to_vec();
    tools.extend(versions("llvm-objcopy"));
    let missing = format!(
        "an object file; get its types out by: objcopy --dump-section '.debug$T'=types.bin {} /dev/null",
        quoted(word)
    );
    let words = |given: &Path, wanted: &Path| {
        vec![
            "--dump-section".into(),
            joined(".debug$T=", wanted),
            given.as_os_str().to_owned(),
            // a copy of the whole, which nobody wants
            joined("", &wanted.with_extension("rest")),
        ]
    };
    taken(word, bytes, &tools, words, missing)
}

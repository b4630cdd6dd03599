//! Standard output, and files that are written whole.
use crate::fail::{reason, Failure};
use std::ffi::OsStr;
use std::fmt::{self, Write as _};
use std::fs::File;
use std::io::{self, BufWriter, IsTerminal, Write};
use std::os::fd::AsFd;

/// Standard output, in large pieces. Who writes to it flushes it at the end, so that a full disk is told.
pub type Out = BufWriter<File>;

/// As a file of its own: std's would pass over it in silence if it cannot be written at all.
fn opened() -> io::Result<File> {
    Ok(File::from(io::stdout().as_fd().try_clone_to_owned()?))
}

pub fn standard() -> io::Result<Out> {
    Ok(BufWriter::with_capacity(1 << 16, opened()?))
}

/// Writes bytes into the file of a name, or to standard output where there is none or it is `-`. A terminal gets no bytes that are no text.
pub fn write_bytes(name: Option<&OsStr>, bytes: &[u8]) -> Result<(), Failure> {
    match name {
        Some(name) if name != "-" => std::fs::write(name, bytes).map_err(|e| {
            let why = format!("cannot be written: {}", reason(&e));
            Failure::File(name.to_string_lossy().into_owned(), why)
        }),
        _ if io::stdout().is_terminal() => Err(Failure::Usage(
            "what is written is no text, and standard output is a terminal: give -o FILE".to_string(),
        )),
        _ => Ok(opened()?.write_all(bytes)?),
    }
}

/// A text for people: what is no UTF-8 is replaced, and what would move a terminal's cursor is escaped.
pub struct Shown<'b>(&'b [u8]);

pub fn shown(bytes: &[u8]) -> Shown<'_> {
    Shown(bytes)
}

impl fmt::Display for Shown<'_> {
    fn fmt(&self, f: &mut fmt::Formatter<'_>) -> fmt::Result {
        for chunk in self.0.utf8_chunks() {
            let mut left = chunk.valid();
            while let Some(at) = left.find(char::is_control) {
                f.write_str(&left[..at])?;
                let mut from = left[at..].chars();
                from.next().map_or(Ok(()), |control| write!(f, "{}", control.escape_default()))?;
                left = from.as_str();
            }
            f.write_str(left)?;
            if !chunk.invalid().is_empty() {
                f.write_char(char::REPLACEMENT_CHARACTER)?;
            }
        }
        Ok(())
    }
}

#[cfg(test)]
mod tests {
    use super::*;

    #[test]
    fn what_is_shown_stays_on_its_line() {
        assert_eq!(shown(b"a\"b\\c\n\x1b[1m\xff\xc3\xa9").to_string(), "a\"b\\c\\n\\u{1b}[1m\u{fffd}\u{e9}");
        assert_eq!(shown(b"").to_string(), "");
        // as String::from_utf8_lossy replaces: a cut character is one, and two bad bytes are two
        assert_eq!(shown(b"\xe2\x82\xff\xfe\tx").to_string(), "\u{fffd}\u{fffd}\u{fffd}\\tx");
        assert_eq!(shown("\u{85}".as_bytes()).to_string(), "\\u{85}");
    }
}

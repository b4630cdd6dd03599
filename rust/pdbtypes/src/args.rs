//! The words of the command line: which command, its options, its files.
use crate::fail::Failure;
use crate::help;
use std::ffi::{OsStr, OsString};
use std::os::unix::ffi::OsStrExt;

/// What a command is called with.
#[derive(Debug, Default)]
pub struct Call {
    /// The words that are no options: files, indices, names.
    pub words: Vec<OsString>,
    pub json: bool,
    pub ids: bool,
    pub stream: bool,
    pub whole: bool,
    pub out: Option<OsString>,
    pub shift: Option<u32>,
}

impl Call {
    /// The file, which is standard input where none is named.
    pub fn file(&self) -> &OsStr {
        self.words.first().map_or(OsStr::new("-"), OsString::as_os_str)
    }

    /// The words behind the first so many, as text.
    pub fn texts_from(&self, first: usize) -> Vec<String> {
        self.words.iter().skip(first).map(|word| word.to_string_lossy().into_owned()).collect()
    }

    /// The indices behind the first so many words.
    pub fn indices_from(&self, first: usize) -> Result<Vec<u32>, Failure> {
        let texts = self.texts_from(first);
        texts.iter().map(|text| index(text).ok_or_else(|| no_index(text))).collect()
    }
}

/// An option that a command may take.
#[derive(Debug, Clone, Copy, PartialEq, Eq)]
pub enum Choice {
    Json,
    Ids,
    Stream,
    Whole,
    Out,
    Shift,
}

/// A command: its name, the words and options that it takes, what `--help` says of it, and what does it.
pub struct Command {
    pub name: &'static str,
    pub use_: &'static str,
    pub about: &'static str,
    pub help: &'static str,
    pub choices: &'static [Choice],
    pub least: usize,
    pub most: usize,
    pub run: fn(&Call) -> Result<(), Failure>,
}

/// What the words ask for.
pub enum Asked {
    /// A text: help or the version.
    Text(String),
    Call(&'static Command, Call),
}

/// An index: decimal, or hex behind `0x`.
pub fn index(text: &str) -> Option<u32> {
    let (digits, radix) = match text.strip_prefix("0x").or(text.strip_prefix("0X")) {
        Some(hex) => (hex, 16),
        None => (text, 10),
    };
    // from_str_radix takes a sign, which no index has
    if digits.starts_with(['+', '-']) {
        return None;
    }
    u32::from_str_radix(digits, radix).ok()
}

fn no_index(text: &str) -> Failure {
    Failure::Usage(format!("{text}: no index; one is a number up to 4294967295, decimal or in hex as 0x1004"))
}

fn usage(command: Option<&Command>, what: &str) -> Failure {
    let asked = command.map_or(String::new(), |c| format!("{} ", c.name));
    Failure::Usage(format!("{what}; pdbtypes {asked}--help says how it is used"))
}

/// The option of a word, and the value that stands behind `=` in it, whose bytes may be no text. A lone `-` is a file, and an option comes before `--`.
fn choice(word: &OsStr) -> Option<(Choice, Option<&OsStr>)> {
    let bytes = word.as_bytes();
    let (name, value) = match bytes.iter().position(|c| *c == b'=') {
        Some(at) => (&bytes[..at], Some(OsStr::from_bytes(&bytes[at + 1..]))),
        None => (bytes, None),
    };
    let choice = match name {
        b"--json" => Choice::Json,
        b"--ids" => Choice::Ids,
        b"--stream" => Choice::Stream,
        b"--whole" => Choice::Whole,
        b"-o" | b"--out" | b"--output" => Choice::Out,
        b"--shift" => Choice::Shift,
        _ => return None,
    };
    Some((choice, value))
}

pub fn parse(words: impl Iterator<Item = OsString>) -> Result<Asked, Failure> {
    let mut words = words.peekable();
    let Some(first) = words.next() else {
        return Err(usage(None, "no command"));
    };
    let first = first.to_string_lossy().into_owned();
    match first.as_str() {
        "-h" | "--help" => return Ok(Asked::Text(help::whole())),
        "help" => {
            return match words.next().map(|word| word.to_string_lossy().into_owned()) {
                None => Ok(Asked::Text(help::whole())),
                Some(name) => help::find(&name)
                    .map(|c| Asked::Text(help::of(c)))
                    .ok_or_else(|| usage(None, &format!("{name}: no such command"))),
            }
        }
        "-V" | "--version" => return Ok(Asked::Text(format!("pdbtypes {}\n", env!("CARGO_PKG_VERSION")))),
        _ => {}
    }
    let Some(command) = help::find(&first) else {
        let what = if first.starts_with('-') { "no such option" } else { "no such command" };
        return Err(usage(None, &format!("{first}: {what}")));
    };
    let mut call = Call::default();
    while let Some(word) = words.next() {
        let text = word.to_string_lossy().into_owned();
        match text.as_str() {
            "-h" | "--help" => return Ok(Asked::Text(help::of(command))),
            "--" => {
                call.words.extend(words);
                break;
            }
            "-" => call.words.push(word),
            text if text.starts_with('-') && !text.is_empty() => {
                let known = choice(&word).filter(|(choice, _)| command.choices.contains(choice));
                let Some((choice, value)) = known else {
                    return Err(usage(Some(command), &format!("{text}: no option of {}", command.name)));
                };
                let mut take = |what: &str| match value {
                    Some(value) => Ok(value.to_owned()),
                    None => words.next().ok_or_else(|| usage(Some(command), &format!("{text}: {what} is missing"))),
                };
                match choice {
                    Choice::Out => call.out = Some(take("the file")?),
                    Choice::Shift => {
                        let number = take("the number")?.to_string_lossy().into_owned();
                        call.shift = Some(index(&number).ok_or_else(|| usage(Some(command), &format!("{number}: no number")))?);
                    }
                    _ if value.is_some() => return Err(usage(Some(command), &format!("{text}: this option has no value"))),
                    Choice::Json => call.json = true,
                    Choice::Ids => call.ids = true,
                    Choice::Stream => call.stream = true,
                    Choice::Whole => call.whole = true,
                }
            }
            _ => call.words.push(word),
        }
    }
    if call.words.len() < command.least {
        return Err(usage(Some(command), &format!("{} takes {}", command.name, command.use_)));
    }
    if call.words.len() > command.most {
        let surplus = call.words[command.most].to_string_lossy();
        return Err(usage(
            Some(command),
            &format!("{surplus}: one word too many; {} takes {}", command.name, command.use_),
        ));
    }
    Ok(Asked::Call(command, call))
}

#[cfg(test)]
mod tests {
    use super::*;

    #[test]
    fn indices() {
        assert_eq!([index("4096"), index("0x1000"), index("0X1000")], [Some(4096); 3]);
        assert_eq!(index("0000004096"), Some(4096));
        for word in ["", "x", "0x", "-1", "+4096", "0x+1", "4294967296", "99999999999999999999", "4096 ", "4_096"] {
            assert_eq!(index(word), None, "{word}");
        }
    }
}

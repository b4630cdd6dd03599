//! JSON, as much of it as is written here: strings with their escapes, and pairs.
use std::io::{self, Write};

/// A text as a JSON string.
pub fn text(text: &str) -> String {
    let mut out = String::with_capacity(text.len() + 2);
    out.push('"');
    for c in text.chars() {
        match c {
            '"' => out.push_str("\\\""),
            '\\' => out.push_str("\\\\"),
            '\n' => out.push_str("\\n"),
            '\r' => out.push_str("\\r"),
            '\t' => out.push_str("\\t"),
            c if u32::from(c) < 0x20 || c == '\u{7f}' => out.push_str(&format!("\\u{:04x}", u32::from(c))),
            c => out.push(c),
        }
    }
    out.push('"');
    out
}

/// Bytes as a JSON string; what is no UTF-8 is replaced.
pub fn bytes(bytes: &[u8]) -> String {
    text(&String::from_utf8_lossy(bytes))
}

/// A refusal as an object.
pub fn refusal(e: &pdb_types::Error) -> String {
    let details: Vec<String> = e.details().iter().flatten().map(u32::to_string).collect();
    format!("{{\"number\":{},\"name\":{},\"details\":[{}]}}", e.number(), text(e.name()), details.join(","))
}

/// An array on one line, of which each element is written by itself.
pub fn put_list<W: Write, T>(out: &mut W, all: &[T], put: impl Fn(&mut W, &T) -> io::Result<()>) -> io::Result<()> {
    out.write_all(b"[")?;
    for (k, one) in all.iter().enumerate() {
        if k > 0 {
            out.write_all(b",")?;
        }
        put(out, one)?;
    }
    out.write_all(b"]")
}

/// An array that is written element by element, each on a line of its own.
pub struct Array {
    begun: bool,
}

impl Array {
    pub fn open(out: &mut impl Write) -> io::Result<Array> {
        out.write_all(b"[")?;
        Ok(Array { begun: false })
    }

    /// What stands before each element.
    pub fn before(&mut self, out: &mut impl Write) -> io::Result<()> {
        out.write_all(if self.begun { b",\n" } else { b"\n" })?;
        self.begun = true;
        Ok(())
    }

    pub fn element(&mut self, out: &mut impl Write, json: &str) -> io::Result<()> {
        self.before(out)?;
        out.write_all(json.as_bytes())
    }

    pub fn close(self, out: &mut impl Write) -> io::Result<()> {
        out.write_all(if self.begun { b"\n]" } else { b"]" })
    }
}

#[cfg(test)]
mod tests {
    use super::*;

    #[test]
    fn strings_are_escaped() {
        assert_eq!(text("a\"b\\c\n\u{1}\u{7f}é"), "\"a\\\"b\\\\c\\n\\u0001\\u007fé\"");
        assert_eq!(bytes(b"P\xff"), "\"P\u{fffd}\"");
    }
}

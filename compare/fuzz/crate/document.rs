//! Type records by the layouts of document 01, as model/layouts.py has them, with the forms of numeric leaves (02's R-4) and the known reasons why the crate may
//! differ. A second reading, written apart from the port's sources: the port's answer must be this one, whatever the crate says.
use crate::answer::{Answer, NONE};

/// The rules of docs/DIFFERENCES.md by name, as compare/compare.py has them.
pub(crate) const REASONS: [&str; 27] = [
    "byte-number", "signed-size", "continuation", "array-name", "array-size", "array-after", "pointer-kind", "pointer-mode", "pointer-class", "base-offset",
    "nested-word", "vtable-shape", "later-leaf", "member-outside", "leaf-in-list", "newer-leaf", "length-byte-leaf", "count-memory", "list-depth", "short-kind",
    "primitive-from-4096", "index-used-up", "max-held", "structure-kind", "intrinsic-bit", "mocom-bits", "pointer-mocom",
];

pub(crate) fn reason(name: &str) -> u32 {
    1 << REASONS.iter().position(|r| *r == name).expect("a rule of docs/DIFFERENCES.md")
}

type Refused = (u32, u64);

pub(crate) struct Reader<'a> {
    pub s: &'a [u8],
    pub at: usize,
    pub why: u32,
    pub forms: Vec<u64>,
}

/// The fewest bytes that carry a number, by trying every form.
fn shortest(value: i128) -> u64 {
    if (0..0x8000).contains(&value) {
        return 2;
    }
    for (width, signed) in [(1, true), (2, true), (2, false), (4, true), (4, false), (8, true), (8, false)] {
        let (low, high) = if signed { (-(1i128 << (8 * width - 1)), 1i128 << (8 * width - 1)) } else { (0, 1i128 << (8 * width)) };
        if low <= value && value < high {
            return 2 + width;
        }
    }
    unreachable!()
}

fn is_record(leaf: u64) -> bool {
    matches!(
        leaf,
        0x1001 | 0x1002 | 0x1008 | 0x1009 | 0x1205 | 0x1503 | 0x1504 | 0x1505 | 0x1519 | 0x1609 | 0x1506 | 0x1507 | 0x000a
    )
}

pub(crate) fn has_type(leaf: u64) -> bool {
    is_record(leaf) || matches!(leaf, 0x1201 | 0x1203 | 0x1206)
}

fn is_member(leaf: u64) -> bool {
    matches!(leaf, 0x1400 | 0x1401 | 0x1402 | 0x1404 | 0x1409 | 0x1502 | 0x150d | 0x150e | 0x150f | 0x1510 | 0x1511)
}

impl<'a> Reader<'a> {
    pub fn new(s: &'a [u8]) -> Self {
        Reader { s, at: 0, why: 0, forms: Vec::new() }
    }
    fn note(&mut self, name: &str) {
        self.why |= reason(name);
    }
    fn u(&mut self, n: usize) -> Result<u64, Refused> {
        if self.s.len() - self.at < n {
            return Err((1, 0));
        }
        let value = self.s[self.at..self.at + n].iter().rev().fold(0, |v, b| v << 8 | u64::from(*b));
        self.at += n;
        Ok(value)
    }
    fn optional(&mut self) -> Result<u64, Refused> {
        let i = self.u(4)?;
        Ok(if i == 0 || i == 0xffff { NONE } else { i })
    }
    fn string(&mut self) -> Result<[u64; 2], Refused> {
        let n = self.s[self.at..].iter().position(|b| *b == 0).ok_or((1, 0))?;
        let place = self.at;
        self.at += n + 1;
        Ok([place as u64, n as u64])
    }
    fn second(&mut self, properties: u64) -> Result<[u64; 2], Refused> {
        if properties & 0x200 != 0 { self.string() } else { Ok([NONE, NONE]) }
    }
    pub fn padding(&mut self) -> Result<(), Refused> {
        while self.at < self.s.len() && self.s[self.at] >= 0xf0 {
            let n = usize::from(self.s[self.at] & 15).max(1);
            if self.s.len() - self.at < n {
                return Err((1, 0));
            }
            self.at += n;
        }
        Ok(())
    }
    /// A number, whose form is kept: the bytes that it took, and 256 more where fewer carry it.
    pub fn number(&mut self, may_be_negative: bool) -> Result<i128, Refused> {
        let start = self.at;
        let value = self.plain_number(may_be_negative)?;
        let width = (self.at - start) as u64;
        self.forms.push(if shortest(value) < width { width + 256 } else { width });
        Ok(value)
    }
    fn plain_number(&mut self, may_be_negative: bool) -> Result<i128, Refused> {
        let prefix = self.u(2)?;
        if prefix < 0x8000 {
            return Ok(prefix.into());
        }
        let (width, signed) = match prefix {
            0x8000 => (1, true),
            0x8001 => (2, true),
            0x8002 => (2, false),
            0x8003 => (4, true),
            0x8004 => (4, false),
            0x8009 => (8, true),
            0x800a => (8, false),
            _ => return Err((11, 0)),
        };
        if signed && prefix != 0x8000 && !may_be_negative {
            self.note("signed-size");
        }
        let bits = i128::from(self.u(width)?);
        let value = if signed && bits >> (8 * width - 1) == 1 { bits - (1 << (8 * width)) } else { bits };
        if value < 0 && prefix == 0x8000 {
            self.note("byte-number");
        }
        if value < 0 && !may_be_negative {
            return Err((11, 0));
        }
        Ok(value)
    }
    fn size(&mut self) -> Result<u64, Refused> {
        Ok(self.number(false)? as u64)
    }
    fn base_offset(&mut self) -> Result<u64, Refused> {
        let n = self.size()?;
        if n > 0xffff_ffff {
            self.note("base-offset");
        }
        Ok(n)
    }
    fn pointer(&mut self) -> Result<Vec<u64>, Refused> {
        let (t, word) = (self.u(4)?, self.u(4)?);
        let (kind, mode) = (word & 31, word >> 5 & 7);
        if kind > 12 {
            self.note("pointer-kind");
        }
        if mode > 4 {
            self.note("pointer-mode");
        }
        if kind > 12 || mode > 4 {
            return Err((12, 0));
        }
        let mut class = NONE;
        if mode == 2 || mode == 3 {
            class = self.optional()?;
            if class == NONE {
                self.note("pointer-class");
            }
        }
        Ok(vec![0x1002, t, word, class])
    }
    /// Whether the crate's reading of an array, dimensions up to a zero byte and then padding to the end, can differ.
    fn array_notes(&mut self, size: u64) {
        if size > 0xffff_ffff {
            self.note("array-size");
        }
        let rest = &self.s[self.at..];
        if rest.is_empty() {
            return;
        }
        if rest[0] != 0 {
            self.note("array-name");
            return;
        }
        let mut after = Reader::new(&rest[1..]);
        if after.padding().is_err() || after.at != after.s.len() {
            self.note("array-after");
        }
    }
    fn record(&mut self, leaf: u64) -> Result<Vec<u64>, Refused> {
        Ok(match leaf {
            0x1001 => {
                let (t, f) = (self.u(4)?, self.u(2)?);
                vec![leaf, t, f & 1, f >> 1 & 1, f >> 2 & 1]
            }
            0x1002 => self.pointer()?,
            0x1008 => vec![leaf, self.optional()?, self.u(2)?, self.u(2)?, self.u(4)?],
            0x1009 => vec![leaf, self.u(4)?, self.u(4)?, self.optional()?, self.u(2)?, self.u(2)?, self.u(4)?, self.u(4)?],
            0x1205 => vec![leaf, self.u(4)?, self.u(1)?, self.u(1)?],
            0x1503 => {
                let (elem, idx, size) = (self.u(4)?, self.u(4)?, self.size()?);
                self.array_notes(size);
                let [n, l] = self.string()?;
                vec![leaf, elem, idx, size, n, l]
            }
            0x1504 | 0x1505 | 0x1519 => {
                let (count, properties) = (self.u(2)?, self.u(2)?);
                let (fields, derived, shape, size) = (self.optional()?, self.optional()?, self.optional()?, self.size()?);
                let [n, l] = self.string()?;
                let [m, k] = self.second(properties)?;
                vec![leaf, leaf, count, properties, fields, derived, shape, size, n, l, m, k]
            }
            0x1609 => {
                let properties = self.u(4)? & 0xffff;
                let (fields, derived, shape) = (self.optional()?, self.optional()?, self.optional()?);
                let (count, size) = (self.u(2)?, self.size()?);
                let [n, l] = self.string()?;
                let [m, k] = self.second(properties)?;
                vec![leaf, leaf, count, properties, fields, derived, shape, size, n, l, m, k]
            }
            0x1506 => {
                let (count, properties, fields, size) = (self.u(2)?, self.u(2)?, self.u(4)?, self.size()?);
                let [n, l] = self.string()?;
                let [m, k] = self.second(properties)?;
                vec![leaf, count, properties, fields, size, n, l, m, k]
            }
            0x1507 => {
                let (count, properties, t, fields) = (self.u(2)?, self.u(2)?, self.u(4)?, self.u(4)?);
                let [n, l] = self.string()?;
                let [m, k] = self.second(properties)?;
                vec![leaf, count, properties, t, fields, n, l, m, k]
            }
            _ => {
                self.note("vtable-shape");
                let count = self.u(2)?;
                let n = (count as usize + 1) / 2;
                if self.s.len() - self.at < n {
                    return Err((1, 0));
                }
                self.at += n;
                vec![leaf, count, (self.at - n) as u64, n as u64]
            }
        })
    }
    fn offset(&mut self, attributes: u64) -> Result<u64, Refused> {
        if matches!(attributes >> 2 & 7, 4 | 6) { self.u(4) } else { Ok(NONE) }
    }
    fn named(&mut self, mut fields: Vec<u64>) -> Result<Vec<u64>, Refused> {
        let s = self.string()?;
        fields.extend_from_slice(&s);
        Ok(fields)
    }
    fn member(&mut self, leaf: u64) -> Result<Vec<u64>, Refused> {
        let word = self.u(2)?;
        Ok(match leaf {
            0x1400 => vec![leaf, word, self.u(4)?, self.base_offset()?],
            0x1401 | 0x1402 => vec![leaf, word, self.u(4)?, self.u(4)?, self.base_offset()?, self.base_offset()?],
            0x1404 | 0x1409 => vec![leaf, self.u(4)?],
            0x1502 => {
                let v = self.number(true)?;
                self.named(vec![leaf, word, u64::from(v < 0), v as u64])?
            }
            0x150d => {
                let fields = vec![leaf, word, self.u(4)?, self.size()?];
                self.named(fields)?
            }
            0x150e | 0x150f => {
                let fields = vec![leaf, word, self.u(4)?];
                self.named(fields)?
            }
            0x1510 => {
                if word != 0 {
                    self.note("nested-word");
                }
                let fields = vec![leaf, word, self.u(4)?];
                self.named(fields)?
            }
            _ => {
                let fields = vec![leaf, word, self.u(4)?, self.offset(word)?];
                self.named(fields)?
            }
        })
    }
    /// A leaf that 01 does not take here: note whether the crate does.
    fn foreign(&mut self, leaf: u64, in_list: bool) -> Refused {
        if matches!(leaf, 0x1512 | 0x151a | 0x1516) {
            self.note("newer-leaf");
        } else if matches!(leaf, 0x0403 | 0x1003..=0x1007 | 0x1405..=0x1408 | 0x140b | 0x140d) {
            self.note("length-byte-leaf");
        } else if in_list && has_type(leaf) && leaf != 0x000a {
            self.note("leaf-in-list");
        } else if !in_list && is_member(leaf) && leaf != 0x1404 {
            self.note("member-outside");
        }
        (10, leaf)
    }
    fn next_member(&mut self, first: bool) -> Result<Vec<u64>, Refused> {
        if !first {
            self.padding()?;
        }
        if self.at >= self.s.len() {
            return Err((15, 0));
        }
        let leaf = self.u(2)?;
        if !is_member(leaf) {
            return Err(self.foreign(leaf, true));
        }
        if leaf == 0x1404 {
            self.note("continuation");
        }
        self.member(leaf)
    }
    fn next_method(&mut self) -> Result<Vec<u64>, Refused> {
        if self.at >= self.s.len() {
            return Err((15, 0));
        }
        let (word, _) = (self.u(2)?, self.u(2)?);
        Ok(vec![word, self.u(4)?, self.offset(word)?])
    }
    fn list(&mut self, leaf: u64) -> Answer {
        let mut a = Answer::of(vec![leaf]);
        loop {
            let before = self.forms.len();
            let got = if leaf == 0x1203 { self.next_member(a.elements.is_empty()) } else { self.next_method() };
            match got {
                Ok(e) => {
                    let last = leaf == 0x1203 && e[0] == 0x1404;
                    a.elements.push(e);
                    if !last {
                        continue;
                    }
                    a.end = (15, 0);
                }
                // an element that is refused shows no form
                Err(end) => {
                    a.end = end;
                    self.forms.truncate(before);
                }
            }
            a.forms = std::mem::take(&mut self.forms);
            return a;
        }
    }
    fn whole(&mut self) -> Result<Answer, Refused> {
        let leaf = self.u(2)?;
        if leaf == 0x1201 {
            let count = self.u(4)?;
            if ((self.s.len() - self.at) as u64) < 4 * count {
                self.note("count-memory");
                return Err((1, 0));
            }
            let mut a = Answer::of(vec![leaf, count]);
            for _ in 0..count {
                a.elements.push(vec![self.u(4)?]);
            }
            a.end = (15, 0);
            return Ok(a);
        }
        if leaf == 0x1203 || leaf == 0x1206 {
            return Ok(self.list(leaf));
        }
        if !is_record(leaf) {
            return Err(self.foreign(leaf, false));
        }
        let mut a = Answer::of(self.record(leaf)?);
        a.forms = std::mem::take(&mut self.forms);
        Ok(a)
    }
}

/// The answer by 01, and the reasons met.
pub(crate) fn type_record(s: &[u8]) -> (Answer, u32) {
    let mut r = Reader::new(s);
    let a = r.whole().unwrap_or_else(Answer::refused);
    (a, r.why)
}

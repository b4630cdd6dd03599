//! What a record says, as plain numbers, from three sides: the crate (flat_data.rs), the port (port.rs) and document 01 (document.rs).
//!
//! fields: the leaf, then the values in the order of 01's layout; a class has its kind's leaf behind its own. An absent index is NONE, a string two numbers,
//! its place and its length, both NONE where it is absent. elements: the same of each element; a method of 0x1206 and an index have no leaf.

pub(crate) const NONE: u64 = u64::MAX;

#[derive(Default, PartialEq, Debug)]
pub(crate) struct Answer {
    pub number: u32,
    pub detail: u64,
    pub fields: Vec<u64>,
    pub elements: Vec<Vec<u64>>,
    /// what ended a list
    pub end: (u32, u64),
    /// the crate's alone, of an array
    pub dimensions: Vec<u64>,
    /// the port's and 02's alone: the forms of the numeric leaves, in their order
    pub forms: Vec<u64>,
}

impl Answer {
    pub fn of(fields: Vec<u64>) -> Self {
        Answer { fields, ..Answer::default() }
    }
    pub fn refused((number, detail): (u32, u64)) -> Self {
        Answer { number, detail, ..Answer::default() }
    }
}

/// Where a string lies in a record.
pub(crate) fn part(base: &[u8], s: &[u8]) -> [u64; 2] {
    [(s.as_ptr() as usize - base.as_ptr() as usize) as u64, s.len() as u64]
}

/// The crate's answer and the port's are the same; or the crate refuses a list whole that the port refuses at the same element, by the same refusal; or an
/// array that both read alike, the crate showing its one dimension where the port shows size and name.
pub(crate) fn same(c: &Answer, p: &Answer) -> bool {
    if (c.number, c.detail, &c.fields, &c.elements, c.end) == (p.number, p.detail, &p.fields, &p.elements, p.end) && c.dimensions.is_empty() {
        return true;
    }
    let list = p.number == 0 && matches!(p.fields.first(), Some(0x1203) | Some(0x1206));
    if list && c.number != 0 && p.end == (c.number, c.detail) {
        return true;
    }
    c.fields.first() == Some(&0x1503) && p.fields.len() == 6 && c.fields[..] == p.fields[..3] && c.dimensions == [p.fields[3]] && p.fields[5] == 0
}

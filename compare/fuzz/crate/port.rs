//! The port over the C border, c/pdb.h. The places of `out` are its enums.
use crate::answer::{Answer, NONE};

extern "C" {
    pub fn pdb_header(s: *const u8, n: usize, out: *mut u64) -> u32;
    pub fn pdb_next(s: *const u8, n: usize, at: usize, index: u32, out: *mut u64) -> u32;
    pub fn pdb_create(s: *const u8, n: usize, table: *mut u32, table_len: usize, shift: u32, out: *mut u64) -> u32;
    pub fn pdb_update(table: *mut u32, table_len: usize, minimum: u32, maximum: u32, held: usize, shift: u32, at: usize, index: u32, out: *mut u64) -> u32;
    pub fn pdb_find(s: *const u8, n: usize, table: *const u32, table_len: usize, minimum: u32, maximum: u32, held: usize, shift: u32, index: u32, out: *mut u64) -> u32;
    pub fn pdb_max_index(minimum: u32, maximum: u32, held: usize, shift: u32) -> u32;
    pub fn pdb_primitive(index: u32, out: *mut u64) -> u32;
    pub fn pdb_kind(tpi: *const u8, tpi_len: usize, ipi: *const u8, ipi_len: usize, ids: u32, is_record: u32, index: u32, place: usize, length: usize, out: *mut u64) -> u32;
    pub fn pdb_parse(tpi: *const u8, tpi_len: usize, ipi: *const u8, ipi_len: usize, ids: u32, is_record: u32, index: u32, place: usize, length: usize, out: *mut u64) -> u32;
    pub fn pdb_type(s: *const u8, n: usize, out: *mut u64) -> u32;
    pub fn pdb_id(s: *const u8, n: usize, out: *mut u64) -> u32;
    pub fn pdb_list(s: *const u8, n: usize, ids: u32, out: *mut u64) -> u32;
    pub fn pdb_step(s: *const u8, n: usize, leaf: u16, at: usize, left: u32, padded: u32, out: *mut u64) -> u32;
    pub fn pdb_string(s: *const u8, n: usize, leaf: u16, at: usize, out: *mut u64) -> u32;
    pub fn pdb_padding(s: *const u8, n: usize, at: usize, out: *mut u64) -> u32;
    pub fn pdb_size(s: *const u8, n: usize, at: usize, out: *mut u64) -> u32;
    pub fn pdb_number(s: *const u8, n: usize, at: usize, out: *mut u64) -> u32;
    pub fn pdb_layout(which: u32, leaf: u16) -> u64;
    pub fn pdb_optional_type(index: u32) -> u32;
    pub fn pdb_optional_id(index: u32) -> u32;
    pub fn pdb_properties(word: u16, out: *mut u64) -> u32;
    pub fn pdb_field_attributes(word: u16, out: *mut u64) -> u32;
    pub fn pdb_function_attributes(word: u16, out: *mut u64) -> u32;
    pub fn pdb_pointer_attributes(word: u32, out: *mut u64) -> u32;
}

/// An index that may be absent, which is 0 in `out`.
fn optional(i: u64) -> u64 {
    if i == 0 { NONE } else { i }
}

/// A string that may be absent, whose place is 0 then.
fn string(place: u64, length: u64) -> [u64; 2] {
    if place == 0 { [NONE, NONE] } else { [place, length] }
}

fn elements(s: &[u8], ids: u32, a: &mut Answer) {
    let mut out = [7u64; 15];
    let number = unsafe { pdb_list(s.as_ptr(), s.len(), ids, out.as_mut_ptr()) };
    if number != 0 {
        a.end = (number, out[0]);
        return;
    }
    let leaf = out[2] as u16;
    let (mut at, mut left, mut padded) = (out[3] as usize, out[4] as u32, out[5] as u32);
    loop {
        let number = unsafe { pdb_step(s.as_ptr(), s.len(), leaf, at, left, padded, out.as_mut_ptr()) };
        if number != 0 {
            a.end = (number, out[0]);
            return;
        }
        let [_, _, next, less, pads, member, word, t, other, value, more, form, more_form, name, length] = out;
        a.forms.extend([form, more_form].iter().filter(|f| **f != 0));
        a.elements.push(match leaf {
            0x1206 => vec![word, t, if more != 0 { value } else { NONE }],
            0x1203 => match member {
                0x1400 => vec![member, word, t, value],
                0x1401 | 0x1402 => vec![member, word, t, other, value, more],
                0x1404 | 0x1409 => vec![member, t],
                0x1502 => vec![member, word, more, value, name, length],
                0x150d => vec![member, word, t, value, name, length],
                0x150e | 0x150f | 0x1510 => vec![member, word, t, name, length],
                _ => vec![member, word, t, if more != 0 { value } else { NONE }, name, length],
            },
            _ => vec![t],
        });
        at = next as usize;
        left = less as u32;
        padded = pads as u32;
    }
}

/// Whether the port has a type leaf: whether it has a layout of types, which is 0 in c/pdb.h.
pub(crate) fn has_type(leaf: u16) -> bool {
    unsafe { pdb_layout(0, leaf) != 0 }
}

pub(crate) fn type_record(s: &[u8]) -> Answer {
    let mut out = [7u64; 15];
    let number = unsafe { pdb_type(s.as_ptr(), s.len(), out.as_mut_ptr()) };
    if number != 0 {
        return Answer::refused((number, out[0]));
    }
    let [_, _, leaf, count, word, t, list, other, last, size, form, name, length, unique, unique_length] = out;
    let [m, k] = string(unique, unique_length);
    let mut a = Answer::of(match leaf {
        0x1001 => vec![leaf, t, word & 1, word >> 1 & 1, word >> 2 & 1],
        0x1002 => vec![leaf, t, word, optional(other)],
        0x1008 => vec![leaf, optional(t), word, count, list],
        0x1009 => vec![leaf, t, other, optional(last), word, count, list, size],
        0x1205 => vec![leaf, t, count, size],
        0x1503 => vec![leaf, t, other, size, name, length],
        0x1504 | 0x1505 | 0x1519 | 0x1609 => {
            vec![leaf, leaf, count, word, optional(list), optional(other), optional(last), size, name, length, m, k]
        }
        0x1506 => vec![leaf, count, word, list, size, name, length, m, k],
        0x1507 => vec![leaf, count, word, t, list, name, length, m, k],
        0x000a => vec![leaf, count, name, length],
        0x1201 => vec![leaf, count],
        _ => vec![leaf],
    });
    a.forms.extend([form].iter().filter(|f| **f != 0));
    if matches!(leaf, 0x1201 | 0x1203 | 0x1206) {
        elements(s, 0, &mut a);
    }
    a
}

pub(crate) fn id_record(s: &[u8]) -> Answer {
    let mut out = [7u64; 12];
    let number = unsafe { pdb_id(s.as_ptr(), s.len(), out.as_mut_ptr()) };
    if number != 0 {
        return Answer::refused((number, out[0]));
    }
    let [_, _, leaf, count, t, parent, id, file, line, module, name, length] = out;
    let mut a = Answer::of(match leaf {
        0x1601 => vec![leaf, optional(id), t, name, length],
        0x1602 => vec![leaf, parent, t, name, length],
        0x1605 => vec![leaf, optional(id), name, length],
        0x1606 => vec![leaf, t, file, line],
        0x1607 => vec![leaf, t, file, line, module],
        _ => vec![leaf, count],
    });
    if matches!(leaf, 0x1603 | 0x1604) {
        elements(s, 1, &mut a);
    }
    a
}

//! The functions of libpdb_types.a, each behind a safe function. This is the one file with `unsafe`.
//!
//! c/pdb.h asks four things of a caller, and nothing else of bytes or numbers. (1) Pointers are non-null and aligned: a reference's and a slice's are, also of
//! an empty slice. (2) They point to as many elements as their count says: a slice's own length, or an array's of the size that the header names, which a test
//! below holds to that header. (3) None overlap but what is only read, and (4) nothing else writes them meanwhile: what is written is lent by `&mut`, or is a
//! local of these functions. So every block below rests on the types of its arguments alone.
//!
//! In turn every call writes the whole of `out`, whether it answers or refuses. That is why `out` need not be filled before it.
//!
//! Some of these functions are called by tests alone, which hold this crate's own lines to the library.
#![allow(unsafe_code)]
#![warn(clippy::undocumented_unsafe_blocks)]
#![cfg_attr(not(test), allow(dead_code))]
use crate::error::{Error, Result};
use std::mem::MaybeUninit;

/// Places of rows, as the header's enumerations count them.
pub(crate) mod row {
    macro_rules! places {
        ($($name:ident = $number:literal,)*) => {
            $(pub(crate) const $name: usize = $number;)*

            /// The names and numbers above, for the test that holds them to the header.
            #[cfg(test)]
            pub(super) const ALL: &[(&str, usize)] = &[$((stringify!($name), $number)),*];
        };
    }

    places! {
        HEADER_VERSION = 2,
        HEADER_SIZE = 3,
        HEADER_MINIMUM = 4,
        HEADER_MAXIMUM = 5,
        HEADER_GPREC_SIZE = 6,
        HEADER_HASH_STREAM = 7,
        HEADER_HASH_PAD_STREAM = 8,
        HEADER_HASH_KEY_SIZE = 9,
        HEADER_HASH_BUCKET_SIZE = 10,
        HEADER_HASH_VALUES_OFFSET = 11,
        HEADER_TI_OFF_OFFSET = 13,
        HEADER_HASH_ADJ_OFFSET = 15,
        HEADER_OUT = 18,
        NEXT_IS_ITEM = 2,
        NEXT_INDEX = 3,
        NEXT_PLACE = 4,
        NEXT_LENGTH = 5,
        NEXT_AT = 6,
        NEXT_NEXT_INDEX = 7,
        NEXT_OUT = 8,
        UPDATE_HELD = 2,
        UPDATE_OUT = 3,
        FIND_IS_RECORD = 2,
        FIND_PLACE = 3,
        FIND_LENGTH = 4,
        FIND_PASSED = 5,
        FIND_OUT = 6,
        PRIMITIVE_KIND = 2,
        PRIMITIVE_INDIRECTION = 3,
        PRIMITIVE_OUT = 4,
        CREATE_MINIMUM = 2,
        CREATE_MAXIMUM = 3,
        CREATE_HELD = 4,
        CREATE_OUT = 6,
        INDEX_MINIMUM = 2,
        INDEX_MAXIMUM = 3,
        INDEX_HELD = 4,
        INDEX_END = 8,
        INDEX_END_DETAIL_0 = 9,
        INDEX_END_DETAIL_1 = 10,
        INDEX_OUT = 11,
        SAVE_BYTES = 2,
        SAVE_OUT = 3,
        LOAD_MINIMUM = 2,
        LOAD_MAXIMUM = 3,
        LOAD_HELD = 4,
        LOAD_SHIFT = 5,
        LOAD_OUT = 6,
        TYPE_LEAF = 2,
        TYPE_COUNT = 3,
        TYPE_WORD = 4,
        TYPE_TYPE = 5,
        TYPE_LIST = 6,
        TYPE_OTHER = 7,
        TYPE_LAST = 8,
        TYPE_SIZE = 9,
        TYPE_FORM = 10,
        TYPE_NAME = 11,
        TYPE_NAME_LENGTH = 12,
        TYPE_UNIQUE = 13,
        TYPE_UNIQUE_LENGTH = 14,
        TYPE_OUT = 15,
        ID_LEAF = 2,
        ID_TYPE = 4,
        ID_PARENT = 5,
        ID_ID = 6,
        ID_FILE = 7,
        ID_LINE = 8,
        ID_MODULE = 9,
        ID_NAME = 10,
        ID_NAME_LENGTH = 11,
        ID_OUT = 12,
        PARSE_WHICH = 2,
        PARSE_LEAF = 3,
        PARSE_OUT = 16,
        LIST_AT = 3,
        LIST_LEFT = 4,
        LIST_PADDED = 5,
        LIST_OUT = 6,
        STEP_AT = 2,
        STEP_LEFT = 3,
        STEP_PADDED = 4,
        STEP_LEAF = 5,
        STEP_WORD = 6,
        STEP_TYPE = 7,
        STEP_OTHER = 8,
        STEP_VALUE = 9,
        STEP_MORE = 10,
        STEP_FORM = 11,
        STEP_MORE_FORM = 12,
        STEP_NAME = 13,
        STEP_NAME_LENGTH = 14,
        STEP_OUT = 15,
        PROPERTIES_OUT = 16,
        FIELD_OUT = 8,
        FUNCTION_OUT = 6,
        POINTER_KIND_REFUSED = 2,
        POINTER_KIND = 3,
        POINTER_MODE_REFUSED = 4,
        POINTER_MODE = 5,
        POINTER_SIZE_REFUSED = 6,
        POINTER_SIZE = 7,
        POINTER_OUT = 16,
        DECLARE_BYTES = 2,
        DECLARE_OUT = 3,
        SECTION_START_AT = 2,
        SECTION_START_INDEX = 3,
        SECTION_START_OUT = 4,
        SECTION_COUNT_RECORDS = 2,
        SECTION_COUNT_OUT = 3,
        SECTION_STREAM_BYTES = 2,
        SECTION_STREAM_OUT = 3,
        FIT_YES = 2,
        FIT_RECORD = 3,
        FIT_RULE = 4,
        FIT_OUT = 5,
        DROP_BYTES = 2,
        DROP_OUT = 3,
        REPORT_TAKEN = 2,
        REPORT_ROWS = 10,
        REPORT_OUT = 11,
        REPORT_TABLE = 192,
        CELLS = 27,
        CELLS_LEAF = 2,
        CELLS_OUT = 3,
        WRITE_NEXT = 2,
        WRITE_OUT = 3,
        ROW = 8,
    }
}
use row::*;

extern "C" {
    fn pdb_header(s: *const u8, s_len: usize, out: *mut u64) -> u32;
    fn pdb_next(s: *const u8, s_len: usize, at: usize, index: u32, out: *mut u64) -> u32;
    fn pdb_update(table: *mut u32, table_len: usize, minimum: u32, maximum: u32, held: usize, shift: u32, at: usize, index: u32, out: *mut u64) -> u32;
    fn pdb_find(
        s: *const u8,
        s_len: usize,
        table: *const u32,
        table_len: usize,
        minimum: u32,
        maximum: u32,
        held: usize,
        shift: u32,
        index: u32,
        out: *mut u64,
    ) -> u32;
    fn pdb_primitive(index: u32, out: *mut u64) -> u32;
    fn pdb_create(s: *const u8, s_len: usize, table: *mut u32, table_len: usize, shift: u32, out: *mut u64) -> u32;
    fn pdb_index(s: *const u8, s_len: usize, table: *mut u32, table_len: usize, shift: u32, out: *mut u64) -> u32;
    fn pdb_max_index(minimum: u32, maximum: u32, held: usize, shift: u32) -> u32;
    fn pdb_save(
        s: *const u8,
        s_len: usize,
        table: *const u32,
        table_len: usize,
        minimum: u32,
        maximum: u32,
        held: usize,
        shift: u32,
        buffer: *mut u8,
        buffer_len: usize,
        out: *mut u64,
    ) -> u32;
    fn pdb_load(s: *const u8, s_len: usize, file: *const u8, file_len: usize, table: *mut u32, table_len: usize, out: *mut u64) -> u32;
    fn pdb_type(s: *const u8, s_len: usize, out: *mut u64) -> u32;
    fn pdb_id(s: *const u8, s_len: usize, out: *mut u64) -> u32;
    fn pdb_parse(
        tpi: *const u8,
        tpi_len: usize,
        ipi: *const u8,
        ipi_len: usize,
        ids: u32,
        is_record: u32,
        index: u32,
        place: usize,
        length: usize,
        out: *mut u64,
    ) -> u32;
    fn pdb_list(s: *const u8, s_len: usize, ids: u32, out: *mut u64) -> u32;
    fn pdb_step(s: *const u8, s_len: usize, leaf: u16, at: usize, left: u32, padded: u32, out: *mut u64) -> u32;
    fn pdb_is_cross_module(index: u32) -> u32;
    fn pdb_properties(word: u16, out: *mut u64) -> u32;
    fn pdb_field_attributes(word: u16, out: *mut u64) -> u32;
    fn pdb_function_attributes(word: u16, out: *mut u64) -> u32;
    fn pdb_pointer_attributes(word: u32, out: *mut u64) -> u32;
    fn pdb_declare(
        s: *const u8,
        s_len: usize,
        table: *const u32,
        table_len: usize,
        minimum: u32,
        maximum: u32,
        held: usize,
        shift: u32,
        index: u32,
        buffer: *mut u8,
        buffer_len: usize,
        out: *mut u64,
    ) -> u32;
    fn pdb_section_start(s: *const u8, s_len: usize, out: *mut u64) -> u32;
    fn pdb_section_count(s: *const u8, s_len: usize, out: *mut u64) -> u32;
    fn pdb_section_create(s: *const u8, s_len: usize, table: *mut u32, table_len: usize, shift: u32, out: *mut u64) -> u32;
    fn pdb_section_index(s: *const u8, s_len: usize, table: *mut u32, table_len: usize, shift: u32, out: *mut u64) -> u32;
    fn pdb_section_stream(s: *const u8, s_len: usize, buffer: *mut u8, buffer_len: usize, out: *mut u64) -> u32;
    fn pdb_section_read(s: *const u8, s_len: usize, index: u32, place: usize, length: usize, out: *mut u64) -> u32;
    fn pdb_fit(s: *const u8, s_len: usize, out: *mut u64) -> u32;
    fn pdb_drop(
        s: *const u8,
        s_len: usize,
        roots: *const u32,
        roots_len: usize,
        table: *mut u32,
        table_len: usize,
        buffer: *mut u8,
        buffer_len: usize,
        out: *mut u64,
    ) -> u32;
    fn pdb_report(
        s: *const u8,
        s_len: usize,
        taken: u64,
        refused: u64,
        headers: u64,
        records: u64,
        bytes: u64,
        largest: u64,
        stream: u64,
        index: u32,
        rows: u64,
        table: *mut u64,
        out: *mut u64,
    ) -> u32;
    fn pdb_layout(which: u32, leaf: u16) -> u64;
    fn pdb_cells(s: *const u8, s_len: usize, ids: u32, cells: *mut u64, out: *mut u64) -> u32;
    fn pdb_write_type(text: *const u8, text_len: usize, leaf: u16, cells: *const u64, buffer: *mut u8, buffer_len: usize, at: usize, out: *mut u64) -> u32;
    fn pdb_write_id(text: *const u8, text_len: usize, leaf: u16, cells: *const u64, buffer: *mut u8, buffer_len: usize, at: usize, out: *mut u64) -> u32;
    fn pdb_write_fields(
        text: *const u8,
        text_len: usize,
        rows: *const [u64; ROW],
        rows_len: usize,
        buffer: *mut u8,
        buffer_len: usize,
        at: usize,
        out: *mut u64,
    ) -> u32;
    fn pdb_write_methods(
        text: *const u8,
        text_len: usize,
        rows: *const [u64; ROW],
        rows_len: usize,
        buffer: *mut u8,
        buffer_len: usize,
        at: usize,
        out: *mut u64,
    ) -> u32;
    fn pdb_write_header(fields: *const u32, hash_stream: u16, hash_pad_stream: u16, buffer: *mut u8, buffer_len: usize, at: usize, out: *mut u64) -> u32;
}

/// A finder's numbers, which stand beside its table.
#[derive(Debug, Clone, Copy, PartialEq, Eq)]
pub(crate) struct Numbers {
    pub minimum: u32,
    pub maximum: u32,
    pub held: usize,
    pub shift: u32,
}

/// Makes a call and gives its row to `then`, or its number and its row to `refused`, in place: a row is as long as fifteen numbers, and is read where it was
/// written.
///
/// # Safety
///
/// `call` writes all N numbers of the row that it is given, which is so where it hands the row to a function whose `out` has N numbers in the header.
#[inline(always)]
unsafe fn ask_or<const N: usize, T>(
    call: impl FnOnce(*mut u64) -> u32,
    then: impl FnOnce(&[u64; N]) -> T,
    refused: impl FnOnce(u32, &[u64; N]) -> Error,
) -> Result<T> {
    let mut out = MaybeUninit::<[u64; N]>::uninit();
    #[cfg(test)]
    out.write([tests::UNWRITTEN; N]);
    let number = call(out.as_mut_ptr().cast());
    // SAFETY: `call` has written all of it.
    let out = unsafe { out.assume_init_ref() };
    #[cfg(test)]
    assert!(!out.contains(&tests::UNWRITTEN), "a place of the row was not written");
    match number {
        0 => Ok(then(out)),
        n => Err(refused(n, out)),
    }
}

/// The same, where the first two numbers of the row are the details of a refusal.
///
/// # Safety
///
/// As of `ask_or`.
#[inline(always)]
unsafe fn ask<const N: usize, T>(call: impl FnOnce(*mut u64) -> u32, then: impl FnOnce(&[u64; N]) -> T) -> Result<T> {
    // SAFETY: as the caller promises.
    unsafe { ask_or(call, then, |n, out| Error::named(n, out[0], out[1])) }
}

#[inline]
pub(crate) fn header<T>(s: &[u8], then: impl FnOnce(&[u64; HEADER_OUT]) -> T) -> Result<T> {
    // SAFETY: a slice with its own length, and a row of its own; see the top of this file.
    unsafe { ask(|out| pdb_header(s.as_ptr(), s.len(), out), then) }
}

#[inline]
pub(crate) fn next<T>(s: &[u8], at: usize, index: u32, then: impl FnOnce(&[u64; NEXT_OUT]) -> T) -> Result<T> {
    // SAFETY: a slice with its own length, and a row of its own; see the top of this file.
    unsafe { ask(|out| pdb_next(s.as_ptr(), s.len(), at, index, out), then) }
}

#[inline]
pub(crate) fn update<T>(table: &mut [u32], f: Numbers, at: usize, index: u32, then: impl FnOnce(&[u64; UPDATE_OUT]) -> T) -> Result<T> {
    // SAFETY: a slice with its own length, lent by `&mut`, and a row of its own; see the top of this file.
    unsafe {
        ask(
            |out| pdb_update(table.as_mut_ptr(), table.len(), f.minimum, f.maximum, f.held, f.shift, at, index, out),
            then,
        )
    }
}

#[inline]
pub(crate) fn find<T>(s: &[u8], table: &[u32], f: Numbers, index: u32, then: impl FnOnce(&[u64; FIND_OUT]) -> T) -> Result<T> {
    // 1 from `find` has the links passed: told apart here, since of all other calls it has no detail
    let refused = |n: u32, out: &[u64; FIND_OUT]| match n {
        1 => Error::EndedAfter(out[0] as u32),
        n => Error::named(n, out[0], out[1]),
    };
    // SAFETY: slices with their own lengths, only read, and a row of its own; see the top of this file.
    unsafe {
        ask_or(
            |out| {
                pdb_find(
                    s.as_ptr(),
                    s.len(),
                    table.as_ptr(),
                    table.len(),
                    f.minimum,
                    f.maximum,
                    f.held,
                    f.shift,
                    index,
                    out,
                )
            },
            then,
            refused,
        )
    }
}

#[inline]
pub(crate) fn primitive<T>(index: u32, then: impl FnOnce(&[u64; PRIMITIVE_OUT]) -> T) -> Result<T> {
    // SAFETY: a row of its own; see the top of this file.
    unsafe { ask(|out| pdb_primitive(index, out), then) }
}

pub(crate) fn create(s: &[u8], table: &mut [u32], shift: u32) -> Result<[u64; CREATE_OUT]> {
    // SAFETY: slices with their own lengths, the written one lent by `&mut`, and a row of its own; see the top of this file.
    unsafe { ask(|out| pdb_create(s.as_ptr(), s.len(), table.as_mut_ptr(), table.len(), shift, out), |o| *o) }
}

pub(crate) fn index(s: &[u8], table: &mut [u32], shift: u32) -> Result<[u64; INDEX_OUT]> {
    // SAFETY: slices with their own lengths, the written one lent by `&mut`, and a row of its own; see the top of this file.
    unsafe { ask(|out| pdb_index(s.as_ptr(), s.len(), table.as_mut_ptr(), table.len(), shift, out), |o| *o) }
}

#[inline]
pub(crate) fn max_index(f: Numbers) -> u32 {
    // SAFETY: numbers alone, of which nothing is asked.
    unsafe { pdb_max_index(f.minimum, f.maximum, f.held, f.shift) }
}

pub(crate) fn save(s: &[u8], table: &[u32], f: Numbers, buffer: &mut [u8]) -> Result<usize> {
    // SAFETY: slices with their own lengths, the written one lent by `&mut`, and a row of its own; see the top of this file.
    unsafe {
        ask(
            |out| {
                pdb_save(
                    s.as_ptr(),
                    s.len(),
                    table.as_ptr(),
                    table.len(),
                    f.minimum,
                    f.maximum,
                    f.held,
                    f.shift,
                    buffer.as_mut_ptr(),
                    buffer.len(),
                    out,
                )
            },
            |o: &[u64; SAVE_OUT]| o[SAVE_BYTES] as usize,
        )
    }
}

pub(crate) fn load(s: &[u8], file: &[u8], table: &mut [u32]) -> Result<Numbers> {
    // SAFETY: slices with their own lengths, the written one lent by `&mut`, and a row of its own; see the top of this file.
    unsafe {
        ask(
            |out| pdb_load(s.as_ptr(), s.len(), file.as_ptr(), file.len(), table.as_mut_ptr(), table.len(), out),
            |o: &[u64; LOAD_OUT]| Numbers {
                minimum: o[LOAD_MINIMUM] as u32,
                maximum: o[LOAD_MAXIMUM] as u32,
                held: o[LOAD_HELD] as usize,
                shift: o[LOAD_SHIFT] as u32,
            },
        )
    }
}

#[inline]
pub(crate) fn type_<T>(s: &[u8], then: impl FnOnce(&[u64; TYPE_OUT]) -> T) -> Result<T> {
    // SAFETY: a slice with its own length, and a row of its own; see the top of this file.
    unsafe { ask(|out| pdb_type(s.as_ptr(), s.len(), out), then) }
}

#[inline]
pub(crate) fn id<T>(s: &[u8], then: impl FnOnce(&[u64; ID_OUT]) -> T) -> Result<T> {
    // SAFETY: a slice with its own length, and a row of its own; see the top of this file.
    unsafe { ask(|out| pdb_id(s.as_ptr(), s.len(), out), then) }
}

/// An entry of a type stream; a place that is none is a marker's.
pub(crate) fn parse(tpi: &[u8], index: u32, place: Option<usize>, length: usize) -> Result<[u64; PARSE_OUT]> {
    let none = [];
    // SAFETY: slices with their own lengths, only read, and a row of its own; see the top of this file.
    unsafe {
        ask(
            |out| {
                pdb_parse(
                    tpi.as_ptr(),
                    tpi.len(),
                    none.as_ptr(),
                    0,
                    0,
                    place.is_some().into(),
                    index,
                    place.unwrap_or(0),
                    length,
                    out,
                )
            },
            |o| *o,
        )
    }
}

#[inline]
pub(crate) fn list<T>(s: &[u8], ids: bool, then: impl FnOnce(&[u64; LIST_OUT]) -> T) -> Result<T> {
    // SAFETY: a slice with its own length, and a row of its own; see the top of this file.
    unsafe { ask(|out| pdb_list(s.as_ptr(), s.len(), ids.into(), out), then) }
}

/// Where a list's next element is: what `pdb_list` and `pdb_step` give, and `pdb_step` takes.
#[derive(Debug, Clone, Copy, PartialEq, Eq)]
pub(crate) struct Cursor {
    pub at: usize,
    pub left: u32,
    pub padded: u32,
}

#[inline]
pub(crate) fn step<T>(s: &[u8], leaf: u16, cursor: Cursor, then: impl FnOnce(&[u64; STEP_OUT]) -> T) -> Result<T> {
    // SAFETY: a slice with its own length, and a row of its own; see the top of this file.
    unsafe { ask(|out| pdb_step(s.as_ptr(), s.len(), leaf, cursor.at, cursor.left, cursor.padded, out), then) }
}

pub(crate) fn is_cross_module(index: u32) -> bool {
    // SAFETY: a number alone, of which nothing is asked.
    unsafe { pdb_is_cross_module(index) != 0 }
}

/// A row of a word: no word is refused, so that the row is given as it stands.
///
/// # Safety
///
/// As of `ask_or`.
#[inline(always)]
unsafe fn word<const N: usize>(call: impl FnOnce(*mut u64) -> u32) -> [u64; N] {
    // SAFETY: as the caller promises.
    unsafe { ask(call, |o: &[u64; N]| *o) }.unwrap_or([0; N])
}

pub(crate) fn properties(n: u16) -> [u64; PROPERTIES_OUT] {
    // SAFETY: a row of its own; see the top of this file.
    unsafe { word(|out| pdb_properties(n, out)) }
}

pub(crate) fn field_attributes(n: u16) -> [u64; FIELD_OUT] {
    // SAFETY: a row of its own; see the top of this file.
    unsafe { word(|out| pdb_field_attributes(n, out)) }
}

pub(crate) fn function_attributes(n: u16) -> [u64; FUNCTION_OUT] {
    // SAFETY: a row of its own; see the top of this file.
    unsafe { word(|out| pdb_function_attributes(n, out)) }
}

pub(crate) fn pointer_attributes(n: u32) -> [u64; POINTER_OUT] {
    // SAFETY: a row of its own; see the top of this file.
    unsafe { word(|out| pdb_pointer_attributes(n, out)) }
}

pub(crate) fn declare(s: &[u8], table: &[u32], f: Numbers, index: u32, buffer: &mut [u8]) -> Result<usize> {
    // SAFETY: slices with their own lengths, the written one lent by `&mut`, and a row of its own; see the top of this file.
    unsafe {
        ask(
            |out| {
                pdb_declare(
                    s.as_ptr(),
                    s.len(),
                    table.as_ptr(),
                    table.len(),
                    f.minimum,
                    f.maximum,
                    f.held,
                    f.shift,
                    index,
                    buffer.as_mut_ptr(),
                    buffer.len(),
                    out,
                )
            },
            |o: &[u64; DECLARE_OUT]| o[DECLARE_BYTES] as usize,
        )
    }
}

pub(crate) fn section_start(s: &[u8]) -> Result<(usize, u32)> {
    // SAFETY: a slice with its own length, and a row of its own; see the top of this file.
    unsafe {
        ask(
            |out| pdb_section_start(s.as_ptr(), s.len(), out),
            |o: &[u64; SECTION_START_OUT]| (o[SECTION_START_AT] as usize, o[SECTION_START_INDEX] as u32),
        )
    }
}

pub(crate) fn section_count(s: &[u8]) -> Result<u64> {
    // SAFETY: a slice with its own length, and a row of its own; see the top of this file.
    unsafe {
        ask(
            |out| pdb_section_count(s.as_ptr(), s.len(), out),
            |o: &[u64; SECTION_COUNT_OUT]| o[SECTION_COUNT_RECORDS],
        )
    }
}

pub(crate) fn section_create(s: &[u8], table: &mut [u32], shift: u32) -> Result<[u64; CREATE_OUT]> {
    // SAFETY: slices with their own lengths, the written one lent by `&mut`, and a row of its own; see the top of this file.
    unsafe {
        ask(
            |out| pdb_section_create(s.as_ptr(), s.len(), table.as_mut_ptr(), table.len(), shift, out),
            |o| *o,
        )
    }
}

pub(crate) fn section_index(s: &[u8], table: &mut [u32], shift: u32) -> Result<[u64; INDEX_OUT]> {
    // SAFETY: slices with their own lengths, the written one lent by `&mut`, and a row of its own; see the top of this file.
    unsafe {
        ask(
            |out| pdb_section_index(s.as_ptr(), s.len(), table.as_mut_ptr(), table.len(), shift, out),
            |o| *o,
        )
    }
}

pub(crate) fn section_stream(s: &[u8], buffer: &mut [u8]) -> Result<usize> {
    // SAFETY: slices with their own lengths, the written one lent by `&mut`, and a row of its own; see the top of this file.
    unsafe {
        ask(
            |out| pdb_section_stream(s.as_ptr(), s.len(), buffer.as_mut_ptr(), buffer.len(), out),
            |o: &[u64; SECTION_STREAM_OUT]| o[SECTION_STREAM_BYTES] as usize,
        )
    }
}

#[inline]
pub(crate) fn section_read<T>(s: &[u8], index: u32, place: usize, length: usize, then: impl FnOnce(&[u64; PARSE_OUT]) -> T) -> Result<T> {
    // SAFETY: a slice with its own length, and a row of its own; see the top of this file.
    unsafe { ask(|out| pdb_section_read(s.as_ptr(), s.len(), index, place, length, out), then) }
}

pub(crate) fn fit(s: &[u8]) -> Result<[u64; FIT_OUT]> {
    // SAFETY: a slice with its own length, and a row of its own; see the top of this file.
    unsafe { ask(|out| pdb_fit(s.as_ptr(), s.len(), out), |o| *o) }
}

pub(crate) fn drop(s: &[u8], roots: &[u32], table: &mut [u32], buffer: &mut [u8]) -> Result<usize> {
    // SAFETY: slices with their own lengths, the written ones lent by `&mut`, and a row of its own; see the top of this file.
    unsafe {
        ask(
            |out| {
                pdb_drop(
                    s.as_ptr(),
                    s.len(),
                    roots.as_ptr(),
                    roots.len(),
                    table.as_mut_ptr(),
                    table.len(),
                    buffer.as_mut_ptr(),
                    buffer.len(),
                    out,
                )
            },
            |o: &[u64; DROP_OUT]| o[DROP_BYTES] as usize,
        )
    }
}

/// A report's numbers, as `pdb_report` has them behind `out[REPORT_TAKEN]`.
pub(crate) type ReportNumbers = [u64; REPORT_OUT - REPORT_TAKEN];

pub(crate) fn report(s: &[u8], n: &ReportNumbers, table: &mut [u64; REPORT_TABLE]) -> Result<ReportNumbers> {
    // SAFETY: a slice with its own length, a table of the length that the header names, lent by `&mut`, and a row of its own; see the top of this file.
    unsafe {
        ask(
            |out| {
                pdb_report(
                    s.as_ptr(),
                    s.len(),
                    n[0],
                    n[1],
                    n[2],
                    n[3],
                    n[4],
                    n[5],
                    n[6],
                    n[7] as u32,
                    n[8],
                    table.as_mut_ptr(),
                    out,
                )
            },
            |o: &[u64; REPORT_OUT]| std::array::from_fn(|k| o[REPORT_TAKEN + k]),
        )
    }
}

pub(crate) fn layout(which: u32, leaf: u16) -> u64 {
    // SAFETY: numbers alone, of which nothing is asked.
    unsafe { pdb_layout(which, leaf) }
}

pub(crate) fn cells(s: &[u8], ids: bool, cells: &mut [u64; CELLS]) -> Result<u16> {
    // SAFETY: a slice with its own length, cells of the length that the header names, lent by `&mut`, and a row of its own; see the top of this file.
    unsafe {
        ask(
            |out| pdb_cells(s.as_ptr(), s.len(), ids.into(), cells.as_mut_ptr(), out),
            |o: &[u64; CELLS_OUT]| o[CELLS_LEAF] as u16,
        )
    }
}

/// The place behind what was written.
#[inline]
fn written(o: &[u64; WRITE_OUT]) -> usize {
    o[WRITE_NEXT] as usize
}

pub(crate) fn write_record(text: &[u8], ids: bool, leaf: u16, cells: &[u64; CELLS], buffer: &mut [u8], at: usize) -> Result<usize> {
    let write = if ids { pdb_write_id } else { pdb_write_type };
    // SAFETY: slices with their own lengths, the written one lent by `&mut`, cells of the length that the header names, and a row of its own; see the top of
    // this file. Both functions have the same duties.
    unsafe {
        ask(
            |out| write(text.as_ptr(), text.len(), leaf, cells.as_ptr(), buffer.as_mut_ptr(), buffer.len(), at, out),
            written,
        )
    }
}

pub(crate) fn write_rows(text: &[u8], methods: bool, rows: &[[u64; ROW]], buffer: &mut [u8], at: usize) -> Result<usize> {
    let write = if methods { pdb_write_methods } else { pdb_write_fields };
    // SAFETY: slices with their own lengths, the written one lent by `&mut`, and a row of its own; see the top of this file. Both functions have the same
    // duties.
    unsafe {
        ask(
            |out| write(text.as_ptr(), text.len(), rows.as_ptr(), rows.len(), buffer.as_mut_ptr(), buffer.len(), at, out),
            written,
        )
    }
}

pub(crate) fn write_header(fields: &[u32; 13], hash_stream: u16, hash_pad_stream: u16, buffer: &mut [u8], at: usize) -> Result<usize> {
    // SAFETY: a slice with its own length, lent by `&mut`, thirteen fields, and a row of its own; see the top of this file.
    unsafe {
        ask(
            |out| pdb_write_header(fields.as_ptr(), hash_stream, hash_pad_stream, buffer.as_mut_ptr(), buffer.len(), at, out),
            written,
        )
    }
}

#[cfg(test)]
mod tests {
    use super::*;
    use std::collections::HashMap;

    /// A number that no call gives for these inputs: where it still stands in a row, the row was not written whole.
    pub(super) const UNWRITTEN: u64 = 0x5a17_ed00_dead_beef;

    /// Every function once or more, answered and refused: `ask` looks whether the row is written.
    #[test]
    fn every_row_is_written() {
        let tpi: &[u8] = include_bytes!("../../samples/rich-x64.tpi");
        let ipi: &[u8] = include_bytes!("../../samples/rich-x64.ipi");
        let section: &[u8] = include_bytes!("../../samples/rich-x64.debugT");
        let f = Numbers {
            minimum: 0x1000,
            maximum: 0x10e8,
            held: 1,
            shift: 3,
        };
        let cut = &tpi[..100];
        for s in [&[][..], &tpi[..1], &tpi[..55], cut, tpi, ipi, section, &[0xff; 80], &[0; 80]] {
            let (mut table, mut buffer) = (vec![56; 64], vec![0; s.len() + 64]);
            let _ = header(s, |_| ());
            for at in [0, 4, 56, s.len(), usize::MAX] {
                for index in [0, 0x1000, u32::MAX] {
                    let _ = next(s, at, index, |_| ());
                    let _ = update(&mut table, f, at, index, |_| ());
                    let _ = find(s, &table, f, index, |_| ());
                    let _ = declare(s, &table, f, index, &mut buffer);
                    let _ = parse(s, index, Some(at), 20);
                    let _ = parse(s, index, None, 2);
                    let _ = section_read(s, index, at, 20, |_| ());
                }
            }
            for shift in [0, 3, 7] {
                for room in [0, 64] {
                    let _ = create(s, &mut table[..room], shift);
                    let _ = index(s, &mut table[..room], shift);
                    let _ = section_create(s, &mut table[..room], shift);
                    let _ = section_index(s, &mut table[..room], shift);
                    let _ = save(s, &table, Numbers { shift, ..f }, &mut buffer[..room]);
                    let _ = load(s, &buffer[..room], &mut table);
                    let _ = section_stream(s, &mut buffer[..room]);
                    let _ = super::drop(s, &[0x1000], &mut table[..room], &mut buffer);
                }
            }
            let _ = (section_start(s), section_count(s), section_stream(s, &mut buffer), fit(s));
            let _ = report(s, &[0; 9], &mut [0; REPORT_TABLE]);
            let _ = report(s, &[u64::MAX; 9], &mut [0; REPORT_TABLE]);
        }
        let finder = crate::TypeInformation::parse(tpi).unwrap().indexed().unwrap();
        assert!(finder.save().is_ok() && super::drop(tpi, &[0x1000], &mut [0; 232], &mut vec![0; tpi.len()]).is_ok());
        // records and elements, whole and cut after each byte
        let types = crate::TypeInformation::parse(tpi).unwrap();
        let ids = crate::IdInformation::parse(ipi).unwrap();
        let records = types
            .iter()
            .map(|item| item.unwrap().bytes())
            .chain(ids.iter().map(|item| item.unwrap().bytes()));
        for record in records {
            for bytes in (0..=record.len().min(60)).map(|n| &record[..n]).chain([record]) {
                let _ = (type_(bytes, |_| ()), id(bytes, |_| ()), list(bytes, false, |_| ()), list(bytes, true, |_| ()));
                let leaf = record.first().map_or(0, |_| u16::from_le_bytes([record[0], record[1]]));
                for at in 0..bytes.len().min(20) {
                    let _ = step(bytes, leaf, Cursor { at, left: 1, padded: 0 }, |_| ());
                    let _ = step(bytes, leaf, Cursor { at, left: 0, padded: 1 }, |_| ());
                }
                for is_id in [false, true] {
                    let mut row = [0; CELLS];
                    if let Ok(leaf) = cells(bytes, is_id, &mut row) {
                        for room in [0, 100_000] {
                            let _ = write_record(bytes, is_id, leaf, &row, &mut vec![0; room], 0);
                        }
                    }
                    let _ = write_record(bytes, is_id, leaf, &[9; CELLS], &mut [0; 9], 0);
                    let _ = write_rows(bytes, is_id, &[[0; ROW]], &mut [0; 9], 0);
                    let _ = write_rows(bytes, is_id, &[], &mut [0; 9], 0);
                }
            }
        }
        for size in [0, 56, 4000] {
            let _ = write_header(&[size; 13], 0, 0, &mut [0; 56], 0);
        }
        for n in [0, 0x74, 0x7c, 0x1000] {
            let _ = primitive(n, |_| ());
        }
    }

    /// The constants of the header's enumerations, counted as C counts them.
    fn constants() -> HashMap<String, usize> {
        let header = include_str!("../../c/pdb.h");
        let mut found = HashMap::new();
        for part in header.split("enum {").skip(1) {
            let (body, _) = part.split_once('}').expect("an end");
            let mut next = 0;
            for word in body.split(',').map(str::trim).filter(|word| !word.is_empty()) {
                let (name, number) = match word.split_once('=') {
                    Some((name, number)) => (name.trim(), number.trim().parse().expect(word)),
                    None => (word, next),
                };
                found.insert(name.to_string(), number);
                next = number + 1;
            }
        }
        found
    }

    /// What `parse` of a record does by its bytes alone is what the library does by the whole stream: records, markers, and places and lengths that pass the end.
    #[test]
    fn records_by_their_bytes_are_the_streams() {
        let streams: [&[u8]; 2] = [include_bytes!("../../samples/hand.tpi"), include_bytes!("../../samples/rich-x64.tpi")];
        for s in streams {
            let finder = crate::TypeInformation::parse(s).unwrap().indexed().unwrap();
            for index in (0..0x1200).chain([0x2000, u32::MAX]) {
                let Ok(item) = finder.find(crate::TypeIndex(index)) else { continue };
                let whole = super::parse(s, index, item.place(), item.len());
                let alone = item.parse();
                match (whole, alone) {
                    (Ok(o), Ok(crate::TypeData::Primitive(p))) => {
                        assert_eq!(
                            [o[2], o[4 - 1], o[4]],
                            [2, p.kind.number().into(), p.indirection.map_or(0, |i| i.number().into())]
                        );
                    }
                    (Ok(o), Ok(data)) => {
                        assert_eq!((o[super::row::PARSE_WHICH], o[super::row::PARSE_LEAF]), (0, item.raw_kind().unwrap().into()));
                        let row = std::array::from_fn(|k| o[k + 1]);
                        assert_eq!(crate::TypeData::of_row(item.bytes(), &row), data);
                    }
                    (whole, alone) => assert_eq!(whole.err(), alone.err()),
                }
            }
            // a marker from 0x1000 on, which a stream with a higher minimum has
            let marker = crate::Type::new(crate::TypeIndex(0x1000), &[0xff, 0xff]);
            assert_eq!(super::parse(s, 0x1000, None, 2).err(), marker.parse().err());
        }
    }

    /// The same of sections.
    #[test]
    fn section_records_by_their_bytes_are_the_sections() {
        let s: &[u8] = include_bytes!("../../samples/rich-x64.debugT");
        for item in crate::Section::parse(s).unwrap() {
            let item = item.unwrap();
            let whole = super::section_read(s, item.index().0, item.place().unwrap(), item.len(), |o| *o);
            let alone = super::section_read(item.bytes(), item.index().0, 0, item.len(), |o| *o);
            assert_eq!(whole, alone);
        }
    }

    #[test]
    fn places_are_the_headers() {
        let constants = constants();
        for (name, number) in super::row::ALL {
            assert_eq!(constants.get(&format!("PDB_{name}")), Some(number), "{name}");
        }
    }

    /// Each declaration of this file has as many arguments as the header's, and each function of the header is declared here or named as left out.
    #[test]
    fn functions_are_the_headers() {
        let left_out = [
            "pdb_view",
            "pdb_kind",
            "pdb_save_short",
            "pdb_load_short",
            "pdb_string",
            "pdb_padding",
            "pdb_size",
            "pdb_number",
            "pdb_optional_type",
            "pdb_optional_id",
            "pdb_section_list",
        ];
        let count = |text: &str, name: &str, start: &str| {
            let (_, from) = text.split_once(&format!("{start}{name}("))?;
            let (arguments, _) = from.split_once(')')?;
            Some(arguments.split(',').filter(|argument| !argument.trim().is_empty()).count())
        };
        // the parentheses of an array's pointer would end a list of arguments too early
        let header = &include_str!("../../c/pdb.h").replace("(*rows)", "*rows");
        let here = include_str!("ffi.rs");
        let mut functions = 0;
        for line in header
            .lines()
            .filter(|line| line.starts_with("uint32_t pdb_") || line.starts_with("uint64_t pdb_"))
        {
            let name = line.split([' ', '(']).nth(1).expect("a name");
            functions += 1;
            let wanted = count(header, name, " ");
            let got = count(here, name, "    fn ");
            if left_out.contains(&name) {
                assert_eq!(got, None, "{name}");
            } else {
                assert_eq!(got, wanted, "{name}");
            }
        }
        assert_eq!(functions, 48);
    }
}

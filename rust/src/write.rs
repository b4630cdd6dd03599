//! Writing: records from cells, lists from their elements, and a stream of them.
use crate::data::{Member, MethodListEntry, RawString, Variant};
use crate::error::{Error, Result};
use crate::ffi::{self, row};
use crate::list::{FieldList, MethodList};
use crate::names::Leaf;
use crate::primitive::numbered;
use crate::room;
use crate::stream::{Header, IdIndex, TypeIndex};
use crate::{Id, Type};
use std::fmt;
use std::ops::Deref;

/// A field of a record, by its kind alone: for what takes every leaf alike, such as a dump or a writer.
#[derive(Debug, Clone, Copy, Default, PartialEq, Eq)]
pub enum Cell {
    /// A field that is not there, one that has no name, and the list of a field list or a method list.
    #[default]
    Absent,
    /// A number of a fixed width: an index, a count, a word.
    Number(u64),
    /// A numeric leaf, 0 or above. A writer takes as few bytes as carry it.
    Natural {
        /// The number.
        value: u64,
        /// The bytes that it took.
        width: u8,
        /// Whether a shorter form carries it.
        shorter: bool,
    },
    /// A numeric leaf below 0.
    Negative {
        /// The number is -1 - n.
        n: u64,
        /// The bytes that it took.
        width: u8,
        /// Whether a shorter form carries it.
        shorter: bool,
    },
    /// A string or a run: a part of the record's bytes, or of a writer's text.
    Part {
        /// Where it starts.
        place: usize,
        /// How many bytes it has.
        length: usize,
    },
}

impl Cell {
    /// A numeric leaf of a number, for a writer.
    pub const fn natural(value: u64) -> Cell {
        Cell::Natural {
            value,
            width: 0,
            shorter: false,
        }
    }

    fn of_three(three: &[u64]) -> Option<Cell> {
        let (first, second) = (three[1], three[2]);
        Some(match three[0] {
            1 => Cell::Absent,
            2 => Cell::Number(first),
            kind @ (3 | 4) => Cell::Natural {
                value: first,
                width: second as u8,
                shorter: kind == 4,
            },
            kind @ (5 | 6) => Cell::Negative {
                n: first,
                width: second as u8,
                shorter: kind == 6,
            },
            7 => Cell::Part {
                place: first as usize,
                length: second as usize,
            },
            _ => return None,
        })
    }

    fn three(self) -> [u64; 3] {
        match self {
            Cell::Absent => [1, 0, 0],
            Cell::Number(n) => [2, n, 0],
            Cell::Natural { value, width, shorter } => [3 + u64::from(shorter), value, width.into()],
            Cell::Negative { n, width, shorter } => [5 + u64::from(shorter), n, width.into()],
            Cell::Part { place, length } => [7, place as u64, length as u64],
        }
    }
}

/// A record's leaf and cells, one for each field of its layout; it is a slice of them. [`cells`] gives it.
#[derive(Debug, Clone, Copy, PartialEq, Eq)]
pub struct Cells {
    leaf: Leaf,
    cells: [Cell; row::CELLS / 3],
    count: usize,
}

impl Cells {
    /// The record's leaf.
    pub fn leaf(&self) -> Leaf {
        self.leaf
    }
}

impl Deref for Cells {
    type Target = [Cell];

    fn deref(&self) -> &[Cell] {
        &self.cells[..self.count]
    }
}

/// The cells of a type record, or with `ids` of an id record, from its bytes, leaf first.
///
/// ```
/// use pdb_types::{cells, layout, Cell, Code, Layouts, Leaf};
///
/// // const int
/// let record = cells(b"\x01\x10\x74\x00\x00\x00\x01\x00", false)?;
/// assert_eq!((record.leaf(), &record[..]), (Leaf::MODIFIER, &[Cell::Number(0x74), Cell::Number(1)][..]));
/// assert!(layout(Layouts::Types, Leaf::MODIFIER).eq([Code::Type, Code::U16]));
/// # Ok::<(), pdb_types::Error>(())
/// ```
pub fn cells(bytes: &[u8], ids: bool) -> Result<Cells> {
    let mut raw = [0; row::CELLS];
    let leaf = Leaf(ffi::cells(bytes, ids, &mut raw)?);
    let mut found = Cells {
        leaf,
        cells: [Cell::Absent; row::CELLS / 3],
        count: 0,
    };
    for cell in raw.chunks_exact(3).map_while(Cell::of_three) {
        found.cells[found.count] = cell;
        found.count += 1;
    }
    Ok(found)
}

numbered! {
    /// A field of a layout.
    #[non_exhaustive]
    Code {
        /// A number of 8 bits.
        U8 = 1,
        /// A number of 16 bits.
        U16 = 2,
        /// A number of 32 bits.
        U32 = 3,
        /// A type index.
        Type = 4,
        /// A type index that may be none.
        OptionalType = 5,
        /// An id index.
        Id = 6,
        /// An id index that may be none.
        OptionalId = 7,
        /// A place in the table of strings.
        StringReference = 8,
        /// A word of 16 bits.
        Word16 = 9,
        /// A word of 32 bits.
        Word32 = 10,
        /// A pointer's word.
        Pointer = 11,
        /// Bytes without a name.
        Gap = 12,
        /// A numeric leaf that may be negative.
        Numeric = 13,
        /// A numeric leaf that may not.
        Size = 14,
        /// A string.
        String = 15,
        /// A run of type indices.
        Types = 16,
        /// A run of id indices.
        Ids = 17,
        /// The slots of a shape.
        Slots = 18,
        /// The methods of a method list.
        Methods = 19,
        /// A string that a property says is there.
        SecondString = 20,
        /// The class of a pointer to a member.
        MemberClass = 21,
        /// An offset that an attribute says is there.
        Offset = 22,
        /// The members of a field list.
        Members = 23,
    }
}

/// Whose layouts are asked for.
#[derive(Debug, Clone, Copy, PartialEq, Eq)]
pub enum Layouts {
    /// Type records.
    Types = 0,
    /// Id records.
    Ids = 1,
    /// Members of field lists.
    Members = 2,
    /// Methods of method lists, which have no leaf.
    Methods = 3,
}

/// The fields of a leaf, in their order; none for a leaf that has no layout.
pub fn layout(which: Layouts, leaf: Leaf) -> impl Iterator<Item = Code> {
    let mut left = ffi::layout(which as u32, leaf.0);
    std::iter::from_fn(move || {
        let code = Code::from_number((left % 32) as u8);
        left /= 32;
        code
    })
}

/// A stream that is written record by record.
///
/// ```
/// use pdb_types::{Cell, Header, Leaf, TypeIndex, Types, Writer};
///
/// let mut writer = Writer::new(Header { version: 20040203, header_size: 56, minimum_index: 0x1000, ..Header::default() })?;
/// let constant = writer.push_type(Leaf::MODIFIER, &[Cell::Number(0x74), Cell::Number(1)], b"")?;
/// writer.push_type(Leaf::POINTER, &[Cell::Number(constant.0.into()), Cell::Number(0x1000c), Cell::Absent], b"")?;
/// let stream = writer.finish()?;
/// assert_eq!(Types::parse(&stream)?.declare(TypeIndex(0x1001))?, "const int *");
/// # Ok::<(), pdb_types::Error>(())
/// ```
#[derive(Debug, Clone)]
pub struct Writer {
    header: Header,
    /// What is written, and room behind it.
    buffer: Vec<u8>,
    at: usize,
    count: u32,
    /// The names of a list's elements, and its rows: kept for the next list.
    text: Vec<u8>,
    rows: Vec<[u64; row::ROW]>,
}

/// The longest record: a length, and 65,535 bytes.
const LONGEST: usize = 2 + 65535;

impl Writer {
    /// A stream of this header. Its `maximum_index` and `gprec_size` are not looked at: [`Writer::finish`] writes what they are then.
    pub fn new(header: Header) -> Result<Writer> {
        let mut writer = Writer {
            header,
            buffer: vec![0; 4096 + LONGEST],
            at: 0,
            count: 0,
            text: Vec::new(),
            rows: Vec::new(),
        };
        // what counts the records is not known yet
        let first = Header {
            maximum_index: header.minimum_index,
            gprec_size: 0,
            ..header
        };
        writer.at = writer.write_header(&first)?;
        Ok(writer)
    }

    /// Writes a header in front of the records; the place behind it.
    fn write_header(&mut self, header: &Header) -> Result<usize> {
        let fields = [
            header.version,
            header.header_size,
            header.minimum_index,
            header.maximum_index,
            header.gprec_size,
            header.hash_key_size,
            header.hash_bucket_size,
            header.hash_values.offset as u32,
            header.hash_values.size,
            header.ti_off.offset as u32,
            header.ti_off.size,
            header.hash_adj.offset as u32,
            header.hash_adj.size,
        ];
        ffi::write_header(&fields, header.tpi_hash_stream, header.tpi_hash_pad_stream, &mut self.buffer, 0)
    }

    /// Writes a record behind the others; its index.
    fn push(&mut self, write: impl FnOnce(&mut [u8], usize) -> Result<usize>) -> Result<u32> {
        let index = self.header.minimum_index.checked_add(self.count).ok_or(Error::IndicesUsedUp)?;
        if self.buffer.len() < self.at + LONGEST {
            let longer = 2 * self.buffer.len() + LONGEST;
            room::grow(&mut self.buffer, longer)?;
        }
        self.at = write(&mut self.buffer, self.at)?;
        self.count += 1;
        Ok(index)
    }

    fn push_cells(&mut self, ids: bool, leaf: Leaf, cells: &[Cell], text: &[u8]) -> Result<u32> {
        let mut raw = [0; row::CELLS];
        if cells.len() > row::CELLS / 3 {
            return Err(Error::WouldNotReadBack);
        }
        for (three, cell) in raw.chunks_exact_mut(3).zip(cells) {
            three.copy_from_slice(&cell.three());
        }
        self.push(|buffer, at| ffi::write_record(text, ids, leaf.0, &raw, buffer, at))
    }

    /// Writes a type record: its leaf, a cell for each field of its layout, and the bytes that its strings and runs are parts of. Its index. Refused are cells
    /// that a reader would not give back (17), and more than 65,535 bytes (18).
    pub fn push_type(&mut self, leaf: Leaf, cells: &[Cell], text: &[u8]) -> Result<TypeIndex> {
        self.push_cells(false, leaf, cells, text).map(TypeIndex)
    }

    /// Writes an id record, likewise.
    pub fn push_id(&mut self, leaf: Leaf, cells: &[Cell], text: &[u8]) -> Result<IdIndex> {
        self.push_cells(true, leaf, cells, text).map(IdIndex)
    }

    /// Writes a field list. A continuation can only be its last member.
    pub fn push_fields<'m>(&mut self, members: impl IntoIterator<Item = Member<'m>>) -> Result<TypeIndex> {
        let (mut rows, mut text) = self.taken();
        for member in members {
            room::more(&mut rows, 1)?;
            rows.push(member_row(&member, &mut text)?);
        }
        self.push_rows(false, rows, text)
    }

    /// Writes a method list.
    pub fn push_methods(&mut self, methods: impl IntoIterator<Item = MethodListEntry>) -> Result<TypeIndex> {
        let (mut rows, text) = self.taken();
        for m in methods {
            let offset = m.vtable_offset;
            let numbers = [
                m.attributes.0.into(),
                m.method_type.0.into(),
                offset.is_some().into(),
                offset.unwrap_or(0).into(),
            ];
            room::more(&mut rows, 1)?;
            rows.push(filled(&numbers));
        }
        self.push_rows(true, rows, text)
    }

    fn taken(&mut self) -> (Vec<[u64; row::ROW]>, Vec<u8>) {
        let (mut rows, mut text) = (std::mem::take(&mut self.rows), std::mem::take(&mut self.text));
        rows.clear();
        text.clear();
        (rows, text)
    }

    fn push_rows(&mut self, methods: bool, rows: Vec<[u64; row::ROW]>, text: Vec<u8>) -> Result<TypeIndex> {
        let index = self.push(|buffer, at| ffi::write_rows(&text, methods, &rows, buffer, at));
        (self.rows, self.text) = (rows, text);
        index.map(TypeIndex)
    }

    /// Writes a type record again. It comes back byte for byte where it is in normal form: each number as short as can be, filled to a multiple of four bytes as
    /// the writer fills, and nothing in the bytes without a name.
    ///
    /// ```
    /// use pdb_types::{TypeInformation, Writer};
    ///
    /// let types = TypeInformation::parse(include_bytes!("../../samples/plain-x64.tpi"))?;
    /// let mut writer = Writer::new(*types.header())?;
    /// for item in &types {
    ///     writer.push_type_again(&item?)?;
    /// }
    /// assert_eq!(writer.finish()?, types.bytes());
    /// # Ok::<(), pdb_types::Error>(())
    /// ```
    pub fn push_type_again(&mut self, item: &Type<'_>) -> Result<TypeIndex> {
        let bytes = item.bytes();
        match item.leaf()? {
            Leaf::FIELDLIST => {
                let members: Vec<Member<'_>> = FieldList::new(bytes, ffi::Cursor::FIRST).iter().collect::<Result<_>>()?;
                self.push_fields(members)
            }
            Leaf::METHODLIST => {
                let methods: Vec<MethodListEntry> = MethodList::new(bytes, ffi::Cursor::FIRST).iter().collect::<Result<_>>()?;
                self.push_methods(methods)
            }
            leaf => {
                let record = cells(bytes, false)?;
                self.push_type(leaf, &record, bytes)
            }
        }
    }

    /// Writes an id record again, likewise.
    pub fn push_id_again(&mut self, item: &Id<'_>) -> Result<IdIndex> {
        let record = cells(item.bytes(), true)?;
        self.push_id(record.leaf(), &record, item.bytes())
    }

    /// What is written up to now, without a header that counts it.
    pub fn bytes(&self) -> &[u8] {
        &self.buffer[..self.at]
    }

    /// How many records are written.
    pub fn count(&self) -> u32 {
        self.count
    }

    /// The stream, with a header that counts its records and their bytes.
    pub fn finish(self) -> Result<Vec<u8>> {
        let header = Header {
            maximum_index: self.header.minimum_index.checked_add(self.count).ok_or(Error::IndicesUsedUp)?,
            gprec_size: self.at.saturating_sub(self.header.header_size as usize) as u32,
            ..self.header
        };
        self.finish_with(&header)
    }

    /// The stream with this header as it stands, whatever it counts. Its size must be the one that the writer began with; else 17.
    pub fn finish_with(mut self, header: &Header) -> Result<Vec<u8>> {
        if header.header_size != self.header.header_size {
            return Err(Error::WouldNotReadBack);
        }
        self.write_header(header)?;
        self.buffer.truncate(self.at);
        Ok(self.buffer)
    }
}

/// Numbers, then zeros.
fn filled(numbers: &[u64]) -> [u64; row::ROW] {
    std::array::from_fn(|k| numbers.get(k).copied().unwrap_or(0))
}

/// The row of a member, whose name goes behind the text.
fn member_row(member: &Member<'_>, text: &mut Vec<u8>) -> Result<[u64; row::ROW]> {
    let mut part = |name: RawString<'_>| -> Result<[u64; 2]> {
        let place = text.len() as u64;
        room::more(text, name.len())?;
        text.extend_from_slice(name.as_bytes());
        Ok([place, name.len() as u64])
    };
    Ok(match member {
        Member::BaseClass(m) => filled(&[0x1400, m.attributes.0.into(), m.base_class.0.into(), m.offset]),
        Member::VirtualBaseClass(m) => filled(&[
            if m.direct { 0x1401 } else { 0x1402 },
            m.attributes.0.into(),
            m.base_class.0.into(),
            m.base_pointer.0.into(),
            m.base_pointer_offset,
            m.virtual_base_offset,
        ]),
        Member::Continuation(index) => filled(&[0x1404, index.0.into()]),
        Member::VirtualFunctionTablePointer(m) => filled(&[0x1409, m.table.0.into()]),
        Member::Enumerate(m) => {
            let [place, length] = part(m.name)?;
            let (sign, n) = match m.value {
                Variant::Natural(n) => (0, n),
                Variant::Negative(n) => (1, !(n as u64)),
            };
            filled(&[0x1502, m.attributes.0.into(), sign, n, place, length])
        }
        Member::Member(m) => {
            let [place, length] = part(m.name)?;
            filled(&[0x150d, m.attributes.0.into(), m.field_type.0.into(), m.offset, place, length])
        }
        Member::StaticMember(m) => {
            let [place, length] = part(m.name)?;
            filled(&[0x150e, m.attributes.0.into(), m.field_type.0.into(), place, length])
        }
        Member::OverloadedMethod(m) => {
            let [place, length] = part(m.name)?;
            filled(&[0x150f, m.count.into(), m.method_list.0.into(), place, length])
        }
        Member::Nested(m) => {
            let [place, length] = part(m.name)?;
            filled(&[0x1510, m.attributes.0.into(), m.nested_type.0.into(), place, length])
        }
        Member::Method(m) => {
            let [place, length] = part(m.name)?;
            let (mark, offset) = (m.vtable_offset.is_some().into(), m.vtable_offset.unwrap_or(0).into());
            filled(&[0x1511, m.attributes.0.into(), m.method_type.0.into(), mark, offset, place, length])
        }
    })
}

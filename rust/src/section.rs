//! Sections of object files, `.debug$T`: a signature, then types and ids in one run, numbered from 0x1000.
use crate::data::TypeData;
use crate::error::Result;
use crate::ffi::{self, row, Numbers};
use crate::id::IdData;
use crate::primitive::numbered_type;
use crate::room;
use crate::stream::{Item, ItemFinder, ItemIter, SectionIndex};
use std::marker::PhantomData;

/// A section `.debug$T` of an object file.
///
/// ```
/// use pdb_types::{Section, SectionData, Types};
///
/// let bytes = include_bytes!("../../samples/plain-x64.debugT");
/// let section = Section::parse(bytes)?;
/// for record in &section {
///     match section.read(&record?)? {
///         SectionData::Type(data) => println!("type {:?}", data.name()),
///         SectionData::Id(data) => println!("id {:?}", data.name()),
///     }
/// }
/// // as a type stream, for all that takes one
/// let stream = section.to_stream()?;
/// assert_eq!(Types::parse(&stream)?.len(), section.count()? as usize);
/// # Ok::<(), pdb_types::Error>(())
/// ```
#[derive(Debug, Clone, Copy)]
pub struct Section<'s> {
    bytes: &'s [u8],
    start: usize,
    first: u32,
}

impl<'s> Section<'s> {
    /// Takes a section whole. Refused are one of fewer than four bytes, and another signature than 4.
    pub fn parse(bytes: &'s [u8]) -> Result<Section<'s>> {
        let (start, first) = ffi::section_start(bytes)?;
        Ok(Section { bytes, start, first })
    }

    /// Its bytes, signature and all.
    #[inline]
    pub fn bytes(&self) -> &'s [u8] {
        self.bytes
    }

    /// An iterator over the records.
    #[inline]
    pub fn iter(&self) -> ItemIter<'s, SectionIndex> {
        ItemIter::new(self.bytes, self.start, self.first)
    }

    /// How many records it has: they are walked. Refused is what refuses the walk.
    pub fn count(&self) -> Result<u64> {
        ffi::section_count(self.bytes)
    }

    /// A fresh finder with blocks of 8 records. Refused is what refuses [`Section::count`].
    pub fn finder(&self) -> Result<ItemFinder<'s, SectionIndex>> {
        self.finder_by(3)
    }

    /// A fresh finder with blocks of 2^shift records, shift 0 to 6.
    pub fn finder_by(&self, shift: u32) -> Result<ItemFinder<'s, SectionIndex>> {
        let mut table = vec![0];
        let o = ffi::section_create(self.bytes, &mut table, shift)?;
        Ok(ItemFinder {
            stream: self.bytes,
            table,
            numbers: Numbers {
                minimum: o[row::CREATE_MINIMUM] as u32,
                maximum: o[row::CREATE_MAXIMUM] as u32,
                held: o[row::CREATE_HELD] as usize,
                shift,
            },
            section: true,
            index: PhantomData,
        })
    }

    /// A finder of the whole section.
    pub fn indexed(&self) -> Result<ItemFinder<'s, SectionIndex>> {
        let mut finder = self.finder()?;
        finder.index()?;
        Ok(finder)
    }

    /// What a record holds, by the reader that takes its leaf.
    #[inline]
    pub fn read(&self, item: &Item<'s, SectionIndex>) -> Result<SectionData<'s>> {
        item.parse()
    }

    /// The type stream that is made of the section: a header, and the records as they are.
    pub fn to_stream(&self) -> Result<Vec<u8>> {
        let mut stream = room::zeros(self.bytes.len() + 52)?;
        let bytes = ffi::section_stream(self.bytes, &mut stream)?;
        stream.truncate(bytes);
        Ok(stream)
    }
}

impl<'s> IntoIterator for Section<'s> {
    type Item = Result<Item<'s, SectionIndex>>;
    type IntoIter = ItemIter<'s, SectionIndex>;

    fn into_iter(self) -> Self::IntoIter {
        self.iter()
    }
}

impl<'s> IntoIterator for &Section<'s> {
    type Item = Result<Item<'s, SectionIndex>>;
    type IntoIter = ItemIter<'s, SectionIndex>;

    fn into_iter(self) -> Self::IntoIter {
        self.iter()
    }
}

/// What a record of a section holds.
#[derive(Debug, Clone, PartialEq, Eq)]
pub enum SectionData<'s> {
    /// A type.
    Type(TypeData<'s>),
    /// An id.
    Id(IdData<'s>),
}

impl<'s> Item<'s, SectionIndex> {
    /// What the record holds, by the reader that takes its leaf.
    #[inline]
    pub fn parse(&self) -> Result<SectionData<'s>> {
        let bytes = self.bytes;
        // the record's own bytes stand in for the section: what is read does not look outside them
        ffi::section_read(bytes, self.index.0, 0, bytes.len(), |o| match o[row::PARSE_WHICH] {
            0 => SectionData::Type(TypeData::of_row(bytes, &shifted(o))),
            1 => SectionData::Id(IdData::of_row(bytes, &shifted(o))),
            _ => SectionData::Type(TypeData::Primitive(numbered_type(
                o[1 + row::PRIMITIVE_KIND],
                o[1 + row::PRIMITIVE_INDIRECTION],
            ))),
        })
    }
}

/// The row of the reader inside that of `pdb_section_read`: one place further.
#[inline]
fn shifted<const N: usize>(o: &[u64; row::PARSE_OUT]) -> [u64; N] {
    const { assert!(N < row::PARSE_OUT && row::PARSE_LEAF == row::TYPE_LEAF + 1 && row::PARSE_LEAF == row::ID_LEAF + 1) };
    std::array::from_fn(|k| o[k + 1])
}

//! Header, iterator and finder of a TPI or IPI stream.
use crate::error::{Error, Result};
use crate::ffi::{self, row, Numbers};
use crate::names::Leaf;
use crate::room;
use std::fmt;
use std::marker::PhantomData;

/// An index that names an item of a stream: a [`TypeIndex`], an [`IdIndex`] or a [`SectionIndex`].
pub trait ItemIndex: Copy + fmt::Debug + fmt::Display + PartialEq + PartialOrd + From<u32> + Into<u32> {
    /// Whether this refers to another module: the highest bit is set.
    fn is_cross_module(self) -> bool {
        ffi::is_cross_module(self.into())
    }
}

macro_rules! index {
    ($(#[$about:meta])* $name:ident) => {
        $(#[$about])*
        #[derive(Clone, Copy, Default, PartialEq, Eq, PartialOrd, Ord, Hash)]
        pub struct $name(
            /// The index as a number.
            pub u32,
        );

        impl From<u32> for $name {
            #[inline]
            fn from(n: u32) -> Self {
                $name(n)
            }
        }

        impl From<$name> for u32 {
            #[inline]
            fn from(i: $name) -> u32 {
                i.0
            }
        }

        impl fmt::Display for $name {
            fn fmt(&self, f: &mut fmt::Formatter<'_>) -> fmt::Result {
                write!(f, "{:#x}", self.0)
            }
        }

        impl fmt::Debug for $name {
            fn fmt(&self, f: &mut fmt::Formatter<'_>) -> fmt::Result {
                write!(f, concat!(stringify!($name), "({:#x})"), self.0)
            }
        }
    };
}
pub(crate) use index;

index! {
    /// The index of a type, in the TPI stream. One below 0x1000 is a primitive type. It is displayed as the crate pdb displays it: `0x1004`.
    TypeIndex
}

index! {
    /// The index of an id, in the IPI stream. It is displayed as `0x1004`.
    IdIndex
}

index! {
    /// The index of a record of a section, where types and ids are numbered in one run.
    SectionIndex
}

impl ItemIndex for TypeIndex {}
impl ItemIndex for IdIndex {}
impl ItemIndex for SectionIndex {}

impl TypeIndex {
    /// Whether it names a primitive type, which has no record: it is below 0x1000.
    #[inline]
    pub const fn is_primitive(self) -> bool {
        self.0 < 0x1000
    }
}

impl From<TypeIndex> for SectionIndex {
    fn from(i: TypeIndex) -> SectionIndex {
        SectionIndex(i.0)
    }
}

impl From<IdIndex> for SectionIndex {
    fn from(i: IdIndex) -> SectionIndex {
        SectionIndex(i.0)
    }
}

/// Where a part of the hash stream lies.
#[derive(Debug, Clone, Copy, Default, PartialEq, Eq)]
pub struct Slice {
    /// Where it starts.
    pub offset: i32,
    /// How many bytes it has.
    pub size: u32,
}

/// The header of a stream: 56 bytes. That of an empty stream is all zero.
///
/// ```
/// let header = pdb_types::Header::parse(include_bytes!("../../samples/e.tpi"))?;
/// assert_eq!((header.minimum_index, header.maximum_index, header.count()), (0x1000, 0x1002, 2));
/// # Ok::<(), pdb_types::Error>(())
/// ```
#[derive(Debug, Clone, Copy, Default, PartialEq, Eq)]
pub struct Header {
    /// The format's version.
    pub version: u32,
    /// Where the first record starts.
    pub header_size: u32,
    /// The index of the first record.
    pub minimum_index: u32,
    /// The index behind that of the last record.
    pub maximum_index: u32,
    /// The bytes of all records.
    pub gprec_size: u32,
    /// The number of the hash stream.
    pub tpi_hash_stream: u16,
    /// The number of a second hash stream.
    pub tpi_hash_pad_stream: u16,
    /// The bytes of a hash.
    pub hash_key_size: u32,
    /// The buckets of the hash table.
    pub hash_bucket_size: u32,
    /// The hashes of the records.
    pub hash_values: Slice,
    /// Where some of the records start.
    pub ti_off: Slice,
    /// Adjustments of the hash table.
    pub hash_adj: Slice,
}

impl Header {
    /// Reads the header of a stream.
    pub fn parse(stream: &[u8]) -> Result<Header> {
        ffi::header(stream, |o| {
            let slice = |k: usize| Slice {
                offset: o[k] as u32 as i32,
                size: o[k + 1] as u32,
            };
            Header {
                version: o[row::HEADER_VERSION] as u32,
                header_size: o[row::HEADER_SIZE] as u32,
                minimum_index: o[row::HEADER_MINIMUM] as u32,
                maximum_index: o[row::HEADER_MAXIMUM] as u32,
                gprec_size: o[row::HEADER_GPREC_SIZE] as u32,
                tpi_hash_stream: o[row::HEADER_HASH_STREAM] as u16,
                tpi_hash_pad_stream: o[row::HEADER_HASH_PAD_STREAM] as u16,
                hash_key_size: o[row::HEADER_HASH_KEY_SIZE] as u32,
                hash_bucket_size: o[row::HEADER_HASH_BUCKET_SIZE] as u32,
                hash_values: slice(row::HEADER_HASH_VALUES_OFFSET),
                ti_off: slice(row::HEADER_TI_OFF_OFFSET),
                hash_adj: slice(row::HEADER_HASH_ADJ_OFFSET),
            }
        })
    }

    /// The number of records that it counts.
    #[inline]
    pub fn count(&self) -> u32 {
        self.maximum_index.saturating_sub(self.minimum_index)
    }
}

/// A stream whose header is good. [`TypeInformation`](crate::TypeInformation) and [`IdInformation`](crate::IdInformation) are its two kinds.
///
/// ```
/// use pdb_types::{TypeData, TypeInformation};
///
/// let stream = include_bytes!("../../samples/e.tpi");
/// let types = TypeInformation::parse(stream)?;
/// assert_eq!(types.len(), 2);
/// for item in &types {
///     let item = item?;
///     match item.parse()? {
///         TypeData::Modifier(m) => assert!(m.constant),
///         TypeData::Pointer(p) => println!("{} points to {}", item.index(), p.underlying_type),
///         _ => {}
///     }
/// }
/// # Ok::<(), pdb_types::Error>(())
/// ```
#[derive(Debug, Clone, Copy)]
pub struct ItemInformation<'s, I> {
    stream: &'s [u8],
    header: Header,
    index: PhantomData<I>,
}

impl<'s, I: ItemIndex> ItemInformation<'s, I> {
    /// Takes a stream whole, as it comes out of the database. An empty one stands for a stream that the database does not have.
    pub fn parse(stream: &'s [u8]) -> Result<Self> {
        let header = Header::parse(stream)?;
        Ok(ItemInformation {
            stream,
            header,
            index: PhantomData,
        })
    }

    /// Its header.
    #[inline]
    pub fn header(&self) -> &Header {
        &self.header
    }

    /// The stream's bytes, header and all.
    #[inline]
    pub fn bytes(&self) -> &'s [u8] {
        self.stream
    }

    /// The number of records that the header counts.
    #[inline]
    pub fn len(&self) -> usize {
        self.header.count() as usize
    }

    /// Whether it counts none.
    #[inline]
    pub fn is_empty(&self) -> bool {
        self.len() == 0
    }

    /// An iterator over the records, from the first on.
    #[inline]
    pub fn iter(&self) -> ItemIter<'s, I> {
        ItemIter::new(self.stream, self.header.header_size as usize, self.header.minimum_index)
    }

    /// A fresh finder with blocks of 8 records, which holds the place of the first record if there is one.
    pub fn finder(&self) -> ItemFinder<'s, I> {
        // refused would be a shift above 6, a bad header, or a table without room
        self.finder_by(3).unwrap_or(ItemFinder::none(self.stream))
    }

    /// A fresh finder with blocks of 2^shift records, shift 0 to 6: a place of 4 bytes for each block, and a lookup passes half a block on average.
    pub fn finder_by(&self, shift: u32) -> Result<ItemFinder<'s, I>> {
        let mut table = vec![0];
        let o = ffi::create(self.stream, &mut table, shift)?;
        Ok(ItemFinder {
            stream: self.stream,
            numbers: Numbers {
                minimum: o[row::CREATE_MINIMUM] as u32,
                maximum: o[row::CREATE_MAXIMUM] as u32,
                held: o[row::CREATE_HELD] as usize,
                shift,
            },
            table,
            section: false,
            index: PhantomData,
        })
    }

    /// A finder of the whole stream: [`finder`](Self::finder) and [`ItemFinder::index`] in one. A walk that is refused on the way refuses it.
    pub fn indexed(&self) -> Result<ItemFinder<'s, I>> {
        let mut finder = self.finder_by(3)?;
        finder.index()?;
        Ok(finder)
    }

    /// The finder whose places a file keeps: see [`ItemFinder::save`]. Each place is looked at; a file of another stream, a cut and a changed one are refused.
    pub fn load(&self, file: &[u8]) -> Result<ItemFinder<'s, I>> {
        // a file of n places has 4 n + 28 bytes or two more
        let mut table = room::zeros(file.len() / 4)?;
        let numbers = ffi::load(self.stream, file, &mut table)?;
        table.truncate(numbers.held);
        Ok(ItemFinder {
            stream: self.stream,
            table,
            numbers,
            section: false,
            index: PhantomData,
        })
    }
}

impl<'s, I: ItemIndex> IntoIterator for ItemInformation<'s, I> {
    type Item = Result<Item<'s, I>>;
    type IntoIter = ItemIter<'s, I>;

    #[inline]
    fn into_iter(self) -> ItemIter<'s, I> {
        self.iter()
    }
}

impl<'s, I: ItemIndex> IntoIterator for &ItemInformation<'s, I> {
    type Item = Result<Item<'s, I>>;
    type IntoIter = ItemIter<'s, I>;

    #[inline]
    fn into_iter(self) -> ItemIter<'s, I> {
        self.iter()
    }
}

/// What stands for the place of a marker, which has none.
const NO_PLACE: usize = usize::MAX;

/// A record: its index, and its bytes without their length. [`Type`](crate::Type) and [`Id`](crate::Id) are its two kinds; each has a `parse` of its own.
///
/// ```
/// use pdb_types::{Leaf, TypeIndex, TypeInformation};
///
/// let types = TypeInformation::parse(include_bytes!("../../samples/e.tpi"))?;
/// let item = types.iter().next().unwrap()?;
/// assert_eq!((item.index(), item.leaf()?, item.len(), item.place()), (TypeIndex(0x1000), Leaf::MODIFIER, 8, Some(58)));
/// assert_eq!(item.bytes(), b"\x01\x10\x74\x00\x00\x00\x01\x00");
/// # Ok::<(), pdb_types::Error>(())
/// ```
#[derive(Clone, Copy, PartialEq, Eq)]
pub struct Item<'s, I> {
    pub(crate) index: I,
    pub(crate) bytes: &'s [u8],
    pub(crate) place: usize,
}

impl<'s, I: ItemIndex> Item<'s, I> {
    /// A record of its bytes, leaf first, wherever they come from. It has no place.
    pub fn new(index: I, bytes: &'s [u8]) -> Item<'s, I> {
        Item { index, bytes, place: NO_PLACE }
    }

    /// Its index.
    #[inline]
    pub fn index(&self) -> I {
        self.index
    }

    /// Its bytes, the leaf first. The marker, which stands for an index below the stream's lowest, has two bytes 0xff of no stream.
    #[inline]
    pub fn bytes(&self) -> &'s [u8] {
        self.bytes
    }

    /// Where its bytes start in the stream; none for the marker.
    #[inline]
    pub fn place(&self) -> Option<usize> {
        (self.place != NO_PLACE).then_some(self.place)
    }

    /// How many bytes it has.
    #[inline]
    pub fn len(&self) -> usize {
        self.bytes.len()
    }

    /// Whether it has none. A lookup passes and finds such a record; an iterator refuses it.
    #[inline]
    pub fn is_empty(&self) -> bool {
        self.bytes.is_empty()
    }

    /// Its leaf, which says what kind of record it is: 0xffff of the marker. A record of fewer than two bytes, which only a lookup gives, has none.
    #[inline]
    pub fn raw_kind(&self) -> Result<u16> {
        match self.bytes {
            [low, high, ..] => Ok(u16::from_le_bytes([*low, *high])),
            _ => Err(Error::Ended),
        }
    }

    /// The same with its name: `item.leaf()?.name()`.
    #[inline]
    pub fn leaf(&self) -> Result<Leaf> {
        self.raw_kind().map(Leaf)
    }
}

impl<I: ItemIndex> fmt::Debug for Item<'_, I> {
    fn fmt(&self, f: &mut fmt::Formatter<'_>) -> fmt::Result {
        match self.leaf() {
            Ok(leaf) => write!(f, "Item {{ {}: {leaf} [{} bytes] }}", self.index, self.len()),
            Err(_) => write!(f, "Item {{ {}: [{} bytes] }}", self.index, self.len()),
        }
    }
}

/// An iterator over the records of a stream. A refusal is its last item.
#[derive(Debug, Clone)]
pub struct ItemIter<'s, I> {
    stream: &'s [u8],
    at: usize,
    number: u32,
    over: bool,
    index: PhantomData<I>,
}

impl<'s, I: ItemIndex> ItemIter<'s, I> {
    #[inline]
    pub(crate) fn new(stream: &'s [u8], at: usize, number: u32) -> Self {
        ItemIter {
            stream,
            at,
            number,
            over: false,
            index: PhantomData,
        }
    }

    /// Where the next record starts in the stream, its length first; behind a refusal where the refused one does.
    #[inline]
    pub fn position(&self) -> usize {
        self.at
    }

    /// The index of the next record.
    #[inline]
    pub fn next_index(&self) -> I {
        I::from(self.number)
    }
}

impl<'s, I: ItemIndex> Iterator for ItemIter<'s, I> {
    type Item = Result<Item<'s, I>>;

    #[inline]
    fn next(&mut self) -> Option<Self::Item> {
        if self.over {
            return None;
        }
        let stream = self.stream;
        let answer = ffi::next(stream, self.at, self.number, |o| {
            if o[row::NEXT_IS_ITEM] == 0 {
                return None;
            }
            let place = o[row::NEXT_PLACE] as usize;
            self.at = o[row::NEXT_AT] as usize;
            self.number = o[row::NEXT_NEXT_INDEX] as u32;
            Some(Item {
                index: I::from(o[row::NEXT_INDEX] as u32),
                bytes: &stream[place..place + o[row::NEXT_LENGTH] as usize],
                place,
            })
        });
        match answer {
            Ok(Some(item)) => Some(Ok(item)),
            Ok(None) => {
                self.over = true;
                None
            }
            Err(e) => {
                self.over = true;
                Some(Err(e))
            }
        }
    }
}

impl<I: ItemIndex> std::iter::FusedIterator for ItemIter<'_, I> {}

/// Finds records by their index. It holds where each block of records starts, as far as it was updated.
///
/// ```
/// use pdb_types::{TypeIndex, TypeInformation};
///
/// let types = TypeInformation::parse(include_bytes!("../../samples/e.tpi"))?;
/// let mut finder = types.finder();
/// let mut iter = types.iter();
/// while let Some(item) = iter.next() {
///     item?;
///     finder.update(&iter)?;
/// }
/// assert_eq!(finder.find(TypeIndex(0x1001))?.raw_kind()?, 0x1002);
/// // or in one call, which keeps the same places
/// assert_eq!(types.indexed()?.find(TypeIndex(0x1001)), finder.find(TypeIndex(0x1001)));
/// # Ok::<(), pdb_types::Error>(())
/// ```
#[derive(Debug, Clone)]
pub struct ItemFinder<'s, I> {
    pub(crate) stream: &'s [u8],
    pub(crate) table: Vec<u32>,
    pub(crate) numbers: Numbers,
    /// Whether the stream is a section, which has no header to count its records.
    pub(crate) section: bool,
    pub(crate) index: PhantomData<I>,
}

impl<'s, I: ItemIndex> ItemFinder<'s, I> {
    /// A finder that finds nothing but markers.
    fn none(stream: &'s [u8]) -> Self {
        ItemFinder {
            stream,
            table: Vec::new(),
            numbers: Numbers {
                minimum: 0,
                maximum: 0,
                held: 0,
                shift: 3,
            },
            section: false,
            index: PhantomData,
        }
    }

    /// Holds the place of the record that an iterator comes to next, if that starts the next block. Call it behind each record.
    #[inline]
    pub fn update(&mut self, iterator: &ItemIter<'_, I>) -> Result<()> {
        let raw = iterator.number.wrapping_sub(self.numbers.minimum);
        // inside a block there is nothing to hold, which pdb_update answers too; an index below the minimum goes on to it and is refused
        if iterator.number >= self.numbers.minimum && raw & ((1 << self.numbers.shift) - 1) != 0 {
            return Ok(());
        }
        self.hold(iterator.at, iterator.number)
    }

    fn hold(&mut self, at: usize, index: u32) -> Result<()> {
        loop {
            match ffi::update(&mut self.table, self.numbers, at, index, |o| o[row::UPDATE_HELD] as usize) {
                Ok(held) => {
                    self.numbers.held = held;
                    return Ok(());
                }
                // a place is due, and the table is full: it grows, and the same update is made again
                Err(Error::TableFull) => {
                    room::more(&mut self.table, 1)?;
                    self.table.push(0);
                }
                Err(e) => return Err(e),
            }
        }
    }

    /// Walks the whole stream in one call and holds every place that is due. Where the walk is refused on the way, that is the refusal, and the places up to
    /// there are held all the same.
    pub fn index(&mut self) -> Result<()> {
        let shift = self.numbers.shift;
        let counted = self.numbers.maximum.saturating_sub(self.numbers.minimum) as usize;
        // a record takes four bytes or more, whatever the header counts
        let most = self.stream.len() / 4;
        let call = if self.section { ffi::section_index } else { ffi::index };
        let mut table = room::zeros((counted.min(most) >> shift) + 2)?;
        let mut o = call(self.stream, &mut table, shift)?;
        if o[row::INDEX_END] == 13 {
            // there are more records than the header counts
            room::grow(&mut table, (most >> shift) + 2)?;
            o = call(self.stream, &mut table, shift)?;
        }
        self.numbers = Numbers {
            minimum: o[row::INDEX_MINIMUM] as u32,
            maximum: o[row::INDEX_MAXIMUM] as u32,
            held: o[row::INDEX_HELD] as usize,
            shift,
        };
        table.truncate(self.numbers.held);
        self.table = table;
        match o[row::INDEX_END] {
            0 => Ok(()),
            n => Err(Error::named(n as u32, o[row::INDEX_END_DETAIL_0], o[row::INDEX_END_DETAIL_1])),
        }
    }

    /// The highest index that the held places serve, 0 if it holds none; some below it may still be past the stream's end.
    #[inline]
    pub fn max_index(&self) -> I {
        I::from(ffi::max_index(self.numbers))
    }

    /// The records of a block are 2 to this power.
    #[inline]
    pub fn shift(&self) -> u32 {
        self.numbers.shift
    }

    /// The places that it holds: where the first record of each block starts in the stream, its length first.
    #[inline]
    pub fn places(&self) -> &[u32] {
        &self.table[..self.numbers.held.min(self.table.len())]
    }

    /// The record of an index; the marker below the stream's lowest index.
    #[inline]
    pub fn find(&self, index: I) -> Result<Item<'s, I>> {
        Ok(self.find_passed(index)?.0)
    }

    /// The same, with the links that the lookup has passed.
    #[inline]
    pub fn find_passed(&self, index: I) -> Result<(Item<'s, I>, u32)> {
        let stream = self.stream;
        ffi::find(stream, &self.table, self.numbers, index.into(), |o| {
            let passed = o[row::FIND_PASSED] as u32;
            if o[row::FIND_IS_RECORD] == 0 {
                return (Item::new(index, &[0xff, 0xff]), passed);
            }
            let place = o[row::FIND_PLACE] as usize;
            let bytes = &stream[place..place + o[row::FIND_LENGTH] as usize];
            (Item { index, bytes, place }, passed)
        })
    }

    /// A file that keeps the places, so that the stream is walked once and not each morning: [`ItemInformation::load`] takes it.
    ///
    /// ```
    /// use pdb_types::{TypeIndex, TypeInformation};
    ///
    /// let types = TypeInformation::parse(include_bytes!("../../samples/e.tpi"))?;
    /// let file = types.indexed()?.save()?;
    /// let finder = types.load(&file)?;
    /// assert_eq!(finder.find(TypeIndex(0x1001))?.len(), 10);
    /// # Ok::<(), pdb_types::Error>(())
    /// ```
    pub fn save(&self) -> Result<Vec<u8>> {
        let mut file = room::zeros(4 * self.numbers.held + 30)?;
        let bytes = ffi::save(self.stream, &self.table, self.numbers, &mut file)?;
        file.truncate(bytes);
        Ok(file)
    }
}

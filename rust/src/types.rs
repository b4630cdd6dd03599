//! A type stream with its finder: what a generator asks.
use crate::data::{Member, TypeData};
use crate::error::{Error, Result};
use crate::ffi;
use crate::list::FieldIter;
use crate::room;
use crate::stream::{ItemInformation, TypeIndex};
use crate::{Type, TypeFinder, TypeInformation, TypeIter};
use std::fmt;

/// The text of a declaration has at most this many bytes: types that name one another many times over can stand for a text that no memory holds.
pub const DECLARATION_LIMIT: usize = 1 << 20;

/// A type stream with a finder of all its records.
///
/// ```
/// use pdb_types::{TypeIndex, Types};
///
/// let types = Types::parse(include_bytes!("../../samples/e.tpi"))?;
/// assert_eq!(types.get(TypeIndex(0x1000))?.leaf()?.name(), Some("LF_MODIFIER"));
/// assert_eq!(types.declare(TypeIndex(0x1001))?, "const int *");
/// # Ok::<(), pdb_types::Error>(())
/// ```
#[derive(Debug, Clone)]
pub struct Types<'s> {
    information: TypeInformation<'s>,
    finder: TypeFinder<'s>,
    end: Option<Error>,
}

impl<'s> Types<'s> {
    /// Takes a type stream whole, and walks it once. Refused is a bad header; where a record on the way is bad, [`Types::end`] says so, and the records before
    /// it are found.
    pub fn parse(stream: &'s [u8]) -> Result<Types<'s>> {
        let information = ItemInformation::parse(stream)?;
        let mut finder = information.finder_by(3)?;
        let end = match finder.index() {
            // there is no memory for its table, and nothing would be found
            Err(Error::NoRoom) => return Err(Error::NoRoom),
            answer => answer.err(),
        };
        Ok(Types { information, finder, end })
    }

    /// Takes a type stream and the places that [`ItemFinder::save`](crate::ItemFinder::save) has kept of it, and walks nothing but these places.
    pub fn load(stream: &'s [u8], places: &[u8]) -> Result<Types<'s>> {
        let information = TypeInformation::parse(stream)?;
        let finder = information.load(places)?;
        Ok(Types {
            information,
            finder,
            end: None,
        })
    }

    /// The stream.
    #[inline]
    pub fn information(&self) -> &TypeInformation<'s> {
        &self.information
    }

    /// The finder of its records.
    #[inline]
    pub fn finder(&self) -> &TypeFinder<'s> {
        &self.finder
    }

    /// Why the walk ended early, if it did.
    #[inline]
    pub fn end(&self) -> Option<Error> {
        self.end
    }

    /// The number of records that the header counts.
    #[inline]
    pub fn len(&self) -> usize {
        self.information.len()
    }

    /// Whether it counts none.
    #[inline]
    pub fn is_empty(&self) -> bool {
        self.information.is_empty()
    }

    /// An iterator over the records.
    #[inline]
    pub fn iter(&self) -> TypeIter<'s> {
        self.information.iter()
    }

    /// The record of an index.
    #[inline]
    pub fn get(&self, index: TypeIndex) -> Result<Type<'s>> {
        self.finder.find(index)
    }

    /// What the record of an index holds.
    #[inline]
    pub fn data(&self, index: TypeIndex) -> Result<TypeData<'s>> {
        self.get(index)?.parse()
    }

    /// The members of a field list, from one record on to the next where it is continued. An index that names no field list is refused by the leaf that it
    /// has; a continuation that does not go down to an earlier record, by 29.
    ///
    /// ```
    /// use pdb_types::{Member, TypeData, Types};
    ///
    /// let types = Types::parse(include_bytes!("../../samples/rich-x64.tpi"))?;
    /// for item in &types {
    ///     let data = item?.parse()?;
    ///     let (Some(name), Some(fields)) = (data.name(), data.fields()) else { continue };
    ///     for member in types.members(fields) {
    ///         if let Member::Member(field) = member? {
    ///             println!("{name}: {} at {}", field.name, field.offset);
    ///         }
    ///     }
    /// }
    /// # Ok::<(), pdb_types::Error>(())
    /// ```
    pub fn members(&self, fields: TypeIndex) -> Members<'_, 's> {
        Members {
            types: self,
            list: None,
            next: Some(fields),
            from: fields,
        }
    }

    /// The type of an index as a C declaration without a name: `int (*)[3]`. Refused is what has none, and a text over [`DECLARATION_LIMIT`].
    pub fn declare(&self, index: TypeIndex) -> Result<String> {
        let text = self.declare_bytes(index)?;
        Ok(String::from_utf8(text).unwrap_or_else(|e| String::from_utf8_lossy(e.as_bytes()).into_owned()))
    }

    /// The same as its bytes: a name may be no UTF-8.
    pub fn declare_bytes(&self, index: TypeIndex) -> Result<Vec<u8>> {
        let mut buffer = room::zeros(128)?;
        loop {
            match self.declare_into(index, &mut buffer) {
                Err(Error::NoRoom) if buffer.len() < DECLARATION_LIMIT => {
                    let longer = (4 * buffer.len()).min(DECLARATION_LIMIT);
                    room::grow(&mut buffer, longer)?;
                }
                answer => {
                    buffer.truncate(answer?);
                    return Ok(buffer);
                }
            }
        }
    }

    /// The same into a buffer of the caller's, which is not made longer: how many bytes it took.
    pub fn declare_into(&self, index: TypeIndex, buffer: &mut [u8]) -> Result<usize> {
        ffi::declare(self.information.bytes(), &self.finder.table, self.finder.numbers, index.0, buffer)
    }

    /// The declaration of an index, to be displayed. Where it is refused, the index stands in its place: `0x1004`.
    ///
    /// ```
    /// # let types = pdb_types::Types::parse(include_bytes!("../../samples/e.tpi"))?;
    /// assert_eq!(format!("{}", types.declaration(pdb_types::TypeIndex(0x1001))), "const int *");
    /// # Ok::<(), pdb_types::Error>(())
    /// ```
    #[inline]
    pub fn declaration(&self, index: TypeIndex) -> Declaration<'_, 's> {
        Declaration { types: self, index }
    }
}

impl<'s> IntoIterator for &Types<'s> {
    type Item = Result<Type<'s>>;
    type IntoIter = TypeIter<'s>;

    fn into_iter(self) -> TypeIter<'s> {
        self.iter()
    }
}

/// A type's declaration, to be displayed: see [`Types::declaration`].
#[derive(Debug, Clone, Copy)]
pub struct Declaration<'t, 's> {
    types: &'t Types<'s>,
    index: TypeIndex,
}

impl fmt::Display for Declaration<'_, '_> {
    fn fmt(&self, f: &mut fmt::Formatter<'_>) -> fmt::Result {
        match self.types.declare(self.index) {
            Ok(text) => f.pad(&text),
            Err(_) => f.pad(&self.index.to_string()),
        }
    }
}

/// An iterator over the members of a field list and of those that it is continued by: see [`Types::members`]. A refusal is its last item.
#[derive(Debug, Clone)]
pub struct Members<'t, 's> {
    types: &'t Types<'s>,
    list: Option<FieldIter<'s>>,
    next: Option<TypeIndex>,
    from: TypeIndex,
}

impl<'s> Members<'_, 's> {
    /// The list of an index.
    fn open(&mut self, index: TypeIndex) -> Result<()> {
        let item = self.types.get(index)?;
        match item.parse()? {
            TypeData::FieldList(list) => {
                self.list = Some(list.iter());
                self.from = index;
                Ok(())
            }
            _ => Err(Error::LeafUnknown(item.raw_kind()?)),
        }
    }
}

impl<'s> Iterator for Members<'_, 's> {
    type Item = Result<Member<'s>>;

    fn next(&mut self) -> Option<Self::Item> {
        loop {
            if let Some(index) = self.next.take() {
                if let Err(e) = self.open(index) {
                    self.list = None;
                    return Some(Err(e));
                }
            }
            match self.list.as_mut()?.next() {
                Some(Ok(Member::Continuation(index))) => {
                    // only downward: so that no list comes back to itself
                    if index >= self.from {
                        self.list = None;
                        return Some(Err(Error::NotFit));
                    }
                    self.next = Some(index);
                }
                item => return item,
            }
        }
    }
}

impl std::iter::FusedIterator for Members<'_, '_> {}

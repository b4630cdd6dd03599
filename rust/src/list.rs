//! Lists: the elements of a record, one by one, without a copy.
use crate::data::{Member, MethodListEntry};
use crate::error::{Error, Result};
use crate::ffi::{self, row, Cursor};
use crate::stream::ItemIndex;
use std::fmt;
use std::iter::FusedIterator;
use std::marker::PhantomData;

impl Cursor {
    /// The first element of a field list and of a method list: right behind the leaf. A test holds it to `pdb_list`.
    pub(crate) const FIRST: Cursor = Cursor { at: 2, left: 1, padded: 0 };

    /// The cursor behind an element.
    #[inline]
    fn behind(o: &[u64; row::STEP_OUT]) -> Cursor {
        Cursor {
            at: o[row::STEP_AT] as usize,
            left: o[row::STEP_LEFT] as u32,
            padded: o[row::STEP_PADDED] as u32,
        }
    }
}

macro_rules! list {
    ($(#[$about:meta])* $name:ident, $(#[$iter_about:meta])* $iter:ident, $element:ty, $leaf:literal, $of_row:expr) => {
        $(#[$about])*
        #[derive(Clone, Copy, PartialEq, Eq)]
        pub struct $name<'s> {
            bytes: &'s [u8],
            first: Cursor,
        }

        impl<'s> $name<'s> {
            #[inline]
            pub(crate) fn new(bytes: &'s [u8], first: Cursor) -> Self {
                $name { bytes, first }
            }

            /// The record's bytes, its leaf first.
            #[inline]
            pub fn bytes(&self) -> &'s [u8] {
                self.bytes
            }

            /// An iterator over the elements. A refusal is its last item.
            #[inline]
            pub fn iter(&self) -> $iter<'s> {
                $iter {
                    bytes: self.bytes,
                    cursor: self.first,
                    over: false,
                }
            }
        }

        impl fmt::Debug for $name<'_> {
            fn fmt(&self, f: &mut fmt::Formatter<'_>) -> fmt::Result {
                f.write_str(stringify!($name))?;
                f.debug_list().entries(self.iter()).finish()
            }
        }

        impl<'s> IntoIterator for $name<'s> {
            type Item = Result<$element>;
            type IntoIter = $iter<'s>;

            #[inline]
            fn into_iter(self) -> $iter<'s> {
                self.iter()
            }
        }

        impl<'s> IntoIterator for &$name<'s> {
            type Item = Result<$element>;
            type IntoIter = $iter<'s>;

            #[inline]
            fn into_iter(self) -> $iter<'s> {
                self.iter()
            }
        }

        $(#[$iter_about])*
        #[derive(Debug, Clone)]
        pub struct $iter<'s> {
            bytes: &'s [u8],
            cursor: Cursor,
            over: bool,
        }

        impl<'s> $iter<'s> {
            /// Where the next element starts in the record, counted from its leaf, or the padding in front of it.
            #[inline]
            pub fn position(&self) -> usize {
                self.cursor.at
            }
        }

        impl<'s> Iterator for $iter<'s> {
            type Item = Result<$element>;

            #[inline]
            fn next(&mut self) -> Option<Self::Item> {
                if self.over {
                    return None;
                }
                let bytes = self.bytes;
                let answer = ffi::step(bytes, $leaf, self.cursor, |o| {
                    self.cursor = Cursor::behind(o);
                    let of_row: fn(&'s [u8], &[u64; row::STEP_OUT]) -> $element = $of_row;
                    of_row(bytes, o)
                });
                match answer {
                    Ok(element) => Some(Ok(element)),
                    Err(Error::NoSuchElement) => {
                        self.over = true;
                        None
                    }
                    Err(e) => {
                        self.over = true;
                        Some(Err(e))
                    }
                }
            }
        }

        impl FusedIterator for $iter<'_> {}
    };
}

list! {
    /// The members of a class or union, or the enumerators of an enumeration: an iterator of them, element by element as they stand in the record.
    ///
    /// Where the crate pdb has `list.fields` and `list.continuation`, here is one run of [`Member`]s, the last of which may be a
    /// [`Member::Continuation`]. [`Types::members`](crate::Types::members) follows it.
    ///
    /// ```
    /// use pdb_types::{Member, TypeData};
    ///
    /// // one field: `int x`, at offset 4
    /// let bytes = b"\x03\x12\x0d\x15\x03\x00\x74\x00\x00\x00\x04\x00x\x00";
    /// let TypeData::FieldList(list) = TypeData::parse(bytes)? else { panic!("a list") };
    /// for member in list {
    ///     if let Member::Member(field) = member? {
    ///         assert_eq!((field.name.to_string().as_ref(), field.field_type.0, field.offset), ("x", 0x74, 4));
    ///     }
    /// }
    /// # Ok::<(), pdb_types::Error>(())
    /// ```
    FieldList,
    /// An iterator over the members of a [`FieldList`].
    FieldIter, Member<'s>, 0x1203, Member::of_row
}

list! {
    /// The methods of one name.
    ///
    /// ```
    /// use pdb_types::TypeData;
    ///
    /// let bytes = b"\x06\x12\x03\x00\x00\x00\x04\x10\x00\x00";
    /// let TypeData::MethodList(list) = TypeData::parse(bytes)? else { panic!("a list") };
    /// for method in list {
    ///     assert_eq!(method?.method_type.0, 0x1004);
    /// }
    /// # Ok::<(), pdb_types::Error>(())
    /// ```
    MethodList,
    /// An iterator over the entries of a [`MethodList`].
    MethodIter, MethodListEntry, 0x1206, |_, o| MethodListEntry::of_row(o)
}

/// A run of indices: the arguments of a function, of a build, of a list of strings. All of them are there, since the record was read whole.
///
/// ```
/// use pdb_types::{TypeData, TypeIndex};
///
/// let bytes = b"\x01\x12\x02\x00\x00\x00\x74\x00\x00\x00\x00\x10\x00\x00";
/// let TypeData::ArgumentList(list) = TypeData::parse(bytes)? else { panic!("a list") };
/// assert_eq!((list.arguments.len(), list.arguments.get(1)), (2, Some(TypeIndex(0x1000))));
/// for argument in list {
///     println!("{argument}");
/// }
/// # Ok::<(), pdb_types::Error>(())
/// ```
#[derive(Clone, Copy, PartialEq, Eq)]
pub struct Indices<'s, I> {
    bytes: &'s [u8],
    index: PhantomData<I>,
}

impl<'s, I: ItemIndex> Indices<'s, I> {
    /// A run of its bytes, four for each index.
    #[inline]
    pub(crate) fn new(bytes: &'s [u8]) -> Self {
        Indices { bytes, index: PhantomData }
    }

    /// How many there are.
    #[inline]
    pub fn len(&self) -> usize {
        self.bytes.len() / 4
    }

    /// Whether there is none.
    #[inline]
    pub fn is_empty(&self) -> bool {
        self.len() == 0
    }

    /// The one of a number, from 0.
    #[inline]
    pub fn get(&self, k: usize) -> Option<I> {
        self.iter().nth(k)
    }

    /// An iterator over them.
    #[inline]
    pub fn iter(&self) -> IndicesIter<'s, I> {
        IndicesIter {
            chunks: self.bytes.chunks_exact(4),
            index: PhantomData,
        }
    }
}

impl<I: ItemIndex> fmt::Debug for Indices<'_, I> {
    fn fmt(&self, f: &mut fmt::Formatter<'_>) -> fmt::Result {
        f.debug_list().entries(self.iter()).finish()
    }
}

impl<'s, I: ItemIndex> IntoIterator for Indices<'s, I> {
    type Item = I;
    type IntoIter = IndicesIter<'s, I>;

    #[inline]
    fn into_iter(self) -> IndicesIter<'s, I> {
        self.iter()
    }
}

impl<'s, I: ItemIndex> IntoIterator for &Indices<'s, I> {
    type Item = I;
    type IntoIter = IndicesIter<'s, I>;

    #[inline]
    fn into_iter(self) -> IndicesIter<'s, I> {
        self.iter()
    }
}

/// An iterator over [`Indices`].
#[derive(Debug, Clone)]
pub struct IndicesIter<'s, I> {
    chunks: std::slice::ChunksExact<'s, u8>,
    index: PhantomData<I>,
}

impl<I: ItemIndex> Iterator for IndicesIter<'_, I> {
    type Item = I;

    #[inline]
    fn next(&mut self) -> Option<I> {
        self.nth(0)
    }

    #[inline]
    fn nth(&mut self, k: usize) -> Option<I> {
        let four = self.chunks.nth(k)?;
        Some(I::from(u32::from_le_bytes([four[0], four[1], four[2], four[3]])))
    }

    #[inline]
    fn size_hint(&self) -> (usize, Option<usize>) {
        self.chunks.size_hint()
    }
}

impl<I: ItemIndex> ExactSizeIterator for IndicesIter<'_, I> {}
impl<I: ItemIndex> FusedIterator for IndicesIter<'_, I> {}

#[cfg(test)]
mod tests {
    use super::*;
    use crate::{Id, IdData, IdIndex, TypeData, TypeIndex};

    fn first(s: &[u8], ids: bool) -> Result<Cursor> {
        ffi::list(s, ids, |o| Cursor {
            at: o[row::LIST_AT] as usize,
            left: o[row::LIST_LEFT] as u32,
            padded: o[row::LIST_PADDED] as u32,
        })
    }

    #[test]
    fn lists_start_behind_the_leaf() {
        for leaf in [0x1203u16, 0x1206] {
            for tail in [&[][..], &[0xf1], &[0xf3, 0xf2, 0xf1], &[0; 20], &[0x0d, 0x15, 1, 2, 3]] {
                let s = [&leaf.to_le_bytes()[..], tail].concat();
                assert_eq!(first(&s, false), Ok(Cursor::FIRST), "{s:x?}");
            }
        }
    }

    /// The elements of a list of indices by `pdb_list` and `pdb_step`.
    fn stepped(s: &[u8], ids: bool) -> Vec<u32> {
        let leaf = u16::from_le_bytes([s[0], s[1]]);
        let mut cursor = first(s, ids).expect("a list");
        let mut found = Vec::new();
        loop {
            match ffi::step(s, leaf, cursor, |o| (Cursor::behind(o), o[row::STEP_TYPE] as u32)) {
                Ok((next, n)) => {
                    cursor = next;
                    found.push(n);
                }
                Err(e) => {
                    assert_eq!(e, Error::NoSuchElement);
                    return found;
                }
            }
        }
    }

    #[test]
    fn indices_are_the_steps() {
        let arguments = b"\x01\x12\x02\x00\x00\x00\x74\x00\x00\x00\x00\x10\x00\x00\xf2\xf1";
        let Ok(TypeData::ArgumentList(list)) = TypeData::parse(arguments) else {
            panic!("a list")
        };
        assert_eq!(list.into_iter().map(|t: TypeIndex| t.0).collect::<Vec<_>>(), stepped(arguments, false));
        for (leaf, count) in [(0x1603u16, 2), (0x1604, 4)] {
            let s = [
                &leaf.to_le_bytes()[..],
                &3u32.to_le_bytes()[..count],
                &[7, 1, 0, 0, 8, 2, 0, 0, 9, 3, 0, 0, 0xf1],
            ]
            .concat();
            let found: Vec<u32> = match Id::new(IdIndex(0x1000), &s).parse() {
                Ok(IdData::BuildInfo(list)) => list.arguments.into_iter().map(|i| i.0).collect(),
                Ok(IdData::StringList(list)) => list.substrings.into_iter().map(|i| i.0).collect(),
                other => panic!("{other:?}"),
            };
            assert_eq!(found, stepped(&s, true));
            assert_eq!(found, [263, 520, 777]);
        }
    }
}

//! Id records: what they hold, field by field. Names and fields are those of the crate pdb.
use crate::data::RawString;
use crate::error::Result;
use crate::ffi::{self, row};
use crate::list::Indices;
use crate::stream::{index, IdIndex, Item, TypeIndex};
use std::fmt;

index! {
    /// A place in the database's table of strings.
    StringRef
}

/// What an id record holds: [`Id::parse`](crate::Id) gives it.
///
/// ```
/// use pdb_types::{IdData, IdInformation};
///
/// let ids = IdInformation::parse(include_bytes!("../../samples/hand.ipi"))?;
/// for id in &ids {
///     if let IdData::Function(function) = id?.parse()? {
///         println!("{} of type {}", function.name, function.function_type);
///     }
/// }
/// # Ok::<(), pdb_types::Error>(())
/// ```
#[non_exhaustive]
#[derive(Debug, Clone, Copy, PartialEq, Eq)]
pub enum IdData<'s> {
    /// 0x1601: a function, inlined as a rule.
    Function(FunctionId<'s>),
    /// 0x1602: a member function, inlined as a rule.
    MemberFunction(MemberFunctionId<'s>),
    /// 0x1603: tool, version and command line of a build.
    BuildInfo(BuildInfoId<'s>),
    /// 0x1604: a list of strings.
    StringList(StringListId<'s>),
    /// 0x1605: a string.
    String(StringId<'s>),
    /// 0x1606, 0x1607: file and line of a type's definition.
    UserDefinedTypeSource(UserDefinedTypeSourceId),
}

impl<'s> IdData<'s> {
    /// The name of a function, or a string.
    pub fn name(&self) -> Option<RawString<'s>> {
        match self {
            IdData::Function(id) => Some(id.name),
            IdData::MemberFunction(id) => Some(id.name),
            IdData::String(id) => Some(id.name),
            _ => None,
        }
    }

    /// What the bytes of an id record hold, its leaf first.
    #[inline]
    pub fn parse(bytes: &'s [u8]) -> Result<IdData<'s>> {
        ffi::id(bytes, |o| IdData::of_row(bytes, o))
    }

    /// What stands in a row of `pdb_id`, for the record of these bytes.
    #[inline]
    pub(crate) fn of_row(bytes: &'s [u8], o: &[u64; row::ID_OUT]) -> IdData<'s> {
        let type_at = |k: usize| TypeIndex(o[k] as u32);
        let part = || &bytes[o[row::ID_NAME] as usize..][..o[row::ID_NAME_LENGTH] as usize];
        let optional = || (o[row::ID_ID] != 0).then_some(IdIndex(o[row::ID_ID] as u32));
        match o[row::ID_LEAF] {
            0x1601 => IdData::Function(FunctionId {
                scope: optional(),
                function_type: type_at(row::ID_TYPE),
                name: RawString::from(part()),
            }),
            0x1602 => IdData::MemberFunction(MemberFunctionId {
                parent: type_at(row::ID_PARENT),
                function_type: type_at(row::ID_TYPE),
                name: RawString::from(part()),
            }),
            0x1603 => IdData::BuildInfo(BuildInfoId {
                arguments: Indices::new(part()),
            }),
            0x1604 => IdData::StringList(StringListId {
                substrings: Indices::new(part()),
            }),
            0x1605 => IdData::String(StringId {
                substrings: optional(),
                name: RawString::from(part()),
            }),
            // 0x1606 and 0x1607: the library answers no other leaf
            leaf => IdData::UserDefinedTypeSource(UserDefinedTypeSourceId {
                udt: type_at(row::ID_TYPE),
                source_file: match leaf {
                    0x1606 => UserDefinedTypeSourceFileRef::Local(IdIndex(o[row::ID_FILE] as u32)),
                    _ => UserDefinedTypeSourceFileRef::Remote(o[row::ID_MODULE] as u16, StringRef(o[row::ID_FILE] as u32)),
                },
                line: o[row::ID_LINE] as u32,
            }),
        }
    }
}

impl<'s> Item<'s, IdIndex> {
    /// What the record holds.
    #[inline]
    pub fn parse(&self) -> Result<IdData<'s>> {
        IdData::parse(self.bytes)
    }
}

/// A function, inlined as a rule.
#[derive(Debug, Clone, Copy, PartialEq, Eq)]
pub struct FunctionId<'s> {
    /// The scope around it.
    pub scope: Option<IdIndex>,
    /// Its type.
    pub function_type: TypeIndex,
    /// Its name.
    pub name: RawString<'s>,
}

/// A member function, inlined as a rule.
#[derive(Debug, Clone, Copy, PartialEq, Eq)]
pub struct MemberFunctionId<'s> {
    /// The class around it.
    pub parent: TypeIndex,
    /// Its type.
    pub function_type: TypeIndex,
    /// Its name.
    pub name: RawString<'s>,
}

/// Tool, version and command line of a build.
#[derive(Debug, Clone, Copy, PartialEq, Eq)]
pub struct BuildInfoId<'s> {
    /// The strings that say so.
    pub arguments: Indices<'s, IdIndex>,
}

/// A list of strings.
#[derive(Debug, Clone, Copy, PartialEq, Eq)]
pub struct StringListId<'s> {
    /// The strings: type indices, as the crate pdb has them.
    pub substrings: Indices<'s, TypeIndex>,
}

/// A string.
#[derive(Debug, Clone, Copy, PartialEq, Eq)]
pub struct StringId<'s> {
    /// The list of the strings in front of it.
    pub substrings: Option<IdIndex>,
    /// The string.
    pub name: RawString<'s>,
}

/// Where the name of a source file stands.
#[derive(Debug, Clone, Copy, PartialEq, Eq)]
pub enum UserDefinedTypeSourceFileRef {
    /// In a string of the id stream.
    Local(IdIndex),
    /// In the table of strings, for the module of a number.
    Remote(u16, StringRef),
}

/// File and line of a type's definition.
#[derive(Debug, Clone, Copy, PartialEq, Eq)]
pub struct UserDefinedTypeSourceId {
    /// The type.
    pub udt: TypeIndex,
    /// The file.
    pub source_file: UserDefinedTypeSourceFileRef,
    /// The line.
    pub line: u32,
}

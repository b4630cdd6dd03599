//! Type and id streams of program databases (TPI and IPI of a `.pdb`), read and written by proved code.
//!
//! The functions of `libpdb_types.a` are proved to meet their contracts for every input: no byte string makes them panic, overflow or loop. This crate puts the
//! names of the crate pdb 0.8.0 around them: [`TypeInformation`], [`TypeFinder`], [`TypeData`], [`ClassType`], [`FieldList`], .. It has no dependencies, and
//! walking, finding and parsing allocate nothing.
//! What is proved is what the library answers. This crate's own lines are not: they pass slices on, and put names to the numbers that come back.
//!
//! A stream is its bytes, as `llvm-pdbutil export --stream=2` takes them out of a database; 2 is types, 4 is ids.
//!
//! ```
//! use pdb_types::{Member, TypeData, Types};
//!
//! let stream = include_bytes!("../../samples/rich-x64.tpi"); // or std::fs::read("types.tpi")?
//! let types = Types::parse(stream)?;
//! for item in &types {
//!     let TypeData::Class(class) = item?.parse()? else { continue };
//!     let Some(fields) = class.fields else { continue };
//!     println!("{}, {} bytes", class.name, class.size);
//!     for member in types.members(fields) {
//!         if let Member::Member(field) = member? {
//!             println!("  {} {} at {}", types.declaration(field.field_type), field.name, field.offset);
//!         }
//!     }
//! }
//! # Ok::<(), pdb_types::Error>(())
//! ```
//!
//! | what | where |
//! |---|---|
//! | a stream, its records, a finder of them | [`ItemInformation`], [`ItemIter`], [`ItemFinder`], [`Item`] |
//! | what a record holds | [`TypeData`], [`IdData`], [`Member`], [`primitive`](fn@primitive) |
//! | a stream with its finder, members over continuations, C declarations | [`Types`] |
//! | places of a finder kept in a file | [`ItemFinder::save`], [`ItemInformation::load`] |
//! | sections of object files | [`Section`] |
//! | whole streams | [`TypeInformation::fit`](ItemInformation::fit), [`TypeInformation::drop`](ItemInformation::drop), [`Report`] |
//! | any record as cells, and writing | [`cells`], [`layout`], [`Writer`] |
//! | why a call is refused | [`Error`] |
#![warn(missing_docs)]
#![deny(unsafe_code)]
#![deny(unsafe_op_in_unsafe_fn)]

mod data;
mod error;
mod ffi;
mod id;
mod list;
mod names;
mod primitive;
mod room;
mod section;
mod stream;
mod types;
mod whole;
mod words;
mod write;

// every public type of data.rs: what records hold
pub use data::*;
pub use error::{Error, Result};
pub use id::{BuildInfoId, FunctionId, IdData, MemberFunctionId, StringId, StringListId, StringRef, UserDefinedTypeSourceFileRef, UserDefinedTypeSourceId};
pub use list::{FieldIter, FieldList, Indices, IndicesIter, MethodIter, MethodList};
pub use names::Leaf;
pub use primitive::{primitive, Indirection, PrimitiveKind, PrimitiveType};
pub use section::{Section, SectionData};
pub use stream::{Header, IdIndex, Item, ItemFinder, ItemIndex, ItemInformation, ItemIter, SectionIndex, Slice, TypeIndex};
pub use types::{Declaration, Members, Types, DECLARATION_LIMIT};
pub use whole::{Dropped, Fit, Report, ReportRow, Rule};
pub use words::{FieldAttributes, FunctionAttributes, PointerAttributes, PointerKind, PointerMode, TypeProperties};
pub use write::{cells, layout, Cell, Cells, Code, Layouts, Writer};

/// The generators of the README are compiled too.
#[cfg(doctest)]
#[doc = include_str!("../README.md")]
struct Readme;

/// Information about the types of a program database: its TPI stream.
pub type TypeInformation<'s> = ItemInformation<'s, TypeIndex>;
/// An iterator over types.
pub type TypeIter<'s> = ItemIter<'s, TypeIndex>;
/// A type record.
pub type Type<'s> = Item<'s, TypeIndex>;
/// A finder of types.
pub type TypeFinder<'s> = ItemFinder<'s, TypeIndex>;
/// Information about the ids of a program database: its IPI stream.
pub type IdInformation<'s> = ItemInformation<'s, IdIndex>;
/// An iterator over ids.
pub type IdIter<'s> = ItemIter<'s, IdIndex>;
/// An id record.
pub type Id<'s> = Item<'s, IdIndex>;
/// A finder of ids.
pub type IdFinder<'s> = ItemFinder<'s, IdIndex>;

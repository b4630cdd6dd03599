//! Crate pdb 0.8.0's type part as a library: its published files, and a way to their private parts, for fields.rs and day_pdb.rs.
mod common;
mod msf;
mod source;
mod tpi;

pub use crate::common::*;
pub use crate::source::*;
pub use crate::tpi::*;
pub use fallible_iterator::FallibleIterator;

/// Two words that data_access.rs, which is built in too, takes from its root.
pub(crate) fn opt(i: Option<u32>) -> String {
    i.map_or("-".to_string(), |i| i.to_string())
}
pub(crate) fn b(x: bool) -> u8 {
    x as u8
}

/// What the crate gives only to itself: streams from bytes in memory, items from bytes, the header, the words as numbers.
pub mod access {
    use crate::tpi::data_access as data;
    use crate::tpi::fields_access as words;
    use crate::tpi::tpi_access as acc;
    use crate::*;

    pub fn types(bytes: Vec<u8>) -> Result<TypeInformation<'static>> {
        acc::parse(bytes)
    }
    pub fn ids(bytes: Vec<u8>) -> Result<IdInformation<'static>> {
        acc::parse_ids(bytes)
    }
    pub fn header_line<I>(info: &ItemInformation<'_, I>) -> String {
        acc::header_line(info)
    }
    pub fn type_item(index: u32, bytes: &[u8]) -> Type<'_> {
        acc::type_item(index, bytes)
    }
    pub fn id_item(index: u32, bytes: &[u8]) -> Id<'_> {
        acc::id_item(index, bytes)
    }
    pub fn bytes<'t, I>(item: &Item<'t, I>) -> &'t [u8] {
        acc::data(item)
    }
    pub fn properties(w: TypeProperties) -> u16 {
        words::properties(w)
    }
    pub fn field(w: FieldAttributes) -> u16 {
        words::field(w)
    }
    pub fn function(w: FunctionAttributes) -> u16 {
        words::function(w)
    }
    pub fn pointer(w: PointerAttributes) -> u32 {
        words::pointer(w)
    }
    /// A word as the crate's, for questions of every word.
    pub fn properties_of(w: u16) -> TypeProperties {
        data::props(w)
    }
    pub fn field_of(w: u16) -> FieldAttributes {
        data::field(w)
    }
    pub fn function_of(w: u16) -> FunctionAttributes {
        data::func(w)
    }
    pub fn pointer_of(w: u32) -> PointerAttributes {
        data::ptr(w)
    }
}

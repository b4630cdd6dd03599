//! Child of the crate's tpi/data.rs: the attribute words as plain numbers.
use super::*;

pub(crate) fn properties(w: TypeProperties) -> u16 {
    w.0
}
pub(crate) fn field(w: FieldAttributes) -> u16 {
    w.0
}
pub(crate) fn function(w: FunctionAttributes) -> u16 {
    w.0
}
pub(crate) fn pointer(w: PointerAttributes) -> u32 {
    w.0
}

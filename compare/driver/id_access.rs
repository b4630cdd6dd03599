//! Child of the crate's tpi/id.rs. Its two private helpers: the optional id index and the string.
use super::*;

pub(crate) fn optional_id(index: u32) -> Option<u32> {
    let bytes = index.to_le_bytes();
    let r = parse_optional_id_index(&mut ParseBuffer::from(&bytes[..]));
    r.unwrap().map(|i| i.0)
}

/// Place and length of the string, and the place after it.
pub(crate) fn id_string(leaf: u16, bytes: &[u8]) -> Result<(usize, usize, usize)> {
    let mut buf = ParseBuffer::from(bytes);
    let s = parse_string(leaf, &mut buf)?;
    let place = s.as_bytes().as_ptr() as usize - bytes.as_ptr() as usize;
    Ok((place, s.len(), buf.pos()))
}

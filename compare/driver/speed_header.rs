//! Child of the crate's tpi/mod.rs, for the program speed only: the header parsed, and what it adds to the checksum.
use super::*;

/// The sum over the fields, 1 for each negative offset; 0 where the header is refused.
pub(crate) fn sum(bytes: &[u8]) -> u64 {
    let h = match Header::parse(&mut ParseBuffer::from(bytes)) {
        Ok(h) => h,
        Err(_) => return 0,
    };
    let slice = |s: &header::Slice| (s.offset < 0) as u64 + u64::from(s.size);
    u64::from(h.version)
        + u64::from(h.header_size)
        + u64::from(h.minimum_index)
        + u64::from(h.maximum_index)
        + u64::from(h.gprec_size)
        + u64::from(h.tpi_hash_stream)
        + u64::from(h.tpi_hash_pad_stream)
        + u64::from(h.hash_key_size)
        + u64::from(h.hash_bucket_size)
        + slice(&h.hash_values)
        + slice(&h.ti_off)
        + slice(&h.hash_adj)
}

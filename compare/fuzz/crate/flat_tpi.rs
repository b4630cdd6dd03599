//! Child of the crate's tpi/mod.rs. The header's numbers in the order of pdb_header's `out`.
use super::*;

pub(crate) fn header<I>(info: &ItemInformation<'_, I>) -> [u64; 15] {
    let h = &info.header;
    [
        h.version.into(), h.header_size.into(), h.minimum_index.into(), h.maximum_index.into(), h.gprec_size.into(), h.tpi_hash_stream.into(),
        h.tpi_hash_pad_stream.into(), h.hash_key_size.into(), h.hash_bucket_size.into(), u64::from(h.hash_values.offset as u32), h.hash_values.size.into(),
        u64::from(h.ti_off.offset as u32), h.ti_off.size.into(), u64::from(h.hash_adj.offset as u32), h.hash_adj.size.into(),
    ]
}

//! Child of the crate's tpi/mod.rs. Its private parts: the header, items built by hand, the finder's places,
//! the iterator's cursor, and the primitive reader.
use super::*;

pub(crate) fn parse(bytes: Vec<u8>) -> Result<ItemInformation<'static, TypeIndex>> {
    ItemInformation::parse(crate::msf::msf_access::stream(bytes))
}
pub(crate) fn parse_ids(bytes: Vec<u8>) -> Result<ItemInformation<'static, IdIndex>> {
    ItemInformation::parse(crate::msf::msf_access::stream(bytes))
}
pub(crate) fn header_line<I>(info: &ItemInformation<'_, I>) -> String {
    let h = &info.header;
    format!(
        "version={} header_size={} minimum={} maximum={} gprec={} s1={} s2={} key={} bucket={} o1={} n1={} o2={} n2={} o3={} n3={}",
        h.version, h.header_size, h.minimum_index, h.maximum_index, h.gprec_size, h.tpi_hash_stream,
        h.tpi_hash_pad_stream, h.hash_key_size, h.hash_bucket_size, h.hash_values.offset,
        h.hash_values.size, h.ti_off.offset, h.ti_off.size, h.hash_adj.offset, h.hash_adj.size
    )
}
pub(crate) fn minimum<I>(info: &ItemInformation<'_, I>) -> (u32, u32) {
    (info.header.minimum_index, info.header.maximum_index)
}
pub(crate) fn bytes<'a, I>(info: &'a ItemInformation<'_, I>) -> &'a [u8] {
    info.stream.as_slice()
}
pub(crate) fn data<'t, I>(item: &Item<'t, I>) -> &'t [u8] {
    item.data
}
pub(crate) fn places<'a, I>(f: &'a ItemFinder<'_, I>) -> &'a [u32] {
    &f.positions
}
pub(crate) fn cursor<I>(i: &ItemIter<'_, I>) -> (u32, usize) {
    (i.index, i.buf.pos())
}
pub(crate) fn type_item<'t>(index: u32, data: &'t [u8]) -> Item<'t, TypeIndex> {
    Item { index: TypeIndex(index), data }
}
pub(crate) fn id_item<'t>(index: u32, data: &'t [u8]) -> Item<'t, IdIndex> {
    Item { index: IdIndex(index), data }
}
pub(crate) fn primitive_of(index: u32) -> Result<TypeData<'static>> {
    type_data_for_primitive(TypeIndex(index))
}

//! Child of the crate's msf/mod.rs. A `Stream` over bytes in memory, in place of the pages of a file:
//! the one way in, since the crate makes streams only from an opened database.
use super::*;

#[derive(Debug)]
struct Whole(Vec<u8>);

impl SourceView<'_> for Whole {
    fn as_slice(&self) -> &[u8] {
        &self.0
    }
}

pub(crate) fn stream(bytes: Vec<u8>) -> Stream<'static> {
    Stream { source_view: Box::new(Whole(bytes)) }
}

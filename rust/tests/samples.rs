//! The samples of the repository, and small streams that are refused. What is wanted is worked out here from the bytes, a second time.
use pdb_types::{primitive, Error, Header, IdInformation, Indirection, Item, ItemIndex, ItemInformation, PrimitiveKind, TypeIndex, TypeInformation};
use std::path::PathBuf;

fn sample(name: &str) -> Vec<u8> {
    let path = PathBuf::from(env!("CARGO_MANIFEST_DIR")).join("../samples").join(name);
    std::fs::read(&path).unwrap_or_else(|e| panic!("{}: {e}", path.display()))
}

fn word(s: &[u8], at: usize) -> u32 {
    u32::from_le_bytes(s[at..at + 4].try_into().unwrap())
}

/// The place and length of every record, by their lengths alone.
fn links(s: &[u8]) -> Vec<(usize, usize)> {
    let (mut at, mut found) = (word(s, 4) as usize, Vec::new());
    while at < s.len() {
        let n = u16::from_le_bytes([s[at], s[at + 1]]) as usize;
        found.push((at + 2, n));
        at += 2 + n;
    }
    found
}

fn formula(c: u64, shift: u32) -> u64 {
    let b = 1u64 << shift;
    let half = |n: u64| n * n.saturating_sub(1) / 2;
    c / b * half(b) + half(c % b)
}

/// Walks, fills a finder for every shift, looks every index up, and holds all of it to the links.
fn whole<'s, I: ItemIndex>(info: ItemInformation<'s, I>, s: &'s [u8]) {
    let wanted = links(s);
    let minimum = word(s, 8);
    assert_eq!(info.len(), wanted.len());
    let walked: Vec<Item<'_, I>> = info.iter().map(|item| item.expect("a record")).collect();
    assert_eq!(walked.len(), wanted.len());
    for (k, item) in walked.iter().enumerate() {
        let (place, length) = wanted[k];
        assert_eq!((item.index().into(), item.place(), item.len()), (minimum + k as u32, Some(place), length));
        assert_eq!(item.bytes(), &s[place..place + length]);
        assert_eq!(item.raw_kind(), Ok(u16::from_le_bytes([s[place], s[place + 1]])));
    }
    for shift in 0..=6 {
        let mut finder = info.finder_by(shift).expect("a finder");
        let mut iter = info.iter();
        while let Some(item) = iter.next() {
            item.expect("a record");
            finder.update(&iter).expect("room");
        }
        let mut tally = 0;
        for item in &walked {
            let (found, passed) = finder.find_passed(item.index()).expect("found");
            assert_eq!(&found, item);
            tally += u64::from(passed);
        }
        assert_eq!(tally, formula(walked.len() as u64, shift), "shift {shift}");
        let marker = finder.find(I::from(minimum - 1)).expect("the marker");
        assert_eq!((marker.place(), marker.bytes(), marker.raw_kind()), (None, &[0xff, 0xff][..], Ok(0xffff)));
        let above = minimum + walked.len() as u32 + 1;
        assert_eq!(finder.find(I::from(above)), Err(Error::NotFound(above)));
    }
}

#[test]
fn types() {
    for name in ["e.tpi", "hand.tpi", "plain-x64.tpi", "rich-x64.tpi", "gen400-x64.tpi"] {
        let s = sample(name);
        whole(TypeInformation::parse(&s).expect(name), &s);
    }
}

#[test]
fn ids() {
    for name in ["hand.ipi", "plain-x64.ipi", "rich-x64.ipi"] {
        let s = sample(name);
        whole(IdInformation::parse(&s).expect(name), &s);
    }
}

#[test]
fn header_by_its_bytes() {
    let mut s = sample("rich-x64.tpi");
    s[32..36].copy_from_slice(&(-5i32).to_le_bytes());
    let h = Header::parse(&s).expect("a header");
    let wanted = [h.version, h.header_size, h.minimum_index, h.maximum_index, h.gprec_size];
    assert_eq!(wanted, [0, 4, 8, 12, 16].map(|at| word(&s, at)));
    assert_eq!(u32::from(h.tpi_hash_stream) | u32::from(h.tpi_hash_pad_stream) << 16, word(&s, 20));
    assert_eq!([h.hash_key_size, h.hash_bucket_size], [word(&s, 24), word(&s, 28)]);
    assert_eq!(h.hash_values.offset, -5);
    for (slice, at) in [(h.hash_values, 32), (h.ti_off, 40), (h.hash_adj, 48)] {
        assert_eq!((slice.offset as u32, slice.size), (word(&s, at), word(&s, at + 4)));
    }
    assert_eq!(h.count(), 232);
}

#[test]
fn headers_refused() {
    let good = sample("e.tpi");
    let with = |at: usize, value: u32| {
        let mut s = good.clone();
        s[at..at + 4].copy_from_slice(&value.to_le_bytes());
        Header::parse(&s).map(|_| ())
    };
    assert_eq!(Header::parse(&[]).expect("the empty stream"), Header::default());
    assert_eq!(Header::parse(&good[..55]), Err(Error::Ended));
    assert_eq!(with(4, 55), Err(Error::HeaderSmall));
    assert_eq!(with(4, 1025), Err(Error::HeaderLarge));
    assert_eq!(with(4, 79), Err(Error::Ended));
    assert_eq!(with(8, 4095), Err(Error::MinimumLow));
    assert_eq!(with(12, 4095), Err(Error::MaximumLow));
}

#[test]
fn refusal_ends_the_iterator() {
    let mut s = sample("e.tpi");
    s.extend([1, 0, 0xaa]);
    let info = TypeInformation::parse(&s).expect("a header");
    let mut iter = info.iter().skip(2);
    assert_eq!(iter.next(), Some(Err(Error::TooShort)));
    assert_eq!(iter.next(), None);
    s[12] = 4; // four records counted: the third has one byte, the fourth is not there
    let info = TypeInformation::parse(&s).expect("a header");
    let finder = info.finder();
    assert_eq!(
        finder.find_passed(TypeIndex(4098)).map(|(i, k)| (i.len(), i.raw_kind(), k)),
        Ok((1, Err(Error::Ended), 2))
    );
    assert_eq!(finder.find(TypeIndex(4099)), Err(Error::EndedAfter(3)));
}

#[test]
fn not_indexed_and_the_highest() {
    let s = sample("plain-x64.tpi");
    let info = TypeInformation::parse(&s).expect("a header");
    let finder = info.finder_by(2).expect("a finder");
    assert_eq!(finder.max_index(), TypeIndex(4099));
    assert_eq!(finder.find(TypeIndex(4100)), Err(Error::NotIndexed(4100, 4099)));
    assert_eq!(info.finder_by(7).map(|_| ()), Err(Error::Shift));
    let empty = TypeInformation::parse(&[]).expect("the empty stream");
    assert!(empty.is_empty() && empty.iter().next().is_none());
    assert_eq!(empty.finder().max_index(), TypeIndex(0));
}

#[test]
fn foreign_cursor_and_a_table_that_grows() {
    let (low, mut high) = (sample("e.tpi"), sample("e.tpi"));
    high[8..12].copy_from_slice(&9000u32.to_le_bytes());
    high[12..16].copy_from_slice(&9001u32.to_le_bytes());
    let (low, high) = (TypeInformation::parse(&low).unwrap(), TypeInformation::parse(&high).unwrap());
    assert_eq!(high.finder().update(&low.iter()), Err(Error::ForeignCursor));
    // one record counted, two there: the second place at shift 0 is past the capacity that was asked for
    let mut finder = high.finder_by(0).unwrap();
    let mut iter = high.iter();
    while let Some(item) = iter.next() {
        item.unwrap();
        finder.update(&iter).unwrap();
    }
    assert_eq!(finder.max_index(), TypeIndex(9002));
}

#[test]
fn primitives() {
    let answered = (0..0x1000).filter(|&i| primitive(TypeIndex(i)).is_ok()).count();
    assert_eq!(answered, 42 * 8);
    let int = primitive(TypeIndex(0x74)).expect("int");
    assert_eq!((int.kind, int.indirection), (PrimitiveKind::I32, None));
    let pointer = primitive(TypeIndex(0x0603)).expect("void *");
    assert_eq!((pointer.kind, pointer.indirection), (PrimitiveKind::Void, Some(Indirection::Near64)));
    for i in [0x01, 0x0874, 0x1000, u32::MAX] {
        assert_eq!(primitive(TypeIndex(i)), Err(Error::NotFound(i)));
    }
}

#[test]
fn errors_by_name_and_number() {
    let e: Box<dyn std::error::Error> = Box::new(Error::NotIndexed(0x1004, 0x1003));
    assert_eq!(e.to_string(), "refused 9, not indexed: 4100, 4099");
    // a leaf in hex, as lists, dumps and papers have it
    assert_eq!(Error::LeafUnknown(0x1516).to_string(), "refused 10, leaf unknown: 0x1516");
    assert_eq!(Error::LeafUnknown(0xa).to_string(), "refused 10, leaf unknown: 0x000a");
    assert_eq!(Error::EndedAfter(0).number(), 1);
    assert_eq!(Error::Shift.number(), 26);
}

/// What holds bytes and numbers alone can go to another thread.
#[test]
fn threads() {
    fn sent<T: Send + Sync>() {}
    sent::<pdb_types::Types<'_>>();
    sent::<pdb_types::TypeData<'_>>();
    sent::<pdb_types::Report>();
    sent::<pdb_types::Writer>();
    sent::<Error>();
    let s = sample("rich-x64.tpi");
    let types = pdb_types::Types::parse(&s).expect("a stream");
    std::thread::scope(|scope| {
        for _ in 0..2 {
            scope.spawn(|| types.iter().for_each(|item| drop(types.declare(item.expect("a record").index()))));
        }
    });
}

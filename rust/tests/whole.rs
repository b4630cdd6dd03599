//! Places, sections, whole streams and the writer, on the samples of the repository.
use pdb_types::{
    Cell, Dropped, Error, Fit, Header, IdInformation, Leaf, Member, Report, Rule, Section, SectionData, SectionIndex, TypeData, TypeIndex, TypeInformation,
    Types, Writer,
};
use std::path::PathBuf;

const TYPES: [&str; 5] = ["e.tpi", "hand.tpi", "plain-x64.tpi", "rich-x64.tpi", "gen400-x64.tpi"];
const IDS: [&str; 3] = ["hand.ipi", "plain-x64.ipi", "rich-x64.ipi"];
const SECTIONS: [&str; 2] = ["plain-x64.debugT", "rich-x64.debugT"];

fn sample(name: &str) -> Vec<u8> {
    let path = PathBuf::from(env!("CARGO_MANIFEST_DIR")).join("../samples").join(name);
    std::fs::read(&path).unwrap_or_else(|e| panic!("{}: {e}", path.display()))
}

#[test]
fn one_call_indexes_as_updates_do() {
    for name in TYPES {
        let s = sample(name);
        let info = TypeInformation::parse(&s).unwrap();
        for shift in 0..=6 {
            let mut by_updates = info.finder_by(shift).unwrap();
            let mut iter = info.iter();
            while let Some(item) = iter.next() {
                item.unwrap();
                by_updates.update(&iter).unwrap();
            }
            let mut by_one_call = info.finder_by(shift).unwrap();
            by_one_call.index().unwrap();
            assert_eq!(by_one_call.places(), by_updates.places());
            assert_eq!((by_one_call.shift(), by_one_call.max_index()), (shift, by_updates.max_index()));
        }
    }
}

#[test]
fn a_walk_that_is_refused_keeps_its_places() {
    let mut s = sample("plain-x64.tpi");
    s.truncate(s.len() - 1);
    let info = TypeInformation::parse(&s).unwrap();
    let mut finder = info.finder_by(0).unwrap();
    assert_eq!(finder.index(), Err(Error::Ended));
    assert!(finder.find(TypeIndex(0x1000 + 53)).is_ok());
    assert_eq!(info.indexed().map(|_| ()), Err(Error::Ended));
    assert_eq!(Types::parse(&s).unwrap().end(), Some(Error::Ended));
    // more records than the header counts
    let mut s = sample("plain-x64.tpi");
    s[12..16].copy_from_slice(&4097u32.to_le_bytes());
    let types = Types::parse(&s).unwrap();
    assert_eq!((types.end(), types.len()), (None, 1));
    assert_eq!(types.finder().places().len(), 7);
}

#[test]
fn places_round_trip() {
    for name in TYPES {
        let s = sample(name);
        let info = TypeInformation::parse(&s).unwrap();
        let finder = info.indexed().unwrap();
        let file = finder.save().unwrap();
        assert_eq!(file.len(), 4 * finder.places().len() + 28);
        let loaded = info.load(&file).unwrap();
        assert_eq!((loaded.places(), loaded.shift()), (finder.places(), finder.shift()));
        for item in &info {
            let item = item.unwrap();
            assert_eq!(loaded.find(item.index()), Ok(item));
        }
        assert_eq!(info.load(&file[1..]).map(|_| ()), Err(Error::FileWrong));
        let mut changed = file.clone();
        changed[0] ^= 1;
        assert_eq!(info.load(&changed).map(|_| ()), Err(Error::OffTheChain));
        assert_eq!(Types::load(&s, &file).unwrap().declare(TypeIndex(0x74)).unwrap(), "int");
    }
    let (a, b) = (sample("e.tpi"), sample("hand.tpi"));
    let file = TypeInformation::parse(&a).unwrap().indexed().unwrap().save().unwrap();
    assert_eq!(TypeInformation::parse(&b).unwrap().load(&file).map(|_| ()), Err(Error::AnotherStream));
    let ids = sample("rich-x64.ipi");
    let ids = IdInformation::parse(&ids).unwrap();
    assert!(ids.load(&ids.indexed().unwrap().save().unwrap()).is_ok());
    let none = TypeInformation::parse(&[]).unwrap();
    assert!(none.load(&none.indexed().unwrap().save().unwrap()).is_ok());
}

#[test]
fn sections() {
    for name in SECTIONS {
        let s = sample(name);
        let section = Section::parse(&s).unwrap();
        let stream = section.to_stream().unwrap();
        assert_eq!(stream.len(), s.len() + 52);
        let types = Types::parse(&stream).unwrap();
        let finder = section.indexed().unwrap();
        let (mut records, mut ids) = (0, 0);
        for item in &section {
            let item = item.unwrap();
            assert_eq!(item.index(), SectionIndex(0x1000 + records));
            records += 1;
            assert_eq!(finder.find(item.index()), Ok(item));
            let place = item.place().unwrap();
            assert_eq!(&s[place..place + item.len()], item.bytes());
            let as_type = types.get(TypeIndex(item.index().0)).unwrap();
            assert_eq!(as_type.bytes(), item.bytes());
            match section.read(&item).unwrap() {
                SectionData::Type(data) => assert_eq!(as_type.parse(), Ok(data)),
                SectionData::Id(data) => {
                    ids += 1;
                    assert_eq!(pdb_types::IdData::parse(item.bytes()), Ok(data));
                    assert_eq!(as_type.parse(), Err(Error::LeafUnknown(item.raw_kind().unwrap())));
                }
            }
        }
        assert_eq!(section.count(), Ok(records.into()));
        assert!(ids > 0);
        let item = finder.find(TypeIndex(0x74).into()).unwrap();
        assert!(matches!(section.read(&item), Ok(SectionData::Type(TypeData::Primitive(_)))));
    }
    assert_eq!(Section::parse(b"\x04\0\0").map(|_| ()), Err(Error::Ended));
    assert_eq!(Section::parse(b"\x05\0\0\0").map(|_| ()), Err(Error::Signature));
    let cut = b"\x04\0\0\0\x02\0\x01";
    assert_eq!(Section::parse(cut).unwrap().count(), Err(Error::Ended));
    assert_eq!(Section::parse(cut).unwrap().finder().map(|_| ()), Err(Error::Ended));
}

#[test]
fn fit() {
    for name in TYPES {
        let s = sample(name);
        // a record of the one written by hand names a later one
        let wanted = match name {
            "hand.tpi" => Fit::No {
                record: 4102,
                rule: Rule::Order,
            },
            _ => Fit::Yes,
        };
        assert_eq!(TypeInformation::parse(&s).unwrap().fit(), Ok(wanted), "{name}");
    }
    let broken = |at: usize, byte: u8| {
        let mut s = sample("e.tpi");
        s[at] = byte;
        TypeInformation::parse(&s).unwrap().fit().unwrap()
    };
    assert_eq!(broken(12, 3), Fit::No { record: 0, rule: Rule::Count });
    assert_eq!(
        broken(58, 2),
        Fit::No {
            record: 4096,
            rule: Rule::Decode
        }
    );
    assert_eq!(
        broken(61, 0x10),
        Fit::No {
            record: 4096,
            rule: Rule::Order
        }
    );
    assert_eq!(
        broken(60, 0x7c),
        Fit::No {
            record: 4096,
            rule: Rule::Primitive
        }
    );
    let mut s = sample("e.tpi");
    s[8..16].copy_from_slice(&[8, 16, 0, 0, 10, 16, 0, 0]); // indices from 0x1008 on
    assert_eq!(TypeInformation::parse(&s).unwrap().fit(), Ok(Fit::No { record: 4105, rule: Rule::Gap }));
    assert_eq!((Rule::Gap.number(), Rule::Gap.to_string()), (5, "Gap".to_string()));
}

#[test]
fn drop() {
    for name in ["e.tpi", "plain-x64.tpi", "rich-x64.tpi", "gen400-x64.tpi"] {
        let s = sample(name);
        let info = TypeInformation::parse(&s).unwrap();
        let all: Vec<TypeIndex> = info.iter().map(|item| item.unwrap().index()).collect();
        // all of them, none of them, and the last one with what it needs
        let whole = info.drop(&all).unwrap();
        assert_eq!((whole.stream == s, whole.table), (true, all.iter().map(|i| i.0).collect()));
        let Dropped { stream, table } = info.drop(&[]).unwrap();
        assert_eq!((stream.len(), table.iter().all(|&n| n == 0)), (56, true));
        let last = *all.last().unwrap();
        let kept = info.drop(&[last]).unwrap();
        let (old, new) = (Types::parse(&s).unwrap(), Types::parse(&kept.stream).unwrap());
        assert_eq!(new.information().fit(), Ok(Fit::Yes));
        assert_eq!(new.len(), kept.table.iter().filter(|&&n| n != 0).count());
        for (k, &n) in kept.table.iter().enumerate().filter(|(_, &n)| n != 0) {
            assert_eq!(old.declare(TypeIndex(0x1000 + k as u32)), new.declare(TypeIndex(n)));
        }
        assert_eq!(info.drop(&[TypeIndex(last.0 + 1)]), Err(Error::NotFound(last.0 + 1)));
    }
    let mut s = sample("e.tpi");
    s[12..16].copy_from_slice(&u32::MAX.to_le_bytes());
    assert_eq!(TypeInformation::parse(&s).unwrap().drop(&[]), Err(Error::NotFit));
}

#[test]
fn report() {
    let mut report = Report::new();
    let (mut records, mut bytes, mut largest) = (0, 0, 0);
    for name in TYPES.iter().chain(&IDS) {
        let s = sample(name);
        report.add(&s).unwrap();
        for item in TypeInformation::parse(&s).unwrap() {
            let length = item.unwrap().len() as u64;
            (records, bytes, largest) = (records + 1, bytes + length, length.max(largest));
        }
    }
    assert_eq!(
        (report.taken(), report.refused(), report.headers(), report.records(), report.bytes()),
        (8, 0, 8 * 56, records, bytes)
    );
    assert_eq!(report.rows().map(|row| row.records).sum::<u64>(), records);
    assert_eq!(report.rows().map(|row| row.bytes).sum::<u64>(), bytes);
    assert!(report.rows().all(|row| row.leaf.name().is_some()));
    assert_eq!((report.largest(), report.largest_stream()), (largest, 7));
    assert!(report.largest_index() >= 0x1000);
    // a sixty-fifth leaf: refused, and the report is as it was
    let mut s = sample("e.tpi")[..56].to_vec();
    for leaf in 0x4000u16..0x4041 {
        s.extend([2, 0]);
        s.extend(leaf.to_le_bytes());
    }
    let before = format!("{report:?}");
    assert_eq!(report.add(&s), Err(Error::LeavesFull));
    assert_eq!(format!("{report:?}"), before);
}

/// A record is in normal form where it is written again as it was. What the samples have that is not: E's first record is not filled, and pointers to members
/// have two bytes without a name, which are written as zero.
#[test]
fn what_was_read_is_written_again() {
    let (mut same, mut others) = (0, Vec::new());
    for name in TYPES {
        let s = sample(name);
        let info = TypeInformation::parse(&s).unwrap();
        let mut writer = Writer::new(*info.header()).unwrap();
        for item in &info {
            let item = item.unwrap();
            let from = writer.bytes().len();
            assert_eq!(writer.push_type_again(&item), Ok(item.index()));
            if &writer.bytes()[from + 2..] == item.bytes() {
                same += 1;
            } else {
                others.push((name, item.leaf().unwrap()));
            }
        }
        // what is written reads as what was read, byte for byte or not
        let written = writer.finish().unwrap();
        let again = TypeInformation::parse(&written).unwrap();
        assert_eq!(again.len(), info.len());
        for (old, new) in info.iter().zip(&again) {
            let (old, new) = (old.unwrap(), new.unwrap());
            match (old.parse().unwrap(), new.parse().unwrap()) {
                (TypeData::FieldList(a), TypeData::FieldList(b)) => assert!(a.iter().eq(b.iter())),
                (TypeData::MethodList(a), TypeData::MethodList(b)) => assert!(a.iter().eq(b.iter())),
                (a, b) => assert_eq!(a, b),
            }
        }
    }
    assert_eq!((same, others.len()), (4202, 108));
    others.retain(|&(name, leaf)| !(leaf == Leaf::POINTER || name == "e.tpi" && leaf == Leaf::MODIFIER));
    assert_eq!(others, []);
    for name in IDS {
        let s = sample(name);
        let info = IdInformation::parse(&s).unwrap();
        let mut writer = Writer::new(*info.header()).unwrap();
        for item in &info {
            let item = item.unwrap();
            assert_eq!(writer.push_id_again(&item), Ok(item.index()));
        }
        assert!(writer.finish().unwrap() == s, "{name}");
    }
}

#[test]
fn written_by_hand() {
    let header = Header {
        version: 20040203,
        header_size: 56,
        minimum_index: 0x1000,
        ..Header::default()
    };
    let mut writer = Writer::new(header).unwrap();
    let s = sample("rich-x64.tpi");
    let rich = Types::parse(&s).unwrap();
    let members: Vec<Member<'_>> = rich
        .iter()
        .filter_map(|item| match item.unwrap().parse() {
            Ok(TypeData::FieldList(list)) => Some(list),
            _ => None,
        })
        .flatten()
        .map(|member| member.unwrap())
        .collect();
    let list = writer.push_fields(members.iter().copied()).unwrap();
    let text = b"Everything";
    let cells = [
        Cell::Number(members.len() as u64),
        Cell::Number(0),
        Cell::Number(list.0.into()),
        Cell::Absent,
        Cell::Absent,
        Cell::natural(1 << 40),
        Cell::Part { place: 0, length: text.len() },
        Cell::Absent,
    ];
    let class = writer.push_type(Leaf::STRUCTURE, &cells, text).unwrap();
    // refused, and nothing is written
    let before = writer.bytes().len();
    assert_eq!(writer.push_type(Leaf::STRUCTURE, &cells[1..], text), Err(Error::WouldNotReadBack));
    assert_eq!(writer.push_type(Leaf(0x1516), &[], b""), Err(Error::WouldNotReadBack));
    assert_eq!(writer.push_type(Leaf::STRUCTURE, &[Cell::Absent; 10], b""), Err(Error::WouldNotReadBack));
    assert_eq!(writer.push_fields(std::iter::repeat_n(members[0], 60_000)), Err(Error::RecordTooLong));
    assert_eq!(writer.bytes().len(), before);
    let stream = writer.finish().unwrap();
    let types = Types::parse(&stream).unwrap();
    assert_eq!((types.len(), types.information().header().gprec_size as usize), (2, stream.len() - 56));
    let TypeData::Class(read) = types.data(class).unwrap() else {
        panic!("a class")
    };
    assert_eq!((read.name.to_string().as_ref(), read.size), ("Everything", 1 << 40));
    assert!(types.members(read.fields.unwrap()).map(|m| m.unwrap()).eq(members));
    // more than one buffer
    let mut writer = Writer::new(header).unwrap();
    for _ in 0..50_000 {
        writer.push_type(Leaf::MODIFIER, &[Cell::Number(0x74), Cell::Number(1)], b"").unwrap();
    }
    assert_eq!(Types::parse(&writer.finish().unwrap()).unwrap().len(), 50_000);
    assert_eq!(Writer::new(Header::default()).map(|_| ()), Err(Error::HeaderSmall));
}

//! Every record and every element of the samples, by this crate's types; and small records, each with what it must hold.
use pdb_types::{
    cells, layout, ArrayType, Cell, ClassKind, Code, Error, FieldAttributes, Form, Id, IdData, IdIndex, IdInformation, Layouts, Leaf, Member, PointerMode,
    RawString, Type, TypeData, TypeIndex, TypeInformation, Types, UserDefinedTypeSourceFileRef, Variant, DECLARATION_LIMIT,
};
use std::collections::BTreeMap;
use std::path::PathBuf;

const TYPES: [&str; 5] = ["e.tpi", "hand.tpi", "plain-x64.tpi", "rich-x64.tpi", "gen400-x64.tpi"];
const IDS: [&str; 3] = ["hand.ipi", "plain-x64.ipi", "rich-x64.ipi"];

fn sample(name: &str) -> Vec<u8> {
    let path = PathBuf::from(env!("CARGO_MANIFEST_DIR")).join("../samples").join(name);
    std::fs::read(&path).unwrap_or_else(|e| panic!("{}: {e}", path.display()))
}

/// Bytes from hex digits, with blanks between them.
fn hex(text: &str) -> Vec<u8> {
    let digits: Vec<char> = text.chars().filter(|c| !c.is_whitespace()).collect();
    digits
        .chunks(2)
        .map(|two| u8::from_str_radix(&two.iter().collect::<String>(), 16).unwrap())
        .collect()
}

#[test]
fn every_type_record_parses() {
    for name in TYPES {
        let s = sample(name);
        let types = Types::parse(&s).expect(name);
        assert_eq!(types.end(), None);
        let (mut records, mut elements) = (0, BTreeMap::<&str, u32>::new());
        for item in &types {
            let item = item.expect("a record");
            records += 1;
            let data = item.parse().unwrap_or_else(|e| panic!("{name} {}: {e}", item.index()));
            assert_eq!(types.data(item.index()).as_ref(), Ok(&data));
            match data {
                TypeData::FieldList(list) => {
                    for member in list {
                        let key = match member.expect("a member") {
                            Member::Member(_) => "member",
                            Member::StaticMember(_) => "static",
                            Member::Method(m) => {
                                assert_eq!(m.vtable_offset.is_some(), m.attributes.is_intro_virtual());
                                "method"
                            }
                            Member::OverloadedMethod(_) => "methods",
                            Member::Nested(_) => "nested",
                            Member::BaseClass(_) => "base",
                            Member::VirtualBaseClass(_) => "virtual base",
                            Member::VirtualFunctionTablePointer(_) => "table",
                            Member::Enumerate(_) => "enumerator",
                            Member::Continuation(_) => "continuation",
                            other => panic!("{other:?}"),
                        };
                        *elements.entry(key).or_default() += 1;
                    }
                }
                TypeData::MethodList(list) => {
                    for method in list {
                        method.expect("an entry");
                        *elements.entry("entries").or_default() += 1;
                    }
                }
                TypeData::ArgumentList(list) => *elements.entry("arguments").or_default() += list.arguments.len() as u32,
                TypeData::Class(class) => assert_eq!(class.unique_name.is_some(), class.properties.has_unique_name()),
                TypeData::Pointer(pointer) => assert!(pointer.attributes.pointer_kind().is_ok() && pointer.attributes.pointer_mode().is_ok()),
                TypeData::VirtualTableShape(shape) => assert_eq!(shape.slots.len(), usize::from(shape.count).div_ceil(2)),
                _ => {}
            }
        }
        assert_eq!(records, types.len());
        if name == "rich-x64.tpi" {
            let wanted = [
                ("arguments", 32),
                ("base", 2),
                ("entries", 12),
                ("enumerator", 24),
                ("member", 54),
                ("method", 18),
                ("methods", 3),
                ("nested", 5),
                ("static", 6),
                ("table", 2),
                ("virtual base", 3),
            ];
            assert_eq!(elements.into_iter().collect::<Vec<_>>(), wanted);
        }
    }
}

#[test]
fn every_id_record_parses() {
    let mut leaves = BTreeMap::<u16, u32>::new();
    for name in IDS {
        let s = sample(name);
        for item in IdInformation::parse(&s).expect(name) {
            let item = item.expect("a record");
            *leaves.entry(item.raw_kind().unwrap()).or_default() += 1;
            item.parse().unwrap_or_else(|e| panic!("{name} {}: {e}", item.index()));
        }
    }
    assert_eq!(
        leaves.keys().copied().collect::<Vec<_>>(),
        [0x1601, 0x1602, 0x1603, 0x1604, 0x1605, 0x1606, 0x1607]
    );
}

#[test]
fn members_follow_continuations() {
    let s = sample("hand.tpi");
    let types = Types::parse(&s).unwrap();
    let mut lists = 0;
    for item in &types {
        let item = item.unwrap();
        let TypeData::FieldList(list) = item.parse().unwrap() else { continue };
        let members: Vec<_> = list.into_iter().map(|m| m.unwrap()).collect();
        let followed: Vec<_> = types.members(item.index()).map(|m| m.unwrap()).collect();
        match members.last() {
            Some(Member::Continuation(next)) => {
                lists += 1;
                let rest: Vec<_> = types.members(*next).map(|m| m.unwrap()).collect();
                assert_eq!(followed, [&members[..members.len() - 1], &rest].concat());
            }
            _ => assert_eq!(followed, members),
        }
    }
    assert_eq!(lists, 1);
    // no list: the leaf that is there; no record: the index
    assert_eq!(types.members(TypeIndex(0x74)).collect::<Vec<_>>(), [Err(Error::LeafUnknown(0xffff))]);
    assert_eq!(types.members(TypeIndex(9999)).collect::<Vec<_>>(), [Err(Error::NotFound(9999))]);
    // a list that goes on in itself
    let mut looped = s[..56].to_vec();
    looped[12..16].copy_from_slice(&4097u32.to_le_bytes());
    looped.extend(hex("0a00 0312 0414 0000 00100000"));
    let types = Types::parse(&looped).unwrap();
    assert_eq!(types.members(TypeIndex(4096)).collect::<Vec<_>>(), [Err(Error::NotFit)]);
}

fn parsed(bytes: &[u8]) -> pdb_types::Result<TypeData<'_>> {
    Type::new(TypeIndex(0x1000), bytes).parse()
}

#[test]
fn small_type_records() {
    let bytes = hex("0515 0200 0002 04100000 00000000 ffff0000 0800 5300 2e3f415553404000 f2f1");
    let Ok(TypeData::Class(class)) = parsed(&bytes) else { panic!("a class") };
    assert_eq!((class.kind, class.count, class.fields), (ClassKind::Struct, 2, Some(TypeIndex(0x1004))));
    assert_eq!((class.derived_from, class.vtable_shape, class.size), (None, None, 8));
    assert_eq!((class.name, class.unique_name), (RawString::from("S"), Some(RawString::from(".?AUS@@"))));
    assert_eq!(class.form, Form { width: 2, shorter: false });

    let bytes = hex("0315 74000000 23000000 0480 00000100 6100");
    assert_eq!(
        parsed(&bytes),
        Ok(TypeData::Array(ArrayType {
            element_type: TypeIndex(0x74),
            indexing_type: TypeIndex(0x23),
            size: 65536,
            form: Form { width: 6, shorter: false },
            name: RawString::from("a"),
        }))
    );

    let bytes = hex("0210 74000000 4c800000 04100000 0100 f2f1");
    let Ok(TypeData::Pointer(pointer)) = parsed(&bytes) else {
        panic!("a pointer")
    };
    assert_eq!(
        (pointer.containing_class, pointer.attributes.pointer_mode()),
        (Some(TypeIndex(0x1004)), Ok(PointerMode::Member))
    );

    let bytes = hex("0a00 0300 5005");
    let Ok(TypeData::VirtualTableShape(shape)) = parsed(&bytes) else {
        panic!("a shape")
    };
    assert_eq!((shape.count, shape.slots), (3, &[0x50, 5][..]));
}

#[test]
fn small_members() {
    let bytes = hex("0312 0215 0300 0080 ff 4100 f2f1 0014 0300 04100000 0a80 0000000001000000 0114 0300 04100000 05100000 0800 0100");
    let Ok(TypeData::FieldList(list)) = parsed(&bytes) else { panic!("a list") };
    let members: Vec<_> = list.into_iter().map(|m| m.unwrap()).collect();
    let [Member::Enumerate(a), Member::BaseClass(b), Member::VirtualBaseClass(v)] = members[..] else {
        panic!("{members:?}")
    };
    assert_eq!(
        (a.value, a.form, a.name),
        (Variant::Negative(-1), Form { width: 3, shorter: false }, RawString::from("A"))
    );
    assert_eq!((b.base_class, b.offset, b.attributes), (TypeIndex(0x1004), 1 << 32, FieldAttributes(3)));
    assert!(v.direct);
    assert_eq!((v.base_pointer, v.base_pointer_offset, v.virtual_base_offset), (TypeIndex(0x1005), 8, 1));
}

#[test]
fn small_ids() {
    let bytes = hex("0716 04100000 09000000 2a000000 0700 f2f1");
    let Ok(IdData::UserDefinedTypeSource(source)) = Id::new(IdIndex(0x1000), &bytes).parse() else {
        panic!("a source")
    };
    assert_eq!((source.udt, source.line), (TypeIndex(0x1004), 42));
    let UserDefinedTypeSourceFileRef::Remote(module, place) = source.source_file else {
        panic!("remote")
    };
    assert_eq!((module, place.0), (7, 9));
}

#[test]
fn refused_records() {
    assert_eq!(parsed(&[]), Err(Error::Ended));
    assert_eq!(parsed(&hex("01")), Err(Error::Ended));
    assert_eq!(parsed(&hex("0d15 0300 74000000 0000 7800")), Err(Error::LeafUnknown(0x150d)));
    assert_eq!(parsed(&hex("0210 74000000 0d000000")), Err(Error::PointerWord));
    assert_eq!(parsed(&hex("0315 74000000 23000000 0080 ff 00")), Err(Error::NumberBad));
    // a primitive whatever its bytes, and a marker that is none
    assert_eq!(Type::new(TypeIndex(0x7c), &[0xff, 0xff]).parse(), Err(Error::NotFound(0x7c)));
    assert_eq!(parsed(&[0xff, 0xff]), Err(Error::LeafUnknown(0xffff)));
    // an element that is refused ends its list
    let bytes = hex("0312 0d15 0300 74000000 0000 7800 0d15");
    let Ok(TypeData::FieldList(list)) = parsed(&bytes) else { panic!("a list") };
    let mut iter = list.iter();
    assert!(matches!(iter.next(), Some(Ok(Member::Member(_)))));
    assert_eq!(iter.next(), Some(Err(Error::Ended)));
    assert_eq!(iter.next(), None);
}

#[test]
fn declarations() {
    let s = sample("plain-x64.tpi");
    let types = Types::parse(&s).unwrap();
    assert_eq!(types.declare(TypeIndex(0x1015)).unwrap(), "int (*)(int, node *, ...)");
    assert_eq!(types.declare(TypeIndex(0x1000)), Err(Error::LeafNotPrinted));
    assert_eq!(types.declaration(TypeIndex(0x1000)).to_string(), "0x1000");
    assert_eq!(format!("[{:>8}]", types.declaration(TypeIndex(0x74))), "[     int]");
    assert_eq!(types.declare_into(TypeIndex(0x1015), &mut [0; 4]), Err(Error::NoRoom));
    // longer than the first buffer
    let long: Vec<_> = types.iter().filter_map(|item| types.declare(item.unwrap().index()).ok()).collect();
    assert!(long.iter().all(|text| !text.is_empty()) && long.len() > 30);
}

/// Procedures that take the one before twice, and so on: the text doubles with each, and is refused at the limit.
#[test]
fn a_declaration_has_a_limit() {
    let mut s = sample("e.tpi")[..56].to_vec();
    for k in 0..15u32 {
        let inner = if k == 0 { 0x74 } else { 0x1000 + 2 * k - 1 };
        s.extend(hex("0e00 0112 02000000"));
        s.extend([inner.to_le_bytes(), inner.to_le_bytes()].concat());
        s.extend(hex("0e00 0810 74000000 0000 0200"));
        s.extend((0x1000 + 2 * k).to_le_bytes());
    }
    s[12..16].copy_from_slice(&(0x1000 + 30u32).to_le_bytes());
    let types = Types::parse(&s).unwrap();
    assert_eq!(types.end(), None);
    assert_eq!(types.declare(TypeIndex(0x1001)).unwrap(), "int (int, int)");
    let lengths: Vec<usize> = (0..15)
        .map_while(|k| types.declare(TypeIndex(0x1001 + 2 * k)).ok())
        .map(|text| text.len())
        .collect();
    assert!(lengths.windows(2).all(|two| two[1] > 2 * two[0] && two[1] < 3 * two[0]), "{lengths:?}");
    assert!(*lengths.last().unwrap() <= DECLARATION_LIMIT);
    let mut deeper = s.clone();
    for k in 15..17u32 {
        deeper.extend(hex("0e00 0112 02000000"));
        deeper.extend([(0x1000 + 2 * k - 1).to_le_bytes(), (0x1000 + 2 * k - 1).to_le_bytes()].concat());
        deeper.extend(hex("0e00 0810 74000000 0000 0200"));
        deeper.extend((0x1000 + 2 * k).to_le_bytes());
    }
    deeper[12..16].copy_from_slice(&(0x1000 + 34u32).to_le_bytes());
    let last = Types::parse(&deeper).unwrap().declare(TypeIndex(0x1000 + 33));
    assert!(matches!(last, Err(Error::NoRoom | Error::TooDeep)), "{:?}", last.map(|text| text.len()));
}

#[test]
fn cells_have_a_cell_for_each_field() {
    for name in TYPES {
        let s = sample(name);
        for item in TypeInformation::parse(&s).unwrap() {
            let item = item.unwrap();
            let record = cells(item.bytes(), false).unwrap();
            assert_eq!(Ok(record.leaf()), item.leaf());
            let codes: Vec<Code> = layout(Layouts::Types, record.leaf()).collect();
            assert_eq!(codes.len(), record.len(), "{}", record.leaf());
            let name = codes.iter().position(|&code| code == Code::String).map(|k| record[k]);
            if let (Some(Cell::Part { place, length }), Ok(data)) = (name, item.parse()) {
                let name = match data {
                    TypeData::Array(array) => Some(array.name),
                    data => data.name(),
                };
                assert_eq!(name.map(|name| name.as_bytes()), Some(&item.bytes()[place..place + length]));
            }
        }
    }
    assert_eq!(layout(Layouts::Types, Leaf(0x1516)).count(), 0);
    assert_eq!(cells(&[1], false), Err(Error::Ended));
}

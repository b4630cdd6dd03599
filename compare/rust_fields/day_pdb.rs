//! day_pdb STREAM TIMES [all|leaf]: day_ours with crate pdb 0.8.0.
use pdb::{FallibleIterator, RawString, Result, TypeData, TypeInformation, Variant};

fn text(name: RawString<'_>) -> u64 {
    let bytes = name.as_bytes();
    bytes.len() as u64 + bytes.first().map_or(0, |&b| u64::from(b))
}

fn bits(value: Variant) -> u64 {
    match value {
        Variant::U8(n) => n.into(),
        Variant::U16(n) => n.into(),
        Variant::U32(n) => n.into(),
        Variant::U64(n) => n,
        Variant::I8(n) => n as u64,
        Variant::I16(n) => n as u64,
        Variant::I32(n) => n as u64,
        Variant::I64(n) => n as u64,
    }
}

fn day(info: &TypeInformation<'_>, leaf: bool) -> Result<[u64; 3]> {
    let (mut types, mut members, mut sum) = (0, 0, 0u64);
    let mut finder = info.finder();
    let mut iter = info.iter();
    while iter.next()?.is_some() {
        finder.update(&iter);
    }
    let mut iter = info.iter();
    while let Some(item) = iter.next()? {
        if leaf && !(0x1504..=0x1507).contains(&item.raw_kind()) {
            continue;
        }
        let Ok(data) = item.parse() else { continue };
        let (name, fields) = match data {
            TypeData::Class(class) => match class.fields {
                Some(fields) => (class.name, fields),
                None => continue,
            },
            TypeData::Union(union) if !union.properties.forward_reference() => (union.name, union.fields),
            TypeData::Enumeration(enumeration) if !enumeration.properties.forward_reference() => (enumeration.name, enumeration.fields),
            _ => continue,
        };
        types += 1;
        sum = sum.wrapping_add(text(name));
        let TypeData::FieldList(list) = finder.find(fields)?.parse()? else { continue };
        for member in list.fields {
            members += 1;
            sum = sum.wrapping_add(match member {
                TypeData::Member(m) => text(m.name).wrapping_add(m.field_type.0.into()).wrapping_add(m.offset),
                TypeData::StaticMember(m) => text(m.name) + u64::from(m.field_type.0),
                TypeData::Enumerate(m) => text(m.name).wrapping_add(bits(m.value)),
                TypeData::Method(m) => text(m.name) + u64::from(m.method_type.0),
                TypeData::OverloadedMethod(m) => text(m.name) + u64::from(m.method_list.0),
                TypeData::Nested(m) => text(m.name) + u64::from(m.nested_type.0),
                TypeData::BaseClass(m) => u64::from(m.base_class.0) + u64::from(m.offset),
                _ => 0,
            });
        }
    }
    Ok([types, members, sum])
}

fn main() {
    let words: Vec<String> = std::env::args().collect();
    let stream = std::fs::read(&words[1]).expect("a stream");
    let info = pdb::access::types(stream).expect("a header");
    let times: u32 = words[2].parse().expect("how many times");
    let leaf = words.get(3).is_some_and(|word| word == "leaf");
    let mut last = [0; 3];
    let start = std::time::Instant::now();
    for _ in 0..times {
        last = day(std::hint::black_box(&info), leaf).expect("a day");
    }
    let [types, members, sum] = last;
    println!("types={types} members={members} sum={sum}");
    eprintln!("{:.1} microseconds a day", start.elapsed().as_secs_f64() * 1e6 / f64::from(times.max(1)));
}

//! day_ours STREAM TIMES [all|leaf]: a generator's day with pdb_types. It indexes the stream, and of every class, union and enumeration it asks the name, and of
//! each member the name, the type and the offset or value; the sum of all that is printed. `leaf` looks at a record's leaf before it parses it, `all` parses
//! each record, as the example of crate pdb does. day_pdb is the same with crate pdb.
use pdb_types::{Member, RawString, Result, TypeData, TypeInformation};

fn text(name: RawString<'_>) -> u64 {
    let bytes = name.as_bytes();
    bytes.len() as u64 + bytes.first().map_or(0, |&b| u64::from(b))
}

fn day(stream: &[u8], leaf: bool) -> Result<[u64; 3]> {
    let (mut types, mut members, mut sum) = (0, 0, 0u64);
    let info = TypeInformation::parse(stream)?;
    let finder = info.indexed()?;
    for item in &info {
        let item = item?;
        if leaf && !(0x1504..=0x1507).contains(&item.raw_kind()?) {
            continue;
        }
        let Ok(data) = item.parse() else { continue };
        let (name, fields) = match data {
            TypeData::Class(class) => match class.fields {
                Some(fields) => (class.name, fields),
                None => continue,
            },
            TypeData::Union(union) if !union.properties.forward_reference() => (union.name, union.fields),
            TypeData::Enumeration(enumeration) if !enumeration.properties.forward_reference() => (enumeration.name, enumeration.fields),
            _ => continue,
        };
        types += 1;
        sum = sum.wrapping_add(text(name));
        let TypeData::FieldList(list) = finder.find(fields)?.parse()? else { continue };
        for member in list {
            members += 1;
            sum = sum.wrapping_add(match member? {
                Member::Member(m) => text(m.name).wrapping_add(m.field_type.0.into()).wrapping_add(m.offset),
                Member::StaticMember(m) => text(m.name) + u64::from(m.field_type.0),
                Member::Enumerate(m) => text(m.name).wrapping_add(m.value.bits()),
                Member::Method(m) => text(m.name) + u64::from(m.method_type.0),
                Member::OverloadedMethod(m) => text(m.name) + u64::from(m.method_list.0),
                Member::Nested(m) => text(m.name) + u64::from(m.nested_type.0),
                Member::BaseClass(m) => u64::from(m.base_class.0).wrapping_add(m.offset),
                _ => 0,
            });
        }
    }
    Ok([types, members, sum])
}

fn main() {
    let words: Vec<String> = std::env::args().collect();
    let stream = std::fs::read(&words[1]).expect("a stream");
    let times: u32 = words[2].parse().expect("how many times");
    let leaf = words.get(3).is_some_and(|word| word == "leaf");
    let mut last = [0; 3];
    let start = std::time::Instant::now();
    for _ in 0..times {
        last = day(std::hint::black_box(&stream), leaf).expect("a day");
    }
    let [types, members, sum] = last;
    println!("types={types} members={members} sum={sum}");
    eprintln!("{:.1} microseconds a day", start.elapsed().as_secs_f64() * 1e6 / f64::from(times.max(1)));
}

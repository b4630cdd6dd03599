//! `decompose`: a stream as the lines of text that `compose` makes it from (docs/TEXT.md). The values of a line are the cells of its record, in their order.
use crate::args::Call;
use crate::fail::Failure;
use crate::input::{is_id_leaf, Input};
use crate::output;
use crate::progress::Progress;
use pdb_types::{cells, layout, Cell, Code, Error, Header, Layouts, Leaf, Member, MethodListEntry, Result, Type, TypeData, TypeInformation};
use std::fmt::Write as _;
use std::io::Write;

/// The fields of the header, in their order.
fn header_line(h: &Header) -> String {
    let mut line = format!(
        "{} {} {} {} {} {} {} {} {}",
        h.version, h.header_size, h.minimum_index, h.maximum_index, h.gprec_size, h.tpi_hash_stream, h.tpi_hash_pad_stream, h.hash_key_size, h.hash_bucket_size
    );
    for part in [h.hash_values, h.ti_off, h.hash_adj] {
        let _ = write!(line, " {} {}", part.offset, part.size);
    }
    line
}

/// `=` and the bytes in hex.
fn hex(line: &mut String, bytes: &[u8]) {
    line.push_str(" =");
    for b in bytes {
        let _ = write!(line, "{b:02x}");
    }
}

/// A field's value behind those before it. A list's count is not said, and neither is what has no name.
fn put_cell(line: &mut String, bytes: &[u8], code: Code, cell: Cell) {
    let part = |place: usize, length: usize| bytes.get(place..).and_then(|from| from.get(..length)).unwrap_or_default();
    match (code, cell) {
        (Code::Gap, _) => {}
        (Code::Types | Code::Ids, Cell::Part { place, length }) => {
            for four in part(place, length).chunks_exact(4) {
                let _ = write!(line, " {}", u32::from_le_bytes([four[0], four[1], four[2], four[3]]));
            }
        }
        (_, Cell::Part { place, length }) => hex(line, part(place, length)),
        (_, Cell::Number(n) | Cell::Natural { value: n, .. }) => {
            let _ = write!(line, " {n}");
        }
        (_, Cell::Negative { n, .. }) => {
            let _ = write!(line, " {}", -1 - i128::from(n));
        }
        (_, Cell::Absent) => line.push_str(" -"),
    }
}

/// The values of a record that is no list of members or methods.
fn put_record(line: &mut String, leaf: Leaf, bytes: &[u8], ids: bool) -> Result<()> {
    let record = cells(bytes, ids)?;
    let _ = write!(line, "{:04x}", leaf.0);
    if leaf == Leaf::MODIFIER {
        // its word is said bit by bit
        if let [Cell::Number(t), Cell::Number(word)] = record[..] {
            let _ = write!(line, " {t} {} {} {}", word & 1, word >> 1 & 1, word >> 2 & 1);
        }
        return Ok(());
    }
    let codes = layout(if ids { Layouts::Ids } else { Layouts::Types }, leaf);
    let mut fields = codes.zip(record.iter().copied()).peekable();
    while let Some((code, cell)) = fields.next() {
        // the count of a run of indices is that of the values
        if fields.peek().is_some_and(|(next, _)| matches!(next, Code::Types | Code::Ids)) {
            continue;
        }
        put_cell(line, bytes, code, cell);
    }
    Ok(())
}

fn put_offset(line: &mut String, offset: Option<u32>) {
    let _ = match offset {
        Some(n) => write!(line, " {n}"),
        None => write!(line, " -"),
    };
}

fn put_method(line: &mut String, m: &MethodListEntry) {
    let _ = write!(line, " / {} {}", m.attributes.0, m.method_type.0);
    put_offset(line, m.vtable_offset);
}

fn put_member(line: &mut String, member: &Member<'_>) {
    let _ = match member {
        Member::BaseClass(m) => write!(line, " / 1400 {} {} {}", m.attributes.0, m.base_class.0, m.offset),
        Member::VirtualBaseClass(m) => write!(
            line,
            " / {} {} {} {} {} {}",
            if m.direct { "1401" } else { "1402" },
            m.attributes.0,
            m.base_class.0,
            m.base_pointer.0,
            m.base_pointer_offset,
            m.virtual_base_offset
        ),
        Member::Continuation(index) => write!(line, " / 1404 {}", index.0),
        Member::VirtualFunctionTablePointer(m) => write!(line, " / 1409 {}", m.table.0),
        Member::Enumerate(m) => write!(line, " / 1502 {} {}", m.attributes.0, m.value),
        Member::Member(m) => write!(line, " / 150d {} {} {}", m.attributes.0, m.field_type.0, m.offset),
        Member::StaticMember(m) => write!(line, " / 150e {} {}", m.attributes.0, m.field_type.0),
        Member::OverloadedMethod(m) => write!(line, " / 150f {} {}", m.count, m.method_list.0),
        Member::Nested(m) => write!(line, " / 1510 {} {}", m.attributes.0, m.nested_type.0),
        Member::Method(m) => {
            let begun = write!(line, " / 1511 {} {}", m.attributes.0, m.method_type.0);
            put_offset(line, m.vtable_offset);
            begun
        }
        // what a later library brings has no text
        _ => write!(line, " / refused {}", Error::LeafUnknown(0).number()),
    };
    // `name` has no name of a method, as crate pdb has none
    let name = match member {
        Member::Method(m) => Some(m.name),
        member => member.name(),
    };
    if let Some(name) = name {
        hex(line, name.as_bytes());
    }
}

/// The elements of a list. A refused one is its last: whether all are good.
fn put_elements<T>(line: &mut String, elements: impl Iterator<Item = Result<T>>, put: impl Fn(&mut String, &T)) -> bool {
    for element in elements {
        match element {
            Ok(element) => put(line, &element),
            Err(e) => {
                let _ = write!(line, " / refused {}", e.number());
                return false;
            }
        }
    }
    true
}

/// The line of a record: whether nothing in it is refused.
fn put_line(line: &mut String, item: &Type<'_>) -> bool {
    let answer = item.leaf().and_then(|leaf| match leaf {
        Leaf::FIELDLIST | Leaf::METHODLIST => {
            let data = item.parse()?;
            let _ = write!(line, "{:04x}", leaf.0);
            Ok(match data {
                TypeData::FieldList(list) => put_elements(line, list.iter(), put_member),
                TypeData::MethodList(list) => put_elements(line, list.iter(), put_method),
                _ => true,
            })
        }
        leaf => put_record(line, leaf, item.bytes(), is_id_leaf(leaf.0)).map(|()| true),
    });
    answer.unwrap_or_else(|e| {
        let _ = write!(line, "refused {}", e.number());
        false
    })
}

pub fn run(call: &Call) -> std::result::Result<(), Failure> {
    let input = Input::stream_of(call)?;
    if input.bytes.is_empty() {
        return Ok(());
    }
    let information: TypeInformation<'_> = input.refused(TypeInformation::parse(&input.bytes))?;
    let progress = Progress::of("decomposing", information.len() as u64);
    let mut out = output::standard()?;
    writeln!(out, "{}", header_line(information.header()))?;
    let (mut line, mut refused, mut end) = (String::new(), 0u64, None);
    for item in &information {
        line.clear();
        match item {
            Ok(item) => refused += u64::from(!put_line(&mut line, &item)),
            Err(e) => {
                let _ = write!(line, "refused {}", e.number());
                end = Some(e);
            }
        }
        writeln!(out, "{line}")?;
        progress.step();
    }
    out.flush()?;
    let mut wrong = Vec::new();
    if refused > 0 {
        let records = if refused == 1 { "record has" } else { "records have" };
        wrong.push(format!("{}: {refused} {records} `refused` in their lines", input.name));
    }
    wrong.extend(end.map(|e| format!("{}: {e}", input.name)));
    Failure::of_lines(wrong)
}

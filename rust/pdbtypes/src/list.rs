//! `list`: a line for each record, as the Rattle program `list` prints them. Streams and sections alike.
use crate::args::Call;
use crate::fail::Failure;
use crate::input::{Input, Kind};
use crate::json;
use crate::output::{self, Out};
use crate::progress::Progress;
use pdb_types::{Header, Item, ItemIndex, ItemIter, Section, TypeIndex, TypeInformation};
use std::io::{self, Write};

/// A record's leaf in four hex digits; a record of fewer than two bytes, which only a lookup finds, has none.
pub fn leaf_of<I: ItemIndex>(item: &Item<'_, I>) -> String {
    item.raw_kind().map_or("----".to_string(), |leaf| format!("{leaf:04x}"))
}

/// A record's line: its index, its leaf, its payload's length.
pub fn put_line<I: ItemIndex>(out: &mut impl Write, item: &Item<'_, I>) -> io::Result<()> {
    let index: u32 = item.index().into();
    writeln!(out, "{index} {} {}", leaf_of(item), item.len())
}

fn line_json<I: ItemIndex>(item: &Item<'_, I>) -> String {
    let index: u32 = item.index().into();
    let name = item.leaf().ok().and_then(|leaf| leaf.name()).map_or("null".to_string(), json::text);
    format!(
        "{{\"index\":{index},\"leaf\":\"0x{}\",\"leaf_name\":{name},\"length\":{}}}",
        leaf_of(item),
        item.len()
    )
}

/// The lines of all records, and why the walk ended early if it did.
fn put_lines<'s, I: ItemIndex>(out: &mut Out, records: ItemIter<'s, I>, progress: &Progress) -> Result<Option<pdb_types::Error>, Failure> {
    let mut listed = 0u64;
    for item in records {
        match item {
            Ok(item) => put_line(out, &item)?,
            Err(e) => return Ok(Some(e)),
        }
        progress.step();
        listed += 1;
    }
    writeln!(out, "end {listed}")?;
    Ok(None)
}

fn put_json<'s, I: ItemIndex>(out: &mut Out, records: ItemIter<'s, I>, progress: &Progress) -> Result<Option<pdb_types::Error>, Failure> {
    let mut array = json::Array::open(out)?;
    let (mut listed, mut refused) = (0u64, None);
    for item in records {
        match item {
            Ok(item) => array.element(out, &line_json(&item))?,
            Err(e) => {
                refused = Some(e);
                break;
            }
        }
        progress.step();
        listed += 1;
    }
    array.close(out)?;
    let end = refused.as_ref().map_or("null".to_string(), json::refusal);
    writeln!(out, ",\"listed\":{listed},\"refused\":{end}}}")?;
    Ok(refused)
}

/// The records of an input, from its first line on.
pub fn put_records<'s, I: ItemIndex>(input: &Input, json: bool, head: (&str, &str), records: ItemIter<'s, I>, count: u64) -> Result<(), Failure> {
    let mut out = output::standard()?;
    let progress = Progress::of("listing", count);
    let refused = if json {
        write!(out, "{{{},\"records\":", head.1)?;
        put_json(&mut out, records, &progress)?
    } else {
        writeln!(out, "{}", head.0)?;
        put_lines(&mut out, records, &progress)?
    };
    out.flush()?;
    drop(progress);
    match refused {
        Some(e) => Err(Failure::of(&input.name, e)),
        None => Ok(()),
    }
}

fn put_section(input: &Input, json: bool) -> Result<(), Failure> {
    let section = input.refused(Section::parse(&input.bytes))?;
    let (length, first) = (input.bytes.len(), u32::from(section.iter().next_index()));
    let line = format!("section {first} {length}");
    let object = format!("\"kind\":\"section\",\"minimum\":{first},\"bytes\":{length}");
    put_records(input, json, (&line, &object), section.iter(), length as u64 / 4)
}

pub fn header_json(ids: bool, header: &Header, length: usize) -> String {
    let kind = if ids { "ids" } else { "types" };
    format!(
        "\"kind\":\"{kind}\",\"minimum\":{},\"maximum\":{},\"bytes\":{length}",
        header.minimum_index, header.maximum_index
    )
}

fn put_stream(input: &Input, json: bool) -> Result<(), Failure> {
    let information: TypeInformation<'_> = input.refused(pdb_types::ItemInformation::<TypeIndex>::parse(&input.bytes))?;
    let (header, length) = (information.header(), input.bytes.len());
    let kind = if input.ids { "ipi" } else { "tpi" };
    let line = format!("{kind} {} {} {length}", header.minimum_index, header.maximum_index);
    let object = header_json(input.ids, header, length);
    put_records(input, json, (&line, &object), information.iter(), header.count().into())
}

/// Streams and sections alike.
pub fn put_input(input: &Input, json: bool) -> Result<(), Failure> {
    match input.kind {
        Kind::Section => put_section(input, json),
        _ => put_stream(input, json),
    }
}

pub fn run(call: &Call) -> Result<(), Failure> {
    put_input(&Input::of(call)?, call.json)
}

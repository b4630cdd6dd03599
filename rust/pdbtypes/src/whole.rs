//! `fit`, `drop` and `report`: what is asked of whole streams.
use crate::args::{self, Call};
use crate::fail::Failure;
use crate::input::Input;
use crate::json;
use crate::memory;
use crate::output::{self, shown};
use crate::progress::Progress;
use crate::resolve::Definitions;
use pdb_types::{Dropped, Fit, Report, Rule, TypeIndex, TypeInformation, Types};
use std::collections::HashMap;
use std::io::Write;

fn information<'s>(input: &'s Input) -> Result<TypeInformation<'s>, Failure> {
    input.refused(pdb_types::ItemInformation::parse(&input.bytes))
}

/// What a rule says of the record at fault.
fn rule_text(rule: Rule) -> &'static str {
    match rule {
        Rule::Count => "there are not as many records as the header says",
        Rule::Decode => "it or an element of it does not decode",
        Rule::Order => "it names itself or a later record",
        Rule::Primitive => "it names a primitive type that is none",
        Rule::Gap => "it names an index from 4096 to below the stream's lowest",
        _ => "it breaks a rule that this program does not know",
    }
}

pub fn fit(call: &Call) -> Result<(), Failure> {
    let input = Input::stream_of(call)?;
    let information = information(&input)?;
    let progress = Progress::of("checking", information.len() as u64);
    let answer = input.refused(information.fit())?;
    drop(progress);
    let mut out = output::standard()?;
    match (answer, call.json) {
        (Fit::Yes, false) => writeln!(out, "fit")?,
        (Fit::Yes, true) => writeln!(out, "{{\"fit\":true}}")?,
        (Fit::No { record, rule }, true) => writeln!(
            out,
            "{{\"fit\":false,\"record\":{record},\"rule\":{},\"rule_name\":{},\"why\":{}}}",
            rule.number(),
            json::text(&rule.name().to_lowercase()),
            json::text(rule_text(rule))
        )?,
        (Fit::No { rule: Rule::Count, .. }, false) => writeln!(out, "not fit: {}", rule_text(Rule::Count))?,
        (Fit::No { record, rule }, false) => writeln!(out, "not fit: record {record}: {}", rule_text(rule))?,
    }
    out.flush()?;
    match answer {
        Fit::Yes => Ok(()),
        Fit::No { .. } => Err(Failure::No(Vec::new())),
    }
}

/// The records that have a name, definitions before forward references.
fn named(types: &Types<'_>, wanted: &[String]) -> pdb_types::Result<HashMap<String, Vec<TypeIndex>>> {
    let (mut definitions, mut forwards) = (HashMap::<String, Vec<TypeIndex>>::new(), HashMap::<String, Vec<TypeIndex>>::new());
    for item in types.iter().map_while(Result::ok) {
        let Ok(data) = item.parse() else { continue };
        let Some(properties) = data.properties() else { continue };
        let into = if properties.forward_reference() { &mut forwards } else { &mut definitions };
        let mut names: Vec<_> = data.name().into_iter().chain(data.unique_name()).collect();
        names.dedup();
        for name in names.iter().map(|name| name.to_string()) {
            if wanted.iter().any(|w| *w == name) {
                memory::push(into.entry(name.into_owned()).or_default(), item.index())?;
            }
        }
    }
    for (name, all) in forwards {
        definitions.entry(name).or_insert(all);
    }
    Ok(definitions)
}

/// What some roots reach, and what the definitions of the forward references among it reach in turn.
fn dropped_whole(information: &TypeInformation<'_>, mut roots: Vec<TypeIndex>) -> pdb_types::Result<Dropped> {
    let definitions = Definitions::of(&Types::parse(information.bytes())?)?;
    let lowest = information.header().minimum_index;
    loop {
        let dropped = information.drop(&roots)?;
        let at = |index: TypeIndex| index.0.checked_sub(lowest).and_then(|k| dropped.table.get(k as usize));
        let missing = definitions.missing(|index| at(index).is_some_and(|n| *n != 0))?;
        if missing.is_empty() {
            return Ok(dropped);
        }
        memory::extend(&mut roots, &missing)?;
    }
}

pub fn drop_(call: &Call) -> Result<(), Failure> {
    let Some(into) = call.out.as_deref() else {
        return Err(Failure::Usage("drop writes a stream: give -o OUT".to_string()));
    };
    let words = call.texts_from(1);
    let input = Input::stream_of(call)?;
    let information = information(&input)?;
    // a word that is no index is a name
    let names: Vec<String> = words.iter().filter(|word| args::index(word).is_none()).cloned().collect();
    let mut found = HashMap::new();
    if !names.is_empty() {
        found = input.refused(named(&input.types()?, &names))?;
    }
    let (mut roots, mut wrong) = (Vec::new(), Vec::new());
    for word in &words {
        match (args::index(word), found.get(word)) {
            (Some(index), _) => roots.push((TypeIndex(index), word)),
            (None, Some(all)) => {
                input.refused(memory::room(&mut roots, all.len()))?;
                roots.extend(all.iter().map(|index| (*index, word)));
            }
            (None, None) => wrong.push(format!("{}: no class, union or enumeration is named {word}", input.name)),
        }
    }
    Failure::of_lines(wrong)?;
    let progress = Progress::of("dropping", information.len() as u64);
    let mut indices = Vec::new();
    input.refused(memory::room(&mut indices, roots.len()))?;
    indices.extend(roots.iter().map(|root| root.0));
    let dropped = input.refused(if call.whole {
        dropped_whole(&information, indices)
    } else {
        information.drop(&indices)
    })?;
    drop(progress);
    input.refused(memory::left(memory::RECORD))?;
    output::write_bytes(Some(into), &dropped.stream)?;
    if into == "-" {
        return Ok(());
    }
    let (lowest, mut out) = (information.header().minimum_index, output::standard()?);
    for (root, word) in roots {
        // an index below the stream's lowest has no record, and stays
        let at = root.0.checked_sub(lowest).and_then(|k| dropped.table.get(k as usize));
        let name = if args::index(word).is_none() {
            format!(" {}", shown(word.as_bytes()))
        } else {
            String::new()
        };
        writeln!(out, "{} {}{name}", root.0, at.copied().unwrap_or(root.0))?;
    }
    let kept = dropped.table.iter().filter(|n| **n != 0).count();
    writeln!(
        out,
        "kept {kept} of {} records, {} of {} bytes",
        information.len(),
        dropped.stream.len(),
        input.bytes.len()
    )?;
    Ok(out.flush()?)
}

fn put_report(report: &Report, files: &[String], refused: &[(String, pdb_types::Error)]) -> Result<(), Failure> {
    let mut out = output::standard()?;
    writeln!(out, "streams {}, refused {}", report.taken(), report.refused())?;
    writeln!(
        out,
        "records {}, {} bytes; headers, {} bytes",
        report.records(),
        report.bytes(),
        report.headers()
    )?;
    if report.records() > 0 {
        let file = files.get(report.largest_stream() as usize).map_or("", String::as_str);
        let file = shown(file.as_bytes());
        writeln!(out, "largest record: {} bytes, {} of {file}", report.largest(), report.largest_index())?;
    }
    for row in report.rows() {
        let name = row.leaf.name().unwrap_or("");
        writeln!(out, "{:04x} {name:19} {:>10} records {:>12} bytes", row.leaf.0, row.records, row.bytes)?;
    }
    for (file, e) in refused {
        writeln!(out, "not counted: {}: {e}", shown(file.as_bytes()))?;
    }
    Ok(out.flush()?)
}

fn report_json(report: &Report, files: &[String], refused: &[(String, pdb_types::Error)]) -> Result<(), Failure> {
    let mut out = output::standard()?;
    write!(
        out,
        "{{\"streams\":{},\"refused\":{},\"header_bytes\":{},\"records\":{},\"bytes\":{}",
        report.taken(),
        report.refused(),
        report.headers(),
        report.records(),
        report.bytes()
    )?;
    let file = files.get(report.largest_stream() as usize).filter(|_| report.records() > 0);
    match file {
        Some(file) => write!(
            out,
            ",\"largest\":{{\"bytes\":{},\"file\":{},\"index\":{}}}",
            report.largest(),
            json::text(file),
            report.largest_index()
        )?,
        None => write!(out, ",\"largest\":null")?,
    }
    write!(out, ",\"leaves\":")?;
    let mut array = json::Array::open(&mut out)?;
    for row in report.rows() {
        let name = row.leaf.name().map_or("null".to_string(), json::text);
        let line = format!(
            "{{\"leaf\":\"0x{:04x}\",\"leaf_name\":{name},\"records\":{},\"bytes\":{}}}",
            row.leaf.0, row.records, row.bytes
        );
        array.element(&mut out, &line)?;
    }
    array.close(&mut out)?;
    write!(out, ",\"not_counted\":")?;
    let mut array = json::Array::open(&mut out)?;
    for (file, e) in refused {
        let line = format!("{{\"file\":{},\"refused\":{}}}", json::text(file), json::refusal(e));
        array.element(&mut out, &line)?;
    }
    array.close(&mut out)?;
    writeln!(out, "}}")?;
    Ok(out.flush()?)
}

/// Why a stream is counted as refused: its header, or the first record that ends its walk.
fn why_refused(bytes: &[u8]) -> Option<pdb_types::Error> {
    match TypeInformation::parse(bytes) {
        Ok(information) => information.iter().find_map(Result::err),
        Err(e) => Some(e),
    }
}

pub fn report(call: &Call) -> Result<(), Failure> {
    let mut words: Vec<&std::ffi::OsStr> = call.words.iter().map(|word| word.as_os_str()).collect();
    if words.is_empty() {
        words.push(call.file());
    }
    let (mut report, mut files, mut refused, mut wrong) = (Report::new(), Vec::new(), Vec::new(), Vec::new());
    for word in words {
        let input = match Input::open(word, call.ids).and_then(Input::into_stream) {
            // a file that is too long, or a section of which no stream can be made
            Err(Failure::Refused(file, e)) => {
                refused.push((file, e));
                continue;
            }
            input => input?,
        };
        let before = report.refused();
        // a report that has no room for a stream is as it was before it
        match report.add(&input.bytes) {
            Ok(()) => {
                if report.refused() > before {
                    refused.extend(why_refused(&input.bytes).map(|e| (input.name.clone(), e)));
                }
                files.push(input.name);
            }
            Err(e) => wrong.push(format!("{}: {e}", input.name)),
        }
    }
    if call.json {
        report_json(&report, &files, &refused)?;
    } else {
        put_report(&report, &files, &refused)?;
    }
    wrong.extend(refused.iter().map(|(file, e)| format!("{file}: {e}")));
    Failure::of_lines(wrong)
}

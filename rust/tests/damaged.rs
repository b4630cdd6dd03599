//! Streams and sections with each byte set to 0x00, to 0xff and to its complement: everything that the crate has is called, and answers or refuses.
use pdb_types::{cells, Fit, IdInformation, Report, Section, TypeData, TypeIndex, TypeInformation, Types, Writer};
use std::path::PathBuf;

/// A sample, and copies of it with one byte changed. Every `step`th byte, so that a test of the debug build takes a second.
fn damaged(name: &str, step: usize) -> Vec<Vec<u8>> {
    let path = PathBuf::from(env!("CARGO_MANIFEST_DIR")).join("../samples").join(name);
    let s = std::fs::read(&path).unwrap_or_else(|e| panic!("{}: {e}", path.display()));
    let mut all = vec![s.clone()];
    for at in (0..s.len()).step_by(step) {
        for byte in [0x00, 0xff, !s[at]] {
            let mut changed = s.clone();
            changed[at] = byte;
            all.push(changed);
        }
    }
    all
}

/// Calls all that a type stream can be asked; how many records were answered.
fn everything(s: &[u8], report: &mut Report) -> usize {
    report.add(s).expect("a report of few leaves");
    let Ok(types) = Types::parse(s) else { return 0 };
    let info = *types.information();
    let mut answered = 0;
    let mut writer = Writer::new(*info.header()).expect("a good header");
    let mut text = [0; 300];
    for item in &types {
        let Ok(item) = item else { break };
        let read = item.parse();
        // one reader: a record that parses has cells, and is written again
        assert_eq!(cells(item.bytes(), false).is_ok(), read.is_ok());
        let _ = writer.push_type_again(&item);
        let _ = types.declare_into(item.index(), &mut text);
        let Ok(data) = read else { continue };
        answered += 1;
        match data {
            TypeData::FieldList(list) => assert!(list.iter().count() <= item.len()),
            TypeData::MethodList(list) => assert!(list.iter().count() <= item.len()),
            TypeData::ArgumentList(list) => assert_eq!(list.arguments.len(), list.into_iter().count()),
            _ => {}
        }
        assert!(types.members(data.fields().unwrap_or(item.index())).count() <= s.len());
    }
    writer.finish().expect("a stream");
    // a stream that is fit drops and parses again; one that is not is not dropped from
    let last = [TypeIndex(info.header().maximum_index.wrapping_sub(1))];
    match info.fit() {
        Ok(Fit::Yes) => {
            assert_eq!(types.end(), None);
            let kept = info.drop(&[]).expect("a dropping");
            assert!(Types::parse(&kept.stream).expect("a stream").is_empty());
            let _ = info.drop(&last);
        }
        Ok(Fit::No { .. }) => assert!(info.drop(&last).is_err()),
        Err(e) => panic!("{e}"),
    }
    if types.end().is_none() {
        let file = types.finder().save().expect("a file");
        assert_eq!(info.load(&file).expect("a finder").places(), types.finder().places());
    }
    answered
}

#[test]
fn types() {
    for (name, step) in [("e.tpi", 1), ("hand.tpi", 1), ("plain-x64.tpi", 1), ("rich-x64.tpi", 97)] {
        let mut answered = 0;
        let mut report = Report::new();
        for s in damaged(name, step) {
            // a report has room for 64 leaves
            if report.rows().count() > 60 {
                report = Report::new();
            }
            answered += everything(&s, &mut report);
        }
        assert!(answered > 0, "{name}");
    }
}

#[test]
fn ids() {
    for s in damaged("rich-x64.ipi", 1) {
        let Ok(info) = IdInformation::parse(&s) else { continue };
        for item in &info {
            let Ok(item) = item else { break };
            assert_eq!(cells(item.bytes(), true).is_ok(), item.parse().is_ok());
        }
    }
}

#[test]
fn sections() {
    for s in damaged("plain-x64.debugT", 1) {
        let Ok(section) = Section::parse(&s) else { continue };
        for item in &section {
            let Ok(item) = item else { break };
            let _ = section.read(&item);
        }
        match section.to_stream() {
            Ok(stream) => assert_eq!(
                TypeInformation::parse(&stream).expect("a stream").len() as u64,
                section.count().expect("a count")
            ),
            Err(e) => assert_eq!(section.count(), Err(e)),
        }
    }
}

/// Places files with each byte changed: loaded as they are, or refused.
#[test]
fn places() {
    let s = &damaged("plain-x64.tpi", usize::MAX)[0];
    let info = TypeInformation::parse(s).unwrap();
    let finder = info.indexed().unwrap();
    let file = finder.save().unwrap();
    for at in 0..file.len() {
        for byte in [0x00, 0xff, !file[at]] {
            let mut changed = file.clone();
            changed[at] = byte;
            match info.load(&changed) {
                Ok(loaded) => assert!(changed == file && loaded.places() == finder.places()),
                Err(e) => assert!(changed != file && [20, 21, 22, 26].contains(&e.number()), "{e}"),
            }
        }
    }
    for length in 0..file.len() {
        assert!(info.load(&file[..length]).is_err());
    }
}

//! speed OPERATION TIMES < STREAM: does one operation of crate pdb 0.8.0 many times and prints a checksum that depends on every answer.
//! crates/measure is the same program over the port; speed.sh counts the instructions of both. The crate is used as its users use it:
//! `next`, `update`, `find`, `parse`, and the lists that `parse` gives gone through once.
mod common;
mod msf;
mod source;
mod tpi;

pub use crate::common::*;
pub use crate::source::*;
pub use crate::tpi::*;
pub use fallible_iterator::FallibleIterator;

use crate::tpi::speed_data;
use crate::tpi::speed_header;
use crate::tpi::tpi_access as acc;
use std::io::Read;

/// Two words that data_access.rs, which is built in too, takes from its root.
pub(crate) fn opt(i: Option<u32>) -> String {
    i.map_or("-".to_string(), |i| i.to_string())
}
pub(crate) fn b(x: bool) -> u8 {
    x as u8
}

/// A reference that the compiler knows nothing of, so that no turn can stand for the next.
fn opaque<T: ?Sized>(r: &T) -> &T {
    let p: *const T = r;
    unsafe { &*std::ptr::read_volatile(&p) }
}

fn place(base: &[u8], data: &[u8]) -> u64 {
    (data.as_ptr() as usize - base.as_ptr() as usize) as u64
}

fn number(i: &Type<'_>) -> u64 {
    u64::from(i.index().0)
}

/// The place behind a record.
fn end(base: &[u8], i: &Type<'_>) -> u64 {
    let data = acc::data(i);
    place(base, data) + data.len() as u64
}

fn type_item(base: &[u8], i: &Type<'_>) -> u64 {
    number(i) + end(base, i)
}

/// Two sums, as in `measure`; the crate's count is the same with one.
fn walk(info: &TypeInformation<'_>) -> u64 {
    let base = acc::bytes(info);
    let mut indices = 0u64;
    let mut ends = 0u64;
    let mut iter = info.iter();
    while let Ok(Some(i)) = iter.next() {
        indices = indices.wrapping_add(number(&i));
        ends = ends.wrapping_add(end(base, &i));
    }
    indices.wrapping_add(ends)
}

fn indexed<'t>(info: &'t TypeInformation<'_>) -> TypeFinder<'t> {
    let mut finder = info.finder();
    let mut iter = info.iter();
    while let Ok(Some(_)) = iter.next() {
        finder.update(&iter);
    }
    finder
}

fn index(info: &TypeInformation<'_>) -> u64 {
    acc::places(&indexed(info)).iter().map(|&p| u64::from(p)).sum()
}

fn find(base: &[u8], from: u32, to: u32, finder: &TypeFinder<'_>) -> u64 {
    let mut sum = 0u64;
    for n in from..to {
        if let Ok(i) = finder.find(TypeIndex(n)) {
            sum = sum.wrapping_add(type_item(base, &i));
        }
    }
    sum
}

/// Every record but the lists, which the crate cannot parse with their elements unread.
fn parse(info: &TypeInformation<'_>) -> u64 {
    let mut sum = 0u64;
    let mut iter = info.iter();
    while let Ok(Some(i)) = iter.next() {
        if matches!(i.raw_kind(), 0x1201 | 0x1203 | 0x1206) {
            continue;
        }
        if let Ok(d) = i.parse() {
            sum = sum.wrapping_add(speed_data::sum(acc::data(&i), &d));
        }
    }
    sum
}

/// Every record, and every element of every list.
fn elements(info: &TypeInformation<'_>) -> u64 {
    let mut sum = 0u64;
    let mut iter = info.iter();
    while let Ok(Some(i)) = iter.next() {
        if let Ok(d) = i.parse() {
            sum = sum.wrapping_add(speed_data::sum(acc::data(&i), &d));
        }
    }
    sum
}

fn id(base: &[u8], d: &IdData<'_>) -> u64 {
    let name = |s: &RawString<'_>| place(base, s.as_bytes()) + s.len() as u64;
    let opt = |i: Option<IdIndex>| i.map_or(0, |i| u64::from(i.0));
    match d {
        IdData::Function(f) => opt(f.scope) + u64::from(f.function_type.0) + name(&f.name),
        IdData::MemberFunction(f) => u64::from(f.parent.0) + u64::from(f.function_type.0) + name(&f.name),
        IdData::BuildInfo(l) => l.arguments.iter().map(|a| u64::from(a.0)).sum(),
        IdData::StringList(l) => l.substrings.iter().map(|a| u64::from(a.0)).sum(),
        IdData::String(s) => opt(s.substrings) + name(&s.name),
        IdData::UserDefinedTypeSource(u) => {
            let file = match u.source_file {
                UserDefinedTypeSourceFileRef::Local(i) => u64::from(i.0),
                UserDefinedTypeSourceFileRef::Remote(m, r) => u64::from(m) + u64::from(r.0),
            };
            u64::from(u.udt.0) + u64::from(u.line) + file
        }
    }
}

fn ids(info: &IdInformation<'_>) -> u64 {
    let mut sum = 0u64;
    let mut iter = info.iter();
    while let Ok(Some(i)) = iter.next() {
        if let Ok(d) = i.parse() {
            sum = sum.wrapping_add(id(acc::data(&i), &d));
        }
    }
    sum
}

/// Every primitive, in an order that the compiler does not know.
fn primitives(turned: u32) -> u64 {
    let mut sum = 0u64;
    for i in 0..4096u32 {
        let index = i ^ turned;
        sum = sum.wrapping_add(match acc::primitive_of(index) {
            Ok(TypeData::Primitive(p)) => p.kind as u64 + p.indirection.map_or(0, |i| i as u64 + 1),
            _ => u64::from(index),
        });
    }
    sum
}

fn main() {
    let args: Vec<String> = std::env::args().collect();
    let times: u64 = args[2].parse().expect("a number");
    let mut bytes = Vec::new();
    std::io::stdin().read_to_end(&mut bytes).expect("a stream");
    let mut sum = 0u64;
    match args[1].as_str() {
        "header" => {
            for i in 0..times {
                bytes[0] = i as u8;
                sum = sum.wrapping_add(speed_header::sum(opaque(&bytes)));
            }
        }
        "primitives" => {
            for i in 0..times {
                bytes[0] = i as u8;
                sum = sum.wrapping_add(primitives(u32::from(opaque(&bytes)[0])));
            }
        }
        "parseids" => {
            let info = acc::parse_ids(bytes).expect("a header");
            for _ in 0..times {
                sum = sum.wrapping_add(ids(opaque(&info)));
            }
        }
        "find" => {
            let info = acc::parse(bytes).expect("a header");
            let finder = indexed(&info);
            let (from, to) = acc::minimum(&info);
            for _ in 0..times {
                sum = sum.wrapping_add(find(acc::bytes(&info), from, to, opaque(&finder)));
            }
        }
        name => {
            let operation = match name {
                "walk" => walk,
                "index" => index,
                "parse" => parse,
                "elements" => elements,
                _ => panic!("no such operation"),
            };
            let info = acc::parse(bytes).expect("a header");
            for _ in 0..times {
                sum = sum.wrapping_add(operation(opaque(&info)));
            }
        }
    }
    println!("{}", sum);
}

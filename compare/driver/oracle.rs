//! The oracle: reads commands, one to a line, and prints what crate pdb 0.8.0 answers. PROTOCOL.md has the
//! commands and the lines. The crate's modules are built in unchanged; the *_access.rs files beside this one
//! are child modules through which its private parts are reached. Nothing here repeats a rule of the crate:
//! an error becomes its number, a panic is caught and printed.
mod common;
mod msf;
mod source;
mod tpi;

pub use crate::common::*;
pub use crate::source::*;
pub use crate::tpi::*;
pub use fallible_iterator::FallibleIterator;

use crate::tpi::tpi_access as acc;
use std::any::Any;
use std::io::{BufRead, Write};
use std::panic::{catch_unwind, AssertUnwindSafe};

pub(crate) fn opt(i: Option<u32>) -> String {
    match i {
        Some(i) => i.to_string(),
        None => "-".to_string(),
    }
}
pub(crate) fn b(x: bool) -> u8 {
    x as u8
}

/// Document 01's number and detail for each error of the crate that the type part can give.
fn number(e: &Error) -> String {
    match e {
        Error::UnexpectedEof => "1".into(),
        Error::InvalidTypeInformationHeader("header size is impossibly small") => "2".into(),
        Error::InvalidTypeInformationHeader("header size is unreasonably large") => "3".into(),
        Error::InvalidTypeInformationHeader("minimum type index is < 4096") => "4".into(),
        Error::InvalidTypeInformationHeader("maximum type index is < minimum type index") => "5".into(),
        Error::TypeTooShort => "6".into(),
        Error::TypeNotFound(i) => format!("8 {}", i),
        Error::TypeNotIndexed(i, m) => format!("9 {} {}", i, m),
        Error::UnimplementedTypeKind(l) => format!("10 {}", l),
        Error::UnexpectedNumericPrefix(_) => "11".into(),
        e => format!("other {:?}", e),
    }
}

/// A panic's message as a line.
fn panicked(p: Box<dyn Any + Send>) -> String {
    let m = p
        .downcast_ref::<&str>()
        .map(|s| s.to_string())
        .or_else(|| p.downcast_ref::<String>().cloned())
        .unwrap_or_else(|| "?".into());
    format!("panic {}", m.replace('\n', " "))
}

/// The line, or the panic that came in its place.
fn guarded<F: FnOnce() -> String>(f: F) -> String {
    catch_unwind(AssertUnwindSafe(f)).unwrap_or_else(panicked)
}

/// BYTES of a command: hex, `-` for none, `@path` for a file.
fn bytes(arg: &str) -> Vec<u8> {
    if let Some(path) = arg.strip_prefix('@') {
        return std::fs::read(path).expect("file");
    }
    if arg == "-" {
        return Vec::new();
    }
    (0..arg.len() / 2)
        .map(|k| u8::from_str_radix(&arg[2 * k..2 * k + 2], 16).expect("hex"))
        .collect()
}

/// The line of a type item with this index and these bytes.
fn type_line(index: u32, data: &[u8]) -> String {
    guarded(|| {
        let leaf = if data.len() >= 2 { data[0] as u16 | (data[1] as u16) << 8 } else { 0 };
        match acc::type_item(index, data).parse() {
            Ok(d) => format!("0 {}", data_access_show(data, leaf, &d)),
            Err(e) => number(&e),
        }
    })
}

fn data_access_show(data: &[u8], leaf: u16, d: &TypeData<'_>) -> String {
    crate::tpi::data_access::show(data, leaf, d)
}

/// The line of an id item with this index and these bytes.
fn id_line(index: u32, data: &[u8]) -> String {
    guarded(|| {
        let s = |r: &RawString<'_>| {
            format!("{}+{}", r.as_bytes().as_ptr() as usize - data.as_ptr() as usize, r.len())
        };
        match acc::id_item(index, data).parse() {
            Err(e) => number(&e),
            Ok(d) => match &d {
                IdData::Function(f) => format!(
                    "0 1601 scope={} t={} name={}", opt(f.scope.map(|i| i.0)), f.function_type.0, s(&f.name)
                ),
                IdData::MemberFunction(f) => {
                    format!("0 1602 parent={} t={} name={}", f.parent.0, f.function_type.0, s(&f.name))
                }
                IdData::BuildInfo(l) => {
                    let mut line = format!("0 1603 count={}", l.arguments.len());
                    for a in &l.arguments {
                        line.push_str(&format!(" ; {}", a.0));
                    }
                    line.push_str(" ; end 15");
                    line
                }
                IdData::StringList(l) => {
                    let mut line = format!("0 1604 count={}", l.substrings.len());
                    for a in &l.substrings {
                        line.push_str(&format!(" ; {}", a.0));
                    }
                    line.push_str(" ; end 15");
                    line
                }
                IdData::String(f) => {
                    format!("0 1605 sub={} name={}", opt(f.substrings.map(|i| i.0)), s(&f.name))
                }
                IdData::UserDefinedTypeSource(u) => match u.source_file {
                    UserDefinedTypeSourceFileRef::Local(i) => {
                        format!("0 1606 udt={} file={} line={}", u.udt.0, i.0, u.line)
                    }
                    UserDefinedTypeSourceFileRef::Remote(m, r) => format!(
                        "0 1607 udt={} file={} line={} module={}", u.udt.0, r.0, u.line, m
                    ),
                },
            },
        }
    })
}

/// One line with every method of an attribute word.
fn words_line(arg: &str, w: u32, out: &mut dyn Write) {
    use crate::tpi::data_access as d;
    let w16 = w as u16;
    match arg {
        "props" => {
            let p = d::props(w16);
            writeln!(
                out,
                "props {} {}{}{}{}{}{}{}{}{}{}{} hfa={} intrinsic={} mocom={}",
                w16, b(p.packed()), b(p.constructors()), b(p.overloaded_operators()), b(p.is_nested_type()),
                b(p.contains_nested_types()), b(p.overloaded_assignment()), b(p.overloaded_casting()),
                b(p.forward_reference()), b(p.scoped_definition()), b(p.has_unique_name()), b(p.sealed()),
                p.hfa(), b(p.intrinsic_type()), p.mocom()
            )
        }
        "field" => {
            let p = d::field(w16);
            writeln!(
                out,
                "field {} access={} mprop={} static={} virtual={} pure={} intro={}",
                w16, p.access(), d::method_properties(w16), b(p.is_static()), b(p.is_virtual()),
                b(p.is_pure_virtual()), b(p.is_intro_virtual())
            )
        }
        "func" => {
            let p = d::func(w16);
            writeln!(
                out,
                "func {} call={} udt={} ctor={} vbases={}",
                w16, p.calling_convention(), b(p.cxx_return_udt()), b(p.is_constructor()),
                b(p.is_constructor_with_virtual_bases())
            )
        }
        _ => {
            let p = d::ptr(w);
            // unreachable!() in the crate is 12 in document 01
            let twelve = |s: String| if s.starts_with("panic internal error: entered unreachable code") { "r12".to_string() } else { s };
            writeln!(
                out,
                "ptr {} kind={} mode={} member={} ref={} flat32={} volatile={} const={} unaligned={} restrict={} size={} mocom={}",
                w,
                twelve(guarded(|| format!("{}", p.pointer_kind() as u8))),
                twelve(guarded(|| format!("{}", p.pointer_mode() as u8))),
                twelve(guarded(|| format!("{}", b(p.pointer_to_member())))),
                twelve(guarded(|| format!("{}", b(p.is_reference())))),
                b(p.is_flat_32()), b(p.is_volatile()), b(p.is_const()), b(p.is_unaligned()), b(p.is_restrict()),
                twelve(guarded(|| format!("{}", p.size()))),
                b(p.is_mocom())
            )
        }
    }
    .unwrap()
}

/// A string's line.
fn three(r: Result<(usize, usize, usize)>) -> String {
    match r {
        Ok((p, l, n)) => format!("0 {}+{} next={}", p, l, n),
        Err(e) => number(&e),
    }
}

/// The commands that take a whole stream, for either kind of index.
macro_rules! stream_command {
    ($parse:path, $line:path, $a:expr, $out:expr, $what:expr) => {{
        let info = match guarded_res(|| $parse(bytes($a[1]))) {
            Err(s) => {
                writeln!($out, "{}", s).unwrap();
                return;
            }
            Ok(i) => i,
        };
        match $what {
            "header" => writeln!($out, "0 {} count={}", acc::header_line(&info), info.len()).unwrap(),
            "walk" | "parse" => {
                let whole = acc::bytes(&info);
                let mut it = info.iter();
                loop {
                    match guarded_res(|| it.next()) {
                        Ok(None) => {
                            let (i, p) = acc::cursor(&it);
                            writeln!($out, "done {} {}", i, p).unwrap();
                            break;
                        }
                        Err(s) => {
                            writeln!($out, "refused {}", s).unwrap();
                            break;
                        }
                        Ok(Some(item)) => {
                            let data = acc::data(&item);
                            let i: u32 = item.index().into();
                            writeln!(
                                $out, "{} {:04x} {}+{}", i, item.raw_kind(),
                                data.as_ptr() as usize - whole.as_ptr() as usize, item.len()
                            )
                            .unwrap();
                            if $what == "parse" {
                                writeln!($out, "  {}", $line(i, data)).unwrap();
                            }
                        }
                    }
                }
            }
            "after" => {
                // the cursor after the first refusal, and what three more calls give
                let mut it = info.iter();
                while let Ok(Some(_)) = guarded_res(|| it.next()) {}
                let mut line = String::new();
                for _ in 0..3 {
                    let (i, p) = acc::cursor(&it);
                    line.push_str(&format!("at {} {} ; ", i, p));
                    line.push_str(&match guarded_res(|| it.next()) {
                        Ok(None) => "done ; ".to_string(),
                        Ok(Some(item)) => format!("{} {:04x} ; ", Into::<u32>::into(item.index()), item.raw_kind()),
                        Err(s) => format!("refused {} ; ", s),
                    });
                }
                writeln!($out, "{}", line.trim_end_matches(" ; ")).unwrap()
            }
            "foreign" => {
                // the first stream's finder, updated from an iterator over the second
                let other = match guarded_res(|| $parse(bytes($a[2]))) {
                    Err(s) => {
                        writeln!($out, "{}", s).unwrap();
                        return;
                    }
                    Ok(i) => i,
                };
                let mut f = info.finder();
                let it = other.iter();
                let s = guarded(|| {
                    f.update(&it);
                    "0".to_string()
                });
                writeln!($out, "{} places {:?}", s, acc::places(&f)).unwrap()
            }
            "page" => {
                // every place filled, then each index looked up once, upward from the minimum
                let mut f = info.finder();
                let mut it = info.iter();
                while let Ok(Some(_)) = it.next() {
                    f.update(&it);
                }
                let (lo, hi) = acc::minimum(&info);
                let t = std::time::Instant::now();
                let (mut n, mut sum) = (0u64, 0u64);
                for i in lo..hi {
                    if let Ok(item) = f.find(i.into()) {
                        n += 1;
                        sum += item.len() as u64;
                    }
                }
                eprintln!("page {} found in {} us", n, t.elapsed().as_micros());
                let (q, r) = (n / 8, n % 8);
                writeln!($out, "found {} payload {} links-by-formula {}", n, sum, q * 28 + r * r.saturating_sub(1) / 2).unwrap()
            }
            _ => {
                // find STREAM N INDICES : N calls of next each followed by update, then finds
                let whole = acc::bytes(&info);
                let early = $a[2].starts_with('u');
                let n: u64 = $a[2].trim_start_matches('u').parse().expect("count");
                let mut f = info.finder();
                let mut it = info.iter();
                if early {
                    f.update(&it);
                }
                for _ in 0..n {
                    match guarded_res(|| it.next()) {
                        Ok(Some(_)) => {
                            let s = guarded(|| {
                                f.update(&it);
                                String::new()
                            });
                            if !s.is_empty() {
                                writeln!($out, "update {}", s).unwrap();
                                break;
                            }
                        }
                        _ => break,
                    }
                }
                writeln!($out, "places {:?}", acc::places(&f)).unwrap();
                let m = guarded(|| {
                    let m: u32 = f.max_index().into();
                    m.to_string()
                });
                writeln!($out, "max {}", m).unwrap();
                if $a.len() > 3 {
                    for i in $a[3].split(',') {
                        let i: u32 = i.parse().expect("index");
                        match guarded_res(|| f.find(i.into())) {
                            Err(s) => writeln!($out, "{} {}", i, s).unwrap(),
                            Ok(item) => {
                                let data = acc::data(&item);
                                let at = data.as_ptr() as usize;
                                let base = whole.as_ptr() as usize;
                                if at < base || at > base + whole.len() {
                                    writeln!($out, "{} 0 marker {} {:04x}", i, item.len(), item.raw_kind()).unwrap()
                                } else {
                                    writeln!($out, "{} 0 {}+{}", i, at - base, item.len()).unwrap()
                                }
                            }
                        }
                    }
                }
            }
        }
    }};
}

/// The value; or the error's number, or the panic, as text.
fn guarded_res<T, F: FnOnce() -> Result<T>>(f: F) -> std::result::Result<T, String> {
    match catch_unwind(AssertUnwindSafe(f)) {
        Ok(Ok(t)) => Ok(t),
        Ok(Err(e)) => Err(number(&e)),
        Err(p) => Err(panicked(p)),
    }
}

/// Prints 0 and the value; or the error's number, or the panic.
fn answer<F: FnOnce() -> Result<String>>(out: &mut dyn Write, f: F) {
    let line = guarded_res(f).map_or_else(|e| e, |v| format!("0 {}", v));
    writeln!(out, "{}", line).unwrap()
}

/// One command.
fn run(line: &str, out: &mut dyn Write) {
    let a: Vec<&str> = line.split_whitespace().collect();
    if a.is_empty() {
        return;
    }
    match a[0] {
        "type" => writeln!(out, "{}", type_line(0x1000, &bytes(a[1]))).unwrap(),
        "id" => writeln!(out, "{}", id_line(0x1000, &bytes(a[1]))).unwrap(),
        // itemtype INDEX HEX: an item with that index and those bytes
        "itemtype" => writeln!(out, "{}", type_line(a[1].parse().unwrap(), &bytes(a[2]))).unwrap(),
        "itemid" => writeln!(out, "{}", id_line(a[1].parse().unwrap(), &bytes(a[2]))).unwrap(),
        "name" => {
            let d = bytes(a[1]);
            let s = guarded(|| match acc::type_item(0x1000, &d).parse() {
                Ok(t) => match crate::tpi::data_access::name(&d, &t) {
                    Some((p, l)) => format!("0 {}+{}", p, l),
                    None => "0 -".to_string(),
                },
                Err(e) => number(&e),
            });
            writeln!(out, "{}", s).unwrap()
        }
        "kind" => {
            let d = bytes(a[1]);
            writeln!(out, "{}", guarded(|| format!("0 {}", acc::type_item(0x1000, &d).raw_kind()))).unwrap()
        }
        "prim" => {
            // prim FROM TO : primitive of each index
            let (x, y): (u32, u32) = (a[1].parse().unwrap(), a[2].parse().unwrap());
            for i in x..y {
                // an item is only read as a primitive below 0x1000; from there the function asserts
                let s = guarded(|| match acc::primitive_of(i) {
                    Ok(d) => format!("0 {}", data_access_show(&[], 0, &d)),
                    Err(e) => number(&e),
                });
                writeln!(out, "{} {}", i, s).unwrap();
            }
        }
        "word" => {
            // word props|field|func|ptr FROM TO STEP
            let (x, y, s): (u64, u64, u64) = (a[2].parse().unwrap(), a[3].parse().unwrap(), a[4].parse().unwrap());
            let mut w = x;
            while w < y {
                words_line(a[1], w as u32, out);
                w += s;
            }
        }
        "opttype" => writeln!(out, "{}", opt(crate::tpi::data_access::optional_type(a[1].parse().unwrap()))).unwrap(),
        "optid" => writeln!(out, "{}", opt(crate::tpi::id_access::optional_id(a[1].parse().unwrap()))).unwrap(),
        // string LEAF HEX
        "string" => {
            let d = bytes(a[2]);
            let l: u16 = a[1].parse().unwrap();
            let t = guarded(|| three(crate::tpi::data_access::type_string(l, &d)));
            let i = guarded(|| three(crate::tpi::id_access::id_string(l, &d)));
            assert_eq!(t, i);
            writeln!(out, "{}", t).unwrap()
        }
        "padding" => answer(out, || crate::tpi::data_access::padding(&bytes(a[1])).map(|n| n.to_string())),
        // unsigned HEX: a numeric leaf where a size or offset is wanted; signed HEX: an enumerator's
        "unsigned" => answer(out, || {
            crate::tpi::data_access::unsigned(&bytes(a[1])).map(|(v, n)| format!("{} next={}", v, n))
        }),
        "signed" => answer(out, || {
            crate::tpi::data_access::variant(&bytes(a[1])).map(|(v, n)| format!("{} next={}", v, n))
        }),
        "header" => stream_command!(acc::parse, type_line, a, out, "header"),
        "walk" => stream_command!(acc::parse, type_line, a, out, "walk"),
        "parse" => stream_command!(acc::parse, type_line, a, out, "parse"),
        "parseids" => stream_command!(acc::parse_ids, id_line, a, out, "parse"),
        "page" => stream_command!(acc::parse, type_line, a, out, "page"),
        "after" => stream_command!(acc::parse, type_line, a, out, "after"),
        "foreign" => stream_command!(acc::parse, type_line, a, out, "foreign"),
        "find" => stream_command!(acc::parse, type_line, a, out, "find"),
        "findids" => stream_command!(acc::parse_ids, id_line, a, out, "find"),
        other => writeln!(out, "? {}", other).unwrap(),
    }
}

fn main() {
    std::panic::set_hook(Box::new(|_| {}));
    let stdin = std::io::stdin();
    let stdout = std::io::stdout();
    let mut out = std::io::BufWriter::new(stdout.lock());
    for line in stdin.lock().lines() {
        let line = line.expect("line");
        run(&line, &mut out);
    }
}

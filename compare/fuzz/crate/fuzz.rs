//! Crate pdb 0.8.0 and the port in one process, for libFuzzer: each entry takes any bytes, asks both and stops the process where they differ and no rule of
//! docs/DIFFERENCES.md says why. The crate's modules are built in unchanged, as compare/build.sh builds them; the *_access.rs and flat_*.rs files are child
//! modules through which its private parts are reached. A panic of the crate is caught and counted.
//!
//! The crate reserves memory for as many elements as a count claims (count-memory). The allocator here lends such a claim address space that has no memory
//! behind it, so that the crate goes on and meets the end of the bytes.
mod answer;
mod common;
mod document;
mod msf;
mod port;
mod source;
mod tpi;

pub use crate::common::*;
pub use crate::source::*;
pub use crate::tpi::*;
pub use fallible_iterator::FallibleIterator;

use crate::answer::{part, same, Answer, NONE};
use crate::document::{reason, Reader, REASONS};
use crate::port::*;
use crate::tpi::data_access as data;
use crate::tpi::flat_data as flat;
use crate::tpi::flat_tpi::header;
use crate::tpi::id_access as ids;
use crate::tpi::tpi_access as acc;
use std::alloc::{GlobalAlloc, Layout, System};
use std::ffi::{CStr, CString};
use std::os::raw::{c_char, c_int, c_void};
use std::panic::{catch_unwind, AssertUnwindSafe};
use std::sync::Once;

// what data_access.rs uses
pub(crate) fn opt(i: Option<u32>) -> String {
    i.map_or("-".to_string(), |i| i.to_string())
}
pub(crate) fn b(x: bool) -> u8 {
    x as u8
}

// ---- memory

const LARGE: usize = 1 << 26;

extern "C" {
    fn mmap(at: *mut c_void, n: usize, protection: c_int, flags: c_int, file: c_int, offset: i64) -> *mut c_void;
    fn munmap(at: *mut c_void, n: usize) -> c_int;
    fn finding(law: *const c_char, a: u64, b: u64) -> !;
    fn copy_in(slot: u32, bytes: *const c_void, n: usize) -> *const u8;
    fn kind_name(number: u32) -> *const c_char;
    fn indirection_name(number: u32) -> *const c_char;
}

struct Lender;

// PROT_READ | PROT_WRITE is 3, MAP_PRIVATE | MAP_ANONYMOUS | MAP_NORESERVE is 0x4022 on x86-64 Linux
unsafe impl GlobalAlloc for Lender {
    unsafe fn alloc(&self, l: Layout) -> *mut u8 {
        if l.size() < LARGE {
            return System.alloc(l);
        }
        let p = mmap(std::ptr::null_mut(), l.size(), 3, 0x4022, -1, 0);
        if p as isize == -1 { std::ptr::null_mut() } else { p as *mut u8 }
    }
    unsafe fn dealloc(&self, p: *mut u8, l: Layout) {
        if l.size() < LARGE {
            System.dealloc(p, l)
        } else {
            munmap(p as *mut c_void, l.size());
        }
    }
}

#[global_allocator]
static LENDER: Lender = Lender;

// ---- counting

static mut EXCUSED: [u64; REASONS.len()] = [0; REASONS.len()];
static mut ALIKE: u64 = 0;
static mut PANICS: u64 = 0;
static mut PANICS_UNNAMED: u64 = 0;
static START: Once = Once::new();

extern "C" fn tell() {
    let (alike, panics, unnamed, excused) = unsafe { (ALIKE, PANICS, PANICS_UNNAMED, EXCUSED) };
    eprintln!("CRATE: {} answers alike, {} panics of the crate, {} of them where no rule was met", alike, panics, unnamed);
    for (name, n) in REASONS.iter().zip(excused.iter()) {
        if *n > 0 {
            eprintln!("CRATE: {} excused by {}", n, name);
        }
    }
}

extern "C" {
    fn atexit(f: extern "C" fn()) -> c_int;
}

fn start() {
    START.call_once(|| {
        std::panic::set_hook(Box::new(|_| {}));
        unsafe { atexit(tell) };
    });
}

fn stop(what: &str, a: u64, b: u64) -> ! {
    let text = CString::new(what.replace('\0', " ")).expect("no zero");
    unsafe { finding(text.as_ptr(), a, b) }
}

fn hold(law: bool, what: &str, a: u64, b: u64) {
    if !law {
        stop(what, a, b);
    }
}

fn excuse(why: u32) {
    for k in 0..REASONS.len() {
        if why >> k & 1 == 1 {
            unsafe { EXCUSED[k] += 1 };
        }
    }
}

fn alike() {
    unsafe { ALIKE += 1 };
}

/// The crate's answer, or none where it panics.
fn asked<T>(f: impl FnOnce() -> T) -> Option<T> {
    match catch_unwind(AssertUnwindSafe(f)) {
        Ok(t) => Some(t),
        Err(_) => {
            unsafe { PANICS += 1 };
            None
        }
    }
}

/// A copy of the bytes, which ends where a page begins that nobody may touch.
fn lent<'a>(slot: u32, s: &[u8]) -> &'a [u8] {
    unsafe { std::slice::from_raw_parts(copy_in(slot, s.as_ptr() as *const c_void, s.len()), s.len()) }
}

/// 01's number and details for each error of the crate that the type part can give.
fn number(e: &Error) -> (u32, u64, u64) {
    match e {
        Error::UnexpectedEof => (1, 0, 0),
        Error::InvalidTypeInformationHeader("header size is impossibly small") => (2, 0, 0),
        Error::InvalidTypeInformationHeader("header size is unreasonably large") => (3, 0, 0),
        Error::InvalidTypeInformationHeader("minimum type index is < 4096") => (4, 0, 0),
        Error::InvalidTypeInformationHeader("maximum type index is < minimum type index") => (5, 0, 0),
        Error::TypeTooShort => (6, 0, 0),
        Error::TypeNotFound(i) => (8, u64::from(*i), 0),
        Error::TypeNotIndexed(i, m) => (9, u64::from(*i), u64::from(*m)),
        Error::UnimplementedTypeKind(l) => (10, u64::from(*l), 0),
        Error::UnexpectedNumericPrefix(_) => (11, 0, 0),
        _ => (99, 0, 0),
    }
}

fn refused(e: &Error) -> Answer {
    let (n, d, _) = number(e);
    Answer::refused((n, d))
}

// ---- records

fn same_type(s: &[u8]) {
    let leaf = if s.len() >= 2 { u16::from(s[0]) | u16::from(s[1]) << 8 } else { 0 };
    // a leaf that neither 01 nor the crate has: there is nothing to compare it with
    if crate::port::has_type(leaf) && !crate::document::has_type(leaf.into()) {
        return;
    }
    let port = crate::port::type_record(s);
    let (wanted, why) = crate::document::type_record(s);
    if port != wanted {
        stop(&format!("the port's answer is 01's: {:?} {:?} of {:02x?}", port, wanted, s), 0, 0);
    }
    match asked(|| acc::type_item(0x1000, s).parse().map_or_else(|e| refused(&e), |d| flat::flat(s, leaf, &d))) {
        None if why == 0 => unsafe { PANICS_UNNAMED += 1 },
        None => excuse(why),
        Some(mut c) => {
            // the crate has no kind of its own for 0x1609
            if leaf == 0x1609 && c.number == 0 && c.fields[1] == 0x1505 {
                c.fields[1] = 0x1609;
                excuse(reason("structure-kind"));
            }
            if same(&c, &port) {
                alike();
            } else if why == 0 {
                stop(&format!("the crate's answer is the port's: {:?} {:?} of {:02x?}", c, port, s), 0, 0);
            } else {
                excuse(why);
            }
        }
    }
}

fn flat_id(base: &[u8], d: &IdData<'_>) -> Answer {
    let none = |i: Option<IdIndex>| i.map_or(NONE, |i| u64::from(i.0));
    let mut a = Answer::default();
    match d {
        IdData::Function(f) => {
            let [n, l] = part(base, f.name.as_bytes());
            a.fields = vec![0x1601, none(f.scope), f.function_type.0.into(), n, l];
        }
        IdData::MemberFunction(f) => {
            let [n, l] = part(base, f.name.as_bytes());
            a.fields = vec![0x1602, f.parent.0.into(), f.function_type.0.into(), n, l];
        }
        IdData::BuildInfo(l) => {
            a.fields = vec![0x1603, l.arguments.len() as u64];
            a.elements = l.arguments.iter().map(|i| vec![u64::from(i.0)]).collect();
            a.end = (15, 0);
        }
        IdData::StringList(l) => {
            a.fields = vec![0x1604, l.substrings.len() as u64];
            a.elements = l.substrings.iter().map(|i| vec![u64::from(i.0)]).collect();
            a.end = (15, 0);
        }
        IdData::String(f) => {
            let [n, l] = part(base, f.name.as_bytes());
            a.fields = vec![0x1605, none(f.substrings), n, l];
        }
        IdData::UserDefinedTypeSource(u) => {
            a.fields = match u.source_file {
                UserDefinedTypeSourceFileRef::Local(i) => vec![0x1606, u.udt.0.into(), i.0.into(), u.line.into()],
                UserDefinedTypeSourceFileRef::Remote(m, r) => vec![0x1607, u.udt.0.into(), r.0.into(), u.line.into(), m as u64],
            };
        }
    }
    a
}

fn same_id(s: &[u8]) {
    let port = crate::port::id_record(s);
    match asked(|| acc::id_item(0x1000, s).parse().map_or_else(|e| refused(&e), |d| flat_id(s, &d))) {
        None => unsafe { PANICS_UNNAMED += 1 },
        Some(c) if c == port => alike(),
        Some(c) => stop(&format!("the crate's id is the port's: {:?} {:?} of {:02x?}", c, port, s), 0, 0),
    }
}

// ---- streams

/// How many links can be passed from this place, at most `wanted`.
fn links(s: &[u8], mut place: usize, wanted: u64) -> u64 {
    let mut passed = 0;
    while passed < wanted && place + 2 <= s.len() {
        place += 2 + (usize::from(s[place]) | usize::from(s[place + 1]) << 8);
        if place > s.len() {
            break;
        }
        passed += 1;
    }
    passed
}

/// For either kind of index: header, walk with each record, finder with its updates, lookups.
macro_rules! stream {
    ($parse:path, $record:path, $s:expr, $walked:expr, $early:expr) => {{
        let s: &[u8] = $s;
        let mut out = [7u64; 18];
        let refusal = unsafe { pdb_header(s.as_ptr(), s.len(), out.as_mut_ptr()) };
        let info = match asked(|| $parse(s.to_vec())) {
            None => {
                unsafe { PANICS_UNNAMED += 1 };
                return;
            }
            Some(Err(e)) => {
                hold(number(&e).0 == refusal, "the header's refusal is the crate's", number(&e).0.into(), refusal.into());
                alike();
                return;
            }
            Some(Ok(info)) => info,
        };
        hold(refusal == 0, "the header is taken", refusal.into(), 0);
        hold(out[2..17] == header(&info)[..] && out[17] == info.len() as u64, "the header's numbers are the crate's", out[17], info.len() as u64);
        let (minimum, maximum) = (out[4] as u32, out[5] as u32);
        let whole = acc::bytes(&info);
        let (mut at, mut index) = (out[3] as usize, minimum);
        let mut table = vec![0u32; s.len() / 2 + 8];
        let made = unsafe { pdb_create(s.as_ptr(), s.len(), table.as_mut_ptr(), table.len(), 3, out.as_mut_ptr()) };
        hold(made == 0, "a finder is created", made.into(), 0);
        let mut held = out[4] as usize;
        let mut it = info.iter();
        let mut finder = info.finder();
        let mut steps = 0usize;
        let mut updating = true;
        if $early {
            finder.update(&it);
            let n = unsafe { pdb_update(table.as_mut_ptr(), table.len(), minimum, maximum, held, 3, at, index, out.as_mut_ptr()) };
            hold(n == 0, "the finder is updated", n.into(), 0);
            held = out[2] as usize;
        }
        loop {
            let n = unsafe { pdb_next(s.as_ptr(), s.len(), at, index, out.as_mut_ptr()) };
            let item = match asked(|| it.next()) {
                None => {
                    unsafe { PANICS_UNNAMED += 1 };
                    break;
                }
                Some(Ok(Some(item))) => item,
                Some(Ok(None)) => {
                    hold(n == 0 && out[2] == 0, "the walk ends where the crate's does", n.into(), out[2]);
                    hold(acc::cursor(&it) == (index, at), "the cursor is the crate's", index.into(), at as u64);
                    break;
                }
                Some(Err(e)) => {
                    hold(n == number(&e).0, "the walk is refused as the crate's", n.into(), number(&e).0.into());
                    break;
                }
            };
            if n == 7 {
                hold(index == u32::MAX, "7 at the last index alone", index.into(), 0);
                excuse(reason("index-used-up"));
                break;
            }
            hold(n == 0 && out[2] == 1, "the walk goes on as the crate's", n.into(), out[2]);
            let payload = acc::data(&item);
            let place = payload.as_ptr() as usize - whole.as_ptr() as usize;
            hold(u64::from(Into::<u32>::into(item.index())) == out[3] && place as u64 == out[4] && payload.len() as u64 == out[5], "the item is the crate's", out[4], place as u64);
            at = out[6] as usize;
            index = out[7] as u32;
            $record(&s[place..place + payload.len()]);
            steps += 1;
            if updating && steps <= $walked {
                match asked(|| finder.update(&it)) {
                    None => updating = false,
                    Some(()) => {
                        let n = unsafe { pdb_update(table.as_mut_ptr(), table.len(), minimum, maximum, held, 3, at, index, out.as_mut_ptr()) };
                        hold(n == 0, "the finder is updated", n.into(), 0);
                        held = out[2] as usize;
                    }
                }
            }
        }
        alike();
        if !updating {
            return;
        }
        hold(acc::places(&finder) == &table[..held], "the places are the crate's", held as u64, acc::places(&finder).len() as u64);
        let highest = unsafe { pdb_max_index(minimum, maximum, held, 3) };
        let theirs: u32 = finder.max_index().into();
        if highest != theirs {
            let past = u64::from(minimum) + 8 * held as u64 > u64::from(u32::MAX);
            hold(past && highest == u32::MAX, "the highest index is the crate's", highest.into(), theirs.into());
            excuse(reason("max-held"));
        }
        let near = (0..24).map(|k| minimum.wrapping_add(k)).chain([minimum.wrapping_sub(1), maximum.wrapping_sub(1), maximum, maximum.wrapping_add(1), u32::MAX]);
        for i in near {
            let n = unsafe { pdb_find(s.as_ptr(), s.len(), table.as_ptr(), table.len(), minimum, maximum, held, 3, i, out.as_mut_ptr()) };
            let raw = i.wrapping_sub(minimum);
            match asked(|| finder.find(i.into())) {
                None => unsafe { PANICS_UNNAMED += 1 },
                Some(Err(e)) => {
                    let (m, d0, d1) = number(&e);
                    let d0 = if m == 1 { links(s, table[(raw >> 3) as usize] as usize, u64::from(raw & 7)) } else { d0 };
                    // where the highest index is held at its border, so is the detail of 9
                    let d1 = if m == 9 && u64::from(theirs) == d1 { u64::from(highest) } else { d1 };
                    hold(n == m && out[0] == d0 && out[1] == d1, "a lookup is refused as the crate's", n.into(), m.into());
                }
                Some(Ok(item)) => {
                    let payload = acc::data(&item);
                    let (from, base) = (payload.as_ptr() as usize, whole.as_ptr() as usize);
                    hold(n == 0, "a lookup is answered as the crate's", n.into(), i.into());
                    if from < base || from > base + whole.len() {
                        hold(out[2] == 0 && out[4] == 2 && payload.len() == 2, "the marker is the crate's", out[4], i.into());
                    } else {
                        hold(out[2] == 1 && out[3] == (from - base) as u64 && out[4] == payload.len() as u64, "a lookup finds the crate's", out[3], (from - base) as u64);
                        hold(out[5] == u64::from(raw & 7), "the links passed", out[5], u64::from(raw & 7));
                    }
                }
            }
            alike();
        }
    }};
}

// ---- numbers, strings, words, primitives

fn text(p: *const c_char) -> String {
    if p.is_null() { "-".to_string() } else { unsafe { CStr::from_ptr(p) }.to_string_lossy().into_owned() }
}

/// A primitive as the crate names it.
fn primitive_of(index: u32) -> std::result::Result<(String, String), (u32, u64, u64)> {
    match acc::primitive_of(index) {
        Ok(TypeData::Primitive(p)) => Ok((format!("{:?}", p.kind), p.indirection.map_or("Direct".to_string(), |i| format!("{:?}", i)))),
        Ok(_) => Err((98, 0, 0)),
        Err(e) => Err(number(&e)),
    }
}

fn primitive(index: u32) {
    let mut out = [7u64; 4];
    let n = unsafe { pdb_primitive(index, out.as_mut_ptr()) };
    match asked(|| primitive_of(index)) {
        None => {
            hold(index >= 0x1000 && n == 8 && out[0] == u64::from(index), "a primitive where the crate panics", n.into(), index.into());
            excuse(reason("primitive-from-4096"));
        }
        Some(Err((m, d, _))) => hold(n == m && out[0] == d, "a primitive is refused as the crate's", n.into(), m.into()),
        Some(Ok((kind, indirection))) => {
            let ours = (text(unsafe { kind_name(out[2] as u32) }), text(unsafe { indirection_name(out[3] as u32) }));
            hold(n == 0 && ours == (kind, indirection), "a primitive is the crate's", n.into(), index.into());
        }
    }
    alike();
}

fn numbers(s: &[u8]) {
    let mut out = [7u64; 7];
    let mut r = Reader::new(s);
    let wanted = r.number(false);
    let n = unsafe { pdb_size(s.as_ptr(), s.len(), 0, out.as_mut_ptr()) };
    let ours = if n == 0 { Ok(i128::from(out[2])) } else { Err((n, out[0])) };
    hold(ours == wanted && (n != 0 || out[5] == r.at as u64), "a size is 01's", n.into(), out[2]);
    hold(n != 0 || r.forms == [out[3] + 256 * out[4]], "a size's form is 02's", out[3], out[4]);
    match asked(|| data::unsigned(s)) {
        None => unsafe { PANICS_UNNAMED += 1 },
        Some(theirs) => {
            let same = match &theirs {
                Ok((v, at)) => ours == Ok(i128::from(*v)) && out[5] == *at as u64,
                Err(e) => n == number(e).0,
            };
            hold(same || r.why != 0, "a size is the crate's", n.into(), out[2]);
            if same { alike() } else { excuse(r.why) }
        }
    }
    let mut r = Reader::new(s);
    let wanted = r.number(true);
    let n = unsafe { pdb_number(s.as_ptr(), s.len(), 0, out.as_mut_ptr()) };
    let ours = if n == 0 { Ok(if out[3] == 1 { i128::from(out[2] as i64) } else { i128::from(out[2]) }) } else { Err((n, out[0])) };
    hold(ours == wanted && (n != 0 || out[6] == r.at as u64), "a number is 01's", n.into(), out[2]);
    hold(n != 0 || r.forms == [out[4] + 256 * out[5]], "a number's form is 02's", out[4], out[5]);
    match asked(|| flat::number(s)) {
        None => unsafe { PANICS_UNNAMED += 1 },
        Some(theirs) => {
            let same = match &theirs {
                Ok(([sign, bits], at)) => n == 0 && out[3] == *sign && out[2] == *bits && out[6] == *at as u64,
                Err(e) => n == number(e).0,
            };
            hold(same || r.why != 0, "a number is the crate's", n.into(), out[2]);
            if same { alike() } else { excuse(r.why) }
        }
    }
}

fn strings(leaf: u16, s: &[u8]) {
    let mut out = [7u64; 5];
    let n = unsafe { pdb_string(s.as_ptr(), s.len(), leaf, 0, out.as_mut_ptr()) };
    for theirs in [asked(|| data::type_string(leaf, s)), asked(|| ids::id_string(leaf, s))] {
        match theirs {
            None => unsafe { PANICS_UNNAMED += 1 },
            Some(Ok((place, length, next))) => hold(n == 0 && out[2..5] == [place as u64, length as u64, next as u64], "a string is the crate's", n.into(), out[3]),
            Some(Err(e)) => hold(n == number(&e).0, "a string is refused as the crate's", n.into(), number(&e).0.into()),
        }
        alike();
    }
    let n = unsafe { pdb_padding(s.as_ptr(), s.len(), 0, out.as_mut_ptr()) };
    match asked(|| data::padding(s)) {
        None => unsafe { PANICS_UNNAMED += 1 },
        Some(Ok(next)) => hold(n == 0 && out[2] == next as u64, "padding is the crate's", n.into(), out[2]),
        Some(Err(e)) => hold(n == number(&e).0, "padding is refused as the crate's", n.into(), number(&e).0.into()),
    }
    alike();
}

/// The words of 16 bits, and the indices that may be absent.
fn words(w: u32) {
    let mut out = [7u64; 16];
    let w16 = w as u16;
    unsafe { pdb_properties(w16, out.as_mut_ptr()) };
    let mut theirs = flat::properties(w16);
    // document 02, R-2: the crate's bits, where they are other than cvinfo.h's
    let (intrinsic, mocom) = (u64::from(w16 >> 13 & 1), u64::from(w16 >> 14 & 3));
    hold(theirs[12] == u64::from(w16 >> 12 & 1) && theirs[13] == u64::from(w16 >> 14 & 1), "the crate's bits of R-2", theirs[12], theirs[13]);
    if theirs[12] != intrinsic {
        excuse(reason("intrinsic-bit"));
    }
    if theirs[13] != mocom {
        excuse(reason("mocom-bits"));
    }
    theirs[12] = intrinsic;
    theirs[13] = mocom;
    hold(out[2..16] == theirs[..], "a property word is the crate's", w16.into(), 0);
    unsafe { pdb_field_attributes(w16, out.as_mut_ptr()) };
    hold(out[2..8] == flat::field(w16)[..], "a field's word is the crate's", w16.into(), 0);
    unsafe { pdb_function_attributes(w16, out.as_mut_ptr()) };
    hold(out[2..6] == flat::function(w16)[..], "a function's word is the crate's", w16.into(), 0);
    let there = |n: u32| n != 0;
    hold(there(unsafe { pdb_optional_type(w) }) == data::optional_type(w).is_some(), "an optional type is the crate's", w.into(), 0);
    hold(there(unsafe { pdb_optional_id(w) }) == ids::optional_id(w).is_some(), "an optional id is the crate's", w.into(), 0);
    alike();
}

fn pointers(w: u32) {
    let mut out = [7u64; 16];
    unsafe { pdb_pointer_attributes(w, out.as_mut_ptr()) };
    let [_, _, kind_refused, kind, mode_refused, mode, size_refused, size, member, reference, flat32, volatile, constant, unaligned, restrict, mocom] = out;
    let asked_for = |which| asked(|| flat::pointer(w, which));
    for (which, refused, value) in [(0, kind_refused, kind), (1, mode_refused, mode), (2, size_refused, size)] {
        match asked_for(which) {
            // the crate's `unreachable!()` is 12
            None => hold(refused == 12 && value == 0, "a pointer's word is refused where the crate panics", w.into(), which as u64),
            Some(theirs) => hold(refused == 0 && theirs == value, "a pointer's word is the crate's", w.into(), which as u64),
        }
    }
    for (which, value) in [(3, member), (4, reference)] {
        match asked_for(which) {
            None => hold(mode_refused == 12 && value == 0, "a pointer's mode is refused where the crate panics", w.into(), which as u64),
            Some(theirs) => hold(theirs == value, "a pointer's mode is the crate's", w.into(), which as u64),
        }
    }
    for (which, value) in [(5, flat32), (6, volatile), (7, constant), (8, unaligned), (9, restrict)] {
        hold(flat::pointer(w, which) == value, "a pointer's flag is the crate's", w.into(), which as u64);
    }
    hold(flat::pointer(w, 10) == u64::from(w >> 18 & 1) && mocom == u64::from(w >> 19 & 1), "the bits of R-2", w.into(), mocom);
    if w >> 18 & 1 != w >> 19 & 1 {
        excuse(reason("pointer-mocom"));
    }
    alike();
}

/// An item of any index: below 0x1000 a primitive, whatever its bytes; and its raw kind.
fn items(index: u32, s: &[u8]) {
    let mut out = [7u64; 16];
    let n = unsafe { pdb_kind(s.as_ptr(), s.len(), s.as_ptr(), s.len(), 0, 1, index, 0, s.len(), out.as_mut_ptr()) };
    match asked(|| acc::type_item(index, s).raw_kind()) {
        None => {
            hold(n == 1 && s.len() < 2, "a kind where the crate panics", n.into(), s.len() as u64);
            excuse(reason("short-kind"));
        }
        Some(kind) => hold(n == 0 && out[2] == u64::from(kind), "a kind is the crate's", n.into(), out[2]),
    }
    if index < 0x1000 {
        let n = unsafe { pdb_parse(s.as_ptr(), s.len(), s.as_ptr(), s.len(), 0, 1, index, 0, s.len(), out.as_mut_ptr()) };
        match asked(|| acc::type_item(index, s).parse().map(|d| matches!(d, TypeData::Primitive(_)))) {
            None => unsafe { PANICS_UNNAMED += 1 },
            Some(Ok(is)) => hold(is && n == 0 && out[2] == 2, "an item below 0x1000 is a primitive", n.into(), index.into()),
            Some(Err(e)) => hold(n == number(&e).0 && out[0] == number(&e).1, "an item below 0x1000 is refused as the crate's", n.into(), index.into()),
        }
    }
    alike();
}

// ---- entries

fn four(s: &[u8]) -> u32 {
    s.iter().take(4).rev().fold(0, |v, b| v << 8 | u32::from(*b))
}

fn taken<'a>(at: *const u8, n: usize) -> &'a [u8] {
    start();
    if n == 0 { &[] } else { unsafe { std::slice::from_raw_parts(at, n) } }
}

#[no_mangle]
pub extern "C" fn crate_type(at: *const u8, n: usize) {
    same_type(lent(0, taken(at, n)));
}

#[no_mangle]
pub extern "C" fn crate_id(at: *const u8, n: usize) {
    same_id(lent(0, taken(at, n)));
}

fn type_stream(s: &[u8], walked: usize, early: bool) {
    stream!(acc::parse, same_type, s, walked, early)
}

fn id_stream(s: &[u8], walked: usize, early: bool) {
    stream!(acc::parse_ids, same_id, s, walked, early)
}

/// The first byte: bit 0 an id stream, bit 1 an update by the fresh cursor; the second how many records update the finder, 255 for all.
#[no_mangle]
pub extern "C" fn crate_stream(at: *const u8, n: usize) {
    let s = taken(at, n);
    if s.len() < 2 {
        return;
    }
    let walked = if s[1] == 255 { usize::MAX } else { usize::from(s[1]) };
    let of = if s[0] & 1 == 0 { type_stream } else { id_stream };
    of(lent(0, &s[2..]), walked, s[0] & 2 != 0);
}

/// The first byte chooses; then an index, a word or a leaf, four bytes; then bytes.
#[no_mangle]
pub extern "C" fn crate_words(at: *const u8, n: usize) {
    let s = taken(at, n);
    if s.len() < 5 {
        return;
    }
    let (w, rest) = (four(&s[1..5]), lent(0, &s[5..]));
    match s[0] % 6 {
        0 => primitive(if s[0] & 128 != 0 { w } else { w & 0xfff }),
        1 => numbers(rest),
        2 => strings(w as u16, rest),
        3 => words(w),
        4 => pointers(w),
        _ => items(if s[0] & 128 != 0 { w } else { w & 0xfff }, rest),
    }
}

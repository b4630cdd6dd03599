//! called OPERATION TIMES < STREAM: walk, index and find of crate pdb 0.8.0 through calls that the compiler does not see into, as a program in C would make
//! them: a handle, and numbers behind `out`. The checksums are those of speed.rs; pane.sh counts the instructions. It is a program of its own, since a
//! second caller of `find` keeps the compiler from inlining it.
mod common;
mod msf;
mod source;
mod tpi;

pub use crate::common::*;
pub use crate::source::*;
pub use crate::tpi::*;
pub use fallible_iterator::FallibleIterator;

use crate::tpi::tpi_access as acc;
use std::io::Read;

/// Two words that data_access.rs, which is built in too, takes from its root.
pub(crate) fn opt(i: Option<u32>) -> String {
    i.map_or("-".to_string(), |i| i.to_string())
}
pub(crate) fn b(x: bool) -> u8 {
    x as u8
}

/// A reference that the compiler knows nothing of, so that no call can be seen into.
fn opaque<T: ?Sized>(r: &T) -> &T {
    let p: *const T = r;
    unsafe { &*std::ptr::read_volatile(&p) }
}

fn place(base: &[u8], data: &[u8]) -> u64 {
    (data.as_ptr() as usize - base.as_ptr() as usize) as u64
}

extern "C" fn next(base: &[u8], iter: &mut TypeIter<'_>, out: &mut [u64; 6]) -> u32 {
    match iter.next() {
        Ok(Some(i)) => {
            let data = acc::data(&i);
            *out = [0, 0, 1, u64::from(i.index().0), place(base, data), data.len() as u64];
            0
        }
        Ok(None) => {
            *out = [0; 6];
            0
        }
        Err(_) => {
            *out = [0; 6];
            1
        }
    }
}

extern "C" fn update<'t>(finder: &mut TypeFinder<'t>, iter: &TypeIter<'t>) {
    finder.update(iter);
}

extern "C" fn find(base: &[u8], finder: &TypeFinder<'_>, index: u32, out: &mut [u64; 6]) -> u32 {
    match finder.find(TypeIndex(index)) {
        Ok(i) => {
            let data = acc::data(&i);
            *out = [0, 0, 1, place(base, data), data.len() as u64, 0];
            0
        }
        Err(_) => {
            *out = [0; 6];
            1
        }
    }
}

type Next = extern "C" fn(&[u8], &mut TypeIter<'_>, &mut [u64; 6]) -> u32;
type Update = for<'t> extern "C" fn(&mut TypeFinder<'t>, &TypeIter<'t>);
type Find = extern "C" fn(&[u8], &TypeFinder<'_>, u32, &mut [u64; 6]) -> u32;

fn walk(info: &TypeInformation<'_>) -> u64 {
    let next = *opaque(&(next as Next));
    let (base, mut iter, mut out, mut sum) = (acc::bytes(info), info.iter(), [0u64; 6], 0u64);
    while next(base, &mut iter, &mut out) == 0 && out[2] != 0 {
        sum = sum.wrapping_add(out[3] + out[4] + out[5]);
    }
    sum
}

fn filled<'t>(info: &'t TypeInformation<'_>) -> TypeFinder<'t> {
    let (next, update) = (*opaque(&(next as Next)), *opaque(&(update as Update)));
    let (base, mut iter, mut out) = (acc::bytes(info), info.iter(), [0u64; 6]);
    let mut finder = info.finder();
    while next(base, &mut iter, &mut out) == 0 && out[2] != 0 {
        update(&mut finder, &iter);
    }
    finder
}

fn index(info: &TypeInformation<'_>) -> u64 {
    acc::places(&filled(info)).iter().map(|&p| u64::from(p)).sum()
}

fn find_all(base: &[u8], from: u32, to: u32, finder: &TypeFinder<'_>) -> u64 {
    let find = *opaque(&(find as Find));
    let (mut out, mut sum) = ([0u64; 6], 0u64);
    for n in from..to {
        if find(base, finder, n, &mut out) == 0 && out[2] != 0 {
            sum = sum.wrapping_add(u64::from(n) + out[3] + out[4]);
        }
    }
    sum
}

fn main() {
    let args: Vec<String> = std::env::args().collect();
    let times: u64 = args[2].parse().expect("a number");
    let mut bytes = Vec::new();
    std::io::stdin().read_to_end(&mut bytes).expect("a stream");
    let info = acc::parse(bytes).expect("a header");
    let finder = filled(&info);
    let (from, to) = acc::minimum(&info);
    let mut sum = 0u64;
    for _ in 0..times {
        sum = sum.wrapping_add(match args[1].as_str() {
            "walk" => walk(opaque(&info)),
            "index" => index(opaque(&info)),
            "find" => find_all(acc::bytes(&info), from, to, opaque(&finder)),
            _ => panic!("no such operation"),
        });
    }
    println!("{}", sum);
}

//! Child of the crate's tpi/data.rs. A parsed type record as plain numbers, in the order that answer.rs says.
use super::*;
use crate::answer::{part, Answer, NONE};

fn opt(i: Option<TypeIndex>) -> u64 {
    i.map_or(NONE, |i| u64::from(i.0))
}

/// Whether it is negative, and its 64 bits.
fn variant(v: &Variant) -> [u64; 2] {
    match *v {
        Variant::U8(n) => [0, u64::from(n)],
        Variant::U16(n) => [0, u64::from(n)],
        Variant::U32(n) => [0, u64::from(n)],
        Variant::U64(n) => [0, n],
        Variant::I8(n) => [u64::from(n < 0), n as i64 as u64],
        Variant::I16(n) => [u64::from(n < 0), n as i64 as u64],
        Variant::I32(n) => [u64::from(n < 0), n as i64 as u64],
        Variant::I64(n) => [u64::from(n < 0), n as u64],
    }
}

pub(crate) fn number(bytes: &[u8]) -> Result<([u64; 2], usize)> {
    let mut buf = ParseBuffer::from(bytes);
    let v = buf.parse::<Variant>()?;
    Ok((variant(&v), buf.pos()))
}

fn string(base: &[u8], r: &RawString<'_>) -> [u64; 2] {
    part(base, r.as_bytes())
}

fn optional(base: &[u8], r: &Option<RawString<'_>>) -> [u64; 2] {
    r.as_ref().map_or([NONE, NONE], |r| string(base, r))
}

/// A record's fields, or an element's. What no list of the port's can hold is a field of its own.
fn fields(base: &[u8], leaf: u64, d: &TypeData<'_>) -> Vec<u64> {
    let i = |i: TypeIndex| u64::from(i.0);
    match d {
        TypeData::Class(c) => {
            let kind = match c.kind {
                ClassKind::Class => 0x1504,
                ClassKind::Struct => 0x1505,
                ClassKind::Interface => 0x1519,
            };
            let [n, l] = string(base, &c.name);
            let [m, k] = optional(base, &c.unique_name);
            vec![leaf, kind, c.count.into(), c.properties.0.into(), opt(c.fields), opt(c.derived_from), opt(c.vtable_shape), c.size, n, l, m, k]
        }
        TypeData::Member(m) => {
            let [n, l] = string(base, &m.name);
            vec![0x150d, m.attributes.0.into(), i(m.field_type), m.offset, n, l]
        }
        TypeData::MemberFunction(f) => vec![
            0x1009, i(f.return_type), i(f.class_type), opt(f.this_pointer_type), f.attributes.0.into(), f.parameter_count.into(), i(f.argument_list),
            f.this_adjustment.into(),
        ],
        TypeData::OverloadedMethod(m) => {
            let [n, l] = string(base, &m.name);
            vec![0x150f, m.count.into(), i(m.method_list), n, l]
        }
        TypeData::Method(m) => {
            let [n, l] = string(base, &m.name);
            vec![0x1511, m.attributes.0.into(), i(m.method_type), m.vtable_offset.map_or(NONE, u64::from), n, l]
        }
        TypeData::StaticMember(m) => {
            let [n, l] = string(base, &m.name);
            vec![0x150e, m.attributes.0.into(), i(m.field_type), n, l]
        }
        TypeData::Nested(m) => {
            let [n, l] = string(base, &m.name);
            vec![0x1510, m.attributes.0.into(), i(m.nested_type), n, l]
        }
        TypeData::BaseClass(c) => {
            let leaf = if c.kind == ClassKind::Class { 0x1400 } else { 0x151a };
            vec![leaf, c.attributes.0.into(), i(c.base_class), c.offset.into()]
        }
        TypeData::VirtualBaseClass(c) => vec![
            if c.direct { 0x1401 } else { 0x1402 }, c.attributes.0.into(), i(c.base_class), i(c.base_pointer), c.base_pointer_offset.into(),
            c.virtual_base_offset.into(),
        ],
        TypeData::VirtualFunctionTablePointer(v) => vec![0x1409, i(v.table)],
        TypeData::Procedure(p) => vec![0x1008, opt(p.return_type), p.attributes.0.into(), p.parameter_count.into(), i(p.argument_list)],
        TypeData::Pointer(p) => vec![0x1002, i(p.underlying_type), p.attributes.0.into(), opt(p.containing_class)],
        TypeData::Modifier(m) => vec![0x1001, i(m.underlying_type), m.constant.into(), m.volatile.into(), m.unaligned.into()],
        TypeData::Enumeration(e) => {
            let [n, l] = string(base, &e.name);
            let [m, k] = optional(base, &e.unique_name);
            vec![0x1507, e.count.into(), e.properties.0.into(), i(e.underlying_type), i(e.fields), n, l, m, k]
        }
        TypeData::Enumerate(e) => {
            let [n, l] = string(base, &e.name);
            let [s, v] = variant(&e.value);
            vec![0x1502, e.attributes.0.into(), s, v, n, l]
        }
        TypeData::Array(a) => vec![leaf, i(a.element_type), i(a.indexing_type)],
        TypeData::Union(u) => {
            let [n, l] = string(base, &u.name);
            let [m, k] = optional(base, &u.unique_name);
            vec![0x1506, u.count.into(), u.properties.0.into(), i(u.fields), u.size, n, l, m, k]
        }
        TypeData::Bitfield(f) => vec![0x1205, i(f.underlying_type), f.length.into(), f.position.into()],
        TypeData::ArgumentList(l) => vec![0x1201, l.arguments.len() as u64],
        TypeData::FieldList(_) => vec![0x1203],
        TypeData::MethodList(_) => vec![0x1206],
        TypeData::Primitive(_) => vec![0xffff_ffff],
    }
}

pub(crate) fn flat(base: &[u8], leaf: u16, d: &TypeData<'_>) -> Answer {
    let mut a = Answer::of(fields(base, leaf.into(), d));
    match d {
        TypeData::Array(x) => a.dimensions = x.dimensions.iter().map(|d| u64::from(*d)).collect(),
        TypeData::ArgumentList(l) => {
            a.elements = l.arguments.iter().map(|i| vec![u64::from(i.0)]).collect();
            a.end = (15, 0);
        }
        TypeData::MethodList(l) => {
            a.elements = l
                .methods
                .iter()
                .map(|m| vec![m.attributes.0.into(), m.method_type.0.into(), m.vtable_offset.map_or(NONE, u64::from)])
                .collect();
            a.end = (15, 0);
        }
        TypeData::FieldList(l) => {
            a.elements = l.fields.iter().map(|f| fields(base, 0, f)).collect();
            if let Some(c) = l.continuation {
                a.elements.push(vec![0x1404, c.0.into()]);
            }
            a.end = (15, 0);
        }
        _ => {}
    }
    a
}

/// The methods of the attribute words, in the order of `out` of pdb_properties and its like. A pointer's kind, mode, size and what asks for the mode are each
/// asked by the caller, since they may panic.
pub(crate) fn properties(w: u16) -> [u64; 14] {
    let p = TypeProperties(w);
    [
        p.packed().into(), p.constructors().into(), p.overloaded_operators().into(), p.is_nested_type().into(), p.contains_nested_types().into(),
        p.overloaded_assignment().into(), p.overloaded_casting().into(), p.forward_reference().into(), p.scoped_definition().into(),
        p.has_unique_name().into(), p.sealed().into(), p.hfa().into(), p.intrinsic_type().into(), p.mocom().into(),
    ]
}

pub(crate) fn field(w: u16) -> [u64; 6] {
    let p = FieldAttributes(w);
    [
        p.access().into(), p.method_properties().into(), p.is_static().into(), p.is_virtual().into(), p.is_pure_virtual().into(), p.is_intro_virtual().into(),
    ]
}

pub(crate) fn function(w: u16) -> [u64; 4] {
    let p = FunctionAttributes(w);
    [
        p.calling_convention().into(), p.cxx_return_udt().into(), p.is_constructor().into(), p.is_constructor_with_virtual_bases().into(),
    ]
}

pub(crate) fn pointer(w: u32, which: usize) -> u64 {
    let p = PointerAttributes(w);
    match which {
        0 => p.pointer_kind() as u64,
        1 => p.pointer_mode() as u64,
        2 => p.size().into(),
        3 => p.pointer_to_member().into(),
        4 => p.is_reference().into(),
        5 => p.is_flat_32().into(),
        6 => p.is_volatile().into(),
        7 => p.is_const().into(),
        8 => p.is_unaligned().into(),
        9 => p.is_restrict().into(),
        _ => p.is_mocom().into(),
    }
}

//! Child of the crate's tpi/data.rs, for the program speed only: what a parsed type record adds to the checksum, the same numbers as
//! crates/measure/src/sums.rt. It lies here because the attribute words are private to that file.
use super::*;

fn name(base: &[u8], s: &RawString<'_>) -> u64 {
    (s.as_bytes().as_ptr() as usize - base.as_ptr() as usize) as u64 + s.len() as u64
}
fn opt_name(base: &[u8], s: &Option<RawString<'_>>) -> u64 {
    s.as_ref().map_or(0, |s| name(base, s))
}
fn opt(i: Option<TypeIndex>) -> u64 {
    i.map_or(0, |i| u64::from(i.0))
}
fn wide(i: TypeIndex) -> u64 {
    u64::from(i.0)
}
fn value(v: &Variant) -> u64 {
    match *v {
        Variant::U8(x) => u64::from(x),
        Variant::U16(x) => u64::from(x),
        Variant::U32(x) => u64::from(x),
        Variant::U64(x) => x,
        Variant::I8(x) => x as u64,
        Variant::I16(x) => x as u64,
        Variant::I32(x) => x as u64,
        Variant::I64(x) => x as u64,
    }
}

pub(crate) fn sum(base: &[u8], d: &TypeData<'_>) -> u64 {
    match d {
        TypeData::Primitive(_) => 0,
        TypeData::Class(c) => {
            let kind = match c.kind {
                ClassKind::Class => 0u64,
                ClassKind::Struct => 1,
                ClassKind::Interface => 2,
            };
            kind.wrapping_add(u64::from(c.count))
                .wrapping_add(u64::from(c.properties.0))
                .wrapping_add(opt(c.fields))
                .wrapping_add(opt(c.derived_from))
                .wrapping_add(opt(c.vtable_shape))
                .wrapping_add(c.size)
                .wrapping_add(name(base, &c.name))
                .wrapping_add(opt_name(base, &c.unique_name))
        }
        TypeData::Member(m) => u64::from(m.attributes.0)
            .wrapping_add(wide(m.field_type))
            .wrapping_add(m.offset)
            .wrapping_add(name(base, &m.name)),
        TypeData::MemberFunction(f) => {
            wide(f.return_type)
                + wide(f.class_type)
                + opt(f.this_pointer_type)
                + u64::from(f.attributes.0)
                + u64::from(f.parameter_count)
                + wide(f.argument_list)
                + u64::from(f.this_adjustment)
        }
        TypeData::OverloadedMethod(m) => u64::from(m.count) + wide(m.method_list) + name(base, &m.name),
        TypeData::Method(m) => {
            u64::from(m.attributes.0)
                + wide(m.method_type)
                + m.vtable_offset.map_or(0, u64::from)
                + name(base, &m.name)
        }
        TypeData::StaticMember(m) => u64::from(m.attributes.0) + wide(m.field_type) + name(base, &m.name),
        TypeData::Nested(m) => wide(m.nested_type) + name(base, &m.name),
        TypeData::BaseClass(c) => u64::from(c.attributes.0) + wide(c.base_class) + u64::from(c.offset),
        TypeData::VirtualBaseClass(c) => {
            u64::from(c.attributes.0)
                + wide(c.base_class)
                + wide(c.base_pointer)
                + u64::from(c.base_pointer_offset)
                + u64::from(c.virtual_base_offset)
        }
        TypeData::VirtualFunctionTablePointer(v) => wide(v.table),
        TypeData::Procedure(p) => {
            opt(p.return_type)
                + u64::from(p.attributes.0)
                + u64::from(p.parameter_count)
                + wide(p.argument_list)
        }
        TypeData::Pointer(p) => wide(p.underlying_type) + u64::from(p.attributes.0) + opt(p.containing_class),
        TypeData::Modifier(m) => {
            wide(m.underlying_type) + m.constant as u64 + 2 * m.volatile as u64 + 4 * m.unaligned as u64
        }
        TypeData::Enumeration(e) => {
            u64::from(e.count)
                + u64::from(e.properties.0)
                + wide(e.underlying_type)
                + wide(e.fields)
                + name(base, &e.name)
                + opt_name(base, &e.unique_name)
        }
        TypeData::Enumerate(e) => u64::from(e.attributes.0)
            .wrapping_add(value(&e.value))
            .wrapping_add(name(base, &e.name)),
        TypeData::Array(a) => {
            wide(a.element_type) + wide(a.indexing_type) + a.dimensions.iter().map(|&d| u64::from(d)).sum::<u64>()
        }
        TypeData::Union(u) => u64::from(u.count)
            .wrapping_add(u64::from(u.properties.0))
            .wrapping_add(wide(u.fields))
            .wrapping_add(u.size)
            .wrapping_add(name(base, &u.name))
            .wrapping_add(opt_name(base, &u.unique_name)),
        TypeData::Bitfield(b) => wide(b.underlying_type) + u64::from(b.length) + u64::from(b.position),
        TypeData::FieldList(l) => {
            let mut n = l.continuation.map_or(0, wide);
            for f in &l.fields {
                n = n.wrapping_add(sum(base, f));
            }
            n
        }
        TypeData::ArgumentList(l) => l.arguments.iter().map(|&a| wide(a)).sum(),
        TypeData::MethodList(l) => {
            let mut n = 0u64;
            for m in &l.methods {
                n += u64::from(m.attributes.0) + wide(m.method_type) + m.vtable_offset.map_or(0, u64::from);
            }
            n
        }
    }
}

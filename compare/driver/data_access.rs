//! Child of the crate's tpi/data.rs. The attribute words made from plain numbers, the private helpers
//! (optional index, string, padding, numbers), and the line that shows a parsed type record.
use super::*;
use crate::{opt, b};

pub(crate) fn props(w: u16) -> TypeProperties { TypeProperties(w) }
pub(crate) fn field(w: u16) -> FieldAttributes { FieldAttributes(w) }
pub(crate) fn method_properties(w: u16) -> u8 { FieldAttributes(w).method_properties() }
pub(crate) fn func(w: u16) -> FunctionAttributes { FunctionAttributes(w) }
pub(crate) fn ptr(w: u32) -> PointerAttributes { PointerAttributes(w) }

pub(crate) fn optional_type(index: u32) -> Option<u32> {
    let bytes = index.to_le_bytes();
    parse_optional_type_index(&mut ParseBuffer::from(&bytes[..])).unwrap().map(|i| i.0)
}

/// Place and length of the string, and the place after it.
pub(crate) fn type_string(leaf: u16, bytes: &[u8]) -> Result<(usize, usize, usize)> {
    let mut buf = ParseBuffer::from(bytes);
    let s = parse_string(leaf, &mut buf)?;
    let place = s.as_bytes().as_ptr() as usize - bytes.as_ptr() as usize;
    Ok((place, s.len(), buf.pos()))
}

/// How many bytes of padding are consumed.
pub(crate) fn padding(bytes: &[u8]) -> Result<usize> {
    let mut buf = ParseBuffer::from(bytes);
    parse_padding(&mut buf)?;
    Ok(buf.pos())
}

/// A number where a size or offset is wanted, and the place after it.
pub(crate) fn unsigned(bytes: &[u8]) -> Result<(u64, usize)> {
    let mut buf = ParseBuffer::from(bytes);
    let n = parse_unsigned(&mut buf)?;
    Ok((n, buf.pos()))
}

/// An enumerator's number, and the place after it.
pub(crate) fn variant(bytes: &[u8]) -> Result<(Variant, usize)> {
    let mut buf = ParseBuffer::from(bytes);
    let v = buf.parse::<Variant>()?;
    Ok((v, buf.pos()))
}

/// The place and length of the name that the crate's `TypeData::name` gives, if it gives one.
pub(crate) fn name(base: &[u8], d: &TypeData<'_>) -> Option<(usize, usize)> {
    d.name().map(|n| (n.as_bytes().as_ptr() as usize - base.as_ptr() as usize, n.len()))
}

/// The record's fields as one line of plain numbers; strings as place+length in the record.
pub(crate) fn show(base: &[u8], leaf: u16, d: &TypeData<'_>) -> String {
    let s = |r: &RawString<'_>| {
        format!("{}+{}", r.as_bytes().as_ptr() as usize - base.as_ptr() as usize, r.len())
    };
    let os = |r: &Option<RawString<'_>>| match r {
        Some(r) => s(r),
        None => "-".to_string(),
    };
    let o = |i: Option<TypeIndex>| opt(i.map(|i| i.0));
    match d {
        TypeData::Primitive(p) => format!(
            "prim kind={:?} ind={}",
            p.kind,
            match p.indirection {
                None => "-".to_string(),
                Some(i) => format!("{:?}", i),
            }
        ),
        TypeData::Class(c) => format!(
            "{:04x} kind={:?} count={} props={} fields={} derived={} shape={} size={} name={} unique={}",
            leaf, c.kind, c.count, c.properties.0, o(c.fields), o(c.derived_from),
            o(c.vtable_shape), c.size, s(&c.name), os(&c.unique_name)
        ),
        TypeData::Member(m) => format!(
            "150d a={} t={} off={} name={}", m.attributes.0, m.field_type.0, m.offset, s(&m.name)
        ),
        TypeData::MemberFunction(f) => format!(
            "1009 ret={} class={} this={} attrs={} count={} args={} adjust={}",
            f.return_type.0, f.class_type.0, o(f.this_pointer_type), f.attributes.0,
            f.parameter_count, f.argument_list.0, f.this_adjustment
        ),
        TypeData::OverloadedMethod(m) => {
            format!("150f count={} t={} name={}", m.count, m.method_list.0, s(&m.name))
        }
        TypeData::Method(m) => format!(
            "1511 a={} t={} voff={} name={}",
            m.attributes.0, m.method_type.0, opt(m.vtable_offset), s(&m.name)
        ),
        TypeData::StaticMember(m) => {
            format!("150e a={} t={} name={}", m.attributes.0, m.field_type.0, s(&m.name))
        }
        TypeData::Nested(m) => {
            format!("1510 a={} t={} name={}", m.attributes.0, m.nested_type.0, s(&m.name))
        }
        TypeData::BaseClass(c) => format!(
            "{} a={} t={} off={}",
            if c.kind == ClassKind::Class { "1400" } else { "151a" },
            c.attributes.0, c.base_class.0, c.offset
        ),
        TypeData::VirtualBaseClass(c) => format!(
            "{} a={} t={} p={} off={} voff={}",
            if c.direct { "1401" } else { "1402" },
            c.attributes.0, c.base_class.0, c.base_pointer.0,
            c.base_pointer_offset, c.virtual_base_offset
        ),
        TypeData::VirtualFunctionTablePointer(v) => format!("1409 t={}", v.table.0),
        TypeData::Procedure(p) => format!(
            "1008 ret={} attrs={} count={} args={}",
            o(p.return_type), p.attributes.0, p.parameter_count, p.argument_list.0
        ),
        TypeData::Pointer(p) => format!(
            "1002 t={} word={} class={}", p.underlying_type.0, p.attributes.0, o(p.containing_class)
        ),
        TypeData::Modifier(m) => format!(
            "1001 t={} const={} volatile={} unaligned={}",
            m.underlying_type.0, b(m.constant), b(m.volatile), b(m.unaligned)
        ),
        TypeData::Enumeration(e) => format!(
            "1507 count={} props={} t={} fields={} name={} unique={}",
            e.count, e.properties.0, e.underlying_type.0, e.fields.0, s(&e.name), os(&e.unique_name)
        ),
        TypeData::Enumerate(e) => {
            format!("1502 a={} v={} name={}", e.attributes.0, e.value, s(&e.name))
        }
        TypeData::Array(a) => format!(
            "{:04x} elem={} idx={}{} dims={}",
            leaf, a.element_type.0, a.indexing_type.0,
            match a.stride { Some(n) => format!(" stride={}", n), None => String::new() },
            a.dimensions.iter().map(|d| d.to_string()).collect::<Vec<_>>().join(",")
        ),
        TypeData::Union(u) => format!(
            "1506 count={} props={} fields={} size={} name={} unique={}",
            u.count, u.properties.0, u.fields.0, u.size, s(&u.name), os(&u.unique_name)
        ),
        TypeData::Bitfield(f) => {
            format!("1205 t={} len={} pos={}", f.underlying_type.0, f.length, f.position)
        }
        TypeData::FieldList(l) => {
            let mut line = "1203".to_string();
            for f in &l.fields {
                line.push_str(" ; ");
                line.push_str(&show(base, 0, f));
            }
            if let Some(c) = l.continuation {
                line.push_str(&format!(" ; 1404 t={}", c.0));
            }
            line.push_str(" ; end 15");
            line
        }
        TypeData::ArgumentList(l) => {
            let mut line = format!("1201 count={}", l.arguments.len());
            for a in &l.arguments {
                line.push_str(&format!(" ; {}", a.0));
            }
            line.push_str(" ; end 15");
            line
        }
        TypeData::MethodList(l) => {
            let mut line = "1206".to_string();
            for m in &l.methods {
                line.push_str(&format!(
                    " ; a={} t={} voff={}", m.attributes.0, m.method_type.0, opt(m.vtable_offset)
                ));
            }
            line.push_str(" ; end 15");
            line
        }
    }
}

//! fields FILE..: both crates over the same streams, crate pdb 0.8.0 (release build) and pdb_types, answer beside answer.
//!
//! A file that ends in .ipi is an id stream, one that ends in .debugT a section, any other a type stream. Of each stream the header, the walk, the finder, and of
//! each record every field and every element is compared. With `--damage` each stream is also tried with each byte set to 0x00, to 0xff and to its complement.
//! `--chance COUNT` tries that many records of chance. `--paper docs/DIFFERENCES.md` tries the records of that paper's tables too, and wants each to be excused by the name of its line.
//! A difference is excused by a line of docs/DIFFERENCES.md, by its name, where the rule below says what both sides must be there; any other is printed, and
//! then the exit status is 1. The counts are printed.
use pdb::access;
use pdb::FallibleIterator;
use std::collections::BTreeMap;
use std::panic::{catch_unwind, AssertUnwindSafe};

// ---- answers of both sides in one form

#[derive(Debug, Clone, PartialEq)]
enum Value<'s> {
    Number(i128),
    Maybe(Option<u64>),
    Text(&'s [u8]),
    MaybeText(Option<&'s [u8]>),
    Numbers(Vec<u64>),
    Named(String),
    Elements(Vec<Record<'s>>),
}
use Value::*;

/// A record or an element: what it is, and its fields by the names of the crate.
#[derive(Debug, Clone, PartialEq)]
struct Record<'s> {
    kind: &'static str,
    fields: Vec<(&'static str, Value<'s>)>,
}

#[derive(Debug, Clone, PartialEq)]
enum Answer<'s> {
    Given(Record<'s>),
    /// A number of docs/NUMBERS.md and its first detail, 0 where it has none.
    Refused(u32, u64),
    /// An error of the crate that has no number.
    Other(String),
    Panic,
}
use Answer::*;

fn n(x: impl Into<i128>) -> Value<'static> {
    Number(x.into())
}

// ---- ours

mod ours {
    use super::{n, Answer, Given, Record, Refused, Value::*};
    use pdb_types::*;

    pub fn refused<'s>(e: Error) -> Answer<'s> {
        // the links passed are the port's own: docs/DIFFERENCES.md, links-passed
        let detail = if e.number() == 1 { 0 } else { e.details()[0].unwrap_or(0).into() };
        Refused(e.number(), detail)
    }

    fn some(i: Option<TypeIndex>) -> super::Value<'static> {
        Maybe(i.map(|i| i.0.into()))
    }

    fn properties(w: TypeProperties) -> super::Value<'static> {
        let bits = [
            w.packed(),
            w.constructors(),
            w.overloaded_operators(),
            w.is_nested_type(),
            w.contains_nested_types(),
            w.overloaded_assignment(),
            w.overloaded_casting(),
            w.forward_reference(),
            w.scoped_definition(),
            w.has_unique_name(),
            w.sealed(),
        ];
        Numbers(std::iter::once(w.0.into()).chain(bits.map(u64::from)).chain([w.hfa().into()]).collect())
    }

    fn attributes(w: FieldAttributes) -> super::Value<'static> {
        let bits = [w.is_static(), w.is_virtual(), w.is_pure_virtual(), w.is_intro_virtual()].map(u64::from);
        Numbers([w.0.into(), w.access().into()].into_iter().chain(bits).collect())
    }

    fn function(w: FunctionAttributes) -> super::Value<'static> {
        let bits = [w.cxx_return_udt(), w.is_constructor(), w.is_constructor_with_virtual_bases()].map(u64::from);
        Numbers([w.0.into(), w.calling_convention().into()].into_iter().chain(bits).collect())
    }

    fn pointer(w: PointerAttributes) -> super::Value<'static> {
        let bits = [
            w.pointer_to_member(),
            w.is_reference(),
            w.is_flat_32(),
            w.is_volatile(),
            w.is_const(),
            w.is_unaligned(),
            w.is_restrict(),
        ];
        let numbers: Vec<u64> = std::iter::once(w.0.into()).chain(bits.map(u64::from)).collect();
        Named(format!(
            "{numbers:?} {:?} {:?} {}",
            w.pointer_kind().unwrap(),
            w.pointer_mode().unwrap(),
            w.size().unwrap()
        ))
    }

    /// The place behind padding: a byte of 0xf0 and above, whose low half says how many it stands for.
    fn unpadded(s: &[u8], mut at: usize) -> usize {
        while let Some(&b @ 0xf0..) = s.get(at) {
            at += usize::from(b & 15).max(1);
        }
        at
    }

    /// The elements of a field list with the place of each, up to a refusal.
    pub fn members<'s>(list: &FieldList<'s>) -> (Vec<(usize, Member<'s>)>, Option<(usize, Error)>) {
        let (mut found, mut iter) = (Vec::new(), list.iter());
        loop {
            // padding stands behind an element, so that there is none before the first
            let at = if iter.position() == 2 { 2 } else { unpadded(list.bytes(), iter.position()) };
            match iter.next() {
                None => return (found, None),
                Some(Ok(member)) => found.push((at, member)),
                Some(Err(e)) => return (found, Some((at, e))),
            }
        }
    }

    pub fn member<'s>(m: &Member<'s>) -> Record<'s> {
        let (kind, fields) = match m {
            Member::Member(m) => (
                "Member",
                vec![
                    ("attributes", attributes(m.attributes)),
                    ("field_type", n(m.field_type.0)),
                    ("offset", n(m.offset)),
                    ("name", Text(m.name.as_bytes())),
                ],
            ),
            Member::StaticMember(m) => (
                "StaticMember",
                vec![
                    ("attributes", attributes(m.attributes)),
                    ("field_type", n(m.field_type.0)),
                    ("name", Text(m.name.as_bytes())),
                ],
            ),
            Member::Method(m) => (
                "Method",
                vec![
                    ("attributes", attributes(m.attributes)),
                    ("method_type", n(m.method_type.0)),
                    ("vtable_offset", Maybe(m.vtable_offset.map(u64::from))),
                    ("name", Text(m.name.as_bytes())),
                ],
            ),
            Member::OverloadedMethod(m) => (
                "OverloadedMethod",
                vec![("count", n(m.count)), ("method_list", n(m.method_list.0)), ("name", Text(m.name.as_bytes()))],
            ),
            Member::Nested(m) => (
                "Nested",
                vec![
                    ("attributes", attributes(m.attributes)),
                    ("nested_type", n(m.nested_type.0)),
                    ("name", Text(m.name.as_bytes())),
                ],
            ),
            Member::BaseClass(m) => (
                "BaseClass",
                vec![
                    ("kind", Named(format!("{:?}", m.kind))),
                    ("attributes", attributes(m.attributes)),
                    ("base_class", n(m.base_class.0)),
                    ("offset", n(m.offset)),
                ],
            ),
            Member::VirtualBaseClass(m) => (
                "VirtualBaseClass",
                vec![
                    ("direct", n(m.direct)),
                    ("attributes", attributes(m.attributes)),
                    ("base_class", n(m.base_class.0)),
                    ("base_pointer", n(m.base_pointer.0)),
                    ("base_pointer_offset", n(m.base_pointer_offset)),
                    ("virtual_base_offset", n(m.virtual_base_offset)),
                ],
            ),
            Member::VirtualFunctionTablePointer(m) => ("VirtualFunctionTablePointer", vec![("table", n(m.table.0))]),
            Member::Enumerate(m) => (
                "Enumerate",
                vec![
                    ("attributes", attributes(m.attributes)),
                    ("value", n(m.value.as_i128())),
                    ("name", Text(m.name.as_bytes())),
                ],
            ),
            Member::Continuation(i) => ("Continuation", vec![("continuation", n(i.0))]),
            other => panic!("{other:?}"),
        };
        named(kind, fields, m.name())
    }

    fn named<'s>(kind: &'static str, mut fields: Vec<(&'static str, super::Value<'s>)>, name: Option<RawString<'s>>) -> Record<'s> {
        fields.push(("name()", MaybeText(name.map(|name| name.as_bytes()))));
        Record { kind, fields }
    }

    pub fn data<'s>(data: &TypeData<'s>) -> Answer<'s> {
        let (kind, fields) = match data {
            TypeData::Primitive(p) => (
                "Primitive",
                vec![
                    ("kind", Named(p.kind.name().to_string())),
                    ("indirection", Named(format!("{:?}", p.indirection))),
                ],
            ),
            TypeData::Class(c) => (
                "Class",
                vec![
                    ("kind", Named(format!("{:?}", c.kind))),
                    ("count", n(c.count)),
                    ("properties", properties(c.properties)),
                    ("fields", some(c.fields)),
                    ("derived_from", some(c.derived_from)),
                    ("vtable_shape", some(c.vtable_shape)),
                    ("size", n(c.size)),
                    ("name", Text(c.name.as_bytes())),
                    ("unique_name", MaybeText(c.unique_name.map(|s| s.as_bytes()))),
                ],
            ),
            TypeData::Union(u) => (
                "Union",
                vec![
                    ("count", n(u.count)),
                    ("properties", properties(u.properties)),
                    ("fields", n(u.fields.0)),
                    ("size", n(u.size)),
                    ("name", Text(u.name.as_bytes())),
                    ("unique_name", MaybeText(u.unique_name.map(|s| s.as_bytes()))),
                ],
            ),
            TypeData::Enumeration(e) => (
                "Enumeration",
                vec![
                    ("count", n(e.count)),
                    ("properties", properties(e.properties)),
                    ("underlying_type", n(e.underlying_type.0)),
                    ("fields", n(e.fields.0)),
                    ("name", Text(e.name.as_bytes())),
                    ("unique_name", MaybeText(e.unique_name.map(|s| s.as_bytes()))),
                ],
            ),
            TypeData::Pointer(p) => (
                "Pointer",
                vec![
                    ("underlying_type", n(p.underlying_type.0)),
                    ("attributes", pointer(p.attributes)),
                    ("containing_class", some(p.containing_class)),
                ],
            ),
            TypeData::Modifier(m) => (
                "Modifier",
                vec![
                    ("underlying_type", n(m.underlying_type.0)),
                    ("constant", n(m.constant)),
                    ("volatile", n(m.volatile)),
                    ("unaligned", n(m.unaligned)),
                ],
            ),
            TypeData::Procedure(p) => (
                "Procedure",
                vec![
                    ("return_type", some(p.return_type)),
                    ("attributes", function(p.attributes)),
                    ("parameter_count", n(p.parameter_count)),
                    ("argument_list", n(p.argument_list.0)),
                ],
            ),
            TypeData::MemberFunction(p) => (
                "MemberFunction",
                vec![
                    ("return_type", n(p.return_type.0)),
                    ("class_type", n(p.class_type.0)),
                    ("this_pointer_type", some(p.this_pointer_type)),
                    ("attributes", function(p.attributes)),
                    ("parameter_count", n(p.parameter_count)),
                    ("argument_list", n(p.argument_list.0)),
                    ("this_adjustment", n(p.this_adjustment)),
                ],
            ),
            TypeData::Array(a) => (
                "Array",
                vec![
                    ("element_type", n(a.element_type.0)),
                    ("indexing_type", n(a.indexing_type.0)),
                    ("stride", Maybe(None)),
                    ("dimensions", Numbers(vec![a.size])),
                ],
            ),
            TypeData::Bitfield(b) => (
                "Bitfield",
                vec![
                    ("underlying_type", n(b.underlying_type.0)),
                    ("length", n(b.length)),
                    ("position", n(b.position)),
                ],
            ),
            TypeData::VirtualTableShape(s) => ("VirtualTableShape", vec![("count", n(s.count)), ("slots", Text(s.slots))]),
            TypeData::ArgumentList(l) => ("ArgumentList", vec![("arguments", Numbers(l.arguments.iter().map(|i| i.0.into()).collect()))]),
            TypeData::FieldList(l) => {
                let (members, end) = members(l);
                if let Some((_, e)) = end {
                    return refused(e);
                }
                ("FieldList", vec![("fields", Elements(members.iter().map(|(_, m)| member(m)).collect()))])
            }
            TypeData::MethodList(l) => {
                let mut methods = Vec::new();
                for entry in l {
                    match entry {
                        Ok(m) => methods.push(Record {
                            kind: "MethodListEntry",
                            fields: vec![
                                ("attributes", attributes(m.attributes)),
                                ("method_type", n(m.method_type.0)),
                                ("vtable_offset", Maybe(m.vtable_offset.map(u64::from))),
                            ],
                        }),
                        Err(e) => return refused(e),
                    }
                }
                ("MethodList", vec![("methods", Elements(methods))])
            }
            // a leaf that the crate does not know: there is nothing to compare its fields with
            _ => ("Later", Vec::new()),
        };
        Given(named(kind, fields, data.name()))
    }

    pub fn type_answer(index: u32, bytes: &[u8]) -> Answer<'_> {
        match Type::new(TypeIndex(index), bytes).parse() {
            Ok(parsed) => data(&parsed),
            Err(e) => refused(e),
        }
    }

    pub fn id_data<'s>(data: &IdData<'s>) -> Record<'s> {
        let maybe = |i: Option<IdIndex>| Maybe(i.map(|i| i.0.into()));
        let (kind, fields) = match data {
            IdData::Function(f) => (
                "Function",
                vec![
                    ("scope", maybe(f.scope)),
                    ("function_type", n(f.function_type.0)),
                    ("name", Text(f.name.as_bytes())),
                ],
            ),
            IdData::MemberFunction(f) => (
                "MemberFunction",
                vec![
                    ("parent", n(f.parent.0)),
                    ("function_type", n(f.function_type.0)),
                    ("name", Text(f.name.as_bytes())),
                ],
            ),
            IdData::BuildInfo(l) => ("BuildInfo", vec![("arguments", Numbers(l.arguments.iter().map(|i| i.0.into()).collect()))]),
            IdData::StringList(l) => ("StringList", vec![("substrings", Numbers(l.substrings.iter().map(|i| i.0.into()).collect()))]),
            IdData::String(s) => ("String", vec![("substrings", maybe(s.substrings)), ("name", Text(s.name.as_bytes()))]),
            IdData::UserDefinedTypeSource(u) => (
                "UserDefinedTypeSource",
                vec![
                    ("udt", n(u.udt.0)),
                    (
                        "source_file",
                        Named(match u.source_file {
                            UserDefinedTypeSourceFileRef::Local(i) => format!("local {}", i.0),
                            UserDefinedTypeSourceFileRef::Remote(module, s) => format!("remote {module} {}", s.0),
                        }),
                    ),
                    ("line", n(u.line)),
                ],
            ),
            other => panic!("{other:?}"),
        };
        Record { kind, fields }
    }

    pub fn id_answer(index: u32, bytes: &[u8]) -> Answer<'_> {
        match Id::new(IdIndex(index), bytes).parse() {
            Ok(data) => Given(id_data(&data)),
            Err(e) => refused(e),
        }
    }
}

// ---- the crate's

mod theirs {
    use super::{n, Answer, Given, Other, Panic, Record, Refused, Value::*};
    use pdb::access;
    use pdb::*;

    pub fn refused<'s>(e: Error) -> Answer<'s> {
        match e {
            Error::UnexpectedEof => Refused(1, 0),
            Error::InvalidTypeInformationHeader("header size is impossibly small") => Refused(2, 0),
            Error::InvalidTypeInformationHeader("header size is unreasonably large") => Refused(3, 0),
            Error::InvalidTypeInformationHeader("minimum type index is < 4096") => Refused(4, 0),
            Error::InvalidTypeInformationHeader("maximum type index is < minimum type index") => Refused(5, 0),
            Error::TypeTooShort => Refused(6, 0),
            Error::TypeNotFound(i) => Refused(8, i.into()),
            Error::TypeNotIndexed(i, _) => Refused(9, i.into()),
            Error::UnimplementedTypeKind(leaf) => Refused(10, leaf.into()),
            Error::UnexpectedNumericPrefix(_) => Refused(11, 0),
            other => Other(format!("{other:?}")),
        }
    }

    pub fn answered<'s>(call: impl FnOnce() -> Answer<'s>) -> Answer<'s> {
        std::panic::catch_unwind(std::panic::AssertUnwindSafe(call)).unwrap_or(Panic)
    }

    fn some(i: Option<TypeIndex>) -> super::Value<'static> {
        Maybe(i.map(|i| i.0.into()))
    }

    fn properties(w: TypeProperties) -> super::Value<'static> {
        let bits = [
            w.packed(),
            w.constructors(),
            w.overloaded_operators(),
            w.is_nested_type(),
            w.contains_nested_types(),
            w.overloaded_assignment(),
            w.overloaded_casting(),
            w.forward_reference(),
            w.scoped_definition(),
            w.has_unique_name(),
            w.sealed(),
        ];
        Numbers(
            std::iter::once(access::properties(w).into())
                .chain(bits.map(u64::from))
                .chain([w.hfa().into()])
                .collect(),
        )
    }

    fn attributes(w: FieldAttributes) -> super::Value<'static> {
        let bits = [w.is_static(), w.is_virtual(), w.is_pure_virtual(), w.is_intro_virtual()].map(u64::from);
        Numbers([access::field(w).into(), w.access().into()].into_iter().chain(bits).collect())
    }

    fn function(w: FunctionAttributes) -> super::Value<'static> {
        let bits = [w.cxx_return_udt(), w.is_constructor(), w.is_constructor_with_virtual_bases()].map(u64::from);
        Numbers([access::function(w).into(), w.calling_convention().into()].into_iter().chain(bits).collect())
    }

    fn pointer(w: PointerAttributes) -> super::Value<'static> {
        let word = access::pointer(w);
        if word & 0x1f > 12 {
            // no more is asked of a kind that is none: the crate panics
            return Named(format!("[{word}]"));
        }
        let bits = [
            w.pointer_to_member(),
            w.is_reference(),
            w.is_flat_32(),
            w.is_volatile(),
            w.is_const(),
            w.is_unaligned(),
            w.is_restrict(),
        ];
        let numbers: Vec<u64> = std::iter::once(word.into()).chain(bits.map(u64::from)).collect();
        Named(format!("{numbers:?} {:?} {:?} {}", w.pointer_kind(), w.pointer_mode(), w.size()))
    }

    fn value(v: &Variant) -> super::Value<'static> {
        match *v {
            Variant::U8(x) => n(x),
            Variant::U16(x) => n(x),
            Variant::U32(x) => n(x),
            Variant::U64(x) => n(x),
            Variant::I8(x) => n(x),
            Variant::I16(x) => n(x),
            Variant::I32(x) => n(x),
            Variant::I64(x) => n(x),
        }
    }

    pub fn data<'s>(data: &TypeData<'s>) -> Record<'s> {
        let (kind, fields) = match data {
            TypeData::Primitive(p) => (
                "Primitive",
                vec![("kind", Named(format!("{:?}", p.kind))), ("indirection", Named(format!("{:?}", p.indirection)))],
            ),
            TypeData::Class(c) => (
                "Class",
                vec![
                    ("kind", Named(format!("{:?}", c.kind))),
                    ("count", n(c.count)),
                    ("properties", properties(c.properties)),
                    ("fields", some(c.fields)),
                    ("derived_from", some(c.derived_from)),
                    ("vtable_shape", some(c.vtable_shape)),
                    ("size", n(c.size)),
                    ("name", Text(c.name.as_bytes())),
                    ("unique_name", MaybeText(c.unique_name.map(|s| s.as_bytes()))),
                ],
            ),
            TypeData::Union(u) => (
                "Union",
                vec![
                    ("count", n(u.count)),
                    ("properties", properties(u.properties)),
                    ("fields", n(u.fields.0)),
                    ("size", n(u.size)),
                    ("name", Text(u.name.as_bytes())),
                    ("unique_name", MaybeText(u.unique_name.map(|s| s.as_bytes()))),
                ],
            ),
            TypeData::Enumeration(e) => (
                "Enumeration",
                vec![
                    ("count", n(e.count)),
                    ("properties", properties(e.properties)),
                    ("underlying_type", n(e.underlying_type.0)),
                    ("fields", n(e.fields.0)),
                    ("name", Text(e.name.as_bytes())),
                    ("unique_name", MaybeText(e.unique_name.map(|s| s.as_bytes()))),
                ],
            ),
            TypeData::Pointer(p) => (
                "Pointer",
                vec![
                    ("underlying_type", n(p.underlying_type.0)),
                    ("attributes", pointer(p.attributes)),
                    ("containing_class", some(p.containing_class)),
                ],
            ),
            TypeData::Modifier(m) => (
                "Modifier",
                vec![
                    ("underlying_type", n(m.underlying_type.0)),
                    ("constant", n(m.constant)),
                    ("volatile", n(m.volatile)),
                    ("unaligned", n(m.unaligned)),
                ],
            ),
            TypeData::Procedure(p) => (
                "Procedure",
                vec![
                    ("return_type", some(p.return_type)),
                    ("attributes", function(p.attributes)),
                    ("parameter_count", n(p.parameter_count)),
                    ("argument_list", n(p.argument_list.0)),
                ],
            ),
            TypeData::MemberFunction(p) => (
                "MemberFunction",
                vec![
                    ("return_type", n(p.return_type.0)),
                    ("class_type", n(p.class_type.0)),
                    ("this_pointer_type", some(p.this_pointer_type)),
                    ("attributes", function(p.attributes)),
                    ("parameter_count", n(p.parameter_count)),
                    ("argument_list", n(p.argument_list.0)),
                    ("this_adjustment", n(p.this_adjustment)),
                ],
            ),
            TypeData::Array(a) => (
                "Array",
                vec![
                    ("element_type", n(a.element_type.0)),
                    ("indexing_type", n(a.indexing_type.0)),
                    ("stride", Maybe(a.stride.map(u64::from))),
                    ("dimensions", Numbers(a.dimensions.iter().map(|&d| d.into()).collect())),
                ],
            ),
            TypeData::Bitfield(b) => (
                "Bitfield",
                vec![
                    ("underlying_type", n(b.underlying_type.0)),
                    ("length", n(b.length)),
                    ("position", n(b.position)),
                ],
            ),
            TypeData::ArgumentList(l) => ("ArgumentList", vec![("arguments", Numbers(l.arguments.iter().map(|i| i.0.into()).collect()))]),
            TypeData::FieldList(l) => {
                let mut elements: Vec<Record<'_>> = l.fields.iter().map(self::data).collect();
                // where the crate has a field, the port has an element, the last one
                elements.extend(l.continuation.map(|i| Record {
                    kind: "Continuation",
                    fields: vec![("continuation", n(i.0)), ("name()", MaybeText(None))],
                }));
                ("FieldList", vec![("fields", Elements(elements))])
            }
            TypeData::MethodList(l) => {
                let entry = |m: &MethodListEntry| Record {
                    kind: "MethodListEntry",
                    fields: vec![
                        ("attributes", attributes(m.attributes)),
                        ("method_type", n(m.method_type.0)),
                        ("vtable_offset", Maybe(m.vtable_offset.map(u64::from))),
                    ],
                };
                ("MethodList", vec![("methods", Elements(l.methods.iter().map(entry).collect()))])
            }
            TypeData::Member(m) => (
                "Member",
                vec![
                    ("attributes", attributes(m.attributes)),
                    ("field_type", n(m.field_type.0)),
                    ("offset", n(m.offset)),
                    ("name", Text(m.name.as_bytes())),
                ],
            ),
            TypeData::StaticMember(m) => (
                "StaticMember",
                vec![
                    ("attributes", attributes(m.attributes)),
                    ("field_type", n(m.field_type.0)),
                    ("name", Text(m.name.as_bytes())),
                ],
            ),
            TypeData::Method(m) => (
                "Method",
                vec![
                    ("attributes", attributes(m.attributes)),
                    ("method_type", n(m.method_type.0)),
                    ("vtable_offset", Maybe(m.vtable_offset.map(u64::from))),
                    ("name", Text(m.name.as_bytes())),
                ],
            ),
            TypeData::OverloadedMethod(m) => (
                "OverloadedMethod",
                vec![("count", n(m.count)), ("method_list", n(m.method_list.0)), ("name", Text(m.name.as_bytes()))],
            ),
            TypeData::Nested(m) => (
                "Nested",
                vec![
                    ("attributes", attributes(m.attributes)),
                    ("nested_type", n(m.nested_type.0)),
                    ("name", Text(m.name.as_bytes())),
                ],
            ),
            TypeData::BaseClass(m) => (
                "BaseClass",
                vec![
                    ("kind", Named(format!("{:?}", m.kind))),
                    ("attributes", attributes(m.attributes)),
                    ("base_class", n(m.base_class.0)),
                    ("offset", n(m.offset)),
                ],
            ),
            TypeData::VirtualBaseClass(m) => (
                "VirtualBaseClass",
                vec![
                    ("direct", n(m.direct)),
                    ("attributes", attributes(m.attributes)),
                    ("base_class", n(m.base_class.0)),
                    ("base_pointer", n(m.base_pointer.0)),
                    ("base_pointer_offset", n(m.base_pointer_offset)),
                    ("virtual_base_offset", n(m.virtual_base_offset)),
                ],
            ),
            TypeData::VirtualFunctionTablePointer(m) => ("VirtualFunctionTablePointer", vec![("table", n(m.table.0))]),
            TypeData::Enumerate(m) => (
                "Enumerate",
                vec![
                    ("attributes", attributes(m.attributes)),
                    ("value", value(&m.value)),
                    ("name", Text(m.name.as_bytes())),
                ],
            ),
            other => panic!("{other:?}"),
        };
        let mut fields: Vec<(&'static str, super::Value<'s>)> = fields;
        fields.push(("name()", MaybeText(data.name().map(|name| name.as_bytes()))));
        Record { kind, fields }
    }

    pub fn type_answer(index: u32, bytes: &[u8]) -> Answer<'_> {
        answered(|| match access::type_item(index, bytes).parse() {
            Ok(parsed) => Given(data(&parsed)),
            Err(e) => refused(e),
        })
    }

    pub fn id_answer(index: u32, bytes: &[u8]) -> Answer<'_> {
        let maybe = |i: Option<IdIndex>| Maybe(i.map(|i| i.0.into()));
        answered(|| {
            let data = match access::id_item(index, bytes).parse() {
                Ok(data) => data,
                Err(e) => return refused(e),
            };
            let (kind, fields) = match data {
                IdData::Function(f) => (
                    "Function",
                    vec![
                        ("scope", maybe(f.scope)),
                        ("function_type", n(f.function_type.0)),
                        ("name", Text(f.name.as_bytes())),
                    ],
                ),
                IdData::MemberFunction(f) => (
                    "MemberFunction",
                    vec![
                        ("parent", n(f.parent.0)),
                        ("function_type", n(f.function_type.0)),
                        ("name", Text(f.name.as_bytes())),
                    ],
                ),
                IdData::BuildInfo(l) => ("BuildInfo", vec![("arguments", Numbers(l.arguments.iter().map(|i| i.0.into()).collect()))]),
                IdData::StringList(l) => ("StringList", vec![("substrings", Numbers(l.substrings.iter().map(|i| i.0.into()).collect()))]),
                IdData::String(s) => ("String", vec![("substrings", maybe(s.substrings)), ("name", Text(s.name.as_bytes()))]),
                IdData::UserDefinedTypeSource(u) => (
                    "UserDefinedTypeSource",
                    vec![
                        ("udt", n(u.udt.0)),
                        (
                            "source_file",
                            Named(match u.source_file {
                                UserDefinedTypeSourceFileRef::Local(i) => format!("local {}", i.0),
                                UserDefinedTypeSourceFileRef::Remote(module, s) => format!("remote {module} {}", s.0),
                            }),
                        ),
                        ("line", n(u.line)),
                    ],
                ),
                other => panic!("{other:?}"),
            };
            Given(Record { kind, fields })
        })
    }
}

// ---- excuses, by the names of docs/DIFFERENCES.md

/// Leaves of elements that the port takes, and what the crate takes besides them.
const MEMBERS: [u16; 11] = [0x1400, 0x1401, 0x1402, 0x1404, 0x1409, 0x1502, 0x150d, 0x150e, 0x150f, 0x1510, 0x1511];
const TYPES: [u16; 15] = [
    0x1001, 0x1002, 0x1008, 0x1009, 0x1201, 0x1203, 0x1205, 0x1206, 0x1503, 0x1504, 0x1505, 0x1506, 0x1507, 0x1519, 0x1609,
];
const NEWER: [u16; 3] = [0x1512, 0x1516, 0x151a];
const LENGTH_BYTE: [u16; 12] = [0x0403, 0x1003, 0x1004, 0x1005, 0x1006, 0x1007, 0x1405, 0x1406, 0x1407, 0x1408, 0x140b, 0x140d];

fn word(s: &[u8], at: usize) -> Option<u16> {
    Some(u16::from_le_bytes(s.get(at..at + 2)?.try_into().unwrap()))
}

/// The bytes of the numeric leaf at a place, by its prefix.
fn width(s: &[u8], at: usize) -> usize {
    match word(s, at) {
        Some(0x8000) => 3,
        Some(0x8001 | 0x8002) => 4,
        Some(0x8003 | 0x8004) => 6,
        Some(0x8009 | 0x800a) => 10,
        _ => 2,
    }
}

/// Where the sizes and offsets of a record or an element stand that starts at a place: not an enumerator's value.
fn sizes(s: &[u8], at: usize) -> Vec<usize> {
    match word(s, at) {
        Some(0x1504 | 0x1505 | 0x1519) => vec![at + 18],
        Some(0x1609) => vec![at + 20],
        Some(0x1503 | 0x1506) => vec![at + 10],
        Some(0x150d | 0x1400) => vec![at + 8],
        Some(0x1401 | 0x1402) => vec![at + 12, at + 12 + width(s, at + 12)],
        _ => vec![],
    }
}

/// Whether one of these sizes is an i8 below 0, and whether one has a signed prefix, which the crate does not take.
fn negative_byte(s: &[u8], at: usize) -> bool {
    sizes(s, at)
        .iter()
        .any(|&p| word(s, p) == Some(0x8000) && s.get(p + 2).is_some_and(|&b| b >= 0x80))
}
fn signed(s: &[u8], at: usize) -> bool {
    sizes(s, at).iter().any(|&p| matches!(word(s, p), Some(0x8001 | 0x8003 | 0x8009)))
}

/// Whether an array's size is 2^32 and more.
fn large(s: &[u8]) -> bool {
    word(s, 10) == Some(0x800a) && s.get(12..20).is_some_and(|b| u64::from_le_bytes(b.try_into().unwrap()) >= 1 << 32)
}

/// Why a leaf that the port does not take is read by the crate.
fn foreign_leaf(leaf: u16, outside: bool) -> Option<&'static str> {
    if NEWER.contains(&leaf) {
        Some("newer-leaf")
    } else if LENGTH_BYTE.contains(&leaf) {
        Some("length-byte-leaf")
    } else if outside && MEMBERS.contains(&leaf) && leaf != 0x1404 {
        Some("member-outside")
    } else if !outside && TYPES.contains(&leaf) {
        Some("leaf-in-list")
    } else {
        None
    }
}

/// The fields that differ between two elements of one kind, each by its excuse; none where one has none.
fn element_excuses(ours: &Record<'_>, theirs: &Record<'_>) -> Option<Vec<&'static str>> {
    if ours.kind != theirs.kind || ours.fields.len() != theirs.fields.len() {
        return None;
    }
    let mut names = Vec::new();
    for ((field, a), (other, b)) in ours.fields.iter().zip(&theirs.fields) {
        if field != other {
            return None;
        }
        if a == b {
            continue;
        }
        names.push(match (ours.kind, *field, a, b) {
            ("Nested", "attributes", Numbers(_), Numbers(none)) if none.iter().all(|&x| x == 0) => "nested-word",
            ("Enumerate", "value", Number(x), Number(y)) if (-128..0).contains(x) && *y == *x + 256 => "byte-number",
            ("BaseClass" | "VirtualBaseClass", "offset" | "base_pointer_offset" | "virtual_base_offset", Number(x), Number(y))
                if *x >= 1 << 32 && *y == i128::from(*x as u32) =>
            {
                "base-offset"
            }
            ("Pointer", "containing_class", Maybe(None), Maybe(Some(0 | 0xffff))) => "pointer-class",
            _ => return None,
        });
    }
    Some(names)
}

/// Whether the port has a type leaf at all.
fn has_layout(leaf: u16) -> bool {
    pdb_types::layout(pdb_types::Layouts::Types, pdb_types::Leaf(leaf)).next().is_some()
}

fn type_excuses(bytes: &[u8], ours: &Answer<'_>, theirs: &Answer<'_>) -> Option<Vec<&'static str>> {
    let leaf = word(bytes, 0)?;
    // what is refused for its leaf
    if let Refused(10, detail) = ours {
        if u64::from(leaf) == *detail {
            if let Some(name) = foreign_leaf(leaf, true) {
                return Some(vec![name]);
            }
        }
    }
    match leaf {
        0x000a if *theirs == Refused(10, 10) => return Some(vec!["vtable-shape"]),
        _ if *theirs == Refused(10, leaf.into()) && !TYPES.contains(&leaf) && has_layout(leaf) => return Some(vec!["later-leaf"]),
        0x1002 => {
            let attributes = bytes.get(6..10).map(|b| u32::from_le_bytes(b.try_into().unwrap()))?;
            let (kind, mode) = (attributes & 0x1f, attributes >> 5 & 7);
            return match (ours, theirs) {
                (Refused(12, 0), Panic) if mode > 4 => Some(vec!["pointer-mode"]),
                (Refused(12, 0), Given(_) | Refused(1, 0)) if kind > 12 && mode <= 4 => Some(vec!["pointer-kind"]),
                (Given(a), Given(b)) => element_excuses(a, b),
                _ => None,
            };
        }
        0x1503 => {
            let at = 10 + width(bytes, 10);
            return match (ours, theirs) {
                (Refused(11, 0), _) if negative_byte(bytes, 0) => Some(vec!["byte-number"]),
                (_, Refused(11, 0)) if signed(bytes, 0) => Some(vec!["signed-size"]),
                // the crate says so before it looks for the name, the port where the name is there
                (Given(_) | Refused(1, 0), Other(why)) if large(bytes) && why.contains("u64 array sizes") => Some(vec!["array-size"]),
                (Given(_) | Refused(1, 0), _) if bytes.get(at).is_some_and(|&b| b != 0) => Some(vec!["array-name"]),
                (Given(_), Panic | Refused(1, 0)) if bytes.get(at) == Some(&0) => Some(vec!["array-after"]),
                _ => None,
            };
        }
        0x1203 => return list_excuses(bytes, theirs),
        _ => {}
    }
    match (ours, theirs) {
        (Refused(11, 0), Given(_) | Refused(1, 0)) if negative_byte(bytes, 0) => Some(vec!["byte-number"]),
        (Given(_) | Refused(1 | 11, 0), Refused(11, 0)) if signed(bytes, 0) => Some(vec!["signed-size"]),
        (Given(a), Given(b)) => element_excuses(a, b),
        _ => None,
    }
}

/// A field list: the crate reads it whole or not at all, the port element by element. What stands before the first that differs in kind must be alike or excused.
fn list_excuses(bytes: &[u8], theirs: &Answer<'_>) -> Option<Vec<&'static str>> {
    let Ok(pdb_types::TypeData::FieldList(list)) = pdb_types::TypeData::parse(bytes) else {
        return None;
    };
    let (members, end) = ours::members(&list);
    let mut names = Vec::new();
    // the first element at which the crate must go astray, and why
    let mut astray = None;
    for &(at, _) in &members {
        if word(bytes, at) == Some(0x1404) {
            astray = Some((at, "continuation"));
        } else if signed(bytes, at) {
            astray = Some((at, "signed-size"));
        }
        if astray.is_some() {
            break;
        }
    }
    if let (None, Some((at, why))) = (astray, end) {
        let leaf = word(bytes, at);
        astray = match (why.number(), leaf) {
            (_, Some(0x1404)) => Some((at, "continuation")),
            (10, Some(leaf)) => foreign_leaf(leaf, false).map(|name| (at, name)),
            (11, _) if negative_byte(bytes, at) => Some((at, "byte-number")),
            (1 | 11, _) if signed(bytes, at) => Some((at, "signed-size")),
            _ => None,
        };
    }
    let sure = members.iter().take_while(|(at, _)| astray.is_none_or(|(place, _)| *at < place));
    match theirs {
        Given(record) => {
            let Some((_, Elements(elements))) = record.fields.first() else { return None };
            for (k, (_, member)) in sure.enumerate() {
                names.extend(element_excuses(&ours::member(member), elements.get(k)?)?);
            }
            match astray {
                Some((_, name)) => names.push(name),
                None if end.is_some() || elements.len() != members.len() => return None,
                None => {}
            }
        }
        Refused(..) | Other(_) | Panic => names.push(astray?.1),
    }
    (!names.is_empty()).then_some(names)
}

// ---- the comparison

#[derive(Default)]
struct Tally {
    streams: u64,
    damaged: u64,
    records: u64,
    elements: u64,
    fields: u64,
    alike: u64,
    refused_alike: u64,
    excused: BTreeMap<&'static str, u64>,
    left_out: BTreeMap<&'static str, u64>,
    unexplained: u64,
}

impl Tally {
    fn excuse(&mut self, name: &'static str) {
        *self.excused.entry(name).or_default() += 1;
    }

    fn unexplained(&mut self, what: String) {
        self.unexplained += 1;
        if self.unexplained <= 20 {
            println!("NOT EXPLAINED {what}");
        }
    }

    fn count(&mut self, record: &Record<'_>) {
        for (_, value) in &record.fields {
            self.fields += 1;
            if let Elements(elements) = value {
                self.elements += elements.len() as u64;
                elements.iter().for_each(|element| self.count(element));
            }
        }
    }

    /// Whether the crate would ask for more memory than the record can fill: docs/DIFFERENCES.md, count-memory. It is not called then.
    fn memory(&mut self, bytes: &[u8]) -> bool {
        let asks = |at: usize| {
            let count = bytes.get(at + 2..at + 6).map_or(0, |four| u32::from_le_bytes(four.try_into().unwrap()));
            matches!(word(bytes, at), Some(0x1201 | 0x1604)) && count > 1 << 20
        };
        // a list of arguments may also stand inside a field list, where the crate reads it: behind an element that the port does not take, or a continuation
        let inside = || match pdb_types::TypeData::parse(bytes) {
            Ok(pdb_types::TypeData::FieldList(list)) => {
                list.iter().any(|member| matches!(member, Err(_) | Ok(pdb_types::Member::Continuation(_)))) && (2..bytes.len()).any(asks)
            }
            _ => false,
        };
        let skip = asks(0) || inside();
        if skip {
            *self.left_out.entry("count-memory").or_default() += 1;
        }
        skip
    }

    fn record(&mut self, ids: bool, index: u32, bytes: &[u8], whose: &dyn Fn() -> String) {
        self.records += 1;
        if self.memory(bytes) {
            return;
        }
        let (ours, theirs) = match ids {
            false => (ours::type_answer(index, bytes), theirs::type_answer(index, bytes)),
            true => (ours::id_answer(index, bytes), theirs::id_answer(index, bytes)),
        };
        if let Given(record) = &ours {
            self.count(record);
        }
        if ours == theirs {
            match ours {
                Given(_) => self.alike += 1,
                _ => self.refused_alike += 1,
            }
            return;
        }
        let excuses = if ids { None } else { type_excuses(bytes, &ours, &theirs) };
        match excuses {
            Some(mut names) if !names.is_empty() => {
                names.sort_unstable();
                names.dedup();
                names.into_iter().for_each(|name| self.excuse(name));
            }
            _ => self.unexplained(format!("{} index {index}: {bytes:02x?}\n  ours {ours:?}\n  crate {theirs:?}", whose())),
        }
    }

    fn stream(&mut self, ids: bool, s: &[u8], whose: &dyn Fn() -> String) {
        match ids {
            false => self.information::<pdb_types::TypeIndex, pdb::TypeIndex>(false, s, access::types(s.to_vec()), whose),
            true => self.information::<pdb_types::IdIndex, pdb::IdIndex>(true, s, access::ids(s.to_vec()), whose),
        }
    }

    fn information<I, J>(&mut self, ids: bool, s: &[u8], theirs: pdb::Result<pdb::ItemInformation<'static, J>>, whose: &dyn Fn() -> String)
    where
        I: pdb_types::ItemIndex,
        J: pdb::ItemIndex,
    {
        self.streams += 1;
        let ours = pdb_types::ItemInformation::<I>::parse(s);
        let (ours, theirs) = match (ours, theirs) {
            (Ok(a), Ok(b)) => (a, b),
            (Err(a), Err(b)) => {
                let (a, b) = (ours::refused(a), theirs::refused(b));
                match a == b {
                    true => self.refused_alike += 1,
                    false => self.unexplained(format!("{}: headers {a:?} and {b:?}", whose())),
                }
                return;
            }
            (a, b) => return self.unexplained(format!("{}: headers {} and {}", whose(), a.is_ok(), b.is_ok())),
        };
        let h = ours.header();
        let line = format!(
            "version={} header_size={} minimum={} maximum={} gprec={} s1={} s2={} key={} bucket={} o1={} n1={} o2={} n2={} o3={} n3={}",
            h.version,
            h.header_size,
            h.minimum_index,
            h.maximum_index,
            h.gprec_size,
            h.tpi_hash_stream,
            h.tpi_hash_pad_stream,
            h.hash_key_size,
            h.hash_bucket_size,
            h.hash_values.offset,
            h.hash_values.size,
            h.ti_off.offset,
            h.ti_off.size,
            h.hash_adj.offset,
            h.hash_adj.size
        );
        if line != access::header_line(&theirs) || (ours.len(), ours.is_empty()) != (theirs.len(), theirs.is_empty()) {
            self.unexplained(format!("{}: header {line} and {}", whose(), access::header_line(&theirs)));
        }
        // a finder of the crate asks at once for a place for each eight records that the header counts
        let finders = ours.len() <= 1 << 24;
        if !finders {
            *self.left_out.entry("count-memory").or_default() += 1;
        }
        let mut our_finder = ours.finder();
        let mut their_finder = finders.then(|| theirs.finder());
        let (mut a, mut b) = (ours.iter(), theirs.iter());
        let end = loop {
            let wrapped = ours.header().minimum_index == u32::MAX;
            match (a.next(), b.next()) {
                (Some(Ok(x)), Ok(Some(y))) => {
                    our_finder.update(&a).expect("an update");
                    if let Some(finder) = &mut their_finder {
                        finder.update(&b);
                    }
                    let (index, other): (u32, u32) = (x.index().into(), y.index().into());
                    if (index, x.bytes(), x.len(), x.raw_kind()) != (other, access::bytes(&y), y.len(), Ok(y.raw_kind())) {
                        self.unexplained(format!("{}: record {index}", whose()));
                    }
                    self.record(ids, index, x.bytes(), whose);
                }
                (None, Ok(None)) => break None,
                (Some(Err(e)), Err(f)) => {
                    let (e, f) = (ours::refused(e), theirs::refused(f));
                    if e != f {
                        self.unexplained(format!("{}: the walk ends by {e:?} and {f:?}", whose()));
                    }
                    break Some(e);
                }
                (Some(Err(pdb_types::Error::IndicesUsedUp)), Ok(Some(_))) if wrapped => {
                    self.excuse("index-used-up");
                    break Some(Refused(7, 0));
                }
                (x, y) => {
                    self.unexplained(format!("{}: the walk has {x:?} and {}", whose(), y.is_ok()));
                    break None;
                }
            }
        };
        let _ = end;
        // a whole walk in one call holds the same places
        let mut at_once = ours.finder();
        let _ = at_once.index();
        if at_once.places() != our_finder.places() {
            self.unexplained(format!("{}: places", whose()));
        }
        let Some(their_finder) = their_finder else { return };
        let (low, high) = (ours.header().minimum_index, ours.header().maximum_index);
        let our_max: u32 = our_finder.max_index().into();
        let their_max: u32 = their_finder.max_index().into();
        match our_max == their_max {
            true => {}
            false if our_max == u32::MAX => self.excuse("max-held"),
            false => self.unexplained(format!("{}: max_index {our_max} and {their_max}", whose())),
        }
        // every index of a small stream, every 97th of a large one, and those around
        let step = if ours.len() > 20_000 { 97 } else { 1 };
        let inside = (low..=high.saturating_add(2)).take(100_000).step_by(step);
        for index in [0, 0x74, 0x0fff, low.saturating_sub(1)]
            .into_iter()
            .chain(inside)
            .chain([high, high.saturating_add(1), u32::MAX])
        {
            let theirs = catch_unwind(AssertUnwindSafe(|| their_finder.find(J::from(index)).map_err(theirs::refused)));
            match (our_finder.find(I::from(index)), theirs) {
                (Ok(x), Ok(Ok(y))) if x.bytes() == access::bytes(&y) => {}
                (Err(e), Ok(Err(f))) if ours::refused(e) == f => {}
                (x, y) => self.unexplained(format!(
                    "{}: find {index} gives {x:?} and {:?}",
                    whose(),
                    y.map(|y| y.map(|y| y.len())).map_err(|_| ())
                )),
            }
        }
    }

    /// A section has no header for the crate: its records are given to the crate's readers one by one.
    fn section(&mut self, s: &[u8], whose: &dyn Fn() -> String) {
        let Ok(section) = pdb_types::Section::parse(s) else { return };
        self.streams += 1;
        for item in &section {
            let Ok(item) = item else { return };
            let ids = matches!(item.raw_kind(), Ok(0x1601..=0x1607));
            let index = item.index().0;
            self.record(ids, index, item.bytes(), whose);
            let read = match section.read(&item) {
                Ok(pdb_types::SectionData::Type(data)) => ours::data(&data),
                Ok(pdb_types::SectionData::Id(data)) => Given(ours::id_data(&data)),
                Err(e) => ours::refused(e),
            };
            let wanted = if ids {
                ours::id_answer(index, item.bytes())
            } else {
                ours::type_answer(index, item.bytes())
            };
            if read != wanted {
                self.unexplained(format!("{}: section record {index}", whose()));
            }
        }
    }
}

/// The type records among the inputs of docs/DIFFERENCES.md: each must be excused by its line's name. Gives how many there are.
fn paper(tally: &mut Tally, text: &str) -> u64 {
    let (mut name, mut tried) = (String::new(), 0);
    for line in text.lines().filter(|line| line.starts_with("| ")) {
        let cells: Vec<&str> = line.split('|').map(str::trim).collect();
        if !cells[1].is_empty() {
            name = cells[1].to_string();
        }
        let Some(digits) = cells.get(3).and_then(|cell| cell.strip_prefix("`type ")?.strip_suffix('`')) else {
            continue;
        };
        let bytes: Vec<u8> = (0..digits.len() / 2)
            .map(|k| u8::from_str_radix(&digits[2 * k..2 * k + 2], 16).expect(digits))
            .collect();
        tried += 1;
        let before = tally.excused.clone();
        tally.record(false, 0x1000, &bytes, &|| format!("the paper's {name}"));
        let by_its_name = tally.excused.get(name.as_str()) > before.get(name.as_str());
        // the port's own kind of 0x1609 is `Struct` in pdb_types, as in the crate
        if !by_its_name && name != "structure-kind" {
            tally.unexplained(format!("{digits} of the paper is not excused by {name}"));
        }
    }
    tried
}

/// Records of chance: a known leaf, or one next to it, and bytes of which many mean something: leaves, prefixes, padding, zeros. Lists have elements of such.
fn chance(tally: &mut Tally, many: u64) {
    let mut state = 0x9e37_79b9_7f4a_7c15u64;
    let mut random = move |below: u64| {
        state ^= state << 13;
        state ^= state >> 7;
        state ^= state << 17;
        (state >> 11) % below
    };
    let leaves: Vec<u16> = [&TYPES[..], &MEMBERS, &NEWER, &LENGTH_BYTE, &[0x000a]].concat();
    let ids = [0x1601u16, 0x1602, 0x1603, 0x1604, 0x1605, 0x1606, 0x1607];
    let prefixes = [0x8000u16, 0x8001, 0x8002, 0x8003, 0x8004, 0x8009, 0x800a, 0x8005, 0x8010];
    for _ in 0..many {
        let is_id = random(8) == 0;
        let known = if is_id { &ids[..] } else { &leaves };
        let leaf = match random(20) {
            0 => random(0x10000) as u16,
            // lists are the longest chapter
            1..=7 if !is_id => 0x1203,
            _ => known[random(known.len() as u64) as usize],
        };
        let mut bytes = leaf.to_le_bytes().to_vec();
        if leaf == 0x1203 && random(3) > 0 {
            // elements as they are laid out, of any numbers; one byte of some is changed
            for _ in 0..random(6) {
                let leaf = MEMBERS[random(MEMBERS.len() as u64) as usize];
                let mut number = || {
                    let n = random(u64::MAX).to_le_bytes();
                    match random(9) {
                        0 => [&[0x00, 0x80][..], &n[..1]].concat(),
                        1 => [&[1 + random(2) as u8, 0x80][..], &n[..2]].concat(),
                        2 => [&[3 + random(2) as u8, 0x80][..], &n[..4]].concat(),
                        3 => [&[9 + random(2) as u8, 0x80][..], &n[..]].concat(),
                        _ => vec![n[0], n[1] & 0x7f],
                    }
                };
                let mut numbers = [number(), number()];
                numbers[1].truncate(if matches!(leaf, 0x1401 | 0x1402) { 10 } else { 0 });
                let mut element = leaf.to_le_bytes().to_vec();
                let word = random(32) as u16;
                element.extend(word.to_le_bytes());
                if leaf != 0x1502 {
                    element.extend((random(0x2000) as u32).to_le_bytes());
                }
                match leaf {
                    0x1400 | 0x150d | 0x1502 => element.extend(&numbers[0]),
                    0x1401 | 0x1402 => {
                        element.extend((random(0x2000) as u32).to_le_bytes());
                        element.extend(numbers.concat());
                    }
                    0x1511 if matches!(word >> 2 & 7, 4 | 6) => element.extend([8, 0, 0, 0]),
                    _ => {}
                }
                if matches!(leaf, 0x1502 | 0x150d..=0x1511) {
                    element.extend(b"name\0");
                }
                element.extend([0xf3, 0xf2, 0xf1].into_iter().skip(random(4) as usize));
                if random(12) == 0 {
                    let at = random(element.len() as u64) as usize;
                    element[at] = random(256) as u8;
                }
                bytes.extend(element);
            }
            bytes.truncate(bytes.len() - if random(12) == 0 { random(bytes.len() as u64 - 1) as usize } else { 0 });
            tally.record(false, 0x1000, &bytes, &|| "by chance".to_string());
            continue;
        }
        for _ in 0..random(30) {
            match random(12) {
                0 | 1 => bytes.extend(leaves[random(leaves.len() as u64) as usize].to_le_bytes()),
                2 => bytes.extend(MEMBERS[random(MEMBERS.len() as u64) as usize].to_le_bytes()),
                3 => bytes.extend(prefixes[random(prefixes.len() as u64) as usize].to_le_bytes()),
                4 => bytes.extend([0xf3, 0xf2, 0xf1].into_iter().skip(random(3) as usize)),
                5 => bytes.extend(b"name\0"),
                6 => bytes.push(random(256) as u8),
                7 | 8 => bytes.extend((random(0x2000) as u16).to_le_bytes()),
                9 => bytes.extend([0; 4]),
                _ => bytes.extend([random(8) as u8, 0]),
            }
        }
        tally.record(is_id, 0x1000, &bytes, &|| "by chance".to_string());
    }
}

/// Every word of 16 bits and every pointer word up to bit 19, by each method. Gives how many words were asked.
fn words(tally: &mut Tally) -> u64 {
    let mut asked = 0;
    for w in 0..=u16::MAX {
        asked += 3;
        let (a, b) = (pdb_types::TypeProperties(w), access::properties_of(w));
        if a.intrinsic_type() != b.intrinsic_type() {
            tally.excuse("intrinsic-bit");
        }
        if a.mocom() != b.mocom() {
            tally.excuse("mocom-bits");
        }
        let same = [
            (a.packed(), b.packed()),
            (a.constructors(), b.constructors()),
            (a.overloaded_operators(), b.overloaded_operators()),
            (a.is_nested_type(), b.is_nested_type()),
            (a.contains_nested_types(), b.contains_nested_types()),
            (a.overloaded_assignment(), b.overloaded_assignment()),
            (a.overloaded_casting(), b.overloaded_casting()),
            (a.forward_reference(), b.forward_reference()),
            (a.scoped_definition(), b.scoped_definition()),
            (a.has_unique_name(), b.has_unique_name()),
            (a.sealed(), b.sealed()),
            (a.hfa() == b.hfa(), true),
            (a.intrinsic_type(), w >> 13 & 1 == 1),
            (b.intrinsic_type(), w >> 12 & 1 == 1),
            (u16::from(a.mocom()) == w >> 14, true),
            (u16::from(b.mocom()) == w >> 14 & 1, true),
        ];
        let (a, b) = (pdb_types::FieldAttributes(w), access::field_of(w));
        let field = [
            (a.access() == b.access(), true),
            (a.is_static(), b.is_static()),
            (a.is_virtual(), b.is_virtual()),
            (a.is_pure_virtual(), b.is_pure_virtual()),
            (a.is_intro_virtual(), b.is_intro_virtual()),
        ];
        let (a, b) = (pdb_types::FunctionAttributes(w), access::function_of(w));
        let function = [
            (a.calling_convention() == b.calling_convention(), true),
            (a.cxx_return_udt(), b.cxx_return_udt()),
            (a.is_constructor(), b.is_constructor()),
            (a.is_constructor_with_virtual_bases(), b.is_constructor_with_virtual_bases()),
        ];
        if same.iter().chain(&field).chain(&function).any(|(x, y)| x != y) {
            tally.unexplained(format!("word {w:#x}"));
        }
    }
    for w in 0..1u32 << 20 {
        asked += 1;
        let (a, b) = (pdb_types::PointerAttributes(w), access::pointer_of(w));
        let mut same = a.is_flat_32() == b.is_flat_32()
            && a.is_volatile() == b.is_volatile()
            && a.is_const() == b.is_const()
            && a.is_unaligned() == b.is_unaligned()
            && a.is_restrict() == b.is_restrict();
        if a.is_mocom() != b.is_mocom() {
            tally.excuse("pointer-mocom");
            same &= a.is_mocom() == (w >> 19 & 1 == 1) && b.is_mocom() == (w >> 18 & 1 == 1);
        }
        // where kind or mode is none the crate panics, and is not asked
        match a.pointer_kind() {
            Ok(kind) => same &= format!("{kind:?}") == format!("{:?}", b.pointer_kind()) && a.size() == Ok(b.size()),
            Err(_) => {
                tally.excuse("pointer-word");
                same &= w & 0x1f > 12;
                same &= if w >> 13 & 0x3f == 0 { a.size().is_err() } else { a.size() == Ok(b.size()) };
            }
        }
        match a.pointer_mode() {
            Ok(mode) => {
                same &= format!("{mode:?}") == format!("{:?}", b.pointer_mode());
                same &= a.pointer_to_member() == b.pointer_to_member() && a.is_reference() == b.is_reference();
            }
            Err(_) => {
                tally.excuse("pointer-word");
                same &= w >> 5 & 7 > 4;
            }
        }
        if !same {
            tally.unexplained(format!("pointer word {w:#x}"));
        }
    }
    asked
}

fn main() {
    std::panic::set_hook(Box::new(|_| {}));
    let (mut tally, mut damage, mut files, mut from_paper) = (Tally::default(), false, 0, 0);
    let mut words_left = std::env::args().skip(1);
    while let Some(path) = words_left.next() {
        if path == "--damage" {
            damage = true;
            continue;
        }
        if path == "--chance" {
            let many = words_left.next().and_then(|word| word.parse().ok()).expect("--chance COUNT");
            chance(&mut tally, many);
            continue;
        }
        if path == "--paper" {
            let path = words_left.next().unwrap_or_default();
            from_paper = paper(&mut tally, &std::fs::read_to_string(path).expect("the paper"));
            continue;
        }
        files += 1;
        let s = std::fs::read(&path).unwrap_or_else(|e| {
            println!("{path}: {e}");
            std::process::exit(2);
        });
        let name = path.rsplit('/').next().unwrap_or(&path);
        let one = |tally: &mut Tally, s: &[u8], whose: &dyn Fn() -> String| match name {
            name if name.ends_with(".debugT") => tally.section(s, whose),
            name => tally.stream(name.ends_with(".ipi"), s, whose),
        };
        one(&mut tally, &s, &|| name.to_string());
        if damage {
            for at in 0..s.len() {
                for byte in [0x00, 0xff, !s[at]] {
                    if byte == s[at] {
                        continue;
                    }
                    let mut changed = s.clone();
                    changed[at] = byte;
                    tally.damaged += 1;
                    one(&mut tally, &changed, &|| format!("{name} with byte {at} {byte:#04x}"));
                }
            }
        }
    }
    // primitive types: all indices below 0x1000
    for index in 0..0x1000 {
        tally.record(false, index, &[0xff, 0xff], &|| "primitives".to_string());
    }
    let asked = words(&mut tally);
    println!(
        "{files} files, {} streams and sections, {} of them damaged; {from_paper} records of the paper; {asked} attribute words",
        tally.streams, tally.damaged
    );
    println!(
        "{} records, {} elements, {} fields: {} records answered alike, {} refused alike",
        tally.records, tally.elements, tally.fields, tally.alike, tally.refused_alike
    );
    println!("excused: {:?}", tally.excused);
    println!("not asked of the crate: {:?}", tally.left_out);
    println!("not explained: {}", tally.unexplained);
    std::process::exit(i32::from(tally.unexplained > 0));
}

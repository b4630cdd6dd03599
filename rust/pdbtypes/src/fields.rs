//! The fields of a record by their names, as values that can be printed one way or the other. The names are those of the library's fields.
use crate::input::is_id_leaf;
use crate::words;
use pdb_types::{ClassKind, Form, IdData, Leaf, Member, MethodListEntry, RawString, Result, Type, TypeData, TypeIndex, UserDefinedTypeSourceFileRef, Variant};

/// The value of a field.
pub enum Value<'s> {
    None,
    Flag(bool),
    Number(u64),
    /// A number of a numeric leaf, and how it was written.
    Numeric(Variant, Form),
    /// A word, how many hex digits it has, and what it says.
    Word(u32, usize, Vec<String>),
    Plain(&'static str),
    Type(TypeIndex),
    Id(u32),
    Types(Vec<TypeIndex>),
    Ids(Vec<u32>),
    Name(RawString<'s>),
    Bytes(&'s [u8]),
    Elements(Vec<Result<Element<'s>>>),
}

/// A field: its name and its value.
pub type Field<'s> = (&'static str, Value<'s>);

/// An element of a list; a method of a method list has no leaf.
pub struct Element<'s> {
    pub leaf: Option<Leaf>,
    pub fields: Vec<Field<'s>>,
}

fn optional<'s>(index: Option<TypeIndex>) -> Value<'s> {
    index.map_or(Value::None, Value::Type)
}

fn text<'s>(name: Option<RawString<'s>>) -> Value<'s> {
    name.map_or(Value::None, Value::Name)
}

fn natural<'s>(n: u64, form: Form) -> Value<'s> {
    Value::Numeric(Variant::Natural(n), form)
}

fn properties<'s>(word: pdb_types::TypeProperties) -> Value<'s> {
    Value::Word(word.0.into(), 4, words::properties(word))
}

fn attributes<'s>(word: pdb_types::FieldAttributes) -> Value<'s> {
    Value::Word(word.0.into(), 4, words::field(word))
}

fn offset<'s>(n: Option<u32>) -> Value<'s> {
    n.map_or(Value::None, |n| Value::Number(n.into()))
}

/// The fields of a record, by the reader that takes its leaf.
pub fn of_record<'s>(item: &Type<'s>) -> Result<Vec<Field<'s>>> {
    if is_id_leaf(item.raw_kind()?) {
        return IdData::parse(item.bytes()).map(|data| of_id(&data));
    }
    item.parse().map(|data| of_type(&data))
}

fn of_type<'s>(data: &TypeData<'s>) -> Vec<Field<'s>> {
    match data {
        TypeData::Class(x) => vec![
            (
                "kind",
                Value::Plain(match x.kind {
                    ClassKind::Class => "class",
                    ClassKind::Struct => "struct",
                    ClassKind::Interface => "interface",
                }),
            ),
            ("count", Value::Number(x.count.into())),
            ("properties", properties(x.properties)),
            ("fields", optional(x.fields)),
            ("derived_from", optional(x.derived_from)),
            ("vtable_shape", optional(x.vtable_shape)),
            ("size", natural(x.size, x.form)),
            ("name", Value::Name(x.name)),
            ("unique_name", text(x.unique_name)),
        ],
        TypeData::Union(x) => vec![
            ("count", Value::Number(x.count.into())),
            ("properties", properties(x.properties)),
            ("fields", optional(data.fields())),
            ("size", natural(x.size, x.form)),
            ("name", Value::Name(x.name)),
            ("unique_name", text(x.unique_name)),
        ],
        TypeData::Enumeration(x) => vec![
            ("count", Value::Number(x.count.into())),
            ("properties", properties(x.properties)),
            ("underlying_type", Value::Type(x.underlying_type)),
            ("fields", optional(data.fields())),
            ("name", Value::Name(x.name)),
            ("unique_name", text(x.unique_name)),
        ],
        TypeData::Pointer(x) => vec![
            ("underlying_type", Value::Type(x.underlying_type)),
            ("attributes", Value::Word(x.attributes.0, 8, words::pointer(x.attributes))),
            ("containing_class", optional(x.containing_class)),
        ],
        TypeData::Modifier(x) => vec![
            ("underlying_type", Value::Type(x.underlying_type)),
            ("constant", Value::Flag(x.constant)),
            ("volatile", Value::Flag(x.volatile)),
            ("unaligned", Value::Flag(x.unaligned)),
        ],
        TypeData::Procedure(x) => vec![
            ("return_type", optional(x.return_type)),
            ("attributes", Value::Word(x.attributes.0.into(), 4, words::function(x.attributes))),
            ("parameter_count", Value::Number(x.parameter_count.into())),
            ("argument_list", Value::Type(x.argument_list)),
        ],
        TypeData::MemberFunction(x) => vec![
            ("return_type", Value::Type(x.return_type)),
            ("class_type", Value::Type(x.class_type)),
            ("this_pointer_type", optional(x.this_pointer_type)),
            ("attributes", Value::Word(x.attributes.0.into(), 4, words::function(x.attributes))),
            ("parameter_count", Value::Number(x.parameter_count.into())),
            ("argument_list", Value::Type(x.argument_list)),
            ("this_adjustment", Value::Number(x.this_adjustment.into())),
        ],
        TypeData::Array(x) => vec![
            ("element_type", Value::Type(x.element_type)),
            ("indexing_type", Value::Type(x.indexing_type)),
            ("size", natural(x.size, x.form)),
            ("name", Value::Name(x.name)),
        ],
        TypeData::Bitfield(x) => vec![
            ("underlying_type", Value::Type(x.underlying_type)),
            ("length", Value::Number(x.length.into())),
            ("position", Value::Number(x.position.into())),
        ],
        TypeData::VirtualTableShape(x) => vec![("count", Value::Number(x.count.into())), ("slots", Value::Bytes(x.slots))],
        TypeData::ArgumentList(x) => vec![("arguments", Value::Types(x.arguments.iter().collect()))],
        TypeData::FieldList(x) => vec![("members", Value::Elements(x.iter().map(|m| m.map(|m| of_member(&m))).collect()))],
        TypeData::MethodList(x) => vec![("methods", Value::Elements(x.iter().map(|m| m.map(|m| of_method(&m))).collect()))],
        // an index below 0x1000, which no record has, and what a later library brings
        _ => Vec::new(),
    }
}

fn of_method<'s>(x: &MethodListEntry) -> Element<'s> {
    Element {
        leaf: None,
        fields: vec![
            ("attributes", attributes(x.attributes)),
            ("method_type", Value::Type(x.method_type)),
            ("vtable_offset", offset(x.vtable_offset)),
        ],
    }
}

fn of_member<'s>(member: &Member<'s>) -> Element<'s> {
    let (leaf, fields) = match member {
        Member::Member(x) => (
            Leaf::MEMBER,
            vec![
                ("attributes", attributes(x.attributes)),
                ("field_type", Value::Type(x.field_type)),
                ("offset", natural(x.offset, x.form)),
                ("name", Value::Name(x.name)),
            ],
        ),
        Member::StaticMember(x) => (
            Leaf::STMEMBER,
            vec![
                ("attributes", attributes(x.attributes)),
                ("field_type", Value::Type(x.field_type)),
                ("name", Value::Name(x.name)),
            ],
        ),
        Member::Method(x) => (
            Leaf::ONEMETHOD,
            vec![
                ("attributes", attributes(x.attributes)),
                ("method_type", Value::Type(x.method_type)),
                ("vtable_offset", offset(x.vtable_offset)),
                ("name", Value::Name(x.name)),
            ],
        ),
        Member::OverloadedMethod(x) => (
            Leaf::METHOD,
            vec![
                ("count", Value::Number(x.count.into())),
                ("method_list", Value::Type(x.method_list)),
                ("name", Value::Name(x.name)),
            ],
        ),
        Member::Nested(x) => (
            Leaf::NESTTYPE,
            vec![
                ("attributes", attributes(x.attributes)),
                ("nested_type", Value::Type(x.nested_type)),
                ("name", Value::Name(x.name)),
            ],
        ),
        Member::BaseClass(x) => (
            Leaf::BCLASS,
            vec![
                ("attributes", attributes(x.attributes)),
                ("base_class", Value::Type(x.base_class)),
                ("offset", natural(x.offset, x.form)),
            ],
        ),
        Member::VirtualBaseClass(x) => (
            if x.direct { Leaf::VBCLASS } else { Leaf::IVBCLASS },
            vec![
                ("attributes", attributes(x.attributes)),
                ("base_class", Value::Type(x.base_class)),
                ("base_pointer", Value::Type(x.base_pointer)),
                ("base_pointer_offset", natural(x.base_pointer_offset, x.base_pointer_form)),
                ("virtual_base_offset", natural(x.virtual_base_offset, x.virtual_base_form)),
            ],
        ),
        Member::VirtualFunctionTablePointer(x) => (Leaf::VFUNCTAB, vec![("table", Value::Type(x.table))]),
        Member::Enumerate(x) => (
            Leaf::ENUMERATE,
            vec![
                ("attributes", attributes(x.attributes)),
                ("value", Value::Numeric(x.value, x.form)),
                ("name", Value::Name(x.name)),
            ],
        ),
        Member::Continuation(index) => (Leaf::INDEX, vec![("continuation", Value::Type(*index))]),
        // what a later library brings
        _ => {
            return Element {
                leaf: None,
                fields: Vec::new(),
            }
        }
    };
    Element { leaf: Some(leaf), fields }
}

fn of_id<'s>(data: &IdData<'s>) -> Vec<Field<'s>> {
    let optional = |index: Option<pdb_types::IdIndex>| index.map_or(Value::None, |index| Value::Id(index.0));
    match data {
        IdData::Function(x) => vec![
            ("scope", optional(x.scope)),
            ("function_type", Value::Type(x.function_type)),
            ("name", Value::Name(x.name)),
        ],
        IdData::MemberFunction(x) => vec![
            ("parent", Value::Type(x.parent)),
            ("function_type", Value::Type(x.function_type)),
            ("name", Value::Name(x.name)),
        ],
        IdData::BuildInfo(x) => vec![("arguments", Value::Ids(x.arguments.iter().map(|i| i.0).collect()))],
        // type indices by the layout, and strings of the id stream by what they name
        IdData::StringList(x) => vec![("substrings", Value::Ids(x.substrings.iter().map(|i| i.0).collect()))],
        IdData::String(x) => vec![("substrings", optional(x.substrings)), ("name", Value::Name(x.name))],
        IdData::UserDefinedTypeSource(x) => {
            let mut fields = vec![("udt", Value::Type(x.udt))];
            match x.source_file {
                UserDefinedTypeSourceFileRef::Local(file) => fields.push(("source_file", Value::Id(file.0))),
                UserDefinedTypeSourceFileRef::Remote(module, file) => {
                    fields.push(("module", Value::Number(module.into())));
                    fields.push(("source_file_offset", Value::Number(file.0.into())));
                }
            }
            fields.push(("line", Value::Number(x.line.into())));
            fields
        }
        // what a later library brings
        _ => Vec::new(),
    }
}

//! `outline`: classes, unions and enumerations with their members.
use crate::args::Call;
use crate::dump::short_declaration;
use crate::fail::Failure;
use crate::input::Input;
use crate::memory;
use crate::output::{self, shown, Out};
use crate::progress::Progress;
use crate::resolve::Definitions;
use crate::words;
use pdb_types::{ClassKind, EnumerateType, FieldAttributes, Member, RawString, TypeData, TypeIndex, Types, VirtualBaseClassType};
use std::io::{self, Write};

/// A stream, and the copy of it that is asked for declarations.
struct Outline<'s, 'r> {
    types: Types<'s>,
    resolved: Types<'r>,
}

/// A name, or that there is none.
fn named(name: RawString<'_>) -> String {
    match name.as_bytes() {
        b"" => "(no name)".to_string(),
        bytes => shown(bytes).to_string(),
    }
}

/// Who may use a member, where not everybody may.
fn access(attributes: FieldAttributes) -> &'static str {
    match words::access(attributes) {
        Some("private") => "private ",
        Some("protected") => "protected ",
        _ => "",
    }
}

impl<'s> Outline<'s, '_> {
    /// The declaration of a type; its index as `#4123` where it has none, or one that is too long.
    fn declared(&self, index: TypeIndex) -> String {
        match short_declaration(&self.resolved, index) {
            Ok(text) => shown(&text).to_string(),
            Err(_) => format!("#{}", index.0),
        }
    }

    /// The type of a field behind its place: a bit field has its first bit there, and its length behind its type.
    fn field(&self, index: TypeIndex) -> (String, String) {
        match self.types.data(index) {
            Ok(TypeData::Bitfield(bits)) => (
                format!(" bit {}", bits.position),
                format!("{} : {}", self.declared(bits.underlying_type), bits.length),
            ),
            _ => (String::new(), self.declared(index)),
        }
    }

    /// What `this` points to, as far as it stands behind a method: `const`, `volatile`.
    fn qualifiers(&self, method: TypeIndex) -> &'static str {
        let this = match self.types.data(method) {
            Ok(TypeData::MemberFunction(function)) => function.this_pointer_type,
            _ => None,
        };
        let Some(Ok(TypeData::Pointer(pointer))) = this.map(|this| self.types.data(this)) else {
            return "";
        };
        match self.types.data(pointer.underlying_type) {
            Ok(TypeData::Modifier(m)) => match (m.constant, m.volatile) {
                (true, true) => " const volatile",
                (true, false) => " const",
                (false, true) => " volatile",
                (false, false) => "",
            },
            _ => "",
        }
    }

    fn put_method(&self, out: &mut Out, name: RawString<'_>, attributes: FieldAttributes, method: TypeIndex, offset: Option<u32>) -> io::Result<()> {
        let property = words::property(attributes).map_or(String::new(), |word| format!(", {word}"));
        let slot = offset.map_or(String::new(), |n| format!(" at {n}"));
        writeln!(
            out,
            "    {}method {}: {}{}{property}{slot}",
            access(attributes),
            named(name),
            self.declared(method),
            self.qualifiers(method)
        )
    }

    fn put_overloads(&self, out: &mut Out, name: RawString<'_>, list: TypeIndex) -> io::Result<()> {
        match self.types.data(list) {
            Ok(TypeData::MethodList(methods)) => {
                for method in methods {
                    match method {
                        Ok(m) => self.put_method(out, name, m.attributes, m.method_type, m.vtable_offset)?,
                        Err(e) => writeln!(out, "    method {}: {e}", named(name))?,
                    }
                }
                Ok(())
            }
            Ok(_) => writeln!(out, "    method {}: #{}", named(name), list.0),
            Err(e) => writeln!(out, "    method {}: {e}", named(name)),
        }
    }

    fn put_virtual_base(&self, out: &mut Out, base: &VirtualBaseClassType) -> io::Result<()> {
        writeln!(
            out,
            "    {}{}virtual base {}, by entry {} of the table at {}",
            access(base.attributes),
            if base.direct { "" } else { "indirect " },
            self.declared(base.base_class),
            base.virtual_base_offset,
            base.base_pointer_offset
        )
    }

    /// An enumerator's value. Compilers write a negative one in the unsigned form of its type too.
    fn value(&self, data: &TypeData<'_>, enumerator: &EnumerateType<'_>) -> i128 {
        let underlying = match data {
            TypeData::Enumeration(enumeration) => self.types.data(enumeration.underlying_type).ok(),
            _ => None,
        };
        match underlying {
            Some(TypeData::Primitive(primitive)) if primitive.kind.is_signed() => enumerator.value.sign_extended(primitive.size().unwrap_or(8)).into(),
            _ => enumerator.value.as_i128(),
        }
    }

    fn put_member(&self, out: &mut Out, data: &TypeData<'_>, member: &Member<'_>) -> io::Result<()> {
        match member {
            Member::Member(m) => {
                let (bit, text) = self.field(m.field_type);
                writeln!(out, "    {}{} at {}{bit}: {text}", access(m.attributes), named(m.name), m.offset)
            }
            Member::StaticMember(m) => writeln!(out, "    {}static {}: {}", access(m.attributes), named(m.name), self.declared(m.field_type)),
            Member::Method(m) => self.put_method(out, m.name, m.attributes, m.method_type, m.vtable_offset),
            Member::OverloadedMethod(m) => self.put_overloads(out, m.name, m.method_list),
            Member::Nested(m) => writeln!(out, "    {}type {}: {}", access(m.attributes), named(m.name), self.declared(m.nested_type)),
            Member::BaseClass(m) => writeln!(out, "    {}base {} at {}", access(m.attributes), self.declared(m.base_class), m.offset),
            Member::VirtualBaseClass(m) => self.put_virtual_base(out, m),
            Member::VirtualFunctionTablePointer(_) => writeln!(out, "    table of virtual functions"),
            Member::Enumerate(m) => writeln!(out, "    {} = {}", named(m.name), self.value(data, m)),
            // members are given on from one list to the next
            _ => Ok(()),
        }
    }

    fn put_head(&self, out: &mut Out, data: &TypeData<'_>) -> io::Result<()> {
        match data {
            TypeData::Class(x) => {
                let kind = match x.kind {
                    ClassKind::Class => "class",
                    ClassKind::Struct => "struct",
                    ClassKind::Interface => "interface",
                };
                writeln!(out, "{kind} {}, {} bytes", named(x.name), x.size)
            }
            TypeData::Union(x) => writeln!(out, "union {}, {} bytes", named(x.name), x.size),
            TypeData::Enumeration(x) => writeln!(out, "enum {}: {}", named(x.name), self.declared(x.underlying_type)),
            _ => Ok(()),
        }
    }

    fn put(&self, out: &mut Out, data: &TypeData<'_>) -> io::Result<()> {
        self.put_head(out, data)?;
        let Some(fields) = data.fields() else { return Ok(()) };
        for member in self.types.members(fields) {
            match member {
                Ok(member) => self.put_member(out, data, &member)?,
                Err(e) => writeln!(out, "    {e}")?,
            }
        }
        Ok(())
    }
}

pub fn run(call: &Call) -> Result<(), Failure> {
    let names = call.texts_from(1);
    let input = Input::stream_of(call)?;
    let types = input.types()?;
    let progress = Progress::of("outlining", types.len() as u64);
    let copy = input.refused(Definitions::of(&types).and_then(|definitions| definitions.resolved(&types)))?;
    let resolved = input.refused(Types::parse(&copy))?;
    input.refused(memory::left(memory::RECORD))?;
    let outline = Outline { types, resolved };
    let mut out = output::standard()?;
    let mut missing: Vec<&String> = names.iter().collect();
    for item in outline.types.iter().map_while(Result::ok) {
        progress.step();
        let Ok(data) = item.parse() else { continue };
        if data.properties().is_none_or(|properties| properties.forward_reference()) {
            continue;
        }
        let mut is_named = names.is_empty();
        for name in data.name().into_iter().chain(data.unique_name()) {
            is_named |= names.iter().any(|wanted| name == wanted.as_str());
            missing.retain(|wanted| name != wanted.as_str());
        }
        if is_named {
            outline.put(&mut out, &data)?;
        }
    }
    out.flush()?;
    let mut wrong: Vec<String> = missing
        .iter()
        .map(|name| format!("{}: no class, union or enumeration is defined as {name}", input.name))
        .collect();
    wrong.extend(outline.types.end().map(|e| format!("{}: {e}", input.name)));
    Failure::of_lines(wrong)
}

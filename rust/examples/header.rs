//! A toy header generator: every structure, union and enumeration of a type stream as C.
//!
//!     cargo run --example header -- ../samples/plain-x64.tpi
use pdb_types::{ClassKind, EnumerateType, Member, RawString, Result, TypeData, TypeIndex, Types};
use std::collections::HashMap;
use std::io::{self, BufWriter, Write};

/// A stream, and where its types are defined: a field may name a forward reference, whose definition has the same name.
struct Generator<'s> {
    types: Types<'s>,
    definitions: HashMap<RawString<'s>, TypeIndex>,
}

impl<'s> Generator<'s> {
    fn new(stream: &'s [u8]) -> Result<Self> {
        let types = Types::parse(stream)?;
        let mut definitions = HashMap::new();
        for item in &types {
            let item = item?;
            let data = item.parse()?;
            if let (Some(name), Some(properties)) = (data.unique_name().or(data.name()), data.properties()) {
                if !properties.forward_reference() {
                    definitions.insert(name, item.index());
                }
            }
        }
        Ok(Generator { types, definitions })
    }

    /// The bytes of a type; 0 where it has none, or is defined elsewhere.
    fn size(&self, index: TypeIndex) -> Result<u64> {
        let data = self.types.data(index)?;
        if data.properties().is_some_and(|properties| properties.forward_reference()) {
            let name = data.unique_name().or(data.name()).unwrap_or_default();
            return self.definitions.get(&name).map_or(Ok(0), |&definition| self.size(definition));
        }
        Ok(match data {
            TypeData::Primitive(primitive) => primitive.size().unwrap_or(0).into(),
            TypeData::Class(class) => class.size,
            TypeData::Union(union) => union.size,
            TypeData::Array(array) => array.size,
            TypeData::Enumeration(enumeration) => self.size(enumeration.underlying_type)?,
            TypeData::Modifier(modifier) => self.size(modifier.underlying_type)?,
            TypeData::Pointer(pointer) => pointer.attributes.size()?.into(),
            _ => 0,
        })
    }

    /// A type with a name inside it, as C declares it: `int (*name)[3]`.
    fn declared(&self, index: TypeIndex, name: &str) -> Result<String> {
        // a compiler may know primitive types that are none here: char8_t is 0x7c
        let Ok(data) = self.types.data(index) else {
            return Ok(format!("/* type {index} */ {name}"));
        };
        Ok(match data {
            TypeData::Pointer(pointer) => {
                let star = if pointer.attributes.is_const() { "* const " } else { "*" };
                let inner = format!("{star}{name}");
                match self.types.data(pointer.underlying_type) {
                    // an array and a function bind closer than the star
                    Ok(TypeData::Array(_) | TypeData::Procedure(_)) => self.declared(pointer.underlying_type, &format!("({inner})"))?,
                    _ => self.declared(pointer.underlying_type, &inner)?,
                }
            }
            TypeData::Array(array) => {
                let count = array.size.checked_div(self.size(array.element_type)?).unwrap_or(0);
                self.declared(array.element_type, &format!("{name}[{count}]"))?
            }
            TypeData::Procedure(procedure) => {
                let mut arguments = Vec::new();
                if let TypeData::ArgumentList(list) = self.types.data(procedure.argument_list)? {
                    for argument in list {
                        arguments.push(self.declared(argument, "")?);
                    }
                }
                let arguments = if arguments.is_empty() { "void".to_string() } else { arguments.join(", ") };
                self.declared(procedure.return_type.unwrap_or(TypeIndex(3)), &format!("{name}({arguments})"))?
            }
            TypeData::Modifier(modifier) => {
                let constant = if modifier.constant { "const " } else { "" };
                let volatile = if modifier.volatile { "volatile " } else { "" };
                format!("{constant}{volatile}{}", self.declared(modifier.underlying_type, name)?)
            }
            TypeData::Bitfield(bits) => format!("{} : {}", self.declared(bits.underlying_type, name)?, bits.length),
            // what is left is a word and the name: `point s`, `unsigned s`
            _ => format!("{} {name}", self.types.declaration(index)).trim_end().to_string(),
        })
    }

    /// An enumerator's value. Compilers write -1 in the unsigned form of its type too.
    fn value(&self, data: &TypeData<'_>, enumerator: &EnumerateType<'_>) -> Result<i128> {
        let TypeData::Enumeration(enumeration) = data else {
            return Ok(enumerator.value.as_i128());
        };
        Ok(match self.types.data(enumeration.underlying_type)? {
            TypeData::Primitive(primitive) if primitive.kind.is_signed() => enumerator.value.sign_extended(primitive.size().unwrap_or(8)).into(),
            _ => enumerator.value.as_i128(),
        })
    }

    fn write(&self, data: &TypeData<'_>, out: &mut impl Write) -> std::result::Result<(), Box<dyn std::error::Error>> {
        let (Some(name), Some(fields)) = (data.name(), data.fields()) else {
            return Ok(());
        };
        match data {
            TypeData::Class(class) if class.kind == ClassKind::Class => writeln!(out, "class {name} {{ // {} bytes", class.size)?,
            TypeData::Class(class) => writeln!(out, "struct {name} {{ // {} bytes", class.size)?,
            TypeData::Union(union) => writeln!(out, "union {name} {{ // {} bytes", union.size)?,
            _ => writeln!(out, "enum {name} {{")?,
        }
        for member in self.types.members(fields) {
            match member? {
                Member::Member(field) => writeln!(out, "    {}; // at {}", self.declared(field.field_type, &field.name.to_string())?, field.offset)?,
                Member::StaticMember(field) => writeln!(out, "    static {};", self.declared(field.field_type, &field.name.to_string())?)?,
                Member::Enumerate(enumerator) => writeln!(out, "    {} = {},", enumerator.name, self.value(data, &enumerator)?)?,
                Member::BaseClass(base) => writeln!(out, "    // {} at {}", self.types.declaration(base.base_class), base.offset)?,
                Member::Method(method) => writeln!(out, "    // method {}", method.name)?,
                Member::OverloadedMethod(method) => writeln!(out, "    // methods {}, {}", method.name, method.count)?,
                _ => {}
            }
        }
        Ok(writeln!(out, "}};\n")?)
    }
}

fn main() -> std::result::Result<(), Box<dyn std::error::Error>> {
    let path = std::env::args().nth(1).ok_or("usage: header STREAM")?;
    let bytes = std::fs::read(path)?;
    let generator = Generator::new(&bytes)?;
    let mut out = BufWriter::new(io::stdout().lock());
    for item in &generator.types {
        let data = item?.parse()?;
        if data.properties().is_some_and(|properties| !properties.forward_reference()) {
            generator.write(&data, &mut out)?;
        }
    }
    out.flush()?;
    Ok(())
}

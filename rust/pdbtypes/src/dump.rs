//! `dump`: every field of every record by its name, types as declarations, the elements of lists.
use crate::args::Call;
use crate::fail::Failure;
use crate::fields::{self, Element, Field, Value};
use crate::input::{is_id_leaf, Input};
use crate::json;
use crate::list::header_json;
use crate::output::{self, shown, Out};
use crate::progress::Progress;
use pdb_types::{Error, IdData, Type, TypeIndex, Types, Variant};
use std::io::{self, Write};

/// The longest declaration that stands beside an index. Types that name one another many times over can stand for texts of any length, and here they are
/// printed once for each reference.
const LONGEST: usize = 4096;

/// The declaration of a type, refused where it is longer than that.
pub fn short_declaration(types: &Types<'_>, index: TypeIndex) -> Result<Vec<u8>, Error> {
    let mut text = vec![0; LONGEST];
    let length = types.declare_into(index, &mut text)?;
    text.truncate(length);
    Ok(text)
}

/// A stream whose records are printed. In an id stream the type indices are those of another stream, so that they have no declarations.
pub struct Dump<'s> {
    pub types: Types<'s>,
    ids: bool,
}

impl<'s> Dump<'s> {
    pub fn of(input: &'s Input) -> Result<Dump<'s>, Failure> {
        Ok(Dump {
            types: input.types()?,
            ids: input.ids,
        })
    }

    /// The declaration of a type, if it has one here.
    fn declaration(&self, index: TypeIndex) -> Option<Vec<u8>> {
        if self.ids && !index.is_primitive() {
            return None;
        }
        short_declaration(&self.types, index).ok()
    }

    /// The name or string of an id, if it has one.
    fn id_name(&self, index: u32) -> Option<&'s [u8]> {
        let item = self.types.get(TypeIndex(index)).ok()?;
        is_id_leaf(item.raw_kind().ok()?).then(|| IdData::parse(item.bytes()).ok()?.name().map(|name| name.as_bytes()))?
    }

    fn type_text(&self, index: TypeIndex) -> String {
        match self.declaration(index) {
            Some(text) => format!("{} {}", index.0, shown(&text)),
            None => index.0.to_string(),
        }
    }

    fn id_text(&self, index: u32) -> String {
        match self.id_name(index) {
            Some(name) => format!("{index} {}", shown(name)),
            None => index.to_string(),
        }
    }

    fn value_text(&self, value: &Value<'_>) -> String {
        match value {
            Value::None => "none".to_string(),
            Value::Flag(yes) => if *yes { "yes" } else { "no" }.to_string(),
            Value::Number(n) => n.to_string(),
            Value::Numeric(n, form) if form.shorter => format!("{n} in {} bytes, which are not the fewest", form.width),
            Value::Numeric(n, _) => n.to_string(),
            Value::Word(n, digits, said) => format!("0x{n:0digits$x} {}", said.join(" ")).trim_end().to_string(),
            Value::Plain(word) => word.to_string(),
            Value::Type(index) => self.type_text(*index),
            Value::Id(index) => self.id_text(*index),
            Value::Name(name) => shown(name.as_bytes()).to_string(),
            Value::Bytes(bytes) => bytes.iter().map(|b| format!("{b:02x}")).collect(),
            // each is printed by itself
            Value::Types(_) | Value::Ids(_) | Value::Elements(_) => String::new(),
        }
    }

    fn element_text(&self, element: &Element<'_>) -> String {
        let fields: Vec<String> = element
            .fields
            .iter()
            .map(|(name, value)| format!("{name}: {}", self.value_text(value)))
            .collect();
        let leaf = element.leaf.map_or(String::new(), |leaf| format!("{leaf} "));
        format!("{leaf}{}", fields.join(", "))
    }

    /// Indices behind one another. Their declarations may be too long together to be held.
    fn put_indices(&self, out: &mut Out, name: &str, texts: impl Iterator<Item = String>) -> io::Result<()> {
        write!(out, "    {name}:")?;
        let mut texts = texts.peekable();
        let mut before = " ";
        while let Some(text) = texts.next() {
            // what ends the line has no blanks at its end
            let text = if texts.peek().is_none() { text.trim_end() } else { &text };
            write!(out, "{before}{text}")?;
            before = "; ";
        }
        writeln!(out)
    }

    fn put_field(&self, out: &mut Out, (name, value): &Field<'_>) -> io::Result<()> {
        match value {
            Value::Types(all) => self.put_indices(out, name, all.iter().map(|index| self.type_text(*index))),
            Value::Ids(all) => self.put_indices(out, name, all.iter().map(|index| self.id_text(*index))),
            Value::Elements(all) => {
                writeln!(out, "    {name}:")?;
                all.iter().try_for_each(|element| match element {
                    Ok(element) => writeln!(out, "        {}", self.element_text(element).trim_end()),
                    Err(e) => writeln!(out, "        {e}"),
                })
            }
            value => writeln!(out, "    {}", format!("{name}: {}", self.value_text(value)).trim_end()),
        }
    }

    /// A record: a line with its index, leaf, length and declaration, and a line for each field. What refuses it stands where its fields would.
    pub fn put_text(&self, out: &mut Out, item: &Type<'s>) -> io::Result<()> {
        let leaf = item.leaf().map_or("no leaf".to_string(), |leaf| leaf.to_string());
        let declaration = self.record_declaration(item).map_or(String::new(), |text| format!(": {}", shown(&text)));
        writeln!(out, "{} {leaf}, {} bytes{declaration}", item.index().0, item.len())?;
        match fields::of_record(item) {
            Ok(fields) => fields.iter().try_for_each(|field| self.put_field(out, field)),
            Err(e) => writeln!(out, "    {e}"),
        }
    }

    /// The declaration of a record itself: an id has none.
    fn record_declaration(&self, item: &Type<'s>) -> Option<Vec<u8>> {
        if item.raw_kind().is_ok_and(is_id_leaf) {
            return None;
        }
        self.declaration(item.index())
    }

    fn type_json(&self, index: TypeIndex) -> String {
        let declaration = self.declaration(index).map_or("null".to_string(), |text| json::bytes(&text));
        format!("{{\"index\":{},\"declaration\":{declaration}}}", index.0)
    }

    fn id_json(&self, index: u32) -> String {
        let name = self.id_name(index).map_or("null".to_string(), json::bytes);
        format!("{{\"index\":{index},\"name\":{name}}}")
    }

    /// A value of a field, a list of them one by one.
    fn put_value_json(&self, out: &mut Out, value: &Value<'_>) -> io::Result<()> {
        match value {
            Value::None => write!(out, "null"),
            Value::Flag(yes) => write!(out, "{yes}"),
            Value::Number(n) => write!(out, "{n}"),
            Value::Numeric(n, form) => write!(
                out,
                "{{\"value\":{},\"width\":{},\"shorter\":{}}}",
                Variant::as_i128(*n),
                form.width,
                form.shorter
            ),
            Value::Word(n, _, said) => {
                let said: Vec<String> = said.iter().map(|word| json::text(word)).collect();
                write!(out, "{{\"value\":{n},\"says\":[{}]}}", said.join(","))
            }
            Value::Plain(word) => write!(out, "{}", json::text(word)),
            Value::Type(index) => write!(out, "{}", self.type_json(*index)),
            Value::Id(index) => write!(out, "{}", self.id_json(*index)),
            Value::Types(all) => json::put_list(out, all, |out, index| write!(out, "{}", self.type_json(*index))),
            Value::Ids(all) => json::put_list(out, all, |out, index| write!(out, "{}", self.id_json(*index))),
            Value::Name(name) => write!(out, "{}", json::bytes(name.as_bytes())),
            Value::Bytes(_) => write!(out, "{}", json::text(&self.value_text(value))),
            Value::Elements(all) => json::put_list(out, all, |out, element| self.put_element_json(out, element)),
        }
    }

    fn put_fields_json(&self, out: &mut Out, fields: &[Field<'_>]) -> io::Result<()> {
        write!(out, "{{")?;
        for (k, (name, value)) in fields.iter().enumerate() {
            write!(out, "{}{}:", if k > 0 { "," } else { "" }, json::text(name))?;
            self.put_value_json(out, value)?;
        }
        write!(out, "}}")
    }

    fn put_element_json(&self, out: &mut Out, element: &Result<Element<'_>, Error>) -> io::Result<()> {
        match element {
            Err(e) => write!(out, "{{\"refused\":{}}}", json::refusal(e)),
            Ok(element) => {
                let leaf = element.leaf.map_or("null".to_string(), |leaf| format!("\"0x{:04x}\"", leaf.0));
                let name = element.leaf.and_then(|leaf| leaf.name()).map_or("null".to_string(), json::text);
                write!(out, "{{\"leaf\":{leaf},\"leaf_name\":{name},\"fields\":")?;
                self.put_fields_json(out, &element.fields)?;
                write!(out, "}}")
            }
        }
    }

    /// A record as an object.
    pub fn put_json(&self, out: &mut Out, item: &Type<'s>) -> io::Result<()> {
        let leaf = item.leaf().map_or("null".to_string(), |leaf| format!("\"0x{:04x}\"", leaf.0));
        let name = item.leaf().ok().and_then(|leaf| leaf.name()).map_or("null".to_string(), json::text);
        let declaration = self.record_declaration(item).map_or("null".to_string(), |text| json::bytes(&text));
        write!(
            out,
            "{{\"index\":{},\"leaf\":{leaf},\"leaf_name\":{name},\"length\":{},\"declaration\":{declaration},",
            item.index().0,
            item.len()
        )?;
        match fields::of_record(item) {
            Ok(fields) => {
                write!(out, "\"fields\":")?;
                self.put_fields_json(out, &fields)?;
            }
            Err(e) => write!(out, "\"refused\":{}", json::refusal(&e))?,
        }
        write!(out, "}}")
    }
}

pub fn run(call: &Call) -> Result<(), Failure> {
    let input = Input::stream_of(call)?;
    let dump = Dump::of(&input)?;
    let progress = Progress::of("dumping", dump.types.len() as u64);
    let mut out = output::standard()?;
    if call.json {
        let head = header_json(input.ids, dump.types.information().header(), input.bytes.len());
        write!(out, "{{{head},\"records\":")?;
        let mut array = json::Array::open(&mut out)?;
        for item in dump.types.iter().map_while(Result::ok) {
            array.before(&mut out)?;
            dump.put_json(&mut out, &item)?;
            progress.step();
        }
        array.close(&mut out)?;
        let end = dump.types.end().as_ref().map_or("null".to_string(), json::refusal);
        writeln!(out, ",\"refused\":{end}}}")?;
    } else {
        for item in dump.types.iter().map_while(Result::ok) {
            dump.put_text(&mut out, &item)?;
            progress.step();
        }
    }
    out.flush()?;
    input.refused(dump.types.end().map_or(Ok(()), Err))
}

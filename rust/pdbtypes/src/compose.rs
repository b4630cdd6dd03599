//! `compose`: a stream from lines of text (docs/TEXT.md). The values of a line are put into the cells of its record, or into its elements; what a reader would
//! not give back the library refuses.
use crate::args::Call;
use crate::fail::{say, Failure};
use crate::{input, memory, output};
use pdb_types::{
    layout, BaseClassType, Cell, ClassKind, Code, EnumerateType, Error, FieldAttributes, Form, Header, Layouts, Leaf, Member, MemberType, MethodListEntry,
    MethodType, NestedType, OverloadedMethodType, RawString, Result, Slice, StaticMemberType, TypeIndex, Variant, VirtualBaseClassType,
    VirtualFunctionTablePointerType, Writer,
};

/// What is no line, or has a value that its field cannot hold.
const BAD: Error = Error::WouldNotReadBack;

/// A decimal number; one that no field holds stays so.
fn integer(word: &[u8]) -> Result<i128> {
    let (digits, negative) = match word {
        [b'-', digits @ ..] => (digits, true),
        digits => (digits, false),
    };
    if digits.is_empty() || !digits.iter().all(u8::is_ascii_digit) {
        return Err(BAD);
    }
    let value = digits.iter().fold(0i128, |n, d| n.saturating_mul(10).saturating_add(i128::from(d - b'0')));
    Ok(if negative { -value } else { value })
}

/// A number of a field's width.
fn number<N: TryFrom<i128>>(word: &[u8]) -> Result<N> {
    N::try_from(integer(word)?).map_err(|_| BAD)
}

/// The bytes of `=` and hex, in lower case, behind those that are there.
fn put_bytes(word: &[u8], text: &mut Vec<u8>) -> Result<()> {
    let nibble = |c: u8| match c {
        b'0'..=b'9' => Ok(c - b'0'),
        b'a'..=b'f' => Ok(c - b'a' + 10),
        _ => Err(BAD),
    };
    let hex = match word {
        [b'=', hex @ ..] if hex.len() % 2 == 0 => hex,
        _ => return Err(BAD),
    };
    memory::room(text, hex.len() / 2)?;
    for two in hex.chunks_exact(2) {
        text.push(nibble(two[0])? << 4 | nibble(two[1])?);
    }
    Ok(())
}

/// A leaf: four hex digits, in lower case.
fn leaf(word: &[u8]) -> Result<Leaf> {
    let hex = |c: &u8| c.is_ascii_digit() || (b'a'..=b'f').contains(c);
    let digits = std::str::from_utf8(word).map_err(|_| BAD)?;
    if word.len() != 4 || !word.iter().all(hex) {
        return Err(BAD);
    }
    u16::from_str_radix(digits, 16).map(Leaf).map_err(|_| BAD)
}

/// A value as the cell of its field. Strings go behind the text.
fn cell(code: Code, word: &[u8], text: &mut Vec<u8>) -> Result<Cell> {
    match code {
        Code::OptionalType | Code::OptionalId | Code::MemberClass | Code::Offset | Code::SecondString if word == b"-" => Ok(Cell::Absent),
        Code::String | Code::SecondString | Code::Slots => {
            let place = text.len();
            put_bytes(word, text)?;
            Ok(Cell::Part {
                place,
                length: text.len() - place,
            })
        }
        Code::Size => number(word).map(Cell::natural),
        _ => number(word).map(Cell::Number),
    }
}

/// The cells of a run of indices: their count, and their bytes. More than a record holds are refused as what they are: a count is not cut to its field.
fn run_cells(words: &[&[u8]], text: &mut Vec<u8>) -> Result<Vec<Cell>> {
    for word in words {
        let index = number::<u32>(word)?;
        // what is more is looked at, and not kept
        if text.len() <= usize::from(u16::MAX) {
            memory::extend(text, &index.to_le_bytes())?;
        }
    }
    if text.len() > usize::from(u16::MAX) {
        return Err(Error::RecordTooLong);
    }
    let part = Cell::Part { place: 0, length: text.len() };
    Ok(vec![Cell::Number(words.len() as u64), part])
}

/// The cells of a record that is no list of members or methods.
fn record_cells(leaf: Leaf, codes: &[Code], words: &[&[u8]], text: &mut Vec<u8>) -> Result<Vec<Cell>> {
    if leaf == Leaf::MODIFIER {
        let [t, c, v, u] = words else { return Err(BAD) };
        let flag = |word: &[u8]| match word {
            b"0" => Ok(0),
            b"1" => Ok(1),
            _ => Err(BAD),
        };
        return Ok(vec![Cell::Number(number(t)?), Cell::Number(flag(c)? + 2 * flag(v)? + 4 * flag(u)?)]);
    }
    if matches!(codes, [_, Code::Types | Code::Ids]) {
        return run_cells(words, text);
    }
    let mut left = words.iter();
    let mut cells = Vec::with_capacity(codes.len());
    for &code in codes {
        cells.push(match code {
            Code::Gap => Cell::Absent,
            code => cell(code, left.next().ok_or(BAD)?, text)?,
        });
    }
    match left.next() {
        Some(_) => Err(BAD),
        None => Ok(cells),
    }
}

/// The words of each element, from those with a `/` before each.
fn elements<'w, 't>(words: &'w [&'t [u8]]) -> Result<impl Iterator<Item = &'w [&'t [u8]]>> {
    let mut parts = words.split(|word| *word == b"/");
    match parts.next() {
        Some([]) | None => Ok(parts),
        Some(_) => Err(BAD),
    }
}

fn attributes(word: &[u8]) -> Result<FieldAttributes> {
    number(word).map(FieldAttributes)
}

fn index(word: &[u8]) -> Result<TypeIndex> {
    number(word).map(TypeIndex)
}

fn offset(word: &[u8]) -> Result<Option<u32>> {
    match word {
        b"-" => Ok(None),
        word => number(word).map(Some),
    }
}

fn method(words: &[&[u8]]) -> Result<MethodListEntry> {
    let [a, t, o] = words else { return Err(BAD) };
    Ok(MethodListEntry {
        attributes: attributes(a)?,
        method_type: index(t)?,
        vtable_offset: offset(o)?,
    })
}

fn value(word: &[u8]) -> Result<Variant> {
    let n = integer(word)?;
    if n < 0 {
        return i64::try_from(n).map(Variant::Negative).map_err(|_| BAD);
    }
    u64::try_from(n).map(Variant::Natural).map_err(|_| BAD)
}

/// A member, whose name is a part of its own bytes.
fn member<'n>(words: &[&[u8]], name: &'n [u8]) -> Result<Member<'n>> {
    let [first, values @ ..] = words else { return Err(BAD) };
    // how a number was written is said by a reader, and no writer looks at it
    let (form, name) = (Form::default(), RawString::from(name));
    Ok(match (leaf(first)?, values) {
        (Leaf::BCLASS, [a, t, o]) => Member::BaseClass(BaseClassType {
            kind: ClassKind::Class,
            attributes: attributes(a)?,
            base_class: index(t)?,
            offset: number(o)?,
            form,
        }),
        (leaf @ (Leaf::VBCLASS | Leaf::IVBCLASS), [a, t, p, o, v]) => Member::VirtualBaseClass(VirtualBaseClassType {
            direct: leaf == Leaf::VBCLASS,
            attributes: attributes(a)?,
            base_class: index(t)?,
            base_pointer: index(p)?,
            base_pointer_offset: number(o)?,
            base_pointer_form: form,
            virtual_base_offset: number(v)?,
            virtual_base_form: form,
        }),
        (Leaf::INDEX, [t]) => Member::Continuation(index(t)?),
        (Leaf::VFUNCTAB, [t]) => Member::VirtualFunctionTablePointer(VirtualFunctionTablePointerType { table: index(t)? }),
        (Leaf::ENUMERATE, [a, v, _]) => Member::Enumerate(EnumerateType {
            attributes: attributes(a)?,
            value: value(v)?,
            form,
            name,
        }),
        (Leaf::MEMBER, [a, t, o, _]) => Member::Member(MemberType {
            attributes: attributes(a)?,
            field_type: index(t)?,
            offset: number(o)?,
            form,
            name,
        }),
        (Leaf::STMEMBER, [a, t, _]) => Member::StaticMember(StaticMemberType {
            attributes: attributes(a)?,
            field_type: index(t)?,
            name,
        }),
        (Leaf::METHOD, [n, t, _]) => Member::OverloadedMethod(OverloadedMethodType {
            count: number(n)?,
            method_list: index(t)?,
            name,
        }),
        (Leaf::NESTTYPE, [a, t, _]) => Member::Nested(NestedType {
            attributes: attributes(a)?,
            nested_type: index(t)?,
            name,
        }),
        (Leaf::ONEMETHOD, [a, t, o, _]) => Member::Method(MethodType {
            attributes: attributes(a)?,
            method_type: index(t)?,
            vtable_offset: offset(o)?,
            name,
        }),
        _ => return Err(BAD),
    })
}

/// The bytes of a member's name, its last word, behind those of the others; none where its leaf has no name.
fn put_member_name(words: &[&[u8]], text: &mut Vec<u8>) -> Result<()> {
    let named = |code: Code| code == Code::String;
    match words {
        [first, .., last] if layout(Layouts::Members, leaf(first)?).any(named) => put_bytes(last, text),
        _ => Ok(()),
    }
}

/// Writes the record of a line.
fn push(writer: &mut Writer, words: &[&[u8]]) -> Result<()> {
    let [first, values @ ..] = words else { return Err(BAD) };
    let leaf = leaf(first)?;
    match leaf {
        Leaf::METHODLIST => {
            let mut methods = Vec::new();
            for words in elements(values)? {
                memory::push(&mut methods, method(words)?)?;
            }
            writer.push_methods(methods)?;
        }
        Leaf::FIELDLIST => {
            // all names, and where each ends
            let (mut text, mut ends) = (Vec::new(), Vec::new());
            for words in elements(values)? {
                put_member_name(words, &mut text)?;
                memory::push(&mut ends, text.len())?;
            }
            let (mut members, mut from) = (Vec::new(), 0);
            for (words, end) in elements(values)?.zip(ends) {
                memory::push(&mut members, member(words, &text[from..end])?)?;
                from = end;
            }
            writer.push_fields(members)?;
        }
        leaf => {
            let ids = input::is_id_leaf(leaf.0);
            let codes: Vec<Code> = layout(if ids { Layouts::Ids } else { Layouts::Types }, leaf).collect();
            if codes.is_empty() {
                return Err(BAD);
            }
            let mut text = Vec::new();
            let cells = record_cells(leaf, &codes, values, &mut text)?;
            if ids {
                writer.push_id(leaf, &cells, &text)?;
            } else {
                writer.push_type(leaf, &cells, &text)?;
            }
        }
    }
    Ok(())
}

/// The header of the first line. Its size and its indices are looked at before its other fields are.
fn header(words: &[&[u8]]) -> Result<Header> {
    let [version, size, low, high, gprec, first, second, key, bucket, slices @ ..] = words else {
        return Err(BAD);
    };
    if slices.len() != 6 {
        return Err(BAD);
    }
    let (size_, low_, high_) = (integer(size)?, integer(low)?, integer(high)?);
    for (wrong, e) in [
        (size_ < 56, Error::HeaderSmall),
        (size_ > 1024, Error::HeaderLarge),
        (low_ < 4096, Error::MinimumLow),
        (high_ < low_, Error::MaximumLow),
    ] {
        if wrong {
            return Err(e);
        }
    }
    let slice = |k: usize| -> Result<Slice> {
        Ok(Slice {
            offset: number(slices[k])?,
            size: number(slices[k + 1])?,
        })
    };
    Ok(Header {
        version: number(version)?,
        header_size: number(size)?,
        minimum_index: number(low)?,
        maximum_index: number(high)?,
        gprec_size: number(gprec)?,
        tpi_hash_stream: number(first)?,
        tpi_hash_pad_stream: number(second)?,
        hash_key_size: number(key)?,
        hash_bucket_size: number(bucket)?,
        hash_values: slice(0)?,
        ti_off: slice(2)?,
        hash_adj: slice(4)?,
    })
}

/// The words of a line without its comment, in place of another's.
fn put_words<'t>(line: &'t [u8], words: &mut Vec<&'t [u8]>) -> Result<()> {
    words.clear();
    let all = line.split(|c| *c == b' ' || *c == b'\t').filter(|word| !word.is_empty());
    all.take_while(|word| word[0] != b'#').try_for_each(|word| memory::push(words, word))
}

/// The stream of a text; none where a line is bad, of which its number is said, and what is wrong with it. Refused is what there is no memory for.
fn composed(text: &[u8], mut bad: impl FnMut(u64, Error)) -> Result<Option<Vec<u8>>> {
    // until a header is read there is a plain one, so that the lines behind a bad header are looked at too
    let mut head = Header {
        header_size: 56,
        minimum_index: 4096,
        ..Header::default()
    };
    memory::left(memory::RECORD)?;
    let mut writer = Writer::new(head)?;
    let (mut begun, mut good, mut words) = (false, true, Vec::new());
    for (number, line) in (1..).zip(text.split(|c| *c == b'\n')) {
        memory::left(memory::LINE)?;
        let mut halves = line.splitn(2, |c| *c == b'\r');
        put_words(halves.next().unwrap_or_default(), &mut words)?;
        let made = match (words.is_empty(), begun) {
            (true, _) => Ok(()),
            (false, true) => push(&mut writer, &words),
            // records are counted from the lowest index that there is: the header's own may be so high that it leaves room for none
            (false, false) => header(&words).and_then(|read| {
                head = read;
                writer = Writer::new(Header { minimum_index: 4096, ..read })?;
                Ok(())
            }),
        };
        // a CR ends a line at its end alone
        let made = made.and(if halves.next().is_some_and(|behind| !behind.is_empty()) {
            Err(BAD)
        } else {
            Ok(())
        });
        match made {
            Ok(()) => {}
            Err(Error::NoRoom) => return Err(Error::NoRoom),
            Err(e) => {
                bad(number, e);
                good = false;
            }
        }
        begun |= !words.is_empty();
    }
    if !good {
        return Ok(None);
    }
    if !begun {
        return Ok(Some(Vec::new()));
    }
    // the header as it stands in its line, whatever it counts
    let stream = writer.finish_with(&head);
    Ok(stream.map_err(|e| bad(1, e)).ok())
}

pub fn run(call: &Call) -> std::result::Result<(), Failure> {
    let (file, name) = (call.file(), input::name(call.file()));
    // each bad line is said when it is met: there may be more of them than can be held
    let said = |number: u64, e: Error| say(&format!("{name}: line {number}: {e}"));
    match composed(&input::text(file)?, said).map_err(|e| Failure::of(&name, e))? {
        Some(stream) => output::write_bytes(call.out.as_deref(), &stream),
        None => Err(Failure::No(Vec::new())),
    }
}

#[cfg(test)]
mod tests {
    use super::*;

    #[test]
    fn numbers() {
        assert_eq!((integer(b"12"), integer(b"-12"), integer(b"0000")), (Ok(12), Ok(-12), Ok(0)));
        for word in ["", "-", "--1", "+1", "1x", " 1"] {
            assert_eq!(integer(word.as_bytes()), Err(BAD), "{word}");
        }
        assert_eq!(number::<u64>(&[b'9'; 60]), Err(BAD));
    }

    #[test]
    fn no_text_is_no_stream() {
        let mut wrong = Vec::new();
        assert_eq!(composed(b"# a comment\n\n \t\n", |number, e| wrong.push((number, e))), Ok(Some(Vec::new())));
        assert_eq!(composed(b"1001 116 1 0 0\n", |number, e| wrong.push((number, e))), Ok(None));
        assert_eq!(wrong, [(1, BAD)]);
    }
}

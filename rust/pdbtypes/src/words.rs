//! Attribute words in words.
use pdb_types::{FieldAttributes, FunctionAttributes, PointerAttributes, PointerKind, PointerMode, TypeProperties};

/// Those words whose question is answered by yes.
fn yes(questions: &[(bool, &str)]) -> Vec<String> {
    questions.iter().filter(|(answer, _)| *answer).map(|(_, word)| word.to_string()).collect()
}

pub fn properties(word: TypeProperties) -> Vec<String> {
    let mut said = yes(&[
        (word.packed(), "packed"),
        (word.constructors(), "constructors"),
        (word.overloaded_operators(), "overloaded_operators"),
        (word.is_nested_type(), "is_nested_type"),
        (word.contains_nested_types(), "contains_nested_types"),
        (word.overloaded_assignment(), "overloaded_assignment"),
        (word.overloaded_casting(), "overloaded_casting"),
        (word.forward_reference(), "forward_reference"),
        (word.scoped_definition(), "scoped_definition"),
        (word.has_unique_name(), "has_unique_name"),
        (word.sealed(), "sealed"),
        (word.intrinsic_type(), "intrinsic_type"),
    ]);
    for (name, n) in [("hfa", word.hfa()), ("mocom", word.mocom())] {
        if n != 0 {
            said.push(format!("{name}={n}"));
        }
    }
    said
}

/// Who may use it, if that is said.
pub fn access(word: FieldAttributes) -> Option<&'static str> {
    [None, Some("private"), Some("protected"), Some("public")][usize::from(word.access() & 3)]
}

/// What a method is, if it is not like any other.
pub fn property(word: FieldAttributes) -> Option<&'static str> {
    Some(match word.method_properties() {
        1 => "virtual",
        2 => "static",
        3 => "friend",
        4 => "introducing virtual",
        5 => "pure virtual",
        6 => "pure introducing virtual",
        7 => "property 7",
        _ => return None,
    })
}

pub fn field(word: FieldAttributes) -> Vec<String> {
    access(word).into_iter().chain(property(word)).map(str::to_string).collect()
}

/// How a function is called, by the name that compilers have for it.
fn convention(n: u8) -> String {
    match n {
        0x00 => "cdecl",
        0x02 => "pascal",
        0x04 => "fastcall",
        0x07 => "stdcall",
        0x09 => "syscall",
        0x0b => "thiscall",
        0x16 => "clrcall",
        0x18 => "vectorcall",
        n => return format!("convention={n}"),
    }
    .to_string()
}

pub fn function(word: FunctionAttributes) -> Vec<String> {
    let mut said = vec![convention(word.calling_convention())];
    said.extend(yes(&[
        (word.cxx_return_udt(), "cxx_return_udt"),
        (word.is_constructor(), "is_constructor"),
        (word.is_constructor_with_virtual_bases(), "is_constructor_with_virtual_bases"),
    ]));
    said
}

pub fn pointer(word: PointerAttributes) -> Vec<String> {
    let mut said = Vec::new();
    said.extend(word.pointer_kind().ok().map(PointerKind::name).map(str::to_string));
    said.extend(word.pointer_mode().ok().map(PointerMode::name).map(str::to_string));
    said.extend(word.size().ok().map(|n| format!("size={n}")));
    said.extend(yes(&[
        (word.is_flat_32(), "flat_32"),
        (word.is_volatile(), "volatile"),
        (word.is_const(), "const"),
        (word.is_unaligned(), "unaligned"),
        (word.is_restrict(), "restrict"),
        (word.is_mocom(), "mocom"),
    ]));
    said
}

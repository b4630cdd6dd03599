//! Forward references, resolved by name.
//!
//! A stream names a type by a forward reference where its definition comes later. Its declaration is the same by name, but the length of an array is not to be
//! had: a forward reference has no size. So that the library's own declarations have it, they are asked of a copy of the stream, in which arrays and modifiers
//! name the definition. In the copy a member function is a plain function too: that one has a declaration, and it is the same but for its class.
use crate::memory;
use pdb_types::{Error, Leaf, RawString, Result, TypeData, TypeIndex, Types};
use std::collections::HashMap;
use std::hash::Hash;

/// Where the types of a stream are defined.
pub struct Definitions<'s> {
    by_name: HashMap<RawString<'s>, TypeIndex>,
    by_forward: HashMap<TypeIndex, RawString<'s>>,
}

/// The name that a definition and its forward references have in common: the mangled one where there is one, since two scopes may have a name twice.
fn key<'s>(data: &TypeData<'s>) -> Option<RawString<'s>> {
    data.unique_name().or(data.name())
}

/// Makes room for one more.
fn room<K: Eq + Hash, V>(map: &mut HashMap<K, V>) -> Result<()> {
    map.try_reserve(1).map_err(|_| Error::NoRoom)
}

impl<'s> Definitions<'s> {
    pub fn of(types: &Types<'s>) -> Result<Definitions<'s>> {
        let mut found = Definitions {
            by_name: HashMap::new(),
            by_forward: HashMap::new(),
        };
        for item in types.iter().map_while(Result::ok) {
            let Ok(data) = item.parse() else { continue };
            let (Some(name), Some(properties)) = (key(&data), data.properties()) else {
                continue;
            };
            if properties.forward_reference() {
                room(&mut found.by_forward)?;
                found.by_forward.insert(item.index(), name);
            } else {
                room(&mut found.by_name)?;
                found.by_name.entry(name).or_insert(item.index());
            }
        }
        Ok(found)
    }

    /// The definition of a forward reference, if the stream has it.
    fn get(&self, index: TypeIndex) -> Option<TypeIndex> {
        self.by_name.get(self.by_forward.get(&index)?).copied()
    }

    /// The definitions of those forward references that are kept and whose definition is not.
    pub fn missing(&self, is_kept: impl Fn(TypeIndex) -> bool) -> Result<Vec<TypeIndex>> {
        let kept = self.by_forward.keys().filter(|index| is_kept(**index));
        let mut found = Vec::new();
        for index in kept.filter_map(|index| self.get(*index)).filter(|index| !is_kept(*index)) {
            memory::push(&mut found, index)?;
        }
        found.sort_unstable();
        found.dedup();
        Ok(found)
    }

    /// The copy of the stream: as long as it is, with its records where they are.
    pub fn resolved(&self, types: &Types<'s>) -> Result<Vec<u8>> {
        let mut copy = Vec::new();
        memory::extend(&mut copy, types.information().bytes())?;
        for item in types.iter().map_while(Result::ok) {
            let (Some(place), Ok(leaf)) = (item.place(), item.leaf()) else {
                continue;
            };
            let Some(record) = copy.get_mut(place..place + item.len()) else {
                continue;
            };
            match leaf {
                // both have what they are of behind their leaf
                Leaf::ARRAY | Leaf::MODIFIER => {
                    let Some(of) = record.get_mut(2..6) else { continue };
                    let index = TypeIndex(u32::from_le_bytes([of[0], of[1], of[2], of[3]]));
                    if let Some(definition) = self.get(index) {
                        of.copy_from_slice(&definition.0.to_le_bytes());
                    }
                }
                // leaf, return, class, this, word, count, arguments, adjustment: without class and this it is a plain function's
                Leaf::MFUNCTION if record.len() >= 26 => {
                    record[..2].copy_from_slice(&Leaf::PROCEDURE.0.to_le_bytes());
                    record.copy_within(14..22, 6);
                }
                _ => {}
            }
        }
        Ok(copy)
    }
}

//! Type records: what they hold, field by field. Names and fields are those of the crate pdb where it has them.
use crate::error::Result;
use crate::ffi::{self, row, Cursor};
use crate::list::{FieldList, Indices, MethodList};
use crate::primitive::{numbered_type, PrimitiveType};
use crate::stream::{Item, TypeIndex};
use crate::words::{FieldAttributes, FunctionAttributes, PointerAttributes, TypeProperties};
use std::borrow::Cow;
use std::fmt;

/// A name as it stands in a record: bytes, which are UTF-8 as a rule.
///
/// ```
/// use pdb_types::RawString;
///
/// let name = RawString::from("Point");
/// assert_eq!((name.as_bytes(), &*name.to_string(), name.len()), (&b"Point"[..], "Point", 5));
/// assert_eq!(RawString::from(&b"P\xff"[..]).to_string(), "P\u{fffd}");
/// ```
#[derive(Clone, Copy, Default, PartialEq, Eq, PartialOrd, Ord, Hash)]
pub struct RawString<'s>(&'s [u8]);

impl<'s> RawString<'s> {
    /// Its bytes.
    #[inline]
    pub fn as_bytes(&self) -> &'s [u8] {
        self.0
    }

    /// How many bytes it has.
    #[inline]
    pub fn len(&self) -> usize {
        self.0.len()
    }

    /// Whether it has none.
    #[inline]
    pub fn is_empty(&self) -> bool {
        self.0.is_empty()
    }

    /// Its text; what is no UTF-8 is replaced by U+FFFD. Nothing is copied where nothing is replaced.
    // as the crate pdb has it: the name is std's, which would copy
    #[allow(clippy::inherent_to_string_shadow_display)]
    #[inline]
    pub fn to_string(&self) -> Cow<'s, str> {
        String::from_utf8_lossy(self.0)
    }
}

impl fmt::Display for RawString<'_> {
    fn fmt(&self, f: &mut fmt::Formatter<'_>) -> fmt::Result {
        f.pad(&self.to_string())
    }
}

impl fmt::Debug for RawString<'_> {
    fn fmt(&self, f: &mut fmt::Formatter<'_>) -> fmt::Result {
        write!(f, "RawString({:?})", self.to_string())
    }
}

impl<'s> From<&'s [u8]> for RawString<'s> {
    #[inline]
    fn from(bytes: &'s [u8]) -> Self {
        RawString(bytes)
    }
}

impl<'s> From<&'s str> for RawString<'s> {
    fn from(text: &'s str) -> Self {
        RawString(text.as_bytes())
    }
}

impl<'s> From<RawString<'s>> for &'s [u8] {
    fn from(name: RawString<'s>) -> &'s [u8] {
        name.0
    }
}

impl PartialEq<str> for RawString<'_> {
    fn eq(&self, other: &str) -> bool {
        self.0 == other.as_bytes()
    }
}

impl PartialEq<&str> for RawString<'_> {
    fn eq(&self, other: &&str) -> bool {
        self.0 == other.as_bytes()
    }
}

/// How a number of a numeric leaf was written.
#[derive(Debug, Clone, Copy, Default, PartialEq, Eq, Hash)]
pub struct Form {
    /// The bytes that it took: 2, 3, 4, 6 or 10.
    pub width: u8,
    /// Whether a shorter form carries the same number.
    pub shorter: bool,
}

impl Form {
    /// A form as the library gives it: the width, and 256 more where a shorter one would do.
    #[inline]
    pub(crate) fn numbered(n: u64) -> Form {
        Form {
            width: n as u8,
            shorter: n >= 256,
        }
    }
}

/// A number that may be negative: an enumerator's value. Which signed or unsigned form it was read from is not kept; [`Form`] has its width.
///
/// ```
/// use pdb_types::Variant;
///
/// assert_eq!(Variant::Negative(-1).to_string(), "-1");
/// assert_eq!((Variant::Negative(-1).bits(), Variant::Natural(7).as_i64()), (u64::MAX, Some(7)));
/// assert_eq!(Variant::Natural(u64::MAX).as_i64(), None);
/// ```
#[derive(Debug, Clone, Copy, PartialEq, Eq, Hash)]
pub enum Variant {
    /// 0 and above.
    Natural(u64),
    /// Below 0.
    Negative(i64),
}

impl Variant {
    /// Its 64 bits, two's complement where it is negative.
    #[inline]
    pub fn bits(self) -> u64 {
        match self {
            Variant::Natural(n) => n,
            Variant::Negative(n) => n as u64,
        }
    }

    /// The number, if it is below 2^63.
    #[inline]
    pub fn as_i64(self) -> Option<i64> {
        match self {
            Variant::Natural(n) => n.try_into().ok(),
            Variant::Negative(n) => Some(n),
        }
    }

    /// The number, if it is not negative.
    #[inline]
    pub fn as_u64(self) -> Option<u64> {
        match self {
            Variant::Natural(n) => Some(n),
            Variant::Negative(_) => None,
        }
    }

    /// The number that its low bytes are, two's complement, at most 8 of them. Compilers write a negative enumerator in unsigned form too: 0xffffffff for -1 of an
    /// `int`. Who knows that the enumeration is kept in a signed type asks by its size.
    ///
    /// ```
    /// assert_eq!(pdb_types::Variant::Natural(0xffff_ffff).sign_extended(4), -1);
    /// ```
    #[inline]
    pub fn sign_extended(self, bytes: u8) -> i64 {
        let unused = 64 - 8 * u32::from(bytes.clamp(1, 8));
        ((self.bits() << unused) as i64) >> unused
    }

    /// The number.
    #[inline]
    pub fn as_i128(self) -> i128 {
        match self {
            Variant::Natural(n) => n.into(),
            Variant::Negative(n) => n.into(),
        }
    }
}

impl fmt::Display for Variant {
    fn fmt(&self, f: &mut fmt::Formatter<'_>) -> fmt::Result {
        fmt::Display::fmt(&self.as_i128(), f)
    }
}

/// What a type record holds: [`Type::parse`](crate::Type) gives it.
///
/// ```
/// use pdb_types::{TypeData, Types, TypeIndex};
///
/// let types = Types::parse(include_bytes!("../../samples/e.tpi"))?;
/// let TypeData::Pointer(pointer) = types.get(TypeIndex(0x1001))?.parse()? else { panic!("a pointer") };
/// assert_eq!((pointer.underlying_type, pointer.attributes.size()?), (TypeIndex(0x1000), 8));
/// # Ok::<(), pdb_types::Error>(())
/// ```
#[non_exhaustive]
#[derive(Debug, Clone, PartialEq, Eq)]
pub enum TypeData<'s> {
    /// An index below 0x1000.
    Primitive(PrimitiveType),
    /// 0x1504, 0x1505, 0x1519, 0x1609: a class, a structure or an interface.
    Class(ClassType<'s>),
    /// 0x1009.
    MemberFunction(MemberFunctionType),
    /// 0x1008.
    Procedure(ProcedureType),
    /// 0x1002.
    Pointer(PointerType),
    /// 0x1001.
    Modifier(ModifierType),
    /// 0x1507.
    Enumeration(EnumerationType<'s>),
    /// 0x1503.
    Array(ArrayType<'s>),
    /// 0x1506.
    Union(UnionType<'s>),
    /// 0x1205.
    Bitfield(BitfieldType),
    /// 0x000a.
    VirtualTableShape(VirtualTableShapeType<'s>),
    /// 0x1203.
    FieldList(FieldList<'s>),
    /// 0x1201.
    ArgumentList(ArgumentList<'s>),
    /// 0x1206.
    MethodList(MethodList<'s>),
}

impl<'s> TypeData<'s> {
    /// The name of a class, a union, an enumeration, as crate pdb gives it. An array's, which is empty as a rule, is a field of its own.
    pub fn name(&self) -> Option<RawString<'s>> {
        match self {
            TypeData::Class(class) => Some(class.name),
            TypeData::Union(union) => Some(union.name),
            TypeData::Enumeration(enumeration) => Some(enumeration.name),
            _ => None,
        }
    }

    /// The mangled name of a class, a union, an enumeration, if it has one.
    pub fn unique_name(&self) -> Option<RawString<'s>> {
        match self {
            TypeData::Class(class) => class.unique_name,
            TypeData::Union(union) => union.unique_name,
            TypeData::Enumeration(enumeration) => enumeration.unique_name,
            _ => None,
        }
    }

    /// The list of fields of a class, a union, an enumeration, if it has one: index 0 names none.
    pub fn fields(&self) -> Option<TypeIndex> {
        match self {
            TypeData::Class(class) => class.fields,
            TypeData::Union(union) => some_index(union.fields.0.into()),
            TypeData::Enumeration(enumeration) => some_index(enumeration.fields.0.into()),
            _ => None,
        }
    }

    /// The properties of a class, a union, an enumeration.
    pub fn properties(&self) -> Option<TypeProperties> {
        match self {
            TypeData::Class(class) => Some(class.properties),
            TypeData::Union(union) => Some(union.properties),
            TypeData::Enumeration(enumeration) => Some(enumeration.properties),
            _ => None,
        }
    }

    /// What the bytes of a type record hold, its leaf first.
    #[inline]
    pub fn parse(bytes: &'s [u8]) -> Result<TypeData<'s>> {
        ffi::type_(bytes, |o| TypeData::of_row(bytes, o))
    }

    /// What stands in a row of `pdb_type`, for the record of these bytes.
    #[inline]
    pub(crate) fn of_row(bytes: &'s [u8], o: &[u64; row::TYPE_OUT]) -> TypeData<'s> {
        let type_at = |k: usize| TypeIndex(o[k] as u32);
        let part = |place: usize, length: usize| RawString(&bytes[o[place] as usize..][..o[length] as usize]);
        let name = || part(row::TYPE_NAME, row::TYPE_NAME_LENGTH);
        let unique = || (o[row::TYPE_UNIQUE] != 0).then(|| part(row::TYPE_UNIQUE, row::TYPE_UNIQUE_LENGTH));
        match o[row::TYPE_LEAF] {
            leaf @ (0x1504 | 0x1505 | 0x1519 | 0x1609) => TypeData::Class(ClassType {
                kind: match leaf {
                    0x1504 => ClassKind::Class,
                    0x1519 => ClassKind::Interface,
                    _ => ClassKind::Struct,
                },
                count: o[row::TYPE_COUNT] as u16,
                properties: TypeProperties(o[row::TYPE_WORD] as u16),
                fields: some_index(o[row::TYPE_LIST]),
                derived_from: some_index(o[row::TYPE_OTHER]),
                vtable_shape: some_index(o[row::TYPE_LAST]),
                size: o[row::TYPE_SIZE],
                form: Form::numbered(o[row::TYPE_FORM]),
                name: name(),
                unique_name: unique(),
            }),
            0x1506 => TypeData::Union(UnionType {
                count: o[row::TYPE_COUNT] as u16,
                properties: TypeProperties(o[row::TYPE_WORD] as u16),
                fields: type_at(row::TYPE_LIST),
                size: o[row::TYPE_SIZE],
                form: Form::numbered(o[row::TYPE_FORM]),
                name: name(),
                unique_name: unique(),
            }),
            0x1507 => TypeData::Enumeration(EnumerationType {
                count: o[row::TYPE_COUNT] as u16,
                properties: TypeProperties(o[row::TYPE_WORD] as u16),
                underlying_type: type_at(row::TYPE_TYPE),
                fields: type_at(row::TYPE_LIST),
                name: name(),
                unique_name: unique(),
            }),
            0x1001 => TypeData::Modifier(ModifierType {
                underlying_type: type_at(row::TYPE_TYPE),
                constant: o[row::TYPE_WORD] & 1 != 0,
                volatile: o[row::TYPE_WORD] & 2 != 0,
                unaligned: o[row::TYPE_WORD] & 4 != 0,
            }),
            0x1002 => TypeData::Pointer(PointerType {
                underlying_type: type_at(row::TYPE_TYPE),
                attributes: PointerAttributes(o[row::TYPE_WORD] as u32),
                containing_class: some_index(o[row::TYPE_OTHER]),
            }),
            0x1008 => TypeData::Procedure(ProcedureType {
                return_type: some_index(o[row::TYPE_TYPE]),
                attributes: FunctionAttributes(o[row::TYPE_WORD] as u16),
                parameter_count: o[row::TYPE_COUNT] as u16,
                argument_list: type_at(row::TYPE_LIST),
            }),
            0x1009 => TypeData::MemberFunction(MemberFunctionType {
                return_type: type_at(row::TYPE_TYPE),
                class_type: type_at(row::TYPE_OTHER),
                this_pointer_type: some_index(o[row::TYPE_LAST]),
                attributes: FunctionAttributes(o[row::TYPE_WORD] as u16),
                parameter_count: o[row::TYPE_COUNT] as u16,
                argument_list: type_at(row::TYPE_LIST),
                this_adjustment: o[row::TYPE_SIZE] as u32,
            }),
            0x1205 => TypeData::Bitfield(BitfieldType {
                underlying_type: type_at(row::TYPE_TYPE),
                length: o[row::TYPE_COUNT] as u8,
                position: o[row::TYPE_SIZE] as u8,
            }),
            0x1503 => TypeData::Array(ArrayType {
                element_type: type_at(row::TYPE_TYPE),
                indexing_type: type_at(row::TYPE_OTHER),
                size: o[row::TYPE_SIZE],
                form: Form::numbered(o[row::TYPE_FORM]),
                name: name(),
            }),
            0x1201 => TypeData::ArgumentList(ArgumentList {
                arguments: Indices::new(name().0),
            }),
            0x1203 => TypeData::FieldList(FieldList::new(bytes, Cursor::FIRST)),
            0x1206 => TypeData::MethodList(MethodList::new(bytes, Cursor::FIRST)),
            // 0x000a: the library answers no other leaf
            _ => TypeData::VirtualTableShape(VirtualTableShapeType {
                count: o[row::TYPE_COUNT] as u16,
                slots: name().0,
            }),
        }
    }
}

/// An index that is there: the library gives 0 for one that is not.
#[inline]
pub(crate) fn some_index(n: u64) -> Option<TypeIndex> {
    (n != 0).then_some(TypeIndex(n as u32))
}

impl<'s> Item<'s, TypeIndex> {
    /// What the record holds. An index below 0x1000 is a primitive type, whatever its bytes.
    #[inline]
    pub fn parse(&self) -> Result<TypeData<'s>> {
        if self.index.is_primitive() {
            return ffi::primitive(self.index.0, |o| {
                TypeData::Primitive(numbered_type(o[row::PRIMITIVE_KIND], o[row::PRIMITIVE_INDIRECTION]))
            });
        }
        TypeData::parse(self.bytes)
    }
}

/// What a [`ClassType`] is.
#[derive(Debug, Clone, Copy, PartialEq, Eq, Hash)]
pub enum ClassKind {
    /// `class`, 0x1504.
    Class,
    /// `struct`, 0x1505, and 0x1609 in newer databases.
    Struct,
    /// `__interface`, 0x1519.
    Interface,
}

/// A class, a structure or an interface.
#[derive(Debug, Clone, PartialEq, Eq)]
pub struct ClassType<'s> {
    /// Which of the three.
    pub kind: ClassKind,
    /// How many members it has.
    pub count: u16,
    /// Its properties.
    pub properties: TypeProperties,
    /// The list of its fields.
    pub fields: Option<TypeIndex>,
    /// What it is derived from.
    pub derived_from: Option<TypeIndex>,
    /// The shape of its table of virtual functions.
    pub vtable_shape: Option<TypeIndex>,
    /// Its size in bytes.
    pub size: u64,
    /// How the size was written.
    pub form: Form,
    /// Its name, with type parameters.
    pub name: RawString<'s>,
    /// Its mangled name.
    pub unique_name: Option<RawString<'s>>,
}

/// A union.
#[derive(Debug, Clone, PartialEq, Eq)]
pub struct UnionType<'s> {
    /// How many members it has.
    pub count: u16,
    /// Its properties.
    pub properties: TypeProperties,
    /// The list of its fields.
    pub fields: TypeIndex,
    /// Its size in bytes.
    pub size: u64,
    /// How the size was written.
    pub form: Form,
    /// Its name.
    pub name: RawString<'s>,
    /// Its mangled name.
    pub unique_name: Option<RawString<'s>>,
}

/// An enumeration.
#[derive(Debug, Clone, PartialEq, Eq)]
pub struct EnumerationType<'s> {
    /// How many enumerators it has.
    pub count: u16,
    /// Its properties.
    pub properties: TypeProperties,
    /// The integer type that it is kept in.
    pub underlying_type: TypeIndex,
    /// The list of its enumerators.
    pub fields: TypeIndex,
    /// Its name.
    pub name: RawString<'s>,
    /// Its mangled name.
    pub unique_name: Option<RawString<'s>>,
}

/// A pointer or a reference.
#[derive(Debug, Clone, Copy, PartialEq, Eq)]
pub struct PointerType {
    /// What it points to.
    pub underlying_type: TypeIndex,
    /// Its attributes.
    pub attributes: PointerAttributes,
    /// The class of a pointer to a member.
    pub containing_class: Option<TypeIndex>,
}

/// A `const`, `volatile` or unaligned type.
#[derive(Debug, Clone, Copy, PartialEq, Eq)]
pub struct ModifierType {
    /// What is modified.
    pub underlying_type: TypeIndex,
    /// `const`.
    pub constant: bool,
    /// `volatile`.
    pub volatile: bool,
    /// Unaligned.
    pub unaligned: bool,
}

/// A function that is no member.
#[derive(Debug, Clone, Copy, PartialEq, Eq)]
pub struct ProcedureType {
    /// What it returns.
    pub return_type: Option<TypeIndex>,
    /// Its attributes.
    pub attributes: FunctionAttributes,
    /// How many parameters it has.
    pub parameter_count: u16,
    /// The list of their types.
    pub argument_list: TypeIndex,
}

/// A function that is a member.
#[derive(Debug, Clone, Copy, PartialEq, Eq)]
pub struct MemberFunctionType {
    /// What it returns.
    pub return_type: TypeIndex,
    /// The class that it is a member of.
    pub class_type: TypeIndex,
    /// The type of `this`; none of a static one.
    pub this_pointer_type: Option<TypeIndex>,
    /// Its attributes.
    pub attributes: FunctionAttributes,
    /// How many parameters it has.
    pub parameter_count: u16,
    /// The list of their types.
    pub argument_list: TypeIndex,
    /// What is added to `this`.
    pub this_adjustment: u32,
}

/// An array.
///
/// Its size is in bytes, of all elements: where the crate pdb has `dimensions`, one number for what is no array of an old compiler, here is that number.
#[derive(Debug, Clone, Copy, PartialEq, Eq)]
pub struct ArrayType<'s> {
    /// What it is an array of.
    pub element_type: TypeIndex,
    /// What it is indexed by.
    pub indexing_type: TypeIndex,
    /// Its size in bytes.
    pub size: u64,
    /// How the size was written.
    pub form: Form,
    /// Its name, which is empty as a rule.
    pub name: RawString<'s>,
}

/// A bit field.
#[derive(Debug, Clone, Copy, PartialEq, Eq)]
pub struct BitfieldType {
    /// The integer type that it is a part of.
    pub underlying_type: TypeIndex,
    /// How many bits it has.
    pub length: u8,
    /// The bits below it.
    pub position: u8,
}

/// The shape of a table of virtual functions.
#[derive(Debug, Clone, Copy, PartialEq, Eq)]
pub struct VirtualTableShapeType<'s> {
    /// How many slots it has.
    pub count: u16,
    /// Half a byte for each.
    pub slots: &'s [u8],
}

/// The types of a function's parameters.
#[derive(Debug, Clone, Copy, PartialEq, Eq)]
pub struct ArgumentList<'s> {
    /// They are whole, which was looked at when the record was parsed, so that none is refused here.
    pub arguments: Indices<'s, TypeIndex>,
}

impl<'s> IntoIterator for ArgumentList<'s> {
    type Item = TypeIndex;
    type IntoIter = crate::list::IndicesIter<'s, TypeIndex>;

    fn into_iter(self) -> Self::IntoIter {
        self.arguments.into_iter()
    }
}

/// A member of a class or union, or an enumerator: an element of a [`FieldList`].
#[non_exhaustive]
#[derive(Debug, Clone, Copy, PartialEq, Eq)]
pub enum Member<'s> {
    /// 0x150d: a field.
    Member(MemberType<'s>),
    /// 0x150e: a static field.
    StaticMember(StaticMemberType<'s>),
    /// 0x1511: a method.
    Method(MethodType<'s>),
    /// 0x150f: methods of one name.
    OverloadedMethod(OverloadedMethodType<'s>),
    /// 0x1510: a type inside the class.
    Nested(NestedType<'s>),
    /// 0x1400: a base class.
    BaseClass(BaseClassType),
    /// 0x1401, 0x1402: a virtual base class.
    VirtualBaseClass(VirtualBaseClassType),
    /// 0x1409: the pointer to the table of virtual functions.
    VirtualFunctionTablePointer(VirtualFunctionTablePointerType),
    /// 0x1502: an enumerator.
    Enumerate(EnumerateType<'s>),
    /// 0x1404: the list goes on in another one. This is the last element of its list.
    Continuation(TypeIndex),
}

impl<'s> Member<'s> {
    /// Its name, if it has one, as crate pdb gives it: a single method's, which that gives none of, is a field of its own.
    pub fn name(&self) -> Option<RawString<'s>> {
        Some(match self {
            Member::Member(m) => m.name,
            Member::StaticMember(m) => m.name,
            Member::OverloadedMethod(m) => m.name,
            Member::Nested(m) => m.name,
            Member::Enumerate(m) => m.name,
            _ => return None,
        })
    }

    /// What stands in a row of `pdb_step`, for the field list of these bytes.
    #[inline]
    pub(crate) fn of_row(bytes: &'s [u8], o: &[u64; row::STEP_OUT]) -> Member<'s> {
        let attributes = FieldAttributes(o[row::STEP_WORD] as u16);
        let type_ = TypeIndex(o[row::STEP_TYPE] as u32);
        let name = || RawString(&bytes[o[row::STEP_NAME] as usize..][..o[row::STEP_NAME_LENGTH] as usize]);
        match o[row::STEP_LEAF] {
            0x150d => Member::Member(MemberType {
                attributes,
                field_type: type_,
                offset: o[row::STEP_VALUE],
                form: Form::numbered(o[row::STEP_FORM]),
                name: name(),
            }),
            0x1502 => Member::Enumerate(EnumerateType {
                attributes,
                value: match o[row::STEP_MORE] {
                    0 => Variant::Natural(o[row::STEP_VALUE]),
                    _ => Variant::Negative(o[row::STEP_VALUE] as i64),
                },
                form: Form::numbered(o[row::STEP_FORM]),
                name: name(),
            }),
            0x1511 => Member::Method(MethodType {
                attributes,
                method_type: type_,
                vtable_offset: (o[row::STEP_MORE] != 0).then_some(o[row::STEP_VALUE] as u32),
                name: name(),
            }),
            0x150e => Member::StaticMember(StaticMemberType {
                attributes,
                field_type: type_,
                name: name(),
            }),
            0x150f => Member::OverloadedMethod(OverloadedMethodType {
                count: o[row::STEP_WORD] as u16,
                method_list: type_,
                name: name(),
            }),
            0x1510 => Member::Nested(NestedType {
                attributes,
                nested_type: type_,
                name: name(),
            }),
            0x1400 => Member::BaseClass(BaseClassType {
                kind: ClassKind::Class,
                attributes,
                base_class: type_,
                offset: o[row::STEP_VALUE],
                form: Form::numbered(o[row::STEP_FORM]),
            }),
            leaf @ (0x1401 | 0x1402) => Member::VirtualBaseClass(VirtualBaseClassType {
                direct: leaf == 0x1401,
                attributes,
                base_class: type_,
                base_pointer: TypeIndex(o[row::STEP_OTHER] as u32),
                base_pointer_offset: o[row::STEP_VALUE],
                base_pointer_form: Form::numbered(o[row::STEP_FORM]),
                virtual_base_offset: o[row::STEP_MORE],
                virtual_base_form: Form::numbered(o[row::STEP_MORE_FORM]),
            }),
            0x1409 => Member::VirtualFunctionTablePointer(VirtualFunctionTablePointerType { table: type_ }),
            // 0x1404: the library answers no other leaf
            _ => Member::Continuation(type_),
        }
    }
}

/// A field.
#[derive(Debug, Clone, Copy, PartialEq, Eq)]
pub struct MemberType<'s> {
    /// Its attributes.
    pub attributes: FieldAttributes,
    /// Its type.
    pub field_type: TypeIndex,
    /// Where it starts in the class.
    pub offset: u64,
    /// How the offset was written.
    pub form: Form,
    /// Its name.
    pub name: RawString<'s>,
}

/// A static field.
#[derive(Debug, Clone, Copy, PartialEq, Eq)]
pub struct StaticMemberType<'s> {
    /// Its attributes.
    pub attributes: FieldAttributes,
    /// Its type.
    pub field_type: TypeIndex,
    /// Its name.
    pub name: RawString<'s>,
}

/// A method.
#[derive(Debug, Clone, Copy, PartialEq, Eq)]
pub struct MethodType<'s> {
    /// Its attributes.
    pub attributes: FieldAttributes,
    /// Its type.
    pub method_type: TypeIndex,
    /// Its offset in the table of virtual functions, where it is the first of its name there.
    pub vtable_offset: Option<u32>,
    /// Its name.
    pub name: RawString<'s>,
}

/// Methods of one name.
#[derive(Debug, Clone, Copy, PartialEq, Eq)]
pub struct OverloadedMethodType<'s> {
    /// How many there are.
    pub count: u16,
    /// The list of them.
    pub method_list: TypeIndex,
    /// Their name.
    pub name: RawString<'s>,
}

/// A type inside a class.
#[derive(Debug, Clone, Copy, PartialEq, Eq)]
pub struct NestedType<'s> {
    /// Its attributes.
    pub attributes: FieldAttributes,
    /// The type.
    pub nested_type: TypeIndex,
    /// Its name there.
    pub name: RawString<'s>,
}

/// A base class.
#[derive(Debug, Clone, Copy, PartialEq, Eq)]
pub struct BaseClassType {
    /// As the crate pdb has it: `Class` of 0x1400, which is the only leaf that is read.
    pub kind: ClassKind,
    /// Its attributes.
    pub attributes: FieldAttributes,
    /// The class.
    pub base_class: TypeIndex,
    /// Where it starts in the derived class.
    pub offset: u64,
    /// How the offset was written.
    pub form: Form,
}

/// A virtual base class.
#[derive(Debug, Clone, Copy, PartialEq, Eq)]
pub struct VirtualBaseClassType {
    /// Whether it is the class's own (0x1401), or one of its bases has it (0x1402).
    pub direct: bool,
    /// Its attributes.
    pub attributes: FieldAttributes,
    /// The class.
    pub base_class: TypeIndex,
    /// The type of the pointer to the table of virtual bases.
    pub base_pointer: TypeIndex,
    /// Where that pointer is.
    pub base_pointer_offset: u64,
    /// How that offset was written.
    pub base_pointer_form: Form,
    /// Where the base is said to be, in that table.
    pub virtual_base_offset: u64,
    /// How that offset was written.
    pub virtual_base_form: Form,
}

/// The pointer to the table of virtual functions.
#[derive(Debug, Clone, Copy, PartialEq, Eq)]
pub struct VirtualFunctionTablePointerType {
    /// Its type.
    pub table: TypeIndex,
}

/// An enumerator.
#[derive(Debug, Clone, Copy, PartialEq, Eq)]
pub struct EnumerateType<'s> {
    /// Its attributes.
    pub attributes: FieldAttributes,
    /// Its value.
    pub value: Variant,
    /// How the value was written.
    pub form: Form,
    /// Its name.
    pub name: RawString<'s>,
}

/// An entry of a [`MethodList`].
#[derive(Debug, Clone, Copy, PartialEq, Eq)]
pub struct MethodListEntry {
    /// Its attributes.
    pub attributes: FieldAttributes,
    /// Its type.
    pub method_type: TypeIndex,
    /// Its offset in the table of virtual functions, where it is the first of its name there.
    pub vtable_offset: Option<u32>,
}

impl MethodListEntry {
    /// What stands in a row of `pdb_step`.
    #[inline]
    pub(crate) fn of_row(o: &[u64; row::STEP_OUT]) -> MethodListEntry {
        MethodListEntry {
            attributes: FieldAttributes(o[row::STEP_WORD] as u16),
            method_type: TypeIndex(o[row::STEP_TYPE] as u32),
            vtable_offset: (o[row::STEP_MORE] != 0).then_some(o[row::STEP_VALUE] as u32),
        }
    }
}

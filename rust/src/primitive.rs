//! Primitive types: an index below 0x1000 names a simple type, or a pointer to one.
use crate::error::Result;
use crate::ffi;
use crate::stream::TypeIndex;
use std::fmt;

macro_rules! numbered {
    ($(#[$outer:meta])* $name:ident { $($(#[$about:meta])* $case:ident = $number:literal,)* }) => {
        $(#[$outer])*
        #[derive(Debug, Clone, Copy, PartialEq, Eq, Hash)]
        pub enum $name {
            $($(#[$about])* $case,)*
        }

        impl $name {
            /// The case of a number.
            #[inline]
            pub const fn from_number(number: u8) -> Option<$name> {
                Some(match number {
                    $($number => $name::$case,)*
                    _ => return None,
                })
            }

            /// Its number.
            #[inline]
            pub const fn number(self) -> u8 {
                match self {
                    $($name::$case => $number,)*
                }
            }

            /// Its name.
            pub const fn name(self) -> &'static str {
                match self {
                    $($name::$case => stringify!($case),)*
                }
            }
        }

        impl fmt::Display for $name {
            fn fmt(&self, f: &mut fmt::Formatter<'_>) -> fmt::Result {
                f.pad(self.name())
            }
        }
    };
}
pub(crate) use numbered;

numbered! {
    /// A simple type. Its number is the low byte of the index.
    #[non_exhaustive]
    PrimitiveKind {
        /// Uncharacterized type (no type).
        NoType = 0x00,
        /// Void type.
        Void = 0x03,
        /// Windows `HRESULT` error code.
        HRESULT = 0x08,
        /// Character (byte).
        Char = 0x10,
        /// Unsigned character.
        UChar = 0x20,
        /// Signed 8-bit integer.
        I8 = 0x68,
        /// Unsigned 8-bit integer.
        U8 = 0x69,
        /// "Really a char".
        RChar = 0x70,
        /// Wide characters, i.e. 16 bits.
        WChar = 0x71,
        /// "Really a 16-bit char".
        RChar16 = 0x7a,
        /// "Really a 32-bit char".
        RChar32 = 0x7b,
        /// Signed 16-bit integer.
        Short = 0x11,
        /// Unsigned 16-bit integer.
        UShort = 0x21,
        /// Signed 16-bit integer.
        I16 = 0x72,
        /// Unsigned 16-bit integer.
        U16 = 0x73,
        /// Signed 32-bit integer.
        Long = 0x12,
        /// Unsigned 32-bit integer.
        ULong = 0x22,
        /// Signed 32-bit integer.
        I32 = 0x74,
        /// Unsigned 32-bit integer.
        U32 = 0x75,
        /// Signed 64-bit integer.
        Quad = 0x13,
        /// Unsigned 64-bit integer.
        UQuad = 0x23,
        /// Signed 64-bit integer.
        I64 = 0x76,
        /// Unsigned 64-bit integer.
        U64 = 0x77,
        /// Signed 128-bit integer.
        Octa = 0x14,
        /// Unsigned 128-bit integer.
        UOcta = 0x24,
        /// Signed 128-bit integer.
        I128 = 0x78,
        /// Unsigned 128-bit integer.
        U128 = 0x79,
        /// 16-bit floating point.
        F16 = 0x46,
        /// 32-bit floating point.
        F32 = 0x40,
        /// 32-bit partial precision floating point.
        F32PP = 0x45,
        /// 48-bit floating point.
        F48 = 0x44,
        /// 64-bit floating point.
        F64 = 0x41,
        /// 80-bit floating point.
        F80 = 0x42,
        /// 128-bit floating point.
        F128 = 0x43,
        /// 32-bit complex number.
        Complex32 = 0x50,
        /// 64-bit complex number.
        Complex64 = 0x51,
        /// 80-bit complex number.
        Complex80 = 0x52,
        /// 128-bit complex number.
        Complex128 = 0x53,
        /// 8-bit boolean value.
        Bool8 = 0x30,
        /// 16-bit boolean value.
        Bool16 = 0x31,
        /// 32-bit boolean value.
        Bool32 = 0x32,
        /// 64-bit boolean value.
        Bool64 = 0x33,
    }
}

numbered! {
    /// How a primitive type is pointed to. Its number is bits 8 to 11 of the index.
    Indirection {
        /// 16-bit ("near") pointer.
        Near16 = 1,
        /// 16:16 far pointer.
        Far16 = 2,
        /// 16:16 huge pointer.
        Huge16 = 3,
        /// 32-bit pointer.
        Near32 = 4,
        /// 48-bit 16:32 pointer.
        Far32 = 5,
        /// 64-bit near pointer.
        Near64 = 6,
        /// 128-bit near pointer.
        Near128 = 7,
    }
}

impl PrimitiveKind {
    /// How many bytes it has, as its name says; none of `NoType` and `Void`. This is the crate's own table: the records say nothing of it.
    pub const fn size(self) -> Option<u8> {
        use PrimitiveKind::*;
        Some(match self {
            NoType | Void => return None,
            Char | UChar | RChar | I8 | U8 | Bool8 => 1,
            WChar | RChar16 | Short | UShort | I16 | U16 | Bool16 | F16 => 2,
            RChar32 | Long | ULong | I32 | U32 | Bool32 | F32 | F32PP | HRESULT => 4,
            F48 => 6,
            Quad | UQuad | I64 | U64 | Bool64 | F64 | Complex32 => 8,
            F80 => 10,
            Octa | UOcta | I128 | U128 | F128 | Complex64 => 16,
            Complex80 => 20,
            Complex128 => 32,
        })
    }

    /// Whether it is an integer that can be negative, a `char` among them.
    pub const fn is_signed(self) -> bool {
        use PrimitiveKind::*;
        matches!(self, Char | RChar | I8 | Short | I16 | Long | I32 | Quad | I64 | Octa | I128 | HRESULT)
    }
}

impl Indirection {
    /// How many bytes such a pointer has.
    pub const fn size(self) -> u8 {
        match self {
            Indirection::Near16 => 2,
            Indirection::Far16 | Indirection::Huge16 | Indirection::Near32 => 4,
            Indirection::Far32 => 6,
            Indirection::Near64 => 8,
            Indirection::Near128 => 16,
        }
    }
}

/// A primitive type like `void` or `char *`.
#[derive(Debug, Clone, Copy, PartialEq, Eq, Hash)]
pub struct PrimitiveType {
    /// Its kind.
    pub kind: PrimitiveKind,
    /// How it is pointed to, if it is.
    pub indirection: Option<Indirection>,
}

impl PrimitiveType {
    /// How many bytes it has: those of its pointer, or of its kind. None of `NoType` and `Void`.
    pub const fn size(self) -> Option<u8> {
        match self.indirection {
            Some(pointer) => Some(pointer.size()),
            None => self.kind.size(),
        }
    }
}

/// The primitive type of an index; refused as not found where it names none.
///
/// ```
/// use pdb_types::{primitive, Indirection, PrimitiveKind, TypeIndex};
///
/// let pointer = primitive(TypeIndex(0x0674))?;
/// assert_eq!((pointer.kind, pointer.indirection), (PrimitiveKind::I32, Some(Indirection::Near64)));
/// # Ok::<(), pdb_types::Error>(())
/// ```
#[inline]
pub fn primitive(index: TypeIndex) -> Result<PrimitiveType> {
    ffi::primitive(index.0, |o| numbered_type(o[2], o[3]))
}

/// The type of a kind and an indirection as the library gives them. It gives known kinds only, so that `NoType` never stands in for another.
#[inline]
pub(crate) fn numbered_type(kind: u64, indirection: u64) -> PrimitiveType {
    PrimitiveType {
        kind: PrimitiveKind::from_number(kind as u8).unwrap_or(PrimitiveKind::NoType),
        indirection: Indirection::from_number(indirection as u8),
    }
}

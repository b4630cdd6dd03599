//! Attribute words: a bit or a few for each question. They are answered here, bit by bit, and a test holds each answer to the library's for every word.
use crate::error::{Error, Result};
use crate::primitive::numbered;
use std::fmt;

macro_rules! word {
    ($(#[$about:meta])* $name:ident($number:ty)) => {
        $(#[$about])*
        #[derive(Clone, Copy, Default, PartialEq, Eq, Hash)]
        pub struct $name(
            /// The word as it stands in the record.
            pub $number,
        );

        impl fmt::Debug for $name {
            fn fmt(&self, f: &mut fmt::Formatter<'_>) -> fmt::Result {
                write!(f, concat!(stringify!($name), "({:#x})"), self.0)
            }
        }
    };
}

word! {
    /// The word of a class, structure, interface, union or enumeration.
    ///
    /// `intrinsic_type` and `mocom` follow cvinfo.h, where crate pdb 0.8.0 looks at other bits: docs/DIFFERENCES.md, intrinsic-bit and mocom-bits.
    ///
    /// ```
    /// let word = pdb_types::TypeProperties(0x0280);
    /// assert!(word.forward_reference() && word.has_unique_name() && !word.packed());
    /// ```
    TypeProperties(u16)
}

impl TypeProperties {
    const fn bit(self, n: u32) -> bool {
        self.0 >> n & 1 != 0
    }

    /// Whether the type is packed, via `#pragma pack` or the like.
    #[inline]
    pub const fn packed(self) -> bool {
        self.bit(0)
    }

    /// Whether the type has constructors or destructors.
    #[inline]
    pub const fn constructors(self) -> bool {
        self.bit(1)
    }

    /// Whether the type has overloaded operators.
    #[inline]
    pub const fn overloaded_operators(self) -> bool {
        self.bit(2)
    }

    /// Whether the type stands inside another.
    #[inline]
    pub const fn is_nested_type(self) -> bool {
        self.bit(3)
    }

    /// Whether other types stand inside it.
    #[inline]
    pub const fn contains_nested_types(self) -> bool {
        self.bit(4)
    }

    /// Whether the type has an assignment of its own.
    #[inline]
    pub const fn overloaded_assignment(self) -> bool {
        self.bit(5)
    }

    /// Whether the type has casts of its own.
    #[inline]
    pub const fn overloaded_casting(self) -> bool {
        self.bit(6)
    }

    /// Whether this is a forward reference: a name whose definition is another record.
    #[inline]
    pub const fn forward_reference(self) -> bool {
        self.bit(7)
    }

    /// Whether the definition is scoped.
    #[inline]
    pub const fn scoped_definition(self) -> bool {
        self.bit(8)
    }

    /// Whether a unique name stands behind the name.
    #[inline]
    pub const fn has_unique_name(self) -> bool {
        self.bit(9)
    }

    /// Whether no class can be derived from it.
    #[inline]
    pub const fn sealed(self) -> bool {
        self.bit(10)
    }

    /// Its kind of homogeneous floating point aggregate, 0 to 3 (`CV_HFA_e`).
    #[inline]
    pub const fn hfa(self) -> u8 {
        (self.0 >> 11 & 3) as u8
    }

    /// Whether it is an intrinsic type, such as `__m128d`.
    #[inline]
    pub const fn intrinsic_type(self) -> bool {
        self.bit(13)
    }

    /// Its kind of MoCOM type, 0 to 3 (`CV_MOCOM_UDT_e`).
    #[inline]
    pub const fn mocom(self) -> u8 {
        (self.0 >> 14) as u8
    }
}

word! {
    /// The word of a field or a method.
    ///
    /// ```
    /// let word = pdb_types::FieldAttributes(0x0013);
    /// assert_eq!((word.access(), word.is_intro_virtual()), (3, true));
    /// ```
    FieldAttributes(u16)
}

impl FieldAttributes {
    /// Who may use it: 0 not said, 1 private, 2 protected, 3 public (`CV_access_e`).
    #[inline]
    pub const fn access(self) -> u8 {
        (self.0 & 3) as u8
    }

    /// The method's property (`CV_methodprop_e`).
    #[inline]
    pub const fn method_properties(self) -> u8 {
        (self.0 >> 2 & 7) as u8
    }

    /// Whether the method is static.
    #[inline]
    pub const fn is_static(self) -> bool {
        self.method_properties() == 2
    }

    /// Whether the method overrides a virtual one.
    #[inline]
    pub const fn is_virtual(self) -> bool {
        self.method_properties() == 1
    }

    /// Whether the method overrides a virtual one and has no body.
    #[inline]
    pub const fn is_pure_virtual(self) -> bool {
        self.method_properties() == 5
    }

    /// Whether the method is virtual and the first of its name, with a body or none: then it has an offset in the table of virtual functions.
    #[inline]
    pub const fn is_intro_virtual(self) -> bool {
        matches!(self.method_properties(), 4 | 6)
    }
}

word! {
    /// The word of a procedure or a member function.
    ///
    /// ```
    /// let word = pdb_types::FunctionAttributes(0x020b);
    /// assert_eq!((word.calling_convention(), word.is_constructor(), word.cxx_return_udt()), (11, true, false));
    /// ```
    FunctionAttributes(u16)
}

impl FunctionAttributes {
    /// How it is called (`CV_call_e`).
    #[inline]
    pub const fn calling_convention(self) -> u8 {
        self.0 as u8
    }

    /// Whether it returns a class as C++ does.
    #[inline]
    pub const fn cxx_return_udt(self) -> bool {
        self.0 & 0x0100 != 0
    }

    /// Whether it is a constructor.
    #[inline]
    pub const fn is_constructor(self) -> bool {
        self.0 & 0x0200 != 0
    }

    /// Whether it is a constructor of a class with virtual bases.
    #[inline]
    pub const fn is_constructor_with_virtual_bases(self) -> bool {
        self.0 & 0x0400 != 0
    }
}

numbered! {
    /// What kind of pointer it is.
    PointerKind {
        /// 16-bit pointer.
        Near16 = 0,
        /// 16:16 far pointer.
        Far16 = 1,
        /// 16:16 huge pointer.
        Huge16 = 2,
        /// Based on segment.
        BaseSeg = 3,
        /// Based on value of base.
        BaseVal = 4,
        /// Based on segment value of base.
        BaseSegVal = 5,
        /// Based on address of base.
        BaseAddr = 6,
        /// Based on segment address of base.
        BaseSegAddr = 7,
        /// Based on type.
        BaseType = 8,
        /// Based on self.
        BaseSelf = 9,
        /// 32-bit pointer.
        Near32 = 10,
        /// 48-bit 16:32 pointer.
        Far32 = 11,
        /// 64-bit pointer.
        Ptr64 = 12,
    }
}

numbered! {
    /// The mode of a pointer.
    PointerMode {
        /// A regular pointer.
        Pointer = 0,
        /// A reference, `&`.
        LValueReference = 1,
        /// A pointer to a data member.
        Member = 2,
        /// A pointer to a member function.
        MemberFunction = 3,
        /// A reference, `&&`.
        RValueReference = 4,
    }
}

word! {
    /// The word of a pointer.
    ///
    /// Crate pdb 0.8.0 panics where the kind or the mode is none; here `pointer_kind`, `pointer_mode` and `size` are refused by 12. A word that comes out of a
    /// record that was parsed has both, since a record without is refused. `is_mocom` follows cvinfo.h: docs/DIFFERENCES.md, pointer-mocom.
    ///
    /// ```
    /// use pdb_types::{PointerAttributes, PointerKind, PointerMode};
    ///
    /// let word = PointerAttributes(0x1000c);
    /// assert_eq!((word.pointer_kind()?, word.pointer_mode()?, word.size()?), (PointerKind::Ptr64, PointerMode::Pointer, 8));
    /// # Ok::<(), pdb_types::Error>(())
    /// ```
    PointerAttributes(u32)
}

impl PointerAttributes {
    const fn bit(self, n: u32) -> bool {
        self.0 >> n & 1 != 0
    }

    /// What kind of pointer it is.
    #[inline]
    pub const fn pointer_kind(self) -> Result<PointerKind> {
        match PointerKind::from_number((self.0 & 0x1f) as u8) {
            Some(kind) => Ok(kind),
            None => Err(Error::PointerWord),
        }
    }

    /// Its mode: a pointer, a reference, a pointer to a member.
    #[inline]
    pub const fn pointer_mode(self) -> Result<PointerMode> {
        match PointerMode::from_number((self.0 >> 5 & 7) as u8) {
            Some(mode) => Ok(mode),
            None => Err(Error::PointerWord),
        }
    }

    /// Whether it points to a member, data or function. No for a mode that is none.
    #[inline]
    pub const fn pointer_to_member(self) -> bool {
        matches!(self.pointer_mode(), Ok(PointerMode::Member | PointerMode::MemberFunction))
    }

    /// Whether it is a C++ reference. No for a mode that is none.
    #[inline]
    pub const fn is_reference(self) -> bool {
        matches!(self.pointer_mode(), Ok(PointerMode::LValueReference | PointerMode::RValueReference))
    }

    /// Whether it is a flat 0:32 pointer.
    #[inline]
    pub const fn is_flat_32(self) -> bool {
        self.bit(8)
    }

    /// Whether the pointer itself is `volatile`.
    #[inline]
    pub const fn is_volatile(self) -> bool {
        self.bit(9)
    }

    /// Whether the pointer itself is `const`.
    #[inline]
    pub const fn is_const(self) -> bool {
        self.bit(10)
    }

    /// Whether it is unaligned.
    #[inline]
    pub const fn is_unaligned(self) -> bool {
        self.bit(11)
    }

    /// Whether it is `restrict`.
    #[inline]
    pub const fn is_restrict(self) -> bool {
        self.bit(12)
    }

    /// Whether it is a MoCOM pointer (`^` or `%`).
    #[inline]
    pub const fn is_mocom(self) -> bool {
        self.bit(19)
    }

    /// Its size in bytes: the word's own, or that of its kind where the word gives none. Refused only where the kind is asked and is none.
    #[inline]
    pub const fn size(self) -> Result<u8> {
        let size = (self.0 >> 13 & 0x3f) as u8;
        if size != 0 {
            return Ok(size);
        }
        match self.pointer_kind() {
            Ok(PointerKind::Near32 | PointerKind::Far32) => Ok(4),
            Ok(PointerKind::Ptr64) => Ok(8),
            Ok(_) => Ok(0),
            Err(e) => Err(e),
        }
    }
}

#[cfg(test)]
mod tests {
    use super::*;
    use crate::ffi::{self, row};

    #[test]
    fn every_word_of_properties() {
        for n in 0..=u16::MAX {
            let (w, o) = (TypeProperties(n), ffi::properties(n));
            let bits = [
                w.packed(),
                w.constructors(),
                w.overloaded_operators(),
                w.is_nested_type(),
                w.contains_nested_types(),
                w.overloaded_assignment(),
                w.overloaded_casting(),
                w.forward_reference(),
                w.scoped_definition(),
                w.has_unique_name(),
                w.sealed(),
            ];
            assert_eq!(bits.map(u64::from), o[2..13]);
            assert_eq!([u64::from(w.hfa()), u64::from(w.intrinsic_type()), u64::from(w.mocom())], o[13..]);
        }
    }

    #[test]
    fn every_word_of_fields_and_functions() {
        for n in 0..=u16::MAX {
            let (w, o) = (FieldAttributes(n), ffi::field_attributes(n));
            assert_eq!([w.access(), w.method_properties()].map(u64::from), o[2..4]);
            assert_eq!(
                [w.is_static(), w.is_virtual(), w.is_pure_virtual(), w.is_intro_virtual()].map(u64::from),
                o[4..]
            );
            let (w, o) = (FunctionAttributes(n), ffi::function_attributes(n));
            assert_eq!(u64::from(w.calling_convention()), o[2]);
            assert_eq!(
                [w.cxx_return_udt(), w.is_constructor(), w.is_constructor_with_virtual_bases()].map(u64::from),
                o[3..]
            );
        }
    }

    #[test]
    fn every_low_word_of_pointers_and_each_bit_above() {
        // all questions are asked of bits 0 to 19; the twelve above change nothing
        for n in (0..1 << 20).chain((20..32).map(|k| 1 << k)) {
            let (w, o) = (PointerAttributes(n), ffi::pointer_attributes(n));
            let part = |answer: Result<u64>| answer.map_or([12, 0], |n| [0, n]);
            assert_eq!(
                part(w.pointer_kind().map(|k| k.number().into())),
                o[row::POINTER_KIND_REFUSED..=row::POINTER_KIND]
            );
            assert_eq!(
                part(w.pointer_mode().map(|k| k.number().into())),
                o[row::POINTER_MODE_REFUSED..=row::POINTER_MODE]
            );
            assert_eq!(part(w.size().map(u64::from)), o[row::POINTER_SIZE_REFUSED..=row::POINTER_SIZE]);
            let bits = [
                w.pointer_to_member(),
                w.is_reference(),
                w.is_flat_32(),
                w.is_volatile(),
                w.is_const(),
                w.is_unaligned(),
                w.is_restrict(),
                w.is_mocom(),
            ];
            assert_eq!(bits.map(u64::from), o[8..]);
        }
    }
}

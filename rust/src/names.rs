//! Names of leaves and refusals. The tables are those of c/pdb_names.h; tools/c_names writes both, and a test holds the one to the other.
use std::fmt;

/// The name of a refusal's number.
pub(crate) const fn refusal_name(number: u32) -> Option<&'static str> {
    Some(match number {
        0 => "answered",
        1 => "ended",
        2 => "header small",
        3 => "header large",
        4 => "minimum low",
        5 => "maximum low",
        6 => "too short",
        7 => "indices used up",
        8 => "not found",
        9 => "not indexed",
        10 => "leaf unknown",
        11 => "number bad",
        12 => "pointer word",
        13 => "table full",
        14 => "foreign cursor",
        15 => "no such element",
        16 => "too long",
        17 => "would not read back",
        18 => "record too long",
        19 => "no room",
        20 => "file wrong",
        21 => "another stream",
        22 => "off the chain",
        23 => "too deep",
        24 => "leaf not printed",
        25 => "signature",
        26 => "shift",
        27 => "total too large",
        28 => "leaves full",
        29 => "not fit",
        30 => "reads as none",
        _ => return None,
    })
}

/// The leaf of a record or of an element: the number that says of what kind it is.
///
/// ```
/// use pdb_types::Leaf;
///
/// assert_eq!(Leaf::STRUCTURE, Leaf(0x1505));
/// assert_eq!(Leaf(0x1505).name(), Some("LF_STRUCTURE"));
/// assert_eq!(Leaf(0x1516).name(), None);
/// assert_eq!(Leaf(0x1505).to_string(), "LF_STRUCTURE");
/// assert_eq!(Leaf(0x1516).to_string(), "0x1516");
/// ```
#[derive(Debug, Clone, Copy, PartialEq, Eq, PartialOrd, Ord, Hash)]
pub struct Leaf(
    /// The leaf as a number.
    pub u16,
);

impl Leaf {
    /// `LF_VTSHAPE`.
    pub const VTSHAPE: Leaf = Leaf(0x000a);
    /// `LF_MODIFIER`.
    pub const MODIFIER: Leaf = Leaf(0x1001);
    /// `LF_POINTER`.
    pub const POINTER: Leaf = Leaf(0x1002);
    /// `LF_PROCEDURE`.
    pub const PROCEDURE: Leaf = Leaf(0x1008);
    /// `LF_MFUNCTION`.
    pub const MFUNCTION: Leaf = Leaf(0x1009);
    /// `LF_ARGLIST`.
    pub const ARGLIST: Leaf = Leaf(0x1201);
    /// `LF_FIELDLIST`.
    pub const FIELDLIST: Leaf = Leaf(0x1203);
    /// `LF_BITFIELD`.
    pub const BITFIELD: Leaf = Leaf(0x1205);
    /// `LF_METHODLIST`.
    pub const METHODLIST: Leaf = Leaf(0x1206);
    /// `LF_ARRAY`.
    pub const ARRAY: Leaf = Leaf(0x1503);
    /// `LF_CLASS`.
    pub const CLASS: Leaf = Leaf(0x1504);
    /// `LF_STRUCTURE`.
    pub const STRUCTURE: Leaf = Leaf(0x1505);
    /// `LF_UNION`.
    pub const UNION: Leaf = Leaf(0x1506);
    /// `LF_ENUM`.
    pub const ENUM: Leaf = Leaf(0x1507);
    /// `LF_INTERFACE`.
    pub const INTERFACE: Leaf = Leaf(0x1519);
    /// `LF_STRUCTURE19`.
    pub const STRUCTURE19: Leaf = Leaf(0x1609);
    /// `LF_BCLASS`.
    pub const BCLASS: Leaf = Leaf(0x1400);
    /// `LF_VBCLASS`.
    pub const VBCLASS: Leaf = Leaf(0x1401);
    /// `LF_IVBCLASS`.
    pub const IVBCLASS: Leaf = Leaf(0x1402);
    /// `LF_INDEX`.
    pub const INDEX: Leaf = Leaf(0x1404);
    /// `LF_VFUNCTAB`.
    pub const VFUNCTAB: Leaf = Leaf(0x1409);
    /// `LF_ENUMERATE`.
    pub const ENUMERATE: Leaf = Leaf(0x1502);
    /// `LF_MEMBER`.
    pub const MEMBER: Leaf = Leaf(0x150d);
    /// `LF_STMEMBER`.
    pub const STMEMBER: Leaf = Leaf(0x150e);
    /// `LF_METHOD`.
    pub const METHOD: Leaf = Leaf(0x150f);
    /// `LF_NESTTYPE`.
    pub const NESTTYPE: Leaf = Leaf(0x1510);
    /// `LF_ONEMETHOD`.
    pub const ONEMETHOD: Leaf = Leaf(0x1511);
    /// `LF_FUNC_ID`.
    pub const FUNC_ID: Leaf = Leaf(0x1601);
    /// `LF_MFUNC_ID`.
    pub const MFUNC_ID: Leaf = Leaf(0x1602);
    /// `LF_BUILDINFO`.
    pub const BUILDINFO: Leaf = Leaf(0x1603);
    /// `LF_SUBSTR_LIST`.
    pub const SUBSTR_LIST: Leaf = Leaf(0x1604);
    /// `LF_STRING_ID`.
    pub const STRING_ID: Leaf = Leaf(0x1605);
    /// `LF_UDT_SRC_LINE`.
    pub const UDT_SRC_LINE: Leaf = Leaf(0x1606);
    /// `LF_UDT_MOD_SRC_LINE`.
    pub const UDT_MOD_SRC_LINE: Leaf = Leaf(0x1607);

    /// Its name in cvinfo.h, of those leaves that this crate reads.
    pub const fn name(self) -> Option<&'static str> {
        Some(match self.0 {
            0x000a => "LF_VTSHAPE",
            0x1001 => "LF_MODIFIER",
            0x1002 => "LF_POINTER",
            0x1008 => "LF_PROCEDURE",
            0x1009 => "LF_MFUNCTION",
            0x1201 => "LF_ARGLIST",
            0x1203 => "LF_FIELDLIST",
            0x1205 => "LF_BITFIELD",
            0x1206 => "LF_METHODLIST",
            0x1503 => "LF_ARRAY",
            0x1504 => "LF_CLASS",
            0x1505 => "LF_STRUCTURE",
            0x1506 => "LF_UNION",
            0x1507 => "LF_ENUM",
            0x1519 => "LF_INTERFACE",
            0x1609 => "LF_STRUCTURE19",
            0x1400 => "LF_BCLASS",
            0x1401 => "LF_VBCLASS",
            0x1402 => "LF_IVBCLASS",
            0x1404 => "LF_INDEX",
            0x1409 => "LF_VFUNCTAB",
            0x1502 => "LF_ENUMERATE",
            0x150d => "LF_MEMBER",
            0x150e => "LF_STMEMBER",
            0x150f => "LF_METHOD",
            0x1510 => "LF_NESTTYPE",
            0x1511 => "LF_ONEMETHOD",
            0x1601 => "LF_FUNC_ID",
            0x1602 => "LF_MFUNC_ID",
            0x1603 => "LF_BUILDINFO",
            0x1604 => "LF_SUBSTR_LIST",
            0x1605 => "LF_STRING_ID",
            0x1606 => "LF_UDT_SRC_LINE",
            0x1607 => "LF_UDT_MOD_SRC_LINE",
            _ => return None,
        })
    }
}

impl fmt::Display for Leaf {
    fn fmt(&self, f: &mut fmt::Formatter<'_>) -> fmt::Result {
        match self.name() {
            Some(name) => f.pad(name),
            None => write!(f, "{:#06x}", self.0),
        }
    }
}

impl From<u16> for Leaf {
    fn from(n: u16) -> Leaf {
        Leaf(n)
    }
}

impl From<Leaf> for u16 {
    fn from(leaf: Leaf) -> u16 {
        leaf.0
    }
}

#[cfg(test)]
mod tests {
    use super::*;
    use crate::{Indirection, PrimitiveKind};

    /// The lines of a table of the header: number and name.
    fn table(name: &str) -> Vec<(u32, &'static str)> {
        let header = include_str!("../../c/pdb_names.h");
        let (_, from) = header.split_once(&format!("#define {name}(X)")).expect(name);
        let (body, _) = from.split_once("\n\n").expect("an empty line ends it");
        let line = |line: &'static str| {
            let (number, rest) = line.trim().strip_prefix("X(")?.split_once(',')?;
            let number = match number.strip_prefix("0x") {
                Some(hex) => u32::from_str_radix(hex, 16).ok()?,
                None => number.parse().ok()?,
            };
            Some((number, rest.split('"').nth(1)?))
        };
        body.lines().filter_map(line).collect()
    }

    #[test]
    fn refusals() {
        let rows = table("PDB_REFUSALS");
        assert_eq!(rows.len(), 31);
        for n in 0..100 {
            assert_eq!(refusal_name(n), rows.iter().find(|row| row.0 == n).map(|row| row.1));
        }
        for &(n, name) in &rows[1..] {
            let e = crate::Error::named(n, 7, 8);
            assert!(!matches!(e, crate::Error::Other(_)));
            assert_eq!((e.number(), e.name()), (n, name));
        }
    }

    #[test]
    fn leaves() {
        let rows = table("PDB_LEAVES");
        assert!(rows.len() >= 34, "the leaves of document 01, and what came since");
        for n in 0..=u16::MAX {
            assert_eq!(Leaf(n).name(), rows.iter().find(|row| row.0 == u32::from(n)).map(|row| row.1));
        }
    }

    #[test]
    fn kinds_and_indirections() {
        let rows = table("PDB_KINDS");
        assert_eq!(rows.len(), 42);
        for n in 0..=255 {
            let kind = PrimitiveKind::from_number(n);
            assert_eq!(kind.map(|k| k.name()), rows.iter().find(|row| row.0 == u32::from(n)).map(|row| row.1));
            assert!(kind.is_none_or(|k| k.number() == n));
        }
        let rows = table("PDB_INDIRECTIONS");
        assert_eq!(rows.len(), 8);
        for &(n, name) in &rows[1..] {
            let i = Indirection::from_number(n as u8).expect(name);
            assert_eq!((i.name(), u32::from(i.number())), (name, n));
        }
    }
}

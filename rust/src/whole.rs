//! What is asked of whole streams: are they fit, what do some types need, what is in them.
use crate::error::Result;
use crate::ffi::{self, row};
use crate::names::Leaf;
use crate::primitive::numbered;
use crate::room;
use crate::stream::TypeIndex;
use crate::TypeInformation;
use std::fmt;

numbered! {
    /// A rule that a stream breaks.
    #[non_exhaustive]
    Rule {
        /// There are not as many records as the header says.
        Count = 1,
        /// A record or an element does not decode.
        Decode = 2,
        /// A record names itself or a later one.
        Order = 3,
        /// A record names a primitive type that is none.
        Primitive = 4,
        /// A record names an index from 0x1000 to below the stream's lowest.
        Gap = 5,
    }
}

/// Whether a type stream is fit to bind.
#[derive(Debug, Clone, Copy, PartialEq, Eq)]
pub enum Fit {
    /// Every record and every element decodes, every type that a record names is an earlier record or a known primitive type, and there are as many records
    /// as the header says.
    Yes,
    /// It is not.
    No {
        /// The index of the lowest record at fault; 0 where the rule is [`Rule::Count`], which is of no record.
        record: u32,
        /// The first rule that it breaks.
        rule: Rule,
    },
}

/// The records that some types need: see [`TypeInformation::drop`].
#[derive(Debug, Clone, PartialEq, Eq)]
pub struct Dropped {
    /// The stream of the records that are kept.
    pub stream: Vec<u8>,
    /// For each record of the old stream its new index, 0 where it is dropped.
    pub table: Vec<u32>,
}

impl TypeInformation<'_> {
    /// Whether the stream is fit to bind.
    ///
    /// ```
    /// use pdb_types::{Fit, Rule, TypeInformation};
    ///
    /// let mut stream = include_bytes!("../../samples/e.tpi").to_vec();
    /// assert_eq!(TypeInformation::parse(&stream)?.fit()?, Fit::Yes);
    /// stream[12] += 1; // the header counts one record more
    /// assert_eq!(TypeInformation::parse(&stream)?.fit()?, Fit::No { record: 0, rule: Rule::Count });
    /// # Ok::<(), pdb_types::Error>(())
    /// ```
    pub fn fit(&self) -> Result<Fit> {
        let o = ffi::fit(self.bytes())?;
        Ok(match o[row::FIT_YES] {
            0 => Fit::No {
                record: o[row::FIT_RECORD] as u32,
                // the library gives 1 to 5
                rule: Rule::from_number(o[row::FIT_RULE] as u8).unwrap_or(Rule::Count),
            },
            _ => Fit::Yes,
        })
    }

    /// The stream without what nobody names: the records that some roots reach, renumbered without holes. Refused are a stream that is not fit, a root that it
    /// does not have, and the rare case that an optional index would become 0xffff.
    ///
    /// ```
    /// use pdb_types::{TypeIndex, TypeInformation, Types};
    ///
    /// let types = TypeInformation::parse(include_bytes!("../../samples/e.tpi"))?;
    /// let kept = types.drop(&[TypeIndex(0x1000)])?;
    /// assert_eq!(kept.table, [0x1000, 0]);
    /// assert_eq!(Types::parse(&kept.stream)?.declare(TypeIndex(0x1000))?, "const int");
    /// # Ok::<(), pdb_types::Error>(())
    /// ```
    pub fn drop(&self, roots: &[TypeIndex]) -> Result<Dropped> {
        // a record takes four bytes or more: a header that counts more records than that is not fit, and is refused before the table is asked for
        let mut table = room::zeros(self.len().min(self.bytes().len() / 4 + 1))?;
        let mut stream = room::zeros(self.bytes().len())?;
        let mut numbers = Vec::new();
        room::more(&mut numbers, roots.len())?;
        numbers.extend(roots.iter().map(|root| root.0));
        let bytes = ffi::drop(self.bytes(), &numbers, &mut table, &mut stream)?;
        stream.truncate(bytes);
        Ok(Dropped { stream, table })
    }
}

/// What is in some streams: how many records and bytes of each leaf.
///
/// ```
/// use pdb_types::{Leaf, Report};
///
/// let mut report = Report::new();
/// report.add(include_bytes!("../../samples/e.tpi"))?;
/// report.add(b"no stream")?;
/// assert_eq!((report.taken(), report.refused(), report.records()), (2, 1, 2));
/// let row = report.rows().next().unwrap();
/// assert_eq!((row.leaf, row.records, row.bytes), (Leaf::MODIFIER, 1, 8));
/// # Ok::<(), pdb_types::Error>(())
/// ```
#[derive(Clone)]
pub struct Report {
    numbers: ffi::ReportNumbers,
    table: Box<[u64; row::REPORT_TABLE]>,
}

impl Default for Report {
    fn default() -> Report {
        Report {
            numbers: Default::default(),
            table: Box::new([0; row::REPORT_TABLE]),
        }
    }
}

/// A line of a [`Report`].
#[derive(Debug, Clone, Copy, PartialEq, Eq)]
pub struct ReportRow {
    /// A leaf.
    pub leaf: Leaf,
    /// How many records have it.
    pub records: u64,
    /// How many bytes they have, without their lengths.
    pub bytes: u64,
}

impl Report {
    /// A fresh report, of no stream.
    pub fn new() -> Report {
        Report::default()
    }

    /// Adds a stream, of types or of ids. One that is refused, by its header or midway, is counted as such. Refused are a total that would pass 64 bits and a
    /// sixty-fifth leaf; then the report is as it was.
    pub fn add(&mut self, stream: &[u8]) -> Result<()> {
        self.numbers = ffi::report(stream, &self.numbers, &mut self.table)?;
        Ok(())
    }

    /// How many streams were added.
    pub fn taken(&self) -> u64 {
        self.numbers[0]
    }

    /// How many of them are refused, by their header or midway.
    pub fn refused(&self) -> u64 {
        self.numbers[1]
    }

    /// The bytes of the headers of the streams that were not refused.
    pub fn headers(&self) -> u64 {
        self.numbers[2]
    }

    /// The records of these streams.
    pub fn records(&self) -> u64 {
        self.numbers[3]
    }

    /// The bytes of these records, without their lengths.
    pub fn bytes(&self) -> u64 {
        self.numbers[4]
    }

    /// The bytes of the largest record.
    pub fn largest(&self) -> u64 {
        self.numbers[5]
    }

    /// The number of the first stream that has it, from 0, refused ones counted.
    pub fn largest_stream(&self) -> u64 {
        self.numbers[6]
    }

    /// Its index there.
    pub fn largest_index(&self) -> u32 {
        self.numbers[7] as u32
    }

    /// A row for each leaf that was met, in the order in which they were met first.
    pub fn rows(&self) -> impl Iterator<Item = ReportRow> + '_ {
        let rows = self.numbers[row::REPORT_ROWS - row::REPORT_TAKEN] as usize;
        self.table.chunks_exact(3).take(rows).map(|row| ReportRow {
            leaf: Leaf(row[0] as u16),
            records: row[1],
            bytes: row[2],
        })
    }
}

impl fmt::Debug for Report {
    fn fmt(&self, f: &mut fmt::Formatter<'_>) -> fmt::Result {
        f.debug_struct("Report")
            .field("taken", &self.taken())
            .field("refused", &self.refused())
            .field("records", &self.records())
            .field("bytes", &self.bytes())
            .field("rows", &self.rows().collect::<Vec<_>>())
            .finish()
    }
}

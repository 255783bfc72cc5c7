//! The refusal table (docs/REFERENCE.md, section 6).

use std::error::Error;
use std::fmt;

/// Why a call gave no result: one row of the refusal table. Rows that name a place carry it. No row
/// has the number 16.
#[derive(Clone, Copy, Debug, PartialEq, Eq, Hash)]
#[non_exhaustive]
pub enum Refusal {
    /// 1: image under 24 bytes.
    ImageTooShort,
    /// 2: edition isn't 1 or 2.
    WrongEdition,
    /// 3: n, m or k outside its range.
    SizeOutOfRange,
    /// 4: an offset, total or reserved field is wrong; in Build, costs not mk; in Update, a list that
    /// isn't of fours.
    WrongField,
    /// 5: image length isn't the total.
    WrongLength,
    /// 6: tail or head outside 1..n, at this arc, from 0.
    ArcOutOfRange(u32),
    /// 7: tail equals head, at this arc, from 0.
    ArcToItself(u32),
    /// 8: arc not above the one before, at this arc, from 0.
    ArcNotRising(u32),
    /// 9: cost above 1,000,000, or an arc that is closed in edition 1, at this index in all columns'
    /// costs, from 0; in Update, at this record.
    CostTooLarge(u32),
    /// 10: start or goal outside 1..n, or equal.
    WrongEnds,
    /// 11: column outside 1..k.
    WrongColumn,
    /// 12: K outside 1..256.
    WrongPathCount,
    /// 13: a lent slice is too short. A [`Network`](crate::Network) sizes its own and never gives it.
    SliceTooShort,
    /// 14: the node list is no path. The place is 0 if the list is empty or doesn't begin with start,
    /// else the first position whose node repeats or has no arc from the node before that is open in
    /// every column, else the list's length.
    NotAPath(u32),
    /// 15: no path exists in the column, or, in Robust and Search, none that is open in every column.
    NoPath,
    /// 17: arc index of m or more, at this record, from 0.
    WrongRecordArc(u32),
    /// 18: column outside 1..k, at this record, from 0.
    WrongRecordColumn(u32),
    /// 19: Search's rule tries more arcs than this limit.
    TooManyArcs(u32),
    /// 20: arc index of m or more in an event, which is the place.
    WrongEventArc(u32),
}

impl Refusal {
    /// The refusal with this number and place; `None` if the table has no such row.
    pub(crate) fn from_numbers(number: u32, place: u32) -> Option<Refusal> {
        Some(match number {
            1 => Refusal::ImageTooShort,
            2 => Refusal::WrongEdition,
            3 => Refusal::SizeOutOfRange,
            4 => Refusal::WrongField,
            5 => Refusal::WrongLength,
            6 => Refusal::ArcOutOfRange(place),
            7 => Refusal::ArcToItself(place),
            8 => Refusal::ArcNotRising(place),
            9 => Refusal::CostTooLarge(place),
            10 => Refusal::WrongEnds,
            11 => Refusal::WrongColumn,
            12 => Refusal::WrongPathCount,
            13 => Refusal::SliceTooShort,
            14 => Refusal::NotAPath(place),
            15 => Refusal::NoPath,
            17 => Refusal::WrongRecordArc(place),
            18 => Refusal::WrongRecordColumn(place),
            19 => Refusal::TooManyArcs(place),
            20 => Refusal::WrongEventArc(place),
            _ => return None,
        })
    }

    /// The number of the row.
    pub fn number(self) -> u32 {
        match self {
            Refusal::ImageTooShort => 1,
            Refusal::WrongEdition => 2,
            Refusal::SizeOutOfRange => 3,
            Refusal::WrongField => 4,
            Refusal::WrongLength => 5,
            Refusal::ArcOutOfRange(_) => 6,
            Refusal::ArcToItself(_) => 7,
            Refusal::ArcNotRising(_) => 8,
            Refusal::CostTooLarge(_) => 9,
            Refusal::WrongEnds => 10,
            Refusal::WrongColumn => 11,
            Refusal::WrongPathCount => 12,
            Refusal::SliceTooShort => 13,
            Refusal::NotAPath(_) => 14,
            Refusal::NoPath => 15,
            Refusal::WrongRecordArc(_) => 17,
            Refusal::WrongRecordColumn(_) => 18,
            Refusal::TooManyArcs(_) => 19,
            Refusal::WrongEventArc(_) => 20,
        }
    }

    /// The place, or 0 if the row names none.
    pub fn place(self) -> u32 {
        self.named_place().unwrap_or(0)
    }

    /// The table's words for the row, without the place.
    pub fn words(self) -> &'static str {
        match self {
            Refusal::ImageTooShort => "image under 24 bytes",
            Refusal::WrongEdition => "edition isn't 1 or 2",
            Refusal::SizeOutOfRange => "n, m or k outside its range",
            Refusal::WrongField => {
                "an offset, total or reserved field is wrong; in Build, odd node list or costs not mk; in Update, a list that isn't of fours"
            }
            Refusal::WrongLength => "image length isn't the total",
            Refusal::ArcOutOfRange(_) => "tail or head outside 1..n",
            Refusal::ArcToItself(_) => "tail equals head",
            Refusal::ArcNotRising(_) => "arc not above the one before",
            Refusal::CostTooLarge(_) => "cost above 1,000,000, or an arc closed in edition 1",
            Refusal::WrongEnds => "start or goal outside 1..n, or equal",
            Refusal::WrongColumn => "column outside 1..k",
            Refusal::WrongPathCount => "K outside 1..256",
            Refusal::SliceTooShort => "a lent slice is too short",
            Refusal::NotAPath(_) => "the node list is no path",
            Refusal::NoPath => "no path exists",
            Refusal::WrongRecordArc(_) => "a record's arc index is m or more",
            Refusal::WrongRecordColumn(_) => "a record's column is outside 1..k",
            Refusal::TooManyArcs(_) => "Search's rule tries more arcs than the limit",
            Refusal::WrongEventArc(_) => "an event's arc index is m or more",
        }
    }

    /// The place, if the row names one.
    fn named_place(self) -> Option<u32> {
        match self {
            Refusal::ArcOutOfRange(arc)
            | Refusal::ArcToItself(arc)
            | Refusal::ArcNotRising(arc)
            | Refusal::WrongEventArc(arc) => Some(arc),
            Refusal::CostTooLarge(index) => Some(index),
            Refusal::NotAPath(position) => Some(position),
            Refusal::WrongRecordArc(index) | Refusal::WrongRecordColumn(index) => Some(index),
            Refusal::TooManyArcs(limit) => Some(limit),
            _ => None,
        }
    }
}

/// The table's words, and the place in brackets if the row names one.
impl fmt::Display for Refusal {
    fn fmt(&self, f: &mut fmt::Formatter<'_>) -> fmt::Result {
        f.write_str(self.words())?;
        match self.named_place() {
            Some(place) => write!(f, " (at {place})"),
            None => Ok(()),
        }
    }
}

impl Error for Refusal {}

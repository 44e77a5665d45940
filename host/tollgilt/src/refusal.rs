//! Why a set of pages is no plan, or has no such cell.

use std::fmt;

/// Why a set of pages is no plan, with the page and the place where there is one; or, of a plan, what it does not give.
///
/// `page` counts from 1 in the order in which the pages were handed in. `place` is the offset of a byte in its page, the first byte being 0.
///
/// Where several fit, the answer is the first of: 1; then for each page in its order the lowest of 2 to 8, and of that the lowest place; then 9, 10,
/// 11, 12, 14, and last [`NoCell`](Self::NoCell).
///
/// ```
/// use tollgilt::Refusal;
///
/// let refusal = tollgilt::list(&[b"<MP v='027'>"]).unwrap_err();
/// assert_eq!(refusal, Refusal::Malformed { page: 1, place: 12 });
/// assert_eq!((refusal.number(), refusal.page(), refusal.place()), (4, 1, 12));
/// assert_eq!(refusal.to_string(), "page 1 is malformed from byte 12 on");
/// ```
#[derive(Clone, Copy, Debug, PartialEq, Eq, Hash)]
pub enum Refusal {
    /// 1: the call hands in no page or more than nine; for [`list_into`](crate::list_into), [`fresh_into`](crate::fresh_into),
    /// [`find_into`](crate::find_into) and [`cell_into`](crate::cell_into) also a page outside the buffer, starts and lengths that are not equally many, or too
    /// little room.
    NoRoom,
    /// 1 too, for a cell alone: the pages are a plan, but it has no such row, or the row is no medication, or a substance or strength is none of the three.
    NoCell,
    /// 2: the page is empty or has more than 1,400 bytes.
    PageSize { page: u32 },
    /// 3: a byte that is not allowed.
    ByteRefused { page: u32, place: u32 },
    /// 4: the page is malformed; `place` is the length of its longest good beginning.
    Malformed { page: u32, place: u32 },
    /// 5: an element that is unknown, misplaced or one too many, or that has an attribute unknown or twice; `place` is its `<`.
    OutOfPlace { page: u32, place: u32 },
    /// 6: the edition is not 027, or absent; `place` is the `<` of MP.
    OtherEdition { page: u32, place: u32 },
    /// 7: a value breaks the rule of its field, or a is above z; `place` is the `<` of the element.
    BrokenValue { page: u32, place: u32 },
    /// 8: fields that exclude each other, a field or element that is missing, a without z, or z without a; `place` is the `<` of the element, of MP
    /// for a missing P or A.
    Incomplete { page: u32, place: u32 },
    /// 9: head or number of pages differ from the first page handed in: the page is of another print.
    OtherHead { page: u32 },
    /// 10: an earlier page has the same page number.
    NumberTwice { page: u32 },
    /// 11: a page is missing; `number` is the lowest page number that no page has.
    NumberMissing { number: u32 },
    /// 12: the plan has more than 256 rows.
    TooManyRows,
    /// 14, for fresh pages alone: the plan does not fit on nine of them; `row` is the first row, counted from 1, up to which the rows do not fit, or 0
    /// where the head alone is too long.
    NoCut { row: u32 },
}

impl Refusal {
    /// The refusal of that number, page and place.
    pub(crate) fn told(number: u32, page: u32, place: u32) -> Self {
        match number {
            1 => Self::NoRoom,
            2 => Self::PageSize { page },
            3 => Self::ByteRefused { page, place },
            4 => Self::Malformed { page, place },
            5 => Self::OutOfPlace { page, place },
            6 => Self::OtherEdition { page, place },
            7 => Self::BrokenValue { page, place },
            8 => Self::Incomplete { page, place },
            9 => Self::OtherHead { page },
            10 => Self::NumberTwice { page },
            11 => Self::NumberMissing { number: page },
            12 => Self::TooManyRows,
            14 => Self::NoCut { row: place },
            _ => unreachable!("the library answers 0 to 12 or 14, not {number}"),
        }
    }

    /// The number of the refusal, 1 to 12 or 14.
    pub fn number(&self) -> u32 {
        match self {
            Self::NoRoom | Self::NoCell => 1,
            Self::PageSize { .. } => 2,
            Self::ByteRefused { .. } => 3,
            Self::Malformed { .. } => 4,
            Self::OutOfPlace { .. } => 5,
            Self::OtherEdition { .. } => 6,
            Self::BrokenValue { .. } => 7,
            Self::Incomplete { .. } => 8,
            Self::OtherHead { .. } => 9,
            Self::NumberTwice { .. } => 10,
            Self::NumberMissing { .. } => 11,
            Self::TooManyRows => 12,
            Self::NoCut { .. } => 14,
        }
    }

    /// The page that comes with it, counted from 1 in the order handed in; for a missing page its page number; 0 for a refusal of the whole set.
    pub fn page(&self) -> u32 {
        match *self {
            Self::NoRoom | Self::NoCell | Self::TooManyRows | Self::NoCut { .. } => 0,
            Self::PageSize { page }
            | Self::ByteRefused { page, .. }
            | Self::Malformed { page, .. }
            | Self::OutOfPlace { page, .. }
            | Self::OtherEdition { page, .. }
            | Self::BrokenValue { page, .. }
            | Self::Incomplete { page, .. }
            | Self::OtherHead { page }
            | Self::NumberTwice { page }
            | Self::NumberMissing { number: page } => page,
        }
    }

    /// The place that comes with it, an offset from 0 in its page; for [`NoCut`](Self::NoCut) the row; 0 for a refusal that has none.
    pub fn place(&self) -> u32 {
        match *self {
            Self::ByteRefused { place, .. }
            | Self::Malformed { place, .. }
            | Self::OutOfPlace { place, .. }
            | Self::OtherEdition { place, .. }
            | Self::BrokenValue { place, .. }
            | Self::Incomplete { place, .. }
            | Self::NoCut { row: place } => place,
            _ => 0,
        }
    }
}

impl fmt::Display for Refusal {
    fn fmt(&self, words: &mut fmt::Formatter<'_>) -> fmt::Result {
        match self {
            Self::NoRoom => write!(words, "the call does not hand in one to nine pages that lie in its buffer, and room enough"),
            Self::NoCell => write!(words, "the plan has no such cell: no row of that number, or a row that is no medication, or none of the three"),
            Self::PageSize { page } => write!(words, "page {page} is empty or longer than 1,400 bytes"),
            Self::ByteRefused { page, place } => write!(words, "page {page} has a byte that is not allowed, at byte {place}"),
            Self::Malformed { page, place } => write!(words, "page {page} is malformed from byte {place} on"),
            Self::OutOfPlace { page, place } => write!(words, "page {page} has an element at byte {place} that is unknown, misplaced or one too many, or whose attribute is unknown or twice there"),
            Self::OtherEdition { page, place } => write!(words, "page {page} is not of edition 027 (its element at byte {place})"),
            Self::BrokenValue { page, place } => write!(words, "page {page} has an element at byte {place} with a value that breaks its field"),
            Self::Incomplete { page, place } => write!(words, "page {page} has an element at byte {place} in which something is missing, or two fields exclude each other"),
            Self::OtherHead { page } => write!(words, "page {page} is of another print than the first page: its head or number of pages differs"),
            Self::NumberTwice { page } => write!(words, "page {page} has a page number that an earlier page has"),
            Self::NumberMissing { number } => write!(words, "page number {number} is missing"),
            Self::TooManyRows => write!(words, "the plan has more than 256 rows"),
            Self::NoCut { row: 0 } => write!(words, "the head of the plan is too long for a fresh page"),
            Self::NoCut { row } => write!(words, "the rows up to row {row} do not fit on nine fresh pages"),
        }
    }
}

impl std::error::Error for Refusal {}

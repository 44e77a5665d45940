//! The text of a printed cell: the plan's own, else a catalogue's, and how much of it was left out.

use crate::{border, find_into, handed_in, Refusal, CELL_ROOM, ROWS};

/// A cell of a medication row. Substances and strengths are counted from 1 to 3.
#[derive(Clone, Copy, Debug, PartialEq, Eq, Hash)]
pub enum Field {
    /// The trade name, at most 50 bytes.
    Name,
    /// One of up to three substances, at most 80 bytes.
    Substance(usize),
    /// The strength of one of them, at most 15 bytes.
    Strength(usize),
    /// The form, at most 7 bytes. A code is no text, so that the catalogue's form takes its place.
    Form,
    /// The dose in the morning.
    Morning,
    /// The dose at midday.
    Midday,
    /// The dose in the evening.
    Evening,
    /// The dose at night.
    Night,
    /// The dose as free text.
    FreeDose,
}

impl Field {
    /// The field's number, and which of three it is, 0 where that has no meaning.
    fn numbers(self) -> (u32, usize) {
        match self {
            Self::Name => (1, 0),
            Self::Substance(which) => (2, which),
            Self::Strength(which) => (3, which),
            Self::Form => (4, 0),
            Self::Morning => (5, 0),
            Self::Midday => (6, 0),
            Self::Evening => (7, 0),
            Self::Night => (8, 0),
            Self::FreeDose => (9, 0),
        }
    }
}

/// Where the text of a cell comes from.
#[derive(Clone, Copy, Debug, PartialEq, Eq, Hash)]
pub enum Source {
    /// There is none: the cell is empty.
    Neither,
    /// The plan's own text.
    Plan,
    /// The catalogue's text.
    Catalogue,
}

impl Source {
    /// The source of that number.
    fn told(number: usize) -> Self {
        match number {
            0 => Self::Neither,
            1 => Self::Plan,
            2 => Self::Catalogue,
            _ => unreachable!("the library tells a source of 0 to 2, not {number}"),
        }
    }
}

/// What is printed in a cell.
#[derive(Clone, Copy, Debug, PartialEq, Eq, Hash)]
pub struct Cell<Text = Vec<u8>> {
    /// The text, in Latin-1.
    pub text: Text,
    /// Where it comes from.
    pub source: Source,
    /// Whether "..." follows it, which is so exactly where something was left out.
    pub dots: bool,
    /// Whether 0 is printed in its place: it is a time of day that is absent beside another one.
    pub zero: bool,
    /// How many characters were left out, for the margin.
    pub left_out: usize,
}

impl Cell<&[u8]> {
    /// The cell with a copy of its text.
    pub fn to_vec(&self) -> Cell {
        Cell {
            text: self.text.to_vec(),
            source: self.source,
            dots: self.dots,
            zero: self.zero,
            left_out: self.left_out,
        }
    }
}

/// The text of a printed cell: the plan's own if there is one, else the catalogue's, else none. `row` is counted from 1 as in the listing; `catalogue` is all of
/// the text that a catalogue has for this cell, in Latin-1, and empty where it has none.
///
/// A text longer than the `n` bytes of its cell is cut before the last blank among its first `n - 3` bytes, if that blank is one of the last ten of them and not
/// the very first byte; otherwise after `n - 3` bytes. The cell says how many characters were left out:
///
/// ```
/// use tollgilt::{cell, Field, Source};
///
/// # let page = b"<MP v='027' U='00112233445566778899AABBCCDDEEFF'><P f='Kern' g='Ida' b='19510704'/><A n='Praxis Holm' t='2023-03-01T09:30:00'/>\
/// #     <S c='412'><M p='02394428' m='1'/></S></MP>";
/// let name = cell(&[page], 2, Field::Name, b"METOPROLOLSUCCINAT MUSTER 95 mg/12,5 mg Retardtabl.")?;
/// assert_eq!(name.text, b"METOPROLOLSUCCINAT MUSTER 95 mg/12,5 mg");
/// assert_eq!((name.source, name.dots), (Source::Catalogue, true));
/// assert_eq!(format!("+{}", name.left_out), "+12");
/// # Ok::<(), tollgilt::Refusal>(())
/// ```
///
/// Nothing is left out of a dose, and the catalogue is not asked for it. An absent time of day is empty, with a mark that 0 is printed if another one is there:
///
/// ```
/// # use tollgilt::{cell, Field};
/// # let page = b"<MP v='027' U='00112233445566778899AABBCCDDEEFF'><P f='Kern' g='Ida' b='19510704'/><A n='Praxis Holm' t='2023-03-01T09:30:00'/>\
/// #     <S c='412'><M p='02394428' m='1'/></S></MP>";
/// assert_eq!(cell(&[page], 2, Field::Morning, b"")?.text, b"1");
/// assert!(cell(&[page], 2, Field::Night, b"")?.zero);
/// # Ok::<(), tollgilt::Refusal>(())
/// ```
///
/// # Errors
///
/// A [`Refusal`] where the pages are no plan; also for no page, and for more than nine. [`Refusal::NoCell`] where the plan has no such row, or the row is no
/// medication, or a substance or strength is none of the three.
pub fn cell(pages: &[&[u8]], row: usize, field: Field, catalogue: &[u8]) -> Result<Cell, Refusal> {
    let (buffer, starts, lens) = handed_in(pages);
    let mut out = [0; CELL_ROOM];
    let shown = cell_into(&buffer, &starts, &lens, row, field, catalogue, &mut out)?;
    Ok(shown.to_vec())
}

/// The same without allocating: pages are handed in as for [`list_into`](crate::list_into), and the text is laid at the beginning of `out`, of which the cell's
/// text is a part. The room behind it is untouched, and all of `out` where the call is refused.
///
/// ```
/// use tollgilt::{cell_into, Field, Refusal, CELL_ROOM};
///
/// # let page = b"<MP v='027' U='00112233445566778899AABBCCDDEEFF'><P f='Kern' g='Ida' b='19510704'/><A n='Praxis Holm' t='2023-03-01T09:30:00'/>\
/// #     <S><M p='02394428' f='TAB'/></S></MP>";
/// let mut out = [7; CELL_ROOM];
/// let form = cell_into(page, &[0], &[page.len()], 1, Field::Form, b"Tabl", &mut out)?;
/// assert_eq!((form.text, form.left_out), (b"Tabl".as_slice(), 0));
/// assert_eq!(out[..5], *b"Tabl\x07");
/// assert_eq!(cell_into(page, &[0], &[page.len()], 1, Field::Form, b"Tabl", &mut out[1..]), Err(Refusal::NoRoom));
/// assert_eq!(cell_into(page, &[0], &[page.len()], 2, Field::Form, b"Tabl", &mut out), Err(Refusal::NoCell));
/// # Ok::<(), Refusal>(())
/// ```
///
/// # Errors
///
/// A [`Refusal`] where the pages are no plan, or have no such cell; [`Refusal::NoRoom`] also for what [`list_into`](crate::list_into) gives it, and where `out`
/// has less than [`CELL_ROOM`] bytes.
pub fn cell_into<'a>(
    buffer: &[u8],
    starts: &[usize],
    lens: &[usize],
    row: usize,
    field: Field,
    catalogue: &[u8],
    out: &'a mut [u8],
) -> Result<Cell<&'a [u8]>, Refusal> {
    let (number, which) = field.numbers();
    let mut told = [0; 7];
    // SAFETY: each pair of arguments is one slice. The library writes to `out` and `told` alone, within their lengths, and keeps no pointer.
    let refused = unsafe {
        border::tollgilt_cell(
            buffer.as_ptr(),
            buffer.len(),
            starts.as_ptr(),
            starts.len(),
            lens.as_ptr(),
            lens.len(),
            catalogue.as_ptr(),
            catalogue.len(),
            row,
            number,
            which,
            out.as_mut_ptr(),
            out.len(),
            &mut told,
        )
    };
    let [length, page, place, source, dots, zero, left_out] = told;
    match refused {
        0 => Ok(Cell {
            text: &out[..length],
            source: Source::told(source),
            dots: dots == 1,
            zero: zero == 1,
            left_out,
        }),
        1 if out.len() >= CELL_ROOM && is_plan(buffer, starts, lens) => Err(Refusal::NoCell),
        _ => Err(Refusal::told(refused, page as u32, place as u32)),
    }
}

/// Whether the library takes the pages for a plan. Where it does, and the room is enough, a cell that is refused with 1 is one that the plan has not.
fn is_plan(buffer: &[u8], starts: &[usize], lens: &[usize]) -> bool {
    find_into(buffer, starts, lens, 0, &mut [0; ROWS]).is_ok()
}

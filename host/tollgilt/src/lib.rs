//! Joins the sheets of a German medication plan (BMP 2.7), lists the plan, writes it afresh, finds a package number on it and gives the text of its printed cells,
//! by the proved library.
//!
//! A sheet's barcode holds one page: 1 to 1,400 bytes of XML in Latin-1. One to nine pages make a plan. [`list`] joins them by what they say, in
//! whatever order they are handed in, and gives the plan as key=value lines, or a [`Refusal`] that names the page and the place. [`fresh`] gives the plan as
//! fresh pages instead: one spelling for each plan, on as few pages as can hold it. [`find`] gives the rows of the plan that hold a package number. [`cell`] gives
//! the text of a printed cell, the plan's own or a catalogue's, and how much of it was left out.
//!
//! ```
//! let page = br#"<MP v="027" U="00112233445566778899AABBCCDDEEFF"><P g="Ida" f="Kern" b="19510704"/><A n="Praxis Holm"
//!     t="2023-03-01T09:30:00"/><S c="412"><M v="0,5" m='1' d="0" p="02394428"/></S></MP>"#;
//! let lines = tollgilt::list(&[page])?;
//! assert!(lines.starts_with(b"MP.v=027\nMP.U=00112233445566778899AABBCCDDEEFF\n"));
//! assert!(lines.ends_with(b"row=M\nMP.S.M.p=2394428\nMP.S.M.m=1\nMP.S.M.v=0,5\nrows=2\n"));
//! # Ok::<(), tollgilt::Refusal>(())
//! ```
//!
//! A set of pages that is no plan is refused by name. Nothing is guessed, and no part of a plan is given:
//!
//! ```
//! use tollgilt::Refusal;
//!
//! let page = br#"<MP v="027" U="00112233445566778899AABBCCDDEEFF" a="1" z="2"><P g="Ida" f="Kern" b="19510704"/><A n="Praxis Holm"
//!     t="2023-03-01T09:30:00"/></MP>"#;
//! let refusal = tollgilt::list(&[page]).unwrap_err();
//! assert_eq!(refusal, Refusal::NumberMissing { number: 2 });
//! assert_eq!(refusal.to_string(), "page number 2 is missing");
//! ```

mod cells;
mod refusal;

pub use cells::{cell, cell_into, Cell, Field, Source};
pub use refusal::Refusal;

/// The most pages that a call hands in.
pub const PAGES: usize = 9;

/// The most bytes of a page.
pub const PAGE_BYTES: usize = 1_400;

/// The room that a listing asks for: it is enough for any plan.
pub const LISTING_ROOM: usize = 25_200;

/// The room that fresh pages ask for: it is enough for nine full ones.
pub const PAGE_ROOM: usize = 12_600;

/// The most rows of a plan, and the numbers that a list of rows asks for.
pub const ROWS: usize = 256;

/// The room that a cell's text asks for: it is enough for any.
pub const CELL_ROOM: usize = 80;

mod border {
    /// A function of the library: buffer, starts, lengths and room, each as a pointer and a size, and the numbers that it tells, of which the second and
    /// third are the page and the place of a refusal. It answers the number of the refusal, or 0.
    pub type Function<const TOLD: usize> = unsafe extern "C" fn(
        *const u8,
        usize,
        *const usize,
        usize,
        *const usize,
        usize,
        *mut u8,
        usize,
        *mut [u32; TOLD],
    ) -> u32;

    extern "C" {
        #[allow(clippy::too_many_arguments)]
        pub fn tollgilt_list(
            buffer: *const u8,
            size: usize,
            starts: *const usize,
            starts_count: usize,
            lens: *const usize,
            lens_count: usize,
            out: *mut u8,
            room: usize,
            told: *mut [u32; 3],
        ) -> u32;
        #[allow(clippy::too_many_arguments)]
        pub fn tollgilt_fresh(
            buffer: *const u8,
            size: usize,
            starts: *const usize,
            starts_count: usize,
            lens: *const usize,
            lens_count: usize,
            out: *mut u8,
            room: usize,
            told: *mut [u32; 12],
        ) -> u32;
        #[allow(clippy::too_many_arguments)]
        pub fn tollgilt_find(
            buffer: *const u8,
            size: usize,
            starts: *const usize,
            starts_count: usize,
            lens: *const usize,
            lens_count: usize,
            number: u32,
            list: *mut u32,
            room: usize,
            told: *mut [u32; 3],
        ) -> u32;
        #[allow(clippy::too_many_arguments)]
        pub fn tollgilt_cell(
            buffer: *const u8,
            size: usize,
            starts: *const usize,
            starts_count: usize,
            lens: *const usize,
            lens_count: usize,
            catalogue: *const u8,
            catalogue_size: usize,
            row: usize,
            field: u32,
            which: usize,
            out: *mut u8,
            room: usize,
            told: *mut [usize; 7],
        ) -> u32;
    }
}

/// Calls a function of the library on slices: the numbers that it tells, or the refusal.
fn call<const TOLD: usize>(
    function: border::Function<TOLD>,
    buffer: &[u8],
    starts: &[usize],
    lens: &[usize],
    out: &mut [u8],
) -> Result<[u32; TOLD], Refusal> {
    let mut told = [0; TOLD];
    // SAFETY: each pair of arguments is one slice. The library writes to `out` and `told` alone, within their lengths, and keeps no pointer.
    let number = unsafe {
        function(
            buffer.as_ptr(),
            buffer.len(),
            starts.as_ptr(),
            starts.len(),
            lens.as_ptr(),
            lens.len(),
            out.as_mut_ptr(),
            out.len(),
            &mut told,
        )
    };
    match number {
        0 => Ok(told),
        _ => Err(Refusal::told(number, told[1], told[2])),
    }
}

/// The listing of the plan that some pages are: key=value lines, each ended by byte 10, in Latin-1 like the pages. The date of birth, `MP.P.b`, is eight
/// digits YYYYMMDD; its day, or its month and day, are 00 where nobody knows them, so that no type for days of the calendar takes every one.
///
/// The order of the pages does not matter to a listing; to a refusal it does, which counts pages in the order handed in.
///
/// ```
/// # let page = |a: u8| format!("<MP v='027' U='00112233445566778899AABBCCDDEEFF' a='{a}' z='2'><P g='Ida' f='Kern' b='19510704'/>\
/// #     <A n='Praxis Holm' t='2023-03-01T09:30:00'/><S><X t='Zeile {a}'/></S></MP>").into_bytes();
/// let (one, two) = (page(1), page(2));
/// assert_eq!(tollgilt::list(&[&two, &one]), tollgilt::list(&[&one, &two]));
/// ```
///
/// # Errors
///
/// A [`Refusal`] where the pages are no plan; also for no page, and for more than nine.
pub fn list(pages: &[&[u8]]) -> Result<Vec<u8>, Refusal> {
    let (buffer, starts, lens) = handed_in(pages);
    let mut lines = vec![0; LISTING_ROOM];
    let length = list_into(&buffer, &starts, &lens, &mut lines)?;
    lines.truncate(length);
    Ok(lines)
}

/// Pages one behind the other, with their starts and lengths.
fn handed_in(pages: &[&[u8]]) -> (Vec<u8>, Vec<usize>, Vec<usize>) {
    let lens: Vec<usize> = pages.iter().map(|page| page.len()).collect();
    let starts = lens.iter().scan(0, |end, &length| {
        let start = *end;
        *end += length;
        Some(start)
    });
    (pages.concat(), starts.collect(), lens)
}

/// The same without allocating: the page `i` is the `lens[i]` bytes of the buffer from `starts[i]` on, and the listing is laid at the beginning of
/// `out`. Gives its length. The room behind it is untouched, and all of `out` where the call is refused.
///
/// ```
/// use tollgilt::{list_into, Refusal, LISTING_ROOM};
///
/// let mut out = [0; LISTING_ROOM];
/// assert_eq!(list_into(b"<MP/>", &[0], &[5], &mut out), Err(Refusal::OtherEdition { page: 1, place: 0 }));
/// assert_eq!(list_into(b"<MP/>", &[1], &[5], &mut out), Err(Refusal::NoRoom)); // one byte beyond the buffer
/// assert_eq!(list_into(b"<MP/>", &[0], &[5], &mut out[1..]), Err(Refusal::NoRoom));
/// assert!(out.iter().all(|&byte| byte == 0));
/// ```
///
/// # Errors
///
/// A [`Refusal`] where the pages are no plan; [`Refusal::NoRoom`] also where a page does not lie within the buffer, where starts and lengths are not
/// equally many, and where `out` has less than [`LISTING_ROOM`] bytes.
pub fn list_into(
    buffer: &[u8],
    starts: &[usize],
    lens: &[usize],
    out: &mut [u8],
) -> Result<usize, Refusal> {
    let [length, ..] = call(border::tollgilt_list, buffer, starts, lens, out)?;
    Ok(length as usize)
}

/// The fresh pages of the plan that some pages are: one spelling for each plan, as few pages as can hold it.
///
/// Two sets of pages give the same fresh pages exactly when they are the same plan; and fresh pages give themselves.
///
/// ```
/// # let page = b"<MP v='027' U='00112233445566778899AABBCCDDEEFF'><P f='Kern' g='Ida' b='19510704'/><A n='Praxis Holm' t='2023-03-01T09:30:00'/></MP>";
/// let fresh = tollgilt::fresh(&[page])?;
/// assert_eq!(fresh, [br#"<MP v="027" U="00112233445566778899AABBCCDDEEFF" l="de-DE" a="1" z="1"><P g="Ida" f="Kern" b="19510704"/><A n="Praxis Holm" t="2023-03-01T09:30:00"/></MP>"#]);
/// assert_eq!(tollgilt::fresh(&[&fresh[0]])?, fresh);
/// # Ok::<(), tollgilt::Refusal>(())
/// ```
///
/// # Errors
///
/// A [`Refusal`] where the pages are no plan, or where the plan does not fit on nine fresh pages.
pub fn fresh(pages: &[&[u8]]) -> Result<Vec<Vec<u8>>, Refusal> {
    let (buffer, starts, lens) = handed_in(pages);
    let mut out = vec![0; PAGE_ROOM];
    let lengths = fresh_into(&buffer, &starts, &lens, &mut out)?;
    let mut rest = out.as_slice();
    let mut fresh = Vec::new();
    for length in lengths.into_iter().take_while(|&length| length > 0) {
        let (page, behind) = rest.split_at(length);
        fresh.push(page.to_vec());
        rest = behind;
    }
    Ok(fresh)
}

/// The same without allocating: pages are handed in as for [`list_into`], and the fresh pages laid into `out`, one behind the other. Gives their lengths,
/// 0 behind the last of them. The room behind them is untouched, and all of `out` where the call is refused.
///
/// ```
/// use tollgilt::{fresh_into, Refusal, PAGE_ROOM};
///
/// # let page = b"<MP v='027' U='00112233445566778899AABBCCDDEEFF'><P f='Kern' g='Ida' b='19510704'/><A n='Praxis Holm' t='2023-03-01T09:30:00'/></MP>";
/// let mut out = [0; PAGE_ROOM];
/// let lengths = fresh_into(page, &[0], &[page.len()], &mut out)?;
/// assert_eq!(lengths, [154, 0, 0, 0, 0, 0, 0, 0, 0]);
/// assert!(out[..154].ends_with(b"</MP>"));
/// assert_eq!(fresh_into(page, &[0], &[page.len()], &mut out[1..]), Err(Refusal::NoRoom));
/// # Ok::<(), Refusal>(())
/// ```
///
/// # Errors
///
/// A [`Refusal`] where the pages are no plan, or where the plan does not fit on nine fresh pages; [`Refusal::NoRoom`] also for what [`list_into`] gives it,
/// and where `out` has less than [`PAGE_ROOM`] bytes.
pub fn fresh_into(
    buffer: &[u8],
    starts: &[usize],
    lens: &[usize],
    out: &mut [u8],
) -> Result<[usize; PAGES], Refusal> {
    let [_, _, _, lengths @ ..] = call(border::tollgilt_fresh, buffer, starts, lens, out)?;
    Ok(lengths.map(|length| length as usize))
}

/// The rows of a plan that hold a package number (PZN), counted from 1 as in the listing, ascending; none where the number is not on the plan.
///
/// Any number may be asked for: its check digit is not judged. 02394428 on a box is 2394428.
///
/// ```
/// # let page = b"<MP v='027' U='00112233445566778899AABBCCDDEEFF'><P f='Kern' g='Ida' b='19510704'/><A n='Praxis Holm' t='2023-03-01T09:30:00'/>\
/// #     <S c='412'><M p='02394428'/><M a='x'/><M p='2394428'/></S></MP>";
/// assert_eq!(tollgilt::find(&[page], 2394428)?, [2, 4]);
/// assert_eq!(tollgilt::find(&[page], 2394429)?, []);
/// # Ok::<(), tollgilt::Refusal>(())
/// ```
///
/// # Errors
///
/// A [`Refusal`] where the pages are no plan; also for no page, and for more than nine.
pub fn find(pages: &[&[u8]], number: u32) -> Result<Vec<u32>, Refusal> {
    let (buffer, starts, lens) = handed_in(pages);
    let mut list = vec![0; ROWS];
    let held = find_into(&buffer, &starts, &lens, number, &mut list)?;
    list.truncate(held);
    Ok(list)
}

/// The same without allocating: pages are handed in as for [`list_into`], and the rows laid at the beginning of `list`. Gives how many there are. The list
/// behind them is untouched, and all of it where the call is refused.
///
/// ```
/// use tollgilt::{find_into, Refusal, ROWS};
///
/// # let page = b"<MP v='027' U='00112233445566778899AABBCCDDEEFF'><P f='Kern' g='Ida' b='19510704'/><A n='Praxis Holm' t='2023-03-01T09:30:00'/>\
/// #     <S><M p='02394428'/></S></MP>";
/// let mut list = [7; ROWS];
/// assert_eq!(find_into(page, &[0], &[page.len()], 2394428, &mut list), Ok(1));
/// assert_eq!(list[..2], [1, 7]);
/// assert_eq!(find_into(page, &[0], &[page.len()], 2394428, &mut list[1..]), Err(Refusal::NoRoom));
/// ```
///
/// # Errors
///
/// A [`Refusal`] where the pages are no plan; [`Refusal::NoRoom`] also for what [`list_into`] gives it, and where `list` has less than [`ROWS`] numbers.
pub fn find_into(
    buffer: &[u8],
    starts: &[usize],
    lens: &[usize],
    number: u32,
    list: &mut [u32],
) -> Result<usize, Refusal> {
    let mut told = [0; 3];
    // SAFETY: each pair of arguments is one slice. The library writes to `list` and `told` alone, within their lengths, and keeps no pointer.
    let refused = unsafe {
        border::tollgilt_find(
            buffer.as_ptr(),
            buffer.len(),
            starts.as_ptr(),
            starts.len(),
            lens.as_ptr(),
            lens.len(),
            number,
            list.as_mut_ptr(),
            list.len(),
            &mut told,
        )
    };
    match refused {
        0 => Ok(told[0] as usize),
        _ => Err(Refusal::told(refused, told[1], told[2])),
    }
}

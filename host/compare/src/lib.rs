//! The proved layers as safe Rust functions. A slice crosses the border as two arguments, its start and its length.

pub mod cells;
pub mod collecting;
pub mod indexing;
pub mod numbers;
pub mod packages;
pub mod printing;
pub mod rounds;
pub mod trial;
pub mod writing;

mod border {
    extern "C" {
        pub fn probe_class(byte: u8) -> u8;
        pub fn probe_first_refused(bytes: *const u8, length: usize) -> usize;
        pub fn probe_scan(page: *const u8, length: usize) -> usize;
        pub fn probe_value(raw: *const u8, raw_length: usize, out: *mut u8, room: usize) -> u64;
        pub fn probe_spell(value: *const u8, length: usize, out: *mut u8, room: usize) -> u64;
        pub fn probe_next_tag(
            page: *const u8,
            length: usize,
            at: usize,
            told: *mut [usize; 2],
        ) -> u8;
        pub fn probe_next_attr(
            page: *const u8,
            length: usize,
            at: usize,
            told: *mut [usize; 4],
        ) -> u8;
        pub fn probe_child(parent: u8, name: *const u8, length: usize) -> u8;
        pub fn probe_field(element: u8, name: *const u8, length: usize) -> usize;
        pub fn probe_keeps(id: usize, value: *const u8, length: usize) -> u8;
        #[allow(clippy::too_many_arguments)]
        pub fn probe_read(
            buffer: *const u8,
            size: usize,
            starts: *const usize,
            starts_count: usize,
            lens: *const usize,
            lens_count: usize,
            rows: *mut u32,
            rows_length: usize,
            text: *mut u8,
            text_length: usize,
            told: *mut [u32; 58],
        ) -> u32;
        pub fn probe_judge(page: *const u8, length: usize, told: *mut [usize; 1]) -> u8;
    }
}

/// The class of a byte as the proved table has it: 0 refused, 1 space, 2 digit, 3 capital letter, 4 small letter, 5 other mark.
pub fn class(byte: u8) -> u8 {
    // SAFETY: a number goes in and a number comes back.
    unsafe { border::probe_class(byte) }
}

/// How many bytes stand before the first one that is not allowed.
pub fn first_refused(bytes: &[u8]) -> usize {
    // SAFETY: the two arguments are one slice, which is only read.
    unsafe { border::probe_first_refused(bytes.as_ptr(), bytes.len()) }
}

/// Whether a page of at most 1,400 bytes is well-formed, or how many of its bytes are the longest good beginning.
pub fn scan(page: &[u8]) -> Result<(), usize> {
    // SAFETY: the two arguments are one slice, which is only read.
    match unsafe { border::probe_scan(page.as_ptr(), page.len()) } {
        2000 => Ok(()),
        good => Err(good),
    }
}

/// The value of the bytes between two quotes, with the byte 0 for a number out of range; and what stands behind it in a room that held `poison`.
pub fn value(raw: &[u8], poison: u8) -> (Vec<u8>, Vec<u8>) {
    let mut out = vec![poison; raw.len() + 5];
    // SAFETY: each pair of arguments is one slice; the second is written within its length.
    let length =
        unsafe { border::probe_value(raw.as_ptr(), raw.len(), out.as_mut_ptr(), out.len()) };
    let rest = out.split_off(length as usize);
    (out, rest)
}

/// The fresh spelling of a value, and what stands behind it in a room that held `poison`.
pub fn spell(value: &[u8], poison: u8) -> (Vec<u8>, Vec<u8>) {
    let mut out = vec![poison; 6 * value.len() + 5];
    // SAFETY: each pair of arguments is one slice; the second is written within its length.
    let length =
        unsafe { border::probe_spell(value.as_ptr(), value.len(), out.as_mut_ptr(), out.len()) };
    let rest = out.split_off(length as usize);
    (out, rest)
}

/// A tag or an attribute of a page, in the order in which they stand.
#[derive(Debug, PartialEq, Eq)]
pub enum Event<'a> {
    Start(usize, &'a [u8]),
    Attribute(&'a [u8], &'a [u8]),
    End,
}

/// The tags and attributes of a well-formed page as the proved walk finds them.
pub fn walk(page: &[u8]) -> Vec<Event<'_>> {
    let mut events = Vec::new();
    let mut at = 0;
    loop {
        let mut tag = [0; 2];
        // SAFETY: the page is one slice, which is only read; `told` has the two numbers that are written.
        match unsafe { border::probe_next_tag(page.as_ptr(), page.len(), at, &mut tag) } {
            1 => {
                events.push(Event::Start(tag[0], &page[tag[0] + 1..tag[1]]));
                attributes(page, tag[1], &mut events);
            }
            2 => events.push(Event::End),
            _ => return events,
        }
        at = tag[0] + 1;
    }
}

/// The attributes of the start tag whose name ends at `at`, and its end where it closes itself.
fn attributes<'a>(page: &'a [u8], mut at: usize, events: &mut Vec<Event<'a>>) {
    loop {
        let mut told = [0; 4];
        // SAFETY: the page is one slice, which is only read; `told` has the four numbers that are written.
        match unsafe { border::probe_next_attr(page.as_ptr(), page.len(), at, &mut told) } {
            2 => events.push(Event::Attribute(
                &page[told[0]..told[1]],
                &page[told[2]..told[3]],
            )),
            1 => return events.push(Event::End),
            _ => return,
        }
        at = told[3] + 1;
    }
}

/// The number of the element of that name under a parent (10 for none), 0 if it is unknown there.
pub fn child(parent: u8, name: &[u8]) -> u8 {
    // SAFETY: the name is one slice, which is only read.
    unsafe { border::probe_child(parent, name.as_ptr(), name.len()) }
}

/// The place in the table of 52 fields of the field of that name in an element, 52 if it is unknown there.
pub fn field(element: u8, name: &[u8]) -> usize {
    // SAFETY: the name is one slice, which is only read.
    unsafe { border::probe_field(element, name.as_ptr(), name.len()) }
}

/// Whether a value keeps the field at a place of the table: 0 no, 1 yes, 2 it is a dose of exactly 0.
pub fn keeps(id: usize, value: &[u8]) -> u8 {
    // SAFETY: the value is one slice, which is only read.
    unsafe { border::probe_keeps(id, value.as_ptr(), value.len()) }
}

/// A page judged: nothing where it has no fault, else its refusal number 2 to 8 and the place.
pub fn judge(page: &[u8]) -> Result<(), (u8, usize)> {
    let mut place = [0];
    // SAFETY: the page is one slice, which is only read; `told` has the one number that is written.
    match unsafe { border::probe_judge(page.as_ptr(), page.len(), &mut place) } {
        0 => Ok(()),
        number => Err((number, place[0])),
    }
}

/// What a call of the proved reader gives: the number, page and place of its refusal (0 0 0 for a plan), the patch, the number of rows and the head's
/// spans, and the lent rooms afterwards.
#[derive(Debug, PartialEq, Eq)]
pub struct Reading {
    pub refusal: [u32; 3],
    pub head: Vec<u32>,
    pub rows: Vec<u32>,
    pub text: Vec<u8>,
}

/// Reads a call with rooms that hold `poison`.
pub fn read(
    buffer: &[u8],
    starts: &[usize],
    lens: &[usize],
    room: (usize, usize),
    poison: u8,
) -> Reading {
    let mut rows = vec![u32::from(poison); room.0];
    let mut text = vec![poison; room.1];
    let mut told = [0; 58];
    // SAFETY: each pair of arguments is one slice; rows and text are written within their lengths, `told` has the 58 numbers that are written.
    let number = unsafe {
        border::probe_read(
            buffer.as_ptr(),
            buffer.len(),
            starts.as_ptr(),
            starts.len(),
            lens.as_ptr(),
            lens.len(),
            rows.as_mut_ptr(),
            rows.len(),
            text.as_mut_ptr(),
            text.len(),
            &mut told,
        )
    };
    Reading {
        refusal: [number, told[0], told[1]],
        head: told[2..].to_vec(),
        rows,
        text,
    }
}

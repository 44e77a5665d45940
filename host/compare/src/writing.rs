//! Writing: fresh pages of the plans that pages show, and of plans in numbers that a caller made up.

use inputs::numbers::PAGE_ROOM;
use inputs::vectors::Vector;
use inputs::Numbers;
use second::call::write_call;

use crate::numbers::{head, head_of, record, row_of, RECORD};

mod border {
    extern "C" {
        #[allow(clippy::too_many_arguments)]
        pub fn probe_write(
            numbers: *const [u32; 56],
            rows: *const u32,
            rows_length: usize,
            text: *const u8,
            text_length: usize,
            out: *mut u8,
            room: usize,
            told: *mut [u32; 11],
        ) -> u32;
    }
}

/// What stands in the room before a call, and must stand there afterwards wherever nothing was written.
const POISON: u8 = 0xA5;

/// What writing gives: the number and the place of its refusal (0 0 for pages), the number of pages and their lengths, and the lent room afterwards.
#[derive(Debug, PartialEq, Eq)]
pub struct Writing {
    pub refusal: [u32; 2],
    pub pages: u32,
    pub lens: [u32; 9],
    pub room: Vec<u8>,
}

/// Writes a plan in numbers into a room that holds [`POISON`].
pub fn write(numbers: &Numbers) -> Writing {
    let mut first = [0; 56];
    first[0] = numbers.patch;
    first[1] = numbers.count;
    first[2..].copy_from_slice(&numbers.head);
    let mut room = vec![POISON; numbers.room];
    let mut told = [0; 11];
    // SAFETY: `first` has the 56 numbers that are read; each pair of arguments is one slice, and the last is written within its length; `told` has the
    // eleven numbers that are written.
    let number = unsafe {
        border::probe_write(
            &first,
            numbers.rows.as_ptr(),
            numbers.rows.len(),
            numbers.text.as_ptr(),
            numbers.text.len(),
            room.as_mut_ptr(),
            room.len(),
            &mut told,
        )
    };
    let mut lens = [0; 9];
    lens.copy_from_slice(&told[2..]);
    Writing {
        refusal: [number, told[0]],
        pages: told[1],
        lens,
        room,
    }
}

/// What writing must give for an answer: the pages one behind the other and their lengths, or the number and the place of a refusal.
fn expected(answer: Result<(Vec<u8>, Vec<usize>), [u32; 2]>, size: usize) -> Writing {
    let mut writing = Writing {
        refusal: [0; 2],
        pages: 0,
        lens: [0; 9],
        room: vec![POISON; size],
    };
    match answer {
        Err(refusal) => writing.refusal = refusal,
        Ok((bytes, lens)) => {
            writing.room[..bytes.len()].copy_from_slice(&bytes);
            writing.pages = lens.len() as u32;
            for (place, length) in lens.into_iter().enumerate() {
                writing.lens[place] = length as u32;
            }
        }
    }
    writing
}

/// What the second program gives for a plan in numbers.
pub fn by_second(numbers: &Numbers) -> Writing {
    let head = head_of(numbers.patch, &numbers.head);
    let rows: Vec<_> = numbers.rows.chunks_exact(RECORD).map(row_of).collect();
    let count = numbers.count as usize;
    let answer = write_call(&head, &rows, count, &numbers.text, numbers.room);
    let answer = answer.map_err(|refusal| [refusal.number.into(), refusal.place as u32]);
    expected(answer, numbers.room)
}

/// The numbers of this seed, written: what is counted of it, and whether the second program gives just the same.
pub fn made_up(seed: u64) -> (Told, Vec<String>) {
    let numbers = inputs::numbers(seed);
    let given = write(&numbers);
    let expected = by_second(&numbers);
    let found = (given != expected).then(|| {
        let (given, expected) = (&given.refusal, &expected.refusal);
        format!("seed {seed}, {}: {given:?} for {expected:?}", numbers.what)
    });
    (Told::of(&numbers, &given), found.into_iter().collect())
}

/// What is counted of a writing: how its numbers were made, its refusal or 0, how many pages it has, and how many of them are full to the last byte.
pub struct Told {
    pub what: &'static str,
    pub number: u32,
    pub pages: u32,
    pub full: usize,
}

impl Told {
    fn of(numbers: &Numbers, given: &Writing) -> Told {
        let full = given.lens.iter().filter(|length| **length == 1_400);
        Told {
            what: numbers.what,
            number: given.refusal[0],
            pages: given.pages,
            full: full.count(),
        }
    }
}

/// The numbers of a plan that reading gave, with rooms for 256 rows and 12,600 bytes of text that hold other numbers behind the plan's.
pub fn lent(plan: &second::Plan) -> Numbers {
    let (numbers, mut text) = second::lay(plan);
    let first = head(&numbers);
    let mut rows: Vec<u32> = numbers.rows.iter().flat_map(record).collect();
    rows.resize(256 * RECORD, POISON.into());
    text.resize(second::TEXT_ROOM, POISON);
    Numbers {
        what: "read",
        patch: first[0],
        count: first[1],
        head: first[2..].to_vec(),
        rows,
        text,
        room: PAGE_ROOM,
    }
}

/// The plan of a set of pages, read by the second program, written fresh: whether the second program gives just the same. A set that is refused has no plan.
pub fn fresh(title: &str, pages: &[Vec<u8>]) -> Option<Vec<String>> {
    let slices: Vec<&[u8]> = pages.iter().map(Vec::as_slice).collect();
    let plan = second::read(&slices).ok()?;
    let given = write(&lent(&plan));
    let answer = match second::write(&plan) {
        Ok(pages) => Ok((pages.concat(), pages.iter().map(Vec::len).collect())),
        Err(refusal) => Err([refusal.number.into(), refusal.place as u32]),
    };
    let expected = expected(answer, PAGE_ROOM);
    let differs = given != expected;
    let line = || {
        format!(
            "{title}, fresh: {:?} for {:?}",
            given.refusal, expected.refusal
        )
    };
    Some(differs.then(line).into_iter().collect())
}

/// The same for a vector, against what the vector itself says. A vector that reading refuses has no plan.
pub fn vector(vector: &Vector) -> Option<Vec<String>> {
    let slices: Vec<&[u8]> = vector.pages.iter().map(Vec::as_slice).collect();
    let plan = second::read(&slices).ok()?;
    let answer = match &vector.fresh {
        Ok(pages) => Ok((pages.concat(), pages.iter().map(Vec::len).collect())),
        Err([number, _, place]) => Err([*number as u32, *place as u32]),
    };
    let differs = write(&lent(&plan)) != expected(answer, PAGE_ROOM);
    let line = || format!("line {}: its fresh pages or refusal", vector.line);
    Some(differs.then(line).into_iter().collect())
}

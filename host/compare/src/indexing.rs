//! The index of package numbers: built for rows and with a plan, by the reader and by the collector's, and asked.

use std::collections::BTreeMap;

use inputs::index::{asked, sheets, Asked};
use inputs::vectors::{IndexVector, Kth};
use inputs::Random;
use second::call::{add_call, collector_indexed_call, read_indexed_call};
use second::index::{build, Lent};
use second::layout::{Numbers, RowNumbers};
use second::{Pair, Refusal};

use crate::collecting::Collector;
use crate::numbers::{reading_of, row_of, RECORD};
use crate::Reading;

mod border {
    extern "C" {
        pub fn probe_build(
            rows: *const u32,
            rows_length: usize,
            count: u32,
            index: *mut u32,
            index_length: usize,
            told: *mut [u32; 1],
        ) -> u32;
        #[allow(clippy::too_many_arguments)]
        pub fn probe_first(
            rows: *const u32,
            rows_length: usize,
            count: u32,
            index: *const u32,
            index_length: usize,
            length: u32,
            number: u32,
            told: *mut [u32; 2],
        ) -> u32;
        #[allow(clippy::too_many_arguments)]
        pub fn probe_nth(
            rows: *const u32,
            rows_length: usize,
            count: u32,
            index: *const u32,
            index_length: usize,
            length: u32,
            number: u32,
            k: u32,
            told: *mut [u32; 2],
        ) -> u32;
        #[allow(clippy::too_many_arguments)]
        pub fn probe_all(
            rows: *const u32,
            rows_length: usize,
            count: u32,
            index: *const u32,
            index_length: usize,
            length: u32,
            number: u32,
            list: *mut u32,
            list_length: usize,
            told: *mut [u32; 2],
        ) -> u32;
        #[allow(clippy::too_many_arguments)]
        pub fn probe_indexed(
            buffer: *const u8,
            size: usize,
            starts: *const usize,
            starts_count: usize,
            lens: *const usize,
            lens_count: usize,
            rows: *mut u32,
            rows_length: usize,
            text: *mut u8,
            text_length: usize,
            index: *mut u32,
            index_length: usize,
            told: *mut [u32; 58],
            pairs: *mut [u32; 1],
        ) -> u32;
        #[allow(clippy::too_many_arguments)]
        pub fn probe_collected_indexed(
            pages: *const [u8; 12_600],
            lens: *const [u16; 9],
            numbers: *const [u8; 2],
            rows: *mut u32,
            rows_length: usize,
            text: *mut u8,
            text_length: usize,
            index: *mut u32,
            index_length: usize,
            told: *mut [u32; 58],
            pairs: *mut [u32; 1],
        ) -> u32;
    }
}

/// What stands in the rooms for rows and text before a reading, and in numbers to be told before a call.
const POISON: u8 = 0xA5;
const UNTOLD: u32 = 0xA5A5_A5A5;

/// How often each answer was given.
pub type Tally = BTreeMap<String, u64>;

fn count(tally: &mut Tally, what: String) {
    *tally.entry(what).or_default() += 1;
}

/// What may stand in the room for an index or a list before a call, so that what is laid there by mistake, or taken from there, shows.
fn filling(random: &mut Random) -> u32 {
    *random.pick(&[0, 1, 17, UNTOLD, UNTOLD, u32::MAX])
}

/// Numbers laid at the beginning of a room, or as many as it has.
fn laid(mut room: Vec<u32>, numbers: &[u32]) -> Vec<u32> {
    let length = numbers.len().min(room.len());
    room[..length].copy_from_slice(&numbers[..length]);
    room
}

/// The numbers of pairs, one behind the other.
fn flat(pairs: &[Pair]) -> Vec<u32> {
    let numbers = pairs.iter().map(|pair| [pair.number, pair.row as u32]);
    numbers.collect::<Vec<_>>().concat()
}

/// Rows and pairs as they are lent, and how many of them count; and as the second program has them.
struct Asking<'a> {
    rows: &'a [u32],
    count: u32,
    index: &'a [u32],
    length: u32,
    records: Vec<RowNumbers>,
    pairs: Vec<Pair>,
}

/// What building gives: the number of the refusal, 0 for an index; the number of pairs that is told; and the lent room afterwards.
#[derive(Debug, PartialEq, Eq)]
struct Built {
    refusal: u32,
    pairs: u32,
    room: Vec<u32>,
}

/// A package number, k, and the numbers lent for a list of rows.
#[derive(Clone, Copy, Debug)]
struct Question {
    number: u32,
    k: u32,
    list: usize,
    filling: u32,
}

/// The answers to a question: the first row and how many rows hold the number; its k-th row; and all its rows. A refusal is its number.
struct Answers {
    held: Result<Option<[u32; 2]>, u32>,
    kth: Result<Kth, u32>,
    all: Result<Vec<u32>, u32>,
}

/// The same as the proved functions tell it: the number of the refusal and two more for each, and the lent list afterwards.
#[derive(Debug, PartialEq, Eq)]
struct Told {
    first: [u32; 3],
    nth: [u32; 3],
    all: [u32; 3],
    list: Vec<u32>,
}

/// What is told of rows that hold a number: nothing where there are none.
fn held_told(held: Result<Option<[u32; 2]>, u32>) -> [u32; 3] {
    match held {
        Err(refusal) => [refusal, UNTOLD, UNTOLD],
        Ok(None) => [0, UNTOLD, UNTOLD],
        Ok(Some([first, count])) => [0, count, first],
    }
}

impl Answers {
    /// What must be told. A list for fewer than 256 rows is refused with 1, before anything else is looked at.
    fn told(&self, question: Question) -> Told {
        let all = match question.list < second::MOST_ROWS {
            true => Err(1),
            false => self.all.clone(),
        };
        let list = vec![question.filling; question.list];
        Told {
            first: held_told(self.held),
            nth: match self.kth {
                Err(refusal) => [refusal, UNTOLD, UNTOLD],
                Ok(Kth::Absent) => [0, 0, UNTOLD],
                Ok(Kth::None) => [0, 1, UNTOLD],
                Ok(Kth::Row(row)) => [0, 2, row],
            },
            list: laid(list, all.as_deref().unwrap_or(&[])),
            all: held_told(all.map(|rows| rows.first().map(|first| [*first, rows.len() as u32]))),
        }
    }

    /// In a word, as it is counted.
    fn word(&self) -> String {
        match self.kth {
            Err(refusal) => format!("refused with {refusal}"),
            Ok(Kth::Absent) => "absent".to_string(),
            Ok(Kth::None) => "none".to_string(),
            Ok(Kth::Row(_)) => "a row".to_string(),
        }
    }
}

impl<'a> Asking<'a> {
    fn new(rows: &'a [u32], count: u32, index: &'a [u32], length: u32) -> Asking<'a> {
        let pairs = index.chunks_exact(2);
        Asking {
            rows,
            count,
            index,
            length,
            records: rows.chunks_exact(RECORD).map(row_of).collect(),
            pairs: pairs
                .map(|pair| Pair {
                    number: pair[0],
                    row: pair[1] as usize,
                })
                .collect(),
        }
    }

    /// The index of the rows, built by the proved code into a room.
    fn built(&self, mut room: Vec<u32>) -> Built {
        let mut told = [UNTOLD];
        // SAFETY: each pair of a start and a length is one slice; the second is written within its length; `told` has the one number that is written.
        let refusal = unsafe {
            border::probe_build(
                self.rows.as_ptr(),
                self.rows.len(),
                self.count,
                room.as_mut_ptr(),
                room.len(),
                &mut told,
            )
        };
        Built {
            refusal,
            pairs: told[0],
            room,
        }
    }

    /// The same by the second program.
    fn must_build(&self, room: Vec<u32>) -> Built {
        let built = build(&self.records, self.count as usize, room.len() / 2);
        match built {
            Err(refusal) => Built {
                refusal: refusal.number.into(),
                pairs: UNTOLD,
                room,
            },
            Ok(pairs) => Built {
                refusal: 0,
                pairs: pairs.len() as u32,
                room: laid(room, &flat(&pairs)),
            },
        }
    }

    /// What the proved code tells about a number.
    fn told(&self, question: Question) -> Told {
        let [mut first, mut nth, mut all] = [[UNTOLD; 2]; 3];
        let mut list = vec![question.filling; question.list];
        let (rows, rows_length) = (self.rows.as_ptr(), self.rows.len());
        let (index, index_length) = (self.index.as_ptr(), self.index.len());
        // SAFETY: each pair of a start and a length is one slice, of which only the list is written, within its length; the three have the two numbers that
        // are written.
        let refusals = unsafe {
            [
                border::probe_first(
                    rows,
                    rows_length,
                    self.count,
                    index,
                    index_length,
                    self.length,
                    question.number,
                    &mut first,
                ),
                border::probe_nth(
                    rows,
                    rows_length,
                    self.count,
                    index,
                    index_length,
                    self.length,
                    question.number,
                    question.k,
                    &mut nth,
                ),
                border::probe_all(
                    rows,
                    rows_length,
                    self.count,
                    index,
                    index_length,
                    self.length,
                    question.number,
                    list.as_mut_ptr(),
                    list.len(),
                    &mut all,
                ),
            ]
        };
        Told {
            first: [refusals[0], first[0], first[1]],
            nth: [refusals[1], nth[0], nth[1]],
            all: [refusals[2], all[0], all[1]],
            list,
        }
    }

    /// What the second program answers.
    fn answers(&self, question: Question) -> Answers {
        let number = |refusal: Refusal| u32::from(refusal.number);
        let lent = Lent {
            rows: &self.records,
            row_count: self.count as usize,
            pairs: &self.pairs,
            index_length: self.length as usize,
        };
        let held = lent.held(question.number).map_err(number);
        let kth = lent.kth(question.number, question.k as usize);
        let all = lent.all(question.number).map_err(number);
        Answers {
            held: held.map(|held| held.map(|held| [held.first as u32, held.count as u32])),
            kth: kth.map_err(number).map(|kth| match kth {
                second::index::Kth::Row(row) => Kth::Row(row as u32),
                second::index::Kth::None => Kth::None,
                second::index::Kth::Absent => Kth::Absent,
            }),
            all: all.map(|rows| rows.into_iter().map(|row| row as u32).collect()),
        }
    }

    /// A question answered by both; the difference, if there is one.
    fn compared(&self, title: &str, question: Question, tally: &mut Tally) -> Option<String> {
        let answers = self.answers(question);
        count(tally, format!("question, {}", answers.word()));
        let (given, expected) = (self.told(question), answers.told(question));
        if expected.all[0] == 1 && expected.first[0] != 1 {
            count(tally, "question, refused with 1 for its list".to_string());
        }
        (given != expected).then(|| format!("{title}, {question:?}: {given:?} for {expected:?}"))
    }
}

/// The rooms lent to a reading: the numbers of rows, the bytes of text, the numbers of the index and what stands there.
#[derive(Clone, Copy, Debug)]
struct Room {
    plan: (usize, usize),
    index: usize,
    filling: u32,
}

/// The room that a plan and its index need.
const ROOM: Room = Room {
    plan: (second::MOST_ROWS * RECORD, second::TEXT_ROOM),
    index: 2 * second::MOST_PAIRS,
    filling: UNTOLD,
};

impl Room {
    /// Mostly as much as is needed or more, at times one less or none.
    fn random(random: &mut Random) -> Room {
        let ((rows, text), index) = (ROOM.plan, ROOM.index);
        let mut room = Room {
            filling: filling(random),
            ..ROOM
        };
        match random.below(16) {
            0 | 1 => room.index = *random.pick(&[index - 1, index - 2, index / 2, 1, 0]),
            2 => room.plan.0 = *random.pick(&[rows - 1, rows - RECORD, 0]),
            3 => room.plan.1 = *random.pick(&[text - 1, 0]),
            4 => room.index = *random.pick(&[index + 1, index + 2, 2 * index]),
            5 => room.plan = (rows + *random.pick(&[1, RECORD]), text + 1),
            _ => {}
        }
        room
    }

    /// What the second program's reading into so many rows, bytes and pairs must leave here.
    fn expected(self, read: impl Fn(usize, usize, usize) -> IndexedCall) -> Indexed {
        let answer = read(self.plan.0 / RECORD, self.plan.1, self.index / 2);
        let (plan, pairs) = match answer {
            Err(refusal) => (Err(refusal), Vec::new()),
            Ok((numbers, text, pairs)) => (Ok((numbers, text)), pairs),
        };
        Indexed {
            reading: reading_of(plan, self.plan, POISON),
            pairs: pairs.len() as u32,
            index: laid(vec![self.filling; self.index], &flat(&pairs)),
        }
    }

    /// The proved reader's call into these rooms, which gets rows, text and index each with its length, and the numbers that are told.
    fn given(
        self,
        call: impl FnOnce(&mut [u32], &mut [u8], &mut [u32], &mut [u32; 58], &mut [u32; 1]) -> u32,
    ) -> Indexed {
        let mut rows = vec![u32::from(POISON); self.plan.0];
        let mut text = vec![POISON; self.plan.1];
        let mut index = vec![self.filling; self.index];
        let (mut told, mut pairs) = ([0; 58], [UNTOLD]);
        let number = call(&mut rows, &mut text, &mut index, &mut told, &mut pairs);
        let reading = Reading {
            refusal: [number, told[0], told[1]],
            head: told[2..].to_vec(),
            rows,
            text,
        };
        Indexed {
            reading,
            pairs: pairs[0],
            index,
        }
    }
}

/// What the second program answers to a reading with an index.
type IndexedCall = Result<(Numbers, Vec<u8>, Vec<Pair>), Refusal>;

/// What reading with an index gives: what reading gives, how many pairs there are, and the lent room for them afterwards.
#[derive(Debug, PartialEq, Eq)]
struct Indexed {
    reading: Reading,
    pairs: u32,
    index: Vec<u32>,
}

/// A call of the reader: pages as ranges of a buffer.
struct Call {
    buffer: Vec<u8>,
    starts: Vec<usize>,
    lens: Vec<usize>,
}

impl Call {
    /// The pages one behind the other.
    fn of(pages: &[Vec<u8>]) -> Call {
        let lens: Vec<usize> = pages.iter().map(Vec::len).collect();
        Call {
            buffer: pages.concat(),
            starts: (0..lens.len()).map(|at| lens[..at].iter().sum()).collect(),
            lens,
        }
    }

    /// One more start than lengths, a range outside the buffer, or no page.
    fn break_it(&mut self, random: &mut Random) {
        match (random.below(4), self.lens.last_mut()) {
            (0, _) => self.starts.push(0),
            (1, Some(last)) => *last += 1,
            (2, Some(last)) => *last = usize::MAX,
            _ => (self.starts, self.lens) = (Vec::new(), Vec::new()),
        }
    }

    fn read(&self, room: Room) -> Indexed {
        room.given(|rows, text, index, told, pairs| {
            // SAFETY: each pair of arguments is one slice; rows, text and index are written within their lengths, `told` and `pairs` have the numbers that
            // are written.
            unsafe {
                border::probe_indexed(
                    self.buffer.as_ptr(),
                    self.buffer.len(),
                    self.starts.as_ptr(),
                    self.starts.len(),
                    self.lens.as_ptr(),
                    self.lens.len(),
                    rows.as_mut_ptr(),
                    rows.len(),
                    text.as_mut_ptr(),
                    text.len(),
                    index.as_mut_ptr(),
                    index.len(),
                    told,
                    pairs,
                )
            }
        })
    }

    fn must_read(&self, room: Room) -> Indexed {
        room.expected(|rows, text, pairs| {
            read_indexed_call(&self.buffer, &self.starts, &self.lens, rows, text, pairs)
        })
    }

    /// The same call without an index.
    fn without(&self, room: Room) -> Reading {
        crate::read(&self.buffer, &self.starts, &self.lens, room.plan, POISON)
    }
}

impl Collector {
    fn read_indexed(&self, room: Room) -> Indexed {
        room.given(|rows, text, index, told, pairs| {
            // SAFETY: the collector's fields are only read; rows, text and index are written within their lengths, `told` and `pairs` have the numbers that
            // are written.
            unsafe {
                border::probe_collected_indexed(
                    &*self.pages,
                    &self.lens,
                    &self.numbers,
                    rows.as_mut_ptr(),
                    rows.len(),
                    text.as_mut_ptr(),
                    text.len(),
                    index.as_mut_ptr(),
                    index.len(),
                    told,
                    pairs,
                )
            }
        })
    }
}

/// What differs between what reading with an index gives and must give. Where there is room for the index, the rest is as without it.
fn unlike(title: &str, given: &Indexed, must: &Indexed, without: &Reading) -> Vec<String> {
    let mut found = Vec::new();
    let room = given.index.len() >= ROOM.index;
    if given != must {
        let (given, must) = (&given.reading.refusal, &must.reading.refusal);
        found.push(format!(
            "{title}: read with the index ({given:?}, {must:?})"
        ));
    }
    if room && given.reading != *without {
        found.push(format!("{title}: read as without the index"));
    }
    found
}

/// The rows and the index of this seed, and its sheets, read and collected: what differs, and how often each answer was given.
pub fn differences(seed: u64, tally: &mut Tally) -> Vec<String> {
    let mut random = Random::new(seed ^ 0x1D3C);
    let title = format!("seed {seed}");
    let mut found = questions(&title, &asked(seed), &mut random, tally);
    let sheets = sheets(seed);
    let meant = sheets.meant.as_deref();
    found.extend(read(
        &title,
        &sheets.pages,
        meant,
        &sheets.numbers,
        &mut random,
        tally,
    ));
    found.extend(collected(&title, &sheets.pages, &mut random, tally));
    found
}

/// An index built, and each question asked, with the rows and the pairs that a caller lends.
fn questions(title: &str, asked: &Asked, random: &mut Random, tally: &mut Tally) -> Vec<String> {
    let title = format!("{title}, {:?}", asked.what);
    let asking = Asking::new(&asked.rows, asked.count, &asked.index, asked.length);
    let room = vec![filling(random); asked.room];
    let (given, expected) = (asking.built(room.clone()), asking.must_build(room));
    count(tally, format!("built, answer {}", expected.refusal));
    let differs = given != expected;
    let line = || format!("{title}: built {given:?} for {expected:?}");
    let mut found: Vec<String> = differs.then(line).into_iter().collect();
    for [number, k] in &asked.questions {
        let question = Question {
            number: *number,
            k: *k,
            list: *random.pick(&[256, 256, 256, 256, 256, 257, 300, 255, 0]),
            filling: filling(random),
        };
        found.extend(asking.compared(&title, question, tally));
    }
    found
}

/// Pages read with their index, which is the one that was meant, and the numbers looked for in it as it was left in its room.
fn read(
    title: &str,
    pages: &[Vec<u8>],
    meant: Option<&[[u32; 2]]>,
    numbers: &[u32],
    random: &mut Random,
    tally: &mut Tally,
) -> Vec<String> {
    let room = Room::random(random);
    let mut call = Call::of(pages);
    if random.chance(4) {
        call.break_it(random);
    }
    let given = call.read(room);
    let refusal = given.reading.refusal[0];
    count(tally, format!("reading, answer {refusal}"));
    let mut found = unlike(title, &given, &call.must_read(room), &call.without(room));
    if refusal != 0 {
        return found;
    }
    let length = 2 * given.pairs as usize;
    if meant.is_some_and(|meant| meant.concat() != given.index[..length]) {
        found.push(format!("{title}: the index that was meant"));
    }
    let rows = given.reading.head[1];
    let asking = Asking::new(&given.reading.rows, rows, &given.index, given.pairs);
    for number in numbers {
        let question = Question {
            number: *number,
            k: random.between(0, 3) as u32,
            list: second::MOST_ROWS,
            filling: filling(random),
        };
        found.extend(asking.compared(title, question, tally));
    }
    found
}

/// Pages handed to a collector in any order, which is read with its index after the last and at times before.
fn collected(
    title: &str,
    pages: &[Vec<u8>],
    random: &mut Random,
    tally: &mut Tally,
) -> Vec<String> {
    let mut pages = pages.to_vec();
    random.shuffle(&mut pages);
    let (mut proved, mut second) = (Collector::new(), second::Collector::new());
    let mut found = Vec::new();
    for (at, page) in pages.iter().enumerate() {
        proved.add(page, 0, page.len());
        add_call(&mut second, page, 0, page.len());
        if at + 1 < pages.len() && random.chance(75) {
            continue;
        }
        let room = Room::random(random);
        let given = proved.read_indexed(room);
        let must =
            room.expected(|rows, text, pairs| collector_indexed_call(&second, rows, text, pairs));
        let refusal = must.reading.refusal[0];
        count(tally, format!("collected, answer {refusal}"));
        let title = format!("{title}, {} collected", at + 1);
        found.extend(unlike(&title, &given, &must, &proved.read(room.plan)));
    }
    found
}

/// A vector: its index as reading, collecting and building give it, and its question asked of the rows with the index that it names, which must be answered
/// as it says.
pub fn vector(vector: &IndexVector) -> Vec<String> {
    let title = format!("line {}", vector.line);
    let call = Call::of(&vector.pages);
    let given = call.read(ROOM);
    let mut found = unlike(&title, &given, &call.must_read(ROOM), &call.without(ROOM));
    let built = laid(vec![UNTOLD; ROOM.index], &vector.built.concat());
    let pairs = vector.built.len() as u32;
    let mut collector = Collector::new();
    for page in &vector.pages {
        collector.add(page, 0, page.len());
    }
    if collector.read_indexed(ROOM) != given {
        found.push(format!("{title}: collected"));
    }
    let asked = vector.asked.concat();
    let (rows, count) = (&given.reading.rows, given.reading.head[1]);
    let asking = Asking::new(rows, count, &asked, vector.asked.len() as u32);
    let room = asking.built(vec![UNTOLD; ROOM.index]);
    if given.index != built || given.pairs != pairs || room.room != built || room.pairs != pairs {
        found.push(format!("{title}: the index"));
    }
    let question = Question {
        number: vector.number,
        k: vector.k,
        list: second::MOST_ROWS,
        filling: UNTOLD,
    };
    let holding = vector
        .built
        .iter()
        .filter(|[number, _]| *number == vector.number);
    let rows = holding.map(|[_, row]| *row).collect();
    let answers = Answers {
        held: vector.held.map_err(|refusal| refusal[0] as u32),
        kth: vector.kth.map_err(|refusal| refusal[0] as u32),
        all: vector
            .held
            .map(|_| rows)
            .map_err(|refusal| refusal[0] as u32),
    };
    let (given, expected) = (asking.told(question), answers.told(question));
    if given != expected {
        found.push(format!("{title}: {given:?} for {expected:?}"));
    }
    found
}

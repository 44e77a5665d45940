//! The laws of the index: its answers are those that the rows themselves, or the listing of the same sheets, show without an index.

use super::{demand, number_of, Answers, Verdict, REFUSED_WITH_1};
use inputs::index::{asked, find_input, sheets, Asked, Sheets};
use inputs::numbers::RECORD;
use second::index::{build, Held, Kth, Lent};
use second::layout::RowNumbers;
use second::{find, index_of, lay, planfind, planlist, read, refusal_lines, Pair, Refusal};

const MOST_ROWS: usize = 256;
const REFUSED_WITH_20: Refusal = Refusal {
    number: 20,
    page: 0,
    place: 0,
};

/// Tries every law on the index and the sheets of one seed, and counts the answers.
pub fn check(seed: u64, answers: &mut Answers) -> Verdict {
    questions_are_answered_by_the_rows(&asked(seed), answers)?;
    sheets_are_indexed_as_meant(&sheets(seed), answers)?;
    planfind_prints_what_planlist_shows(&find_input(seed), answers)
}

/// A record as the second program has it.
fn row_of(record: &[u32]) -> RowNumbers {
    let kind = match record[0] {
        1 => b'H',
        2 => b'M',
        3 => b'R',
        4 => b'X',
        _ => 0,
    };
    RowNumbers {
        package: record[1],
        ..RowNumbers::empty(kind)
    }
}

/// The package number of a record, where it is one of a medication.
fn package_of(record: &[u32]) -> Option<u32> {
    (record[0] == 2 && record[1] != 0).then_some(record[1])
}

/// Whether pairs are the index of records: there are as many as records with a number, each is greater than the one before, and each names its row.
fn is_index(pairs: &[Pair], records: &[&[u32]]) -> bool {
    let numbered = records.iter().filter_map(|record| package_of(record));
    let named = |pair: &Pair| {
        let record = pair.row.checked_sub(1).and_then(|at| records.get(at));
        record.is_some_and(|record| package_of(record) == Some(pair.number))
    };
    let greater = |two: &[Pair]| (two[0].number, two[0].row) < (two[1].number, two[1].row);
    pairs.len() == numbered.count() && pairs.iter().all(named) && pairs.windows(2).all(greater)
}

/// What is wrong with rows and index as they are lent: 1, then 20.
fn fault(asked: &Asked, records: &[&[u32]], pairs: &[Pair]) -> Result<(), Refusal> {
    let (count, length) = (asked.count as usize, asked.length as usize);
    if count > MOST_ROWS || count > records.len() || length > pairs.len() {
        return Err(REFUSED_WITH_1);
    }
    match is_index(&pairs[..length], &records[..count]) {
        true => Ok(()),
        false => Err(REFUSED_WITH_20),
    }
}

/// An index is built, and each question answered or refused, as the rows themselves show.
fn questions_are_answered_by_the_rows(asked: &Asked, answers: &mut Answers) -> Verdict {
    let records: Vec<&[u32]> = asked.rows.chunks_exact(RECORD).collect();
    let rows: Vec<RowNumbers> = records.iter().map(|record| row_of(record)).collect();
    let pairs = asked.index.chunks_exact(2);
    let pairs: Vec<Pair> = pairs
        .map(|pair| Pair {
            number: pair[0],
            row: pair[1] as usize,
        })
        .collect();
    let count = asked.count as usize;
    let too_few = count > MOST_ROWS || count > rows.len() || asked.room < 2 * MOST_ROWS;
    let built = build(&rows, count, asked.room / 2);
    let right = match &built {
        Ok(built) => !too_few && is_index(built, &records[..count]),
        Err(refusal) => too_few && *refusal == REFUSED_WITH_1,
    };
    demand(right, || format!("built {built:?} for {:?}", asked.what))?;
    *answers
        .entry(if too_few { "building 1" } else { "built" })
        .or_default() += 1;
    let lent = Lent {
        rows: &rows,
        row_count: count,
        pairs: &pairs,
        index_length: asked.length as usize,
    };
    let fault = fault(asked, &records, &pairs);
    for [number, k] in &asked.questions {
        let holds = |row: &usize| package_of(records[row - 1]) == Some(*number);
        let all = fault
            .clone()
            .map(|()| (1..=count).filter(holds).collect::<Vec<_>>());
        let held = all.clone().map(|all| {
            all.first().map(|first| Held {
                first: *first,
                count: all.len(),
            })
        });
        let kth = all
            .clone()
            .map(|all| match all.get((*k as usize).wrapping_sub(1)) {
                _ if all.is_empty() => Kth::Absent,
                Some(row) => Kth::Row(*row),
                None => Kth::None,
            });
        let right = lent.all(*number) == all
            && lent.held(*number) == held
            && lent.kth(*number, *k as usize) == kth;
        demand(right, || {
            format!("number {number}, k {k} is not {kth:?} for {:?}", asked.what)
        })?;
        let what = match kth {
            Ok(Kth::Row(_)) => "row",
            Ok(Kth::None) => "none",
            Ok(Kth::Absent) => "absent",
            Err(REFUSED_WITH_1) => "question 1",
            Err(_) => "question 20",
        };
        *answers.entry(what).or_default() += 1;
    }
    Ok(())
}

/// The rows that hold a number, by the lines of a listing.
fn listed_rows(listing: &[u8], number: u32) -> Vec<usize> {
    let wanted = format!("MP.S.M.p={number}").into_bytes();
    let (mut row, mut rows) = (0, Vec::new());
    for line in listing.split(|byte| *byte == b'\n') {
        if line.starts_with(b"row=") {
            row += 1;
        }
        if line == wanted {
            rows.push(row);
        }
    }
    rows
}

/// Sheets give the index that the generator meant, and a number is found in the rows where their listing has it.
fn sheets_are_indexed_as_meant(sheets: &Sheets, answers: &mut Answers) -> Verdict {
    let pages: Vec<&[u8]> = sheets.pages.iter().map(Vec::as_slice).collect();
    let plan = read(&pages);
    let index = plan.as_ref().map(|plan| index_of(&lay(plan).0.rows));
    if let Some(meant) = &sheets.meant {
        let given = index.as_ref().map(|index| {
            let pair = |pair: &Pair| [pair.number, pair.row as u32];
            index.iter().map(pair).collect::<Vec<_>>()
        });
        demand(given.as_ref() == Ok(meant), || {
            format!("the index is {given:?}")
        })?;
    }
    for number in &sheets.numbers {
        let found = find(&pages, *number);
        let right = match &plan {
            Ok(plan) => Ok(listed_rows(&second::listing(plan), *number)),
            Err(refusal) => Err(refusal.clone()),
        };
        demand(found == right, || format!("{number} is found in {found:?}"))?;
        let what = match right {
            Ok(rows) if rows.is_empty() => "not found in sheets",
            Ok(_) => "found in sheets",
            Err(_) => "sheets refused",
        };
        *answers.entry(what).or_default() += 1;
    }
    Ok(())
}

/// Planfind prints the rows that planlist's lines show, or planlist's refusal, or 1 where no number stands first.
fn planfind_prints_what_planlist_shows(input: &[u8], answers: &mut Answers) -> Verdict {
    let mut parts = input.splitn(2, |byte| *byte == 0);
    let number = parts.next().and_then(number_of);
    let (what, right) = match (number, parts.next().map(planlist)) {
        (Some(_), Some(listing)) if listing.starts_with(b"refused=") => {
            ("planfind refuses pages", listing)
        }
        (Some(number), Some(listing)) => {
            let rows = listed_rows(&listing, number);
            let lines = rows.iter().map(|row| format!("row={row}\n"));
            let lines = format!("held={}\n{}", rows.len(), lines.collect::<String>());
            ("planfind finds", lines.into_bytes())
        }
        _ => (
            "planfind refuses the number",
            refusal_lines(&REFUSED_WITH_1),
        ),
    };
    *answers.entry(what).or_default() += 1;
    let printed = planfind(input);
    demand(printed == right, || {
        format!("planfind prints {}", printed.escape_ascii())
    })
}

//! Cutting: divides the rows of a plan into pages, each with the whole head, in any of the ways that join to the same plan.

use crate::disguise;
use crate::plan::{Element, Plan, Value};
use crate::random::Random;
use crate::spelling::{bare, Manner, LONGEST_PAGE};

/// The most pages a plan may have.
pub const MOST_PAGES: usize = 9;

/// The bytes of ` a="1" z="1"` and of `<S></S>`, which a page may need beside its head and rows.
const NUMBERS_AND_SECTION: usize = 12 + 7;

/// How a plan is cut.
#[derive(Clone, Copy, Debug)]
pub struct Cut {
    /// The longest a page may be when spelled bare.
    pub room: usize,
    /// Whether each page takes as many rows as fit; otherwise it takes any number of them.
    pub greedy: bool,
}

impl Cut {
    /// As few pages as the plan allows.
    pub const FULL: Cut = Cut {
        room: LONGEST_PAGE,
        greedy: true,
    };

    /// Some cut, mostly with room left for the spelling.
    pub fn random(random: &mut Random) -> Cut {
        Cut {
            room: *random.pick(&[700, 900, 1100, 1300, LONGEST_PAGE]),
            greedy: random.chance(30),
        }
    }
}

/// The pages of the plan in their order, numbered; nothing when this cut does not end within nine pages.
pub fn pages(plan: &Plan, cut: Cut, manner: Manner, random: &mut Random) -> Option<Vec<Element>> {
    let mut pages = Vec::new();
    let mut done = 0;
    for count in counts(plan, cut, random)? {
        let rows = &plan.rows[done..done + count];
        let disguised = disguised_page(plan, rows, manner, random);
        let fits = bare(&disguised).len() + NUMBERS_AND_SECTION <= LONGEST_PAGE;
        pages.push(if fits {
            disguised
        } else {
            plain_page(plan, rows)
        });
        done += count;
    }
    number(&mut pages, manner, random);
    Some(pages)
}

/// How many rows each page takes.
fn counts(plan: &Plan, cut: Cut, random: &mut Random) -> Option<Vec<usize>> {
    let room = cut.room.checked_sub(head_size(plan))?;
    let sizes: Vec<usize> = plan.rows.iter().map(size).collect();
    let mut counts = Vec::new();
    let mut done = 0;
    while done < sizes.len() || counts.is_empty() {
        let most = fitting(&sizes[done..], room);
        if counts.len() == MOST_PAGES || most == 0 && done < sizes.len() {
            return None;
        }
        let count = match cut.greedy {
            true => most,
            false => {
                let least = usize::from(most > 0 && random.chance(95));
                random.between(least, most)
            }
        };
        counts.push(count);
        done += count;
    }
    Some(counts)
}

/// The most rows, from the first, that a cut into nine pages can hold; nothing when the head alone is too long.
pub fn most_rows(plan: &Plan) -> Option<usize> {
    let room = LONGEST_PAGE.checked_sub(head_size(plan))?;
    let sizes: Vec<usize> = plan.rows.iter().map(size).collect();
    let mut done = 0;
    for _ in 0..MOST_PAGES {
        done += fitting(&sizes[done..], room);
    }
    Some(done)
}

/// The bytes of a page without rows when spelled bare, and what it may need beside them.
fn head_size(plan: &Plan) -> usize {
    bare(&plain_page(plan, &[])).len() + NUMBERS_AND_SECTION
}

/// The bytes that a row adds to a page when spelled bare.
fn size(row: &Element) -> usize {
    let end_tag = if row.name == "S" { "</S>".len() } else { 0 };
    bare(row).len() + end_tag
}

/// How many of these rows, from the first, go into this room.
fn fitting(sizes: &[usize], room: usize) -> usize {
    let mut used = 0;
    let fits = |size: &&usize| {
        used += **size;
        used <= room
    };
    sizes.iter().take_while(fits).count()
}

/// The page with these rows and nothing that could be left out.
fn plain_page(plan: &Plan, rows: &[Element]) -> Element {
    let mut root = plan.mp.clone();
    if root.meant("l").is_some_and(|language| language == b"de-DE") {
        root.unset("l");
    }
    root.children = plan.people.clone();
    for row in rows {
        section_of(&mut root, row);
    }
    root
}

/// Puts the row into the last section, or opens one where the row needs it.
fn section_of(root: &mut Element, row: &Element) {
    if row.name == "S" {
        root.children.push(row.clone());
        return;
    }
    if root.children.last().is_none_or(|last| last.name != "S") {
        root.children.push(Element::new("S"));
    }
    let last = root.children.len() - 1;
    root.children[last].children.push(row.clone());
}

/// The page with these rows, split into more sections than needed and with fields stated in other ways.
fn disguised_page(plan: &Plan, rows: &[Element], manner: Manner, random: &mut Random) -> Element {
    let mut root = plan.mp.clone();
    disguise::element(&mut root, manner.disguise, random);
    root.children = plan.people.clone();
    if plan.people.len() == 2 && random.chance(manner.disguise) {
        root.children.push(Element::new("O"));
    }
    for person in &mut root.children {
        disguise::element(person, manner.disguise, random);
    }
    for row in rows {
        let mut row = row.clone();
        disguise::element(&mut row, manner.disguise / 2, random);
        empty_section(&mut root, manner, random);
        section_of(&mut root, &row);
    }
    empty_section(&mut root, manner, random);
    root
}

/// At times opens a section without heading, which carries on the rows before it.
fn empty_section(root: &mut Element, manner: Manner, random: &mut Random) {
    if random.chance(manner.disguise / 4) {
        let mut section = Element::new("S");
        if random.chance(40) {
            let blank = random.word(&["", " ", "  "]).as_bytes().to_vec();
            section.set(random.word(&["c", "t"]), Value::Meant(blank));
        }
        root.children.push(section);
    }
}

/// Gives each page its number and the count; a single page may do without.
fn number(pages: &mut [Element], manner: Manner, random: &mut Random) {
    let count = pages.len();
    for (place, page) in pages.iter_mut().enumerate() {
        match count == 1 && random.chance(50) {
            true if random.chance(manner.disguise / 2) => set_numbers(page, "", " "),
            true => {}
            false => set_numbers(page, &(place + 1).to_string(), &count.to_string()),
        }
    }
}

/// Writes page number and page count into the page, whatever they are.
pub fn set_numbers(page: &mut Element, number: &str, count: &str) {
    page.set("a", Value::Meant(number.as_bytes().to_vec()));
    page.set("z", Value::Meant(count.as_bytes().to_vec()));
}

#[cfg(test)]
mod tests {
    use super::*;
    use crate::plan::Shape;
    use crate::spelling::BARE;

    #[test]
    fn every_row_stands_on_one_page_in_its_order() {
        for seed in 0..300 {
            let mut random = Random::new(seed);
            let shape = Shape::usual(12, &mut random);
            let plan = Plan::random(shape, &mut random);
            let cut = Cut::random(&mut random);
            let Some(pages) = pages(&plan, cut, BARE, &mut random) else {
                continue;
            };
            let mut rows = Vec::new();
            for section in pages
                .iter()
                .flat_map(|page| &page.children)
                .filter(|child| child.name == "S")
            {
                if !section.attributes.is_empty() {
                    rows.push(Element {
                        children: Vec::new(),
                        ..section.clone()
                    });
                }
                rows.extend(section.children.clone());
            }
            assert_eq!(rows, plan.rows);
        }
    }

    #[test]
    fn pages_have_room_for_their_bare_spelling() {
        for seed in 0..300 {
            let mut random = Random::new(seed);
            let shape = Shape::usual(40, &mut random);
            let plan = Plan::random(shape, &mut random);
            let manner = Manner::random(&mut random);
            for page in pages(&plan, Cut::FULL, manner, &mut random)
                .into_iter()
                .flatten()
            {
                assert!(bare(&page).len() <= LONGEST_PAGE);
            }
        }
    }
}

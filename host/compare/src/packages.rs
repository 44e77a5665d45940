//! Package numbers: what is said of each spelling of a number in digits.

use second::table::{Element, Field, Rule, ELEMENTS};

use crate::indexing::Tally;
use crate::rounds::agreed;

/// The most digits of a package number, and the first number that has more.
const DIGITS: usize = 8;
pub const BEYOND: u64 = 10_u64.pow(DIGITS as u32);

/// The field of package numbers, and its element.
fn package_field() -> (&'static Element, &'static Field) {
    let with_fields = |element: &'static Element| {
        let fields = element.fields.iter();
        fields.map(move |field| (element, field))
    };
    let mut fields = ELEMENTS.iter().flat_map(with_fields);
    let found = fields.find(|(_, field)| field.rule == Rule::Package);
    found.expect("the table has package numbers")
}

/// Compares each spelling of a number, as it is and with zeros before it up to eight digits. Counts the spellings, and those that are package numbers.
pub fn differences(number: u64, tally: &mut Tally) -> Vec<String> {
    let (element, field) = package_field();
    let bare = number.to_string().len();
    let mut found = Vec::new();
    for digits in bare..=DIGITS.max(bare) {
        let spelled = format!("{number:0digits$}");
        match agreed(element, field, spelled.as_bytes()) {
            Some(kept) => *tally.entry("kept".to_string()).or_default() += u64::from(kept),
            None => found.push(format!("package number {spelled}")),
        }
        *tally.entry("spellings".to_string()).or_default() += 1;
    }
    found
}

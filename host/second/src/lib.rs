//! The independent second program: document 01, with requests 1, 2 and 4 of document 02, in
//! plain Rust, to be read beside them.
//!
//! The modules follow the paper from top to bottom: [`class`] and [`markup`] hold
//! "Bytes and spelling", [`tags`] and [`value`] take a well-formed page apart,
//! [`table`] and [`rules`] hold "Elements and fields", [`page`] judges one page,
//! [`join`] joins pages into a [`Plan`], [`layout`] knows where values lie,
//! [`writer`] writes fresh pages, and [`collector`], [`cell`], [`listing`] and [`index`]
//! are what their names say. [`call`] is the form with lent rooms that gives refusal 1.

pub mod call;
pub mod cell;
pub mod class;
pub mod collector;
pub mod index;
pub mod join;
pub mod layout;
pub mod listing;
pub mod markup;
pub mod page;
pub mod plan;
pub mod rules;
pub mod table;
pub mod tags;
pub mod value;
pub mod writer;

pub use cell::cell_of;
pub use collector::{Answer, Collector};
pub use index::{find, index_of, Pair};
pub use join::read;
pub use layout::{lay, write_numbers};
pub use listing::{listing, plancell, planfind, planfresh, planlist, refusal_lines};
pub use plan::{Head, Plan, Refusal, Row, RowKind, Values};
pub use writer::{cut_exists, write};

/// A call hands in 1 to 9 pages, and no plan has more.
pub const MOST_PAGES: usize = 9;
/// A page has 1 to 1,400 bytes.
pub const PAGE_BYTES: usize = 1_400;
/// A plan has at most 256 rows, and the caller lends room for as many.
pub const MOST_ROWS: usize = 256;
/// An index has at most one pair for each row, and the caller lends room for as many.
pub const MOST_PAIRS: usize = 256;
/// The text room when reading.
pub const TEXT_ROOM: usize = 12_600;
/// The page room when writing.
pub const PAGE_ROOM: usize = 12_600;
/// The room for a listing of pages.
pub const LISTING_ROOM: usize = 25_200;
/// The room for the text of a cell, the longest limit of one.
pub const CELL_ROOM: usize = 80;
/// The bytes that planlist and planfresh read at most, and planfind and plancell behind what
/// they are asked.
pub const INPUT_BYTES: usize = 12_609;
/// The bytes of a catalogue's text that plancell takes at most.
pub const CATALOGUE_BYTES: usize = 1_000;

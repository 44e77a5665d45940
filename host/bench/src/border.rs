//! What is measured, called as a program in C would call it: with rooms that are lent once.

extern "C" {
    fn probe_first_refused(bytes: *const u8, length: usize) -> usize;
    fn probe_scan(page: *const u8, length: usize) -> usize;
    fn probe_judge(page: *const u8, length: usize, told: *mut [usize; 1]) -> u8;
    fn probe_read(
        buffer: *const u8,
        size: usize,
        starts: *const usize,
        starts_count: usize,
        lens: *const usize,
        lens_count: usize,
        rows: *mut u32,
        rows_length: usize,
        text: *mut u8,
        text_length: usize,
        told: *mut [u32; 58],
    ) -> u32;
    fn probe_write(
        plan: *const [u32; 56],
        rows: *const u32,
        rows_length: usize,
        text: *const u8,
        text_length: usize,
        out: *mut u8,
        room: usize,
        told: *mut [u32; 11],
    ) -> u32;
    fn probe_build(
        rows: *const u32,
        rows_length: usize,
        count: u32,
        index: *mut u32,
        index_length: usize,
        told: *mut [u32; 1],
    ) -> u32;
    fn probe_first(
        rows: *const u32,
        rows_length: usize,
        count: u32,
        index: *const u32,
        index_length: usize,
        pairs: u32,
        number: u32,
        told: *mut [u32; 2],
    ) -> u32;
    fn probe_cell(
        rows: *const u32,
        rows_length: usize,
        count: usize,
        text: *const u8,
        text_length: usize,
        catalogue: *const u8,
        catalogue_length: usize,
        row: usize,
        field: u32,
        which: usize,
        told: *mut [usize; 6],
    ) -> u32;
    fn tollgilt_find(
        buffer: *const u8,
        size: usize,
        starts: *const usize,
        starts_count: usize,
        lens: *const usize,
        lens_count: usize,
        number: u32,
        list: *mut u32,
        room: usize,
        told: *mut [u32; 3],
    ) -> u32;
    fn tollgilt_cell(
        buffer: *const u8,
        size: usize,
        starts: *const usize,
        starts_count: usize,
        lens: *const usize,
        lens_count: usize,
        catalogue: *const u8,
        catalogue_size: usize,
        row: usize,
        field: u32,
        which: usize,
        out: *mut u8,
        room: usize,
        told: *mut [usize; 7],
    ) -> u32;
    fn tollgilt_list(
        buffer: *const u8,
        size: usize,
        starts: *const usize,
        starts_count: usize,
        lens: *const usize,
        lens_count: usize,
        out: *mut u8,
        room: usize,
        told: *mut [u32; 3],
    ) -> u32;
    fn tollgilt_fresh(
        buffer: *const u8,
        size: usize,
        starts: *const usize,
        starts_count: usize,
        lens: *const usize,
        lens_count: usize,
        out: *mut u8,
        room: usize,
        told: *mut [u32; 12],
    ) -> u32;
    pub fn peer_pugixml(page: *const u8, length: usize) -> i32;
    pub fn peer_expat(page: *const u8, length: usize) -> i32;
    pub fn peer_libxml2(page: *const u8, length: usize) -> i32;
}

/// A function that parses one page and tells whether it is well-formed.
pub type Peer = unsafe extern "C" fn(*const u8, usize) -> i32;

/// 1 where the peer takes the page for well-formed, else 0.
pub fn peer(parse: Peer, page: &[u8]) -> usize {
    // SAFETY: the two arguments are one slice, which is only read.
    unsafe { parse(page.as_ptr(), page.len()) as usize }
}

/// How many bytes stand before the first one that is not allowed.
pub fn first_refused(page: &[u8]) -> usize {
    // SAFETY: the two arguments are one slice, which is only read.
    unsafe { probe_first_refused(page.as_ptr(), page.len()) }
}

/// 2,000 for a well-formed page, else the length of its longest good beginning.
pub fn scan(page: &[u8]) -> usize {
    // SAFETY: the two arguments are one slice, which is only read.
    unsafe { probe_scan(page.as_ptr(), page.len()) }
}

/// The refusal number of a page, 0 for none.
pub fn judge(page: &[u8]) -> usize {
    let mut told = [0];
    // SAFETY: the page is one slice, which is only read; `told` has the one number that is written.
    unsafe { probe_judge(page.as_ptr(), page.len(), &mut told) as usize }
}

/// Pages as a call hands them in.
pub struct Call {
    buffer: Vec<u8>,
    starts: Vec<usize>,
    lens: Vec<usize>,
}

impl Call {
    pub fn new(pages: &[Vec<u8>]) -> Self {
        let lens: Vec<usize> = pages.iter().map(Vec::len).collect();
        Self {
            buffer: pages.concat(),
            starts: (0..lens.len()).map(|at| lens[..at].iter().sum()).collect(),
            lens,
        }
    }
}

/// A cell that is asked for, and the catalogue's text for it.
#[derive(Clone, Copy)]
pub struct Asked<'a> {
    pub row: usize,
    pub field: u32,
    pub which: usize,
    pub catalogue: &'a [u8],
}

/// The rooms that a caller lends, the plan in numbers that was read last: its patch, its number of rows and the spans of its head, and the number of pairs of the
/// index that was built last.
pub struct Rooms {
    plan: [u32; 56],
    pairs: u32,
    rows: Vec<u32>,
    text: Vec<u8>,
    index: Vec<u32>,
    list: Vec<u32>,
    lines: Vec<u8>,
    pages: Vec<u8>,
}

impl Rooms {
    pub fn new() -> Self {
        Self {
            plan: [0; 56],
            pairs: 0,
            rows: vec![0; 256 * 48],
            text: vec![0; 12_600],
            index: vec![0; 2 * 256],
            list: vec![0; 256],
            lines: vec![0; 25_200],
            pages: vec![0; 12_600],
        }
    }

    /// Reads the pages: the number of rows, 0 for a refusal.
    pub fn read(&mut self, call: &Call) -> usize {
        let mut told = [0; 58];
        // SAFETY: each pair of arguments is one slice; rows and text are written within their lengths, `told` has the 58 numbers that are written.
        unsafe {
            probe_read(
                call.buffer.as_ptr(),
                call.buffer.len(),
                call.starts.as_ptr(),
                call.starts.len(),
                call.lens.as_ptr(),
                call.lens.len(),
                self.rows.as_mut_ptr(),
                self.rows.len(),
                self.text.as_mut_ptr(),
                self.text.len(),
                &mut told,
            )
        };
        self.plan.copy_from_slice(&told[2..]);
        told[3] as usize
    }

    /// Writes the plan that was read: the length of all fresh pages, 0 for a refusal.
    pub fn write(&mut self) -> usize {
        let mut told = [0; 11];
        // SAFETY: each pair of arguments is one slice; the pages are written within their length, `told` has the eleven numbers that are written.
        unsafe {
            probe_write(
                &self.plan,
                self.rows.as_ptr(),
                self.rows.len(),
                self.text.as_ptr(),
                self.text.len(),
                self.pages.as_mut_ptr(),
                self.pages.len(),
                &mut told,
            )
        };
        told[2..].iter().sum::<u32>() as usize
    }

    /// Lists the pages: the length of the listing, 0 for a refusal.
    pub fn list(&mut self, call: &Call) -> usize {
        let mut told = [0; 3];
        // SAFETY: each pair of arguments is one slice; the lines are written within their length, `told` has the three numbers that are written.
        unsafe {
            tollgilt_list(
                call.buffer.as_ptr(),
                call.buffer.len(),
                call.starts.as_ptr(),
                call.starts.len(),
                call.lens.as_ptr(),
                call.lens.len(),
                self.lines.as_mut_ptr(),
                self.lines.len(),
                &mut told,
            )
        };
        told[0] as usize
    }

    /// Writes the pages afresh: the length of all fresh pages, 0 for a refusal.
    pub fn fresh(&mut self, call: &Call) -> usize {
        let mut told = [0; 12];
        // SAFETY: each pair of arguments is one slice; the pages are written within their length, `told` has the twelve numbers that are written.
        unsafe {
            tollgilt_fresh(
                call.buffer.as_ptr(),
                call.buffer.len(),
                call.starts.as_ptr(),
                call.starts.len(),
                call.lens.as_ptr(),
                call.lens.len(),
                self.pages.as_mut_ptr(),
                self.pages.len(),
                &mut told,
            )
        };
        told[3..].iter().sum::<u32>() as usize
    }

    /// 256 medication rows, row i with the number i: of all plans the one whose index takes longest, since every pair is put before all that are there.
    pub fn number_all(&mut self) {
        self.plan[1] = 256;
        for (row, record) in (1..).zip(self.rows.chunks_mut(48)) {
            record[..2].copy_from_slice(&[2, row]);
        }
    }

    /// The package numbers of the rows that have one.
    pub fn numbers(&self) -> Vec<u32> {
        let records = self.rows.chunks(48).take(self.plan[1] as usize);
        let medication = records.filter(|record| record[0] == 2);
        let numbers = medication.map(|record| record[1]);
        numbers.filter(|&number| number != 0).collect()
    }

    /// Builds the index of the rows: how many pairs it has, 0 for a refusal.
    pub fn build(&mut self) -> usize {
        let mut told = [0];
        // SAFETY: each pair of arguments is one slice; the index is written within its length, `told` has the one number that is written.
        unsafe {
            probe_build(
                self.rows.as_ptr(),
                self.rows.len(),
                self.plan[1],
                self.index.as_mut_ptr(),
                self.index.len(),
                &mut told,
            )
        };
        self.pairs = told[0];
        told[0] as usize
    }

    /// Asks the index for a number: how many rows hold it, 0 for a refusal.
    pub fn ask(&self, number: u32) -> usize {
        let mut told = [0; 2];
        // SAFETY: each pair of arguments is one slice, which is only read; `told` has the two numbers that are written.
        unsafe {
            probe_first(
                self.rows.as_ptr(),
                self.rows.len(),
                self.plan[1],
                self.index.as_ptr(),
                self.index.len(),
                self.pairs,
                number,
                &mut told,
            )
        };
        told[0] as usize
    }

    /// Finds a number in the pages: how many rows hold it, 0 for a refusal.
    pub fn find(&mut self, call: &Call, number: u32) -> usize {
        let mut told = [0; 3];
        // SAFETY: each pair of arguments is one slice; the list is written within its length, `told` has the three numbers that are written.
        unsafe {
            tollgilt_find(
                call.buffer.as_ptr(),
                call.buffer.len(),
                call.starts.as_ptr(),
                call.starts.len(),
                call.lens.as_ptr(),
                call.lens.len(),
                number,
                self.list.as_mut_ptr(),
                self.list.len(),
                &mut told,
            )
        };
        told[0] as usize
    }

    /// Shows the cell in each row of the plan that was read: how much was left out of all, a refusal counting 0.
    pub fn show(&self, asked: Asked) -> usize {
        let rows = 1..=self.plan[1] as usize;
        rows.map(|row| self.show_in(Asked { row, ..asked })).sum()
    }

    /// Shows a cell of the plan that was read: how much was left out, 0 for a refusal.
    fn show_in(&self, asked: Asked) -> usize {
        let mut told = [0; 6];
        // SAFETY: each pair of arguments is one slice, which is only read; `told` has the six numbers that are written.
        unsafe {
            probe_cell(
                self.rows.as_ptr(),
                self.rows.len(),
                self.plan[1] as usize,
                self.text.as_ptr(),
                self.text.len(),
                asked.catalogue.as_ptr(),
                asked.catalogue.len(),
                asked.row,
                asked.field,
                asked.which,
                &mut told,
            )
        };
        told[5]
    }

    /// Shows a cell of the pages' plan: how much was left out, 0 for a refusal.
    pub fn cell(&mut self, call: &Call, asked: Asked) -> usize {
        let mut told = [0; 7];
        // SAFETY: each pair of arguments is one slice; the text is written within the length of the lines, `told` has the seven numbers that are written.
        unsafe {
            tollgilt_cell(
                call.buffer.as_ptr(),
                call.buffer.len(),
                call.starts.as_ptr(),
                call.starts.len(),
                call.lens.as_ptr(),
                call.lens.len(),
                asked.catalogue.as_ptr(),
                asked.catalogue.len(),
                asked.row,
                asked.field,
                asked.which,
                self.lines.as_mut_ptr(),
                self.lines.len(),
                &mut told,
            )
        };
        told[6]
    }
}

//! A safe wrapper of Giachimu's library: its lists become structs, and its refusals errors.

#[link(name = "exports", kind = "static")]
extern "C" {
    fn giachimu_green(bytes: *const u8, bytes_length: usize) -> bool;
    fn giachimu_verdict(bytes: *const u8, bytes_length: usize, text: *mut u8, text_length: usize, length: *mut usize, place: *mut usize) -> u64;
    fn giachimu_read(bytes: *const u8, bytes_length: usize, sheet: *mut u64, sheet_length: usize, place: *mut usize) -> u64;
    fn giachimu_label(bytes: *const u8, bytes_length: usize, row: usize, start: *mut usize, length: *mut usize, place: *mut usize) -> u64;
    fn giachimu_labels(bytes: *const u8, bytes_length: usize, labels: *mut u64, labels_length: usize, place: *mut usize) -> u64;
    #[rustfmt::skip]
    fn giachimu_write(sheet: *const u64, sheet_length: usize, bytes: *const u8, bytes_length: usize, labels: *const u64, labels_length: usize, written: *mut u8, written_length: usize, length: *mut usize, place: *mut usize) -> u64;
    fn giachimu_bounds(sheet: *const u64, sheet_length: usize, results: *mut u64, results_length: usize, holds: *mut u64, place: *mut usize) -> u64;
    fn giachimu_fresh(sheet: *const u64, sheet_length: usize, state: *mut u64, state_length: usize, place: *mut usize) -> u64;
    #[rustfmt::skip]
    fn giachimu_slot(sheet: *const u64, sheet_length: usize, state: *mut u64, state_length: usize, releases: *const u64, releases_length: usize, codes: *mut u8, codes_length: usize, place: *mut usize) -> u64;
    #[rustfmt::skip]
    fn giachimu_run(sheet: *const u64, sheet_length: usize, state: *mut u64, state_length: usize, releases: *const u64, releases_length: usize, codes: *mut u8, codes_length: usize, done: *mut u64, place: *mut usize) -> u64;
    #[rustfmt::skip]
    fn giachimu_box(sheet: *const u64, sheet_length: usize, state: *mut u64, state_length: usize, releases: *const u64, releases_length: usize, codes: *mut u8, codes_length: usize, done: *mut u64, place: *mut usize) -> u64;
    fn giachimu_legal(sheet: *const u64, sheet_length: usize) -> bool;
    fn giachimu_fixed(number: usize, sheet: *mut u64, sheet_length: usize, place: *mut usize) -> u64;
    fn giachimu_number(bytes: *const u8, bytes_length: usize, at: usize, value: *mut u64, after: *mut usize, place: *mut usize) -> u64;
    #[rustfmt::skip]
    fn giachimu_number_up_to(bytes: *const u8, bytes_length: usize, at: usize, most: u64, value: *mut u64, after: *mut usize, place: *mut usize) -> u64;
    #[rustfmt::skip]
    fn giachimu_read_scenario(sheet: *const u64, sheet_length: usize, bytes: *const u8, bytes_length: usize, releases: *mut u64, releases_length: usize, slots: *mut u64, place: *mut usize) -> u64;
    #[rustfmt::skip]
    fn giachimu_write_scenario(sheet: *const u64, sheet_length: usize, releases: *const u64, releases_length: usize, bytes: *mut u8, bytes_length: usize, length: *mut usize, place: *mut usize) -> u64;
    #[rustfmt::skip]
    fn giachimu_margin(sheet: *const u64, sheet_length: usize, state: *const u64, state_length: usize, row: usize, job: *mut u64, margin: *mut i64, place: *mut usize) -> u64;
}

/// The most rows of a sheet.
pub const MOST_ROWS: usize = 32;

/// The bytes of the longest verdict.
const TEXT_LENGTH: usize = 1084;

/// The bytes of the longest sheet.
const SHEET_BYTES: usize = 870;

/// Why a call was refused: the number and the place of the table of refusals.
#[derive(Clone, Copy, Debug, PartialEq, Eq)]
pub struct Refusal {
    pub number: u64,
    pub place: usize,
}

/// One program of a sheet.
#[derive(Clone, Copy, Debug, PartialEq, Eq)]
pub struct Row {
    pub threads: u64,
    pub separation: u64,
    pub deadline: u64,
    pub budget: u64,
}

/// A sheet by its numbers; any numbers whatever may stand in it.
#[derive(Clone, Debug, PartialEq, Eq)]
pub struct Sheet {
    pub processors: u64,
    pub rows: Vec<Row>,
}

/// What the test says of a row.
#[derive(Clone, Copy, Debug, PartialEq, Eq)]
pub enum Outcome {
    Unreached,
    Bound(u64),
    NoBound,
}

/// What a row did in a slot.
#[derive(Clone, Copy, Debug, PartialEq, Eq)]
pub enum Code {
    NoJob,
    Waited,
    Ran,
    Finished,
    Missed,
}

/// The state of a box.
#[derive(Clone, Debug, PartialEq, Eq)]
pub struct State([u64; 2 * MOST_ROWS]);

/// What came of a run: the codes of the slots done, n to a slot, and the refusal that ended it, if one did.
#[derive(Clone, Debug, PartialEq, Eq)]
pub struct Run {
    pub done: u64,
    pub codes: Vec<Code>,
    pub refusal: Option<Refusal>,
}

/// The answer beside the number and the place of a call.
fn answer<A>(number: u64, place: usize, accepted: A) -> Result<A, Refusal> {
    if number == 0 {
        return Ok(accepted);
    }
    Err(Refusal { number, place })
}

/// Whether the bytes are a sheet whose every row has a bound: then no job is ever late.
pub fn green(bytes: &[u8]) -> bool {
    // SAFETY: the pointer and the count are those of a slice.
    unsafe { giachimu_green(bytes.as_ptr(), bytes.len()) }
}

/// The text of the verdict on some bytes.
pub fn verdict(bytes: &[u8]) -> String {
    let (mut text, mut length, mut place) = (vec![0; TEXT_LENGTH], 0, 0);
    // SAFETY: the pointers and counts are those of slices, and what is written lies apart.
    let number = unsafe { giachimu_verdict(bytes.as_ptr(), bytes.len(), text.as_mut_ptr(), text.len(), &mut length, &mut place) };
    assert_eq!(number, 0, "no verdict is longer");
    text.truncate(length);
    String::from_utf8(text).expect("a verdict is plain text")
}

/// The label of a row, a part of the bytes.
pub fn label(bytes: &[u8], row: usize) -> Result<&[u8], Refusal> {
    let (mut start, mut length, mut place) = (0, 0, 0);
    // SAFETY: as above.
    let number = unsafe { giachimu_label(bytes.as_ptr(), bytes.len(), row, &mut start, &mut length, &mut place) };
    answer(number, place, &bytes[start..start + length])
}

/// The label of each row, parts of the bytes.
pub fn labels(bytes: &[u8]) -> Result<Vec<&[u8]>, Refusal> {
    let (mut list, mut place) = ([0; 2 * MOST_ROWS], 0);
    // SAFETY: as above.
    let number = unsafe { giachimu_labels(bytes.as_ptr(), bytes.len(), list.as_mut_ptr(), list.len(), &mut place) };
    let parts = list.chunks(2).map(|part| (part[0] as usize, part[1] as usize)).take_while(|&(_, length)| length > 0);
    answer(number, place, parts.map(|(start, length)| &bytes[start..start + length]).collect())
}

/// Labels one after another in one string of bytes, and the list of where each starts in it and how many bytes it has.
fn joined(labels: &[impl AsRef<[u8]>]) -> (Vec<u8>, Vec<u64>) {
    let (mut bytes, mut list) = (vec![], vec![]);
    for label in labels.iter().map(AsRef::as_ref) {
        list.extend([bytes.len() as u64, label.len() as u64]);
        bytes.extend_from_slice(label);
    }
    (bytes, list)
}

/// The number at a place of some bytes, and the place after it.
pub fn number(bytes: &[u8], at: usize) -> Result<(u64, usize), Refusal> {
    let (mut value, mut after, mut place) = (0, 0, 0);
    // SAFETY: as above.
    let number = unsafe { giachimu_number(bytes.as_ptr(), bytes.len(), at, &mut value, &mut after, &mut place) };
    answer(number, place, (value, after))
}

/// The same for a number from 1 to the most.
pub fn number_up_to(bytes: &[u8], at: usize, most: u64) -> Result<(u64, usize), Refusal> {
    let (mut value, mut after, mut place) = (0, 0, 0);
    // SAFETY: as above.
    let number = unsafe { giachimu_number_up_to(bytes.as_ptr(), bytes.len(), at, most, &mut value, &mut after, &mut place) };
    answer(number, place, (value, after))
}

impl Sheet {
    /// The sheet in some bytes.
    pub fn read(bytes: &[u8]) -> Result<Sheet, Refusal> {
        let (mut list, mut place) = ([0; 4 * MOST_ROWS + 2], 0);
        // SAFETY: as above.
        let number = unsafe { giachimu_read(bytes.as_ptr(), bytes.len(), list.as_mut_ptr(), list.len(), &mut place) };
        answer(number, place, Sheet::listed(&list))
    }

    /// The sheet in some bytes, and the label of each row: any number or label may be corrected, and the sheet written again.
    pub fn read_labelled(bytes: &[u8]) -> Result<(Sheet, Vec<&[u8]>), Refusal> {
        Ok((Sheet::read(bytes)?, labels(bytes)?))
    }

    /// The sheet's bytes, with a label for each row; a row without one is refused by 6.
    pub fn write(&self, labels: &[impl AsRef<[u8]>]) -> Result<Vec<u8>, Refusal> {
        let (list, (bytes, labels)) = (self.list(), joined(labels));
        let (mut written, mut length, mut place) = (vec![0; SHEET_BYTES], 0, 0);
        // SAFETY: as above.
        let number = unsafe {
            giachimu_write(list.as_ptr(), list.len(), bytes.as_ptr(), bytes.len(), labels.as_ptr(), labels.len(), written.as_mut_ptr(), written.len(), &mut length, &mut place)
        };
        written.truncate(length);
        answer(number, place, written)
    }

    /// A worked sheet, A to F by 0 to 5; a sheet of zeros by any other number.
    pub fn fixed(number: usize) -> Sheet {
        let (mut list, mut place) = ([0; 4 * MOST_ROWS + 2], 0);
        // SAFETY: as above.
        let refused = unsafe { giachimu_fixed(number, list.as_mut_ptr(), list.len(), &mut place) };
        assert_eq!(refused, 0, "there is room for every row");
        Sheet::listed(&list)
    }

    /// The sheet of a list.
    fn listed(list: &[u64]) -> Sheet {
        let rows = list[2..].chunks(4).take(list[1] as usize);
        let rows = rows.map(|row| Row { threads: row[0], separation: row[1], deadline: row[2], budget: row[3] });
        Sheet { processors: list[0], rows: rows.collect() }
    }

    /// Whether the sheet is in the ranges.
    pub fn legal(&self) -> bool {
        let list = self.list();
        // SAFETY: as above.
        unsafe { giachimu_legal(list.as_ptr(), list.len()) }
    }

    /// The sheet's list of plain numbers.
    fn list(&self) -> Vec<u64> {
        let rows = self.rows.iter().flat_map(|row| [row.threads, row.separation, row.deadline, row.budget]);
        [self.processors, self.rows.len() as u64].into_iter().chain(rows).collect()
    }

    /// The result of each row; the sheet holds where every one is a bound.
    pub fn bounds(&self) -> Result<Vec<Outcome>, Refusal> {
        let (list, mut results, mut holds, mut place) = (self.list(), [0; 2 * MOST_ROWS], 0, 0);
        // SAFETY: as above.
        let number = unsafe { giachimu_bounds(list.as_ptr(), list.len(), results.as_mut_ptr(), results.len(), &mut holds, &mut place) };
        let outcomes = results.chunks(2).take(self.rows.len()).map(|result| match result[0] {
            1 => Outcome::Bound(result[1]),
            2 => Outcome::NoBound,
            _ => Outcome::Unreached,
        });
        answer(number, place, outcomes.collect())
    }

    /// The releases in a scenario's bytes, n to a slot, and how many slots there are.
    pub fn read_scenario(&self, bytes: &[u8]) -> Result<(u64, Vec<u64>), Refusal> {
        let (list, mut releases, mut slots, mut place) = (self.list(), vec![0; bytes.len() * self.rows.len()], 0, 0);
        // SAFETY: as above.
        let number = unsafe {
            giachimu_read_scenario(list.as_ptr(), list.len(), bytes.as_ptr(), bytes.len(), releases.as_mut_ptr(), releases.len(), &mut slots, &mut place)
        };
        releases.truncate(slots as usize * self.rows.len());
        answer(number, place, (slots, releases))
    }

    /// The scenario's bytes of a release list.
    pub fn write_scenario(&self, releases: &[u64]) -> Result<Vec<u8>, Refusal> {
        let (list, mut bytes, mut length, mut place) = (self.list(), vec![0; 4 + 5 * releases.len()], 0, 0);
        // SAFETY: as above.
        let number = unsafe {
            giachimu_write_scenario(list.as_ptr(), list.len(), releases.as_ptr(), releases.len(), bytes.as_mut_ptr(), bytes.len(), &mut length, &mut place)
        };
        bytes.truncate(length);
        answer(number, place, bytes)
    }

    /// The fresh state.
    pub fn fresh(&self) -> Result<State, Refusal> {
        let (list, mut state, mut place) = (self.list(), [0; 2 * MOST_ROWS], 0);
        // SAFETY: as above.
        let number = unsafe { giachimu_fresh(list.as_ptr(), list.len(), state.as_mut_ptr(), state.len(), &mut place) };
        answer(number, place, State(state))
    }
}

/// The code of a byte that the library wrote.
fn code(byte: u8) -> Code {
    [Code::NoJob, Code::Waited, Code::Ran, Code::Finished, Code::Missed][byte as usize]
}

impl State {
    /// One slot, which changes the state, or a refusal, which leaves it.
    pub fn slot(&mut self, sheet: &Sheet, releases: &[u64]) -> Result<Vec<Code>, Refusal> {
        let (list, mut codes, mut place) = (sheet.list(), vec![0; releases.len()], 0);
        let state = &mut self.0;
        // SAFETY: as above.
        let number = unsafe {
            giachimu_slot(list.as_ptr(), list.len(), state.as_mut_ptr(), state.len(), releases.as_ptr(), releases.len(), codes.as_mut_ptr(), codes.len(), &mut place)
        };
        answer(number, place, codes.into_iter().map(code).collect())
    }

    /// Slots one after another, to the first that is refused.
    pub fn run(&mut self, sheet: &Sheet, releases: &[u64]) -> Run {
        let (list, mut codes, mut done, mut place) = (sheet.list(), vec![0; releases.len()], 0, 0);
        let state = &mut self.0;
        // SAFETY: as above.
        let number = unsafe {
            giachimu_run(list.as_ptr(), list.len(), state.as_mut_ptr(), state.len(), releases.as_ptr(), releases.len(), codes.as_mut_ptr(), codes.len(), &mut done, &mut place)
        };
        codes.truncate(done as usize * sheet.rows.len());
        Run { done, codes: codes.into_iter().map(code).collect(), refusal: answer(number, place, ()).err() }
    }

    /// Slots one after another from the fresh state, by the box's own loop: the state after them.
    pub fn boxed(sheet: &Sheet, releases: &[u64]) -> (Run, State) {
        let (list, mut codes, mut done, mut place) = (sheet.list(), vec![0; releases.len()], 0, 0);
        let mut state = [0; 2 * MOST_ROWS];
        // SAFETY: as above.
        let number = unsafe {
            giachimu_box(list.as_ptr(), list.len(), state.as_mut_ptr(), state.len(), releases.as_ptr(), releases.len(), codes.as_mut_ptr(), codes.len(), &mut done, &mut place)
        };
        codes.truncate(done as usize * sheet.rows.len());
        (Run { done, codes: codes.into_iter().map(code).collect(), refusal: answer(number, place, ()).err() }, State(state))
    }

    /// The margin of a row; none where it has no job.
    pub fn margin(&self, sheet: &Sheet, row: usize) -> Result<Option<i64>, Refusal> {
        let (list, mut job, mut margin, mut place) = (sheet.list(), 0, 0, 0);
        // SAFETY: as above.
        let number = unsafe { giachimu_margin(list.as_ptr(), list.len(), self.0.as_ptr(), self.0.len(), row, &mut job, &mut margin, &mut place) };
        answer(number, place, (job == 1).then_some(margin))
    }
}

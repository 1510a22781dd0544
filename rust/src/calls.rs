//! Safe wrappers over the C interface of the proved translator.
//!
//! Each wrapper hands its slices over as pointer and length and gives the answer back
//! unchanged. What a call answers, and what it leaves in each lent array, is fixed by the
//! rules (docs/RULES.md); refusals have the numbers of "Refusals" there, and 0 is success.

/// The largest capacity that the translator takes.
pub const LARGEST_CAPACITY: usize = 4096;

/// The translator's answer: number 0 with the rows found, or a refusal.
#[repr(C)]
#[derive(Clone, Copy, Debug, PartialEq, Eq)]
pub struct Translation {
    /// 0 for success, else the number of the refusal.
    pub number: u8,
    /// The rows of the parity table; 0 with a refusal.
    pub rows: usize,
}

/// The forecast of a table: number 0 with bounds of its translation, or a refusal.
#[repr(C)]
#[derive(Clone, Copy, Debug, PartialEq, Eq)]
pub struct Forecast {
    /// 0 for success, else the number of the refusal.
    pub number: u8,
    /// The sum of states times the factorial of the pairs that count, over the components
    /// reachable from the start; there are never more rows. 0 with a refusal.
    pub rows: u32,
    /// The most pairs that count in one of these components; no priority is above twice as many
    /// plus 1. 0 with a refusal.
    pub pairs: u8,
}

/// What a judge says of a looped word.
#[derive(Clone, Copy, Debug, PartialEq, Eq)]
pub enum Judged {
    /// The word is accepted.
    Accepts,
    /// The word is rejected.
    Rejects,
    /// The run meets a missing transition after that many letters.
    Stops(u32),
    /// The judge refuses, with the number of the refusal.
    Refused(u8),
}

/// A parity table in vectors cut to its rows.
#[derive(Clone, Debug, PartialEq, Eq)]
pub struct ParityTable {
    /// The letters of each row.
    pub letters: usize,
    /// For each row and letter the target row, 65,535 for none.
    pub targets: Vec<u16>,
    /// For each row and letter the priority.
    pub priorities: Vec<u8>,
    /// For each row its source state.
    pub sources: Vec<u8>,
    /// For each row its record number.
    pub records: Vec<u32>,
}

/// A judge's answer as the C interface hands it over.
#[repr(C)]
struct Answer {
    kind: u32,
    value: u32,
}

/// A stretch of a word as the C interface hands it over: piece 0 is the lead-in, 1 the loop.
#[repr(C)]
struct Rest {
    piece: usize,
    start: usize,
    length: usize,
}

extern "C" {
    fn duckbullion_check_table(table: *const u8, table_len: usize) -> u8;
    fn duckbullion_letters_of(table: *const u8, table_len: usize) -> u8;
    fn duckbullion_find_components(
        table: *const u8,
        table_len: usize,
        out: *mut u8,
        out_len: usize,
    ) -> u8;
    fn duckbullion_find_components_of_system(
        states: usize,
        letters: usize,
        targets: *const u16,
        targets_len: usize,
        work: *mut u16,
        work_len: usize,
        out: *mut u16,
        out_len: usize,
    ) -> bool;
    fn duckbullion_find_reached(
        states: usize,
        letters: usize,
        targets: *const u16,
        targets_len: usize,
        from: usize,
        numbers: *mut u16,
        numbers_len: usize,
        queue: *mut u16,
        queue_len: usize,
        parents: *mut u16,
        parents_len: usize,
        by: *mut u8,
        by_len: usize,
    ) -> usize;
    fn duckbullion_path_to(
        place: usize,
        parents: *const u16,
        parents_len: usize,
        by: *const u8,
        by_len: usize,
        out: *mut u8,
        out_len: usize,
    ) -> usize;
    fn duckbullion_forecast_table(table: *const u8, table_len: usize) -> Forecast;
    fn duckbullion_translate_table(
        table: *const u8,
        table_len: usize,
        capacity: usize,
        targets: *mut u16,
        targets_len: usize,
        priorities: *mut u8,
        priorities_len: usize,
        sources: *mut u8,
        sources_len: usize,
        records: *mut u32,
        records_len: usize,
    ) -> Translation;
    fn duckbullion_judge_rabin(
        table: *const u8,
        table_len: usize,
        lead: *const u8,
        lead_len: usize,
        looped: *const u8,
        looped_len: usize,
    ) -> Answer;
    fn duckbullion_judge_parity(
        rows: usize,
        letters: usize,
        targets: *const u16,
        targets_len: usize,
        priorities: *const u8,
        priorities_len: usize,
        lead: *const u8,
        lead_len: usize,
        looped: *const u8,
        looped_len: usize,
    ) -> Answer;
    fn duckbullion_rest_of(
        lead: *const u8,
        lead_len: usize,
        looped: *const u8,
        looped_len: usize,
        place: usize,
    ) -> Rest;
    fn duckbullion_list_table(
        table: *const u8,
        table_len: usize,
        capacity: usize,
        targets: *mut u16,
        targets_len: usize,
        priorities: *mut u8,
        priorities_len: usize,
        sources: *mut u8,
        sources_len: usize,
        records: *mut u32,
        records_len: usize,
        out: *mut u8,
        out_len: usize,
    ) -> usize;
}

/// Checks a Rabin table: 0, or the first refusal of 1 to 6 that applies.
pub fn check_table(table: &[u8]) -> u8 {
    // SAFETY: the pointer and length are those of one slice, which is only read.
    unsafe { duckbullion_check_table(table.as_ptr(), table.len()) }
}

/// The byte of the letters, checked or not, 0 if a table is too short to have one.
pub fn letters_of(table: &[u8]) -> u8 {
    // SAFETY: the pointer and length are those of one slice, which is only read.
    unsafe { duckbullion_letters_of(table.as_ptr(), table.len()) }
}

/// Gives each state the smallest state of its component.
pub fn find_components(table: &[u8], out: &mut [u8]) -> u8 {
    let (out_at, out_len) = (out.as_mut_ptr(), out.len());
    // SAFETY: each pointer has its own slice's length, and the written slice is lent alone.
    unsafe { duckbullion_find_components(table.as_ptr(), table.len(), out_at, out_len) }
}

/// Gives each state of a system in an array the smallest state of its component; false if sizes or arrays do not fit:
/// `work`, to work in, needs five entries for each state.
pub fn find_components_of_system(
    states: usize,
    letters: usize,
    targets: &[u16],
    work: &mut [u16],
    out: &mut [u16],
) -> bool {
    // SAFETY: each pointer has its own slice's length, and the written slices are lent alone.
    unsafe {
        duckbullion_find_components_of_system(
            states,
            letters,
            targets.as_ptr(),
            targets.len(),
            work.as_mut_ptr(),
            work.len(),
            out.as_mut_ptr(),
            out.len(),
        )
    }
}

/// What a search from one state leaves: numbers, queue, parents and letters.
#[derive(Clone, Debug, PartialEq, Eq)]
pub struct Reached {
    /// For each state its place in the queue plus 1, 0 if it is not reached.
    pub numbers: Vec<u16>,
    /// For each place the state.
    pub queue: Vec<u16>,
    /// For each place the place that its state was met from.
    pub parents: Vec<u16>,
    /// For each place the letter that led there.
    pub by: Vec<u8>,
}

impl Reached {
    /// Arrays with so many entries, filled with one number.
    pub fn new(entries: usize, number: u8) -> Reached {
        Reached {
            numbers: vec![number.into(); entries],
            queue: vec![number.into(); entries],
            parents: vec![number.into(); entries],
            by: vec![number; entries],
        }
    }
}

/// Finds all that a state reaches: how many states, 0 if sizes or arrays do not fit.
pub fn find_reached(
    states: usize,
    letters: usize,
    targets: &[u16],
    from: usize,
    reached: &mut Reached,
) -> usize {
    let Reached {
        numbers,
        queue,
        parents,
        by,
    } = reached;
    // SAFETY: each pointer has its own slice's length, and the written slices are lent alone.
    unsafe {
        duckbullion_find_reached(
            states,
            letters,
            targets.as_ptr(),
            targets.len(),
            from,
            numbers.as_mut_ptr(),
            numbers.len(),
            queue.as_mut_ptr(),
            queue.len(),
            parents.as_mut_ptr(),
            parents.len(),
            by.as_mut_ptr(),
            by.len(),
        )
    }
}

/// Writes a path to the state at a place at the end of `out` and gives where it begins.
pub fn path_to(place: usize, reached: &Reached, out: &mut [u8]) -> usize {
    let (parents, by) = (&reached.parents, &reached.by);
    let (out_at, out_len) = (out.as_mut_ptr(), out.len());
    // SAFETY: each pointer has its own slice's length, and the written slice is lent alone.
    unsafe {
        duckbullion_path_to(
            place,
            parents.as_ptr(),
            parents.len(),
            by.as_ptr(),
            by.len(),
            out_at,
            out_len,
        )
    }
}

/// Forecasts from a Rabin table alone how many rows and pairs its translation has at most.
pub fn forecast_table(table: &[u8]) -> Forecast {
    // SAFETY: the pointer and length are those of one slice, which is only read.
    unsafe { duckbullion_forecast_table(table.as_ptr(), table.len()) }
}

/// Translates a Rabin table into the four lent arrays.
pub fn translate_table(
    table: &[u8],
    capacity: usize,
    targets: &mut [u16],
    priorities: &mut [u8],
    sources: &mut [u8],
    records: &mut [u32],
) -> Translation {
    // SAFETY: each pointer has its own slice's length, and the written slices are lent alone.
    unsafe {
        duckbullion_translate_table(
            table.as_ptr(),
            table.len(),
            capacity,
            targets.as_mut_ptr(),
            targets.len(),
            priorities.as_mut_ptr(),
            priorities.len(),
            sources.as_mut_ptr(),
            sources.len(),
            records.as_mut_ptr(),
            records.len(),
        )
    }
}

/// Translates a Rabin table into new vectors, or gives the refusal's number.
pub fn translate(table: &[u8], capacity: usize) -> Result<ParityTable, u8> {
    let number = check_table(table);
    if number != 0 {
        return Err(number);
    }
    let letters = usize::from(letters_of(table));
    let room = if capacity <= LARGEST_CAPACITY {
        capacity
    } else {
        0
    };
    let mut targets = vec![0; room * letters];
    let mut priorities = vec![0; room * letters];
    let mut sources = vec![0; room];
    let mut records = vec![0; room];
    let answer = translate_table(
        table,
        capacity,
        &mut targets,
        &mut priorities,
        &mut sources,
        &mut records,
    );
    if answer.number != 0 {
        return Err(answer.number);
    }
    targets.truncate(answer.rows * letters);
    priorities.truncate(answer.rows * letters);
    sources.truncate(answer.rows);
    records.truncate(answer.rows);
    Ok(ParityTable {
        letters,
        targets,
        priorities,
        sources,
        records,
    })
}

/// Judges a looped word on a Rabin table.
pub fn judge_rabin(table: &[u8], lead: &[u8], looped: &[u8]) -> Judged {
    let (table_at, table_len) = (table.as_ptr(), table.len());
    let (lead_at, lead_len) = (lead.as_ptr(), lead.len());
    let (loop_at, loop_len) = (looped.as_ptr(), looped.len());
    // SAFETY: each pointer has its own slice's length, and all slices are only read.
    judged(unsafe {
        duckbullion_judge_rabin(table_at, table_len, lead_at, lead_len, loop_at, loop_len)
    })
}

/// Judges a looped word on anyone's parity table.
pub fn judge_parity(
    rows: usize,
    letters: usize,
    targets: &[u16],
    priorities: &[u8],
    lead: &[u8],
    looped: &[u8],
) -> Judged {
    // SAFETY: each pointer has its own slice's length, and all slices are only read.
    judged(unsafe {
        duckbullion_judge_parity(
            rows,
            letters,
            targets.as_ptr(),
            targets.len(),
            priorities.as_ptr(),
            priorities.len(),
            lead.as_ptr(),
            lead.len(),
            looped.as_ptr(),
            looped.len(),
        )
    })
}

/// The stretch from a place of the word to the end of its piece, as that very part of it.
pub fn rest_of<'a>(lead: &'a [u8], looped: &'a [u8], place: usize) -> &'a [u8] {
    let (lead_at, lead_len) = (lead.as_ptr(), lead.len());
    let (loop_at, loop_len) = (looped.as_ptr(), looped.len());
    // SAFETY: each pointer has its own slice's length, and both slices are only read.
    let rest = unsafe { duckbullion_rest_of(lead_at, lead_len, loop_at, loop_len, place) };
    let piece = match rest.piece {
        0 => lead,
        1 => looped,
        other => panic!("a word has no piece {other}"),
    };
    &piece[rest.start..rest.start + rest.length]
}

/// Translates a table into the four lent arrays and writes its listing, as far as it fits,
/// into `out`; gives the whole listing's length.
#[inline]
pub fn list_table(
    table: &[u8],
    capacity: usize,
    targets: &mut [u16],
    priorities: &mut [u8],
    sources: &mut [u8],
    records: &mut [u32],
    out: &mut [u8],
) -> usize {
    // SAFETY: each pointer has its own slice's length, and the written slices are lent alone.
    unsafe {
        duckbullion_list_table(
            table.as_ptr(),
            table.len(),
            capacity,
            targets.as_mut_ptr(),
            targets.len(),
            priorities.as_mut_ptr(),
            priorities.len(),
            sources.as_mut_ptr(),
            sources.len(),
            records.as_mut_ptr(),
            records.len(),
            out.as_mut_ptr(),
            out.len(),
        )
    }
}

/// Reads a judge's answer: kind 0 accepts, 1 rejects, 2 stops, 3 refused.
fn judged(answer: Answer) -> Judged {
    match answer.kind {
        0 => Judged::Accepts,
        1 => Judged::Rejects,
        2 => Judged::Stops(answer.value),
        3 => Judged::Refused(answer.value as u8),
        other => panic!("a judge has no answer {other}"),
    }
}

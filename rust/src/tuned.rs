//! The tuned conventional implementation of the translator, the forecast and the judges, in
//! safe Rust with the standard library only.
//!
//! A record is packed in one number, three bits for each pair; it stays as it is when a
//! transition prohibits nothing that counts; rows are found by an open-addressing index; the
//! forecast is one walk over the cells that are reached; the judges stop at the first pass of
//! the loop that begins where one began. `specialised` goes beyond and builds on this.

use crate::calls::{Forecast, Judged, Translation};

/// The byte that stands for a missing transition in a Rabin table.
pub(crate) const NO_TARGET: u8 = 255;

/// The number that stands for a missing transition in a parity table.
pub(crate) const NO_ROW: u16 = 65_535;

/// The largest capacity a caller may state.
const MOST_ROWS: usize = 4_096;

/// The longest lead-in or loop a judge takes.
const LONGEST: usize = 65_535;

/// A checked Rabin table, its parts as slices of the caller's bytes.
pub(crate) struct Rabin<'a> {
    pub(crate) states: usize,
    pub(crate) letters: usize,
    pub(crate) start: usize,
    pub(crate) targets: &'a [u8],
    pub(crate) marks: &'a [u8],
}

/// Checks a table in the order of the refusals and takes it apart.
pub(crate) fn check_table(table: &[u8]) -> Result<Rabin<'_>, u8> {
    let [states, letters, pairs, start, cells @ ..] = table else {
        return Err(1);
    };
    let (states, letters, start) = (*states as usize, *letters as usize, *start as usize);
    if !(1..=64).contains(&states) || !(1..=16).contains(&letters) || *pairs > 6 {
        return Err(2);
    }
    let count = states * letters;
    if cells.len() != 3 * count {
        return Err(if cells.len() < 3 * count { 1 } else { 3 });
    }
    if start >= states {
        return Err(4);
    }
    let (targets, marks) = cells.split_at(count);
    let wrong = targets.iter().fold(false, |bad, &t| {
        bad | ((t as usize >= states) & (t != NO_TARGET))
    });
    if wrong {
        return Err(5);
    }
    let above = !((1u32 << *pairs) - 1) as u8;
    let beyond = u16::from_le_bytes([above, above]);
    let misplaced = targets
        .iter()
        .zip(marks.as_chunks().0)
        .fold(0, |bad, (&t, &mark)| {
            let forbidden = if t == NO_TARGET { 65_535 } else { beyond };
            bad | (u16::from_le_bytes(mark) & forbidden)
        });
    if misplaced != 0 {
        return Err(6);
    }
    Ok(Rabin {
        states,
        letters,
        start,
        targets,
        marks,
    })
}

/// Finds each state's component as a set of states, by bags of states on one path.
pub(crate) fn components(rabin: &Rabin) -> [u64; 64] {
    let mut follows = [0u64; 64];
    for (set, row) in follows
        .iter_mut()
        .zip(rabin.targets.chunks_exact(rabin.letters))
    {
        for &t in row {
            *set |= ((t < 64) as u64) << (t & 63);
        }
    }
    let mut component = [0u64; 64];
    let mut path = [(0u64, 0u64); 64];
    let mut done = 0u64;
    for root in 0..rabin.states {
        if done >> root & 1 == 1 {
            continue;
        }
        let mut depth = 0;
        let mut bag = 1u64 << root;
        let mut out = follows[root];
        let mut below = 0u64;
        loop {
            let rest = out & !done & !bag;
            if rest == 0 {
                let mut left = bag;
                while left != 0 {
                    component[left.trailing_zeros() as usize] = bag;
                    left &= left - 1;
                }
                done |= bag;
                if depth == 0 {
                    break;
                }
                depth -= 1;
                (bag, out) = path[depth];
                below &= !bag;
            } else if rest & below != 0 {
                let mut missing = rest & below;
                while missing != 0 {
                    depth -= 1;
                    let (lower, more) = path[depth];
                    bag |= lower;
                    out |= more;
                    below &= !lower;
                    missing &= !lower;
                }
            } else {
                path[depth] = (bag, out);
                depth += 1;
                below |= bag;
                let next = rest.trailing_zeros() as usize;
                bag = 1 << next;
                out = follows[next];
            }
        }
    }
    component
}

/// Gives each state the pairs that count in its component.
pub(crate) fn counted_pairs(rabin: &Rabin, component: &[u64; 64]) -> [u8; 64] {
    let m = rabin.letters;
    let mut counted = [0u8; 64];
    let rows = rabin
        .targets
        .chunks_exact(m)
        .zip(rabin.marks.chunks_exact(2 * m));
    for ((row, marks), &inside) in rows.zip(component) {
        let required = row
            .iter()
            .zip(marks.chunks_exact(2))
            .fold(0, |set, (&t, mark)| {
                let bit = (t < 64) as u8 & (inside >> (t & 63)) as u8;
                set | mark[1] & 0u8.wrapping_sub(bit)
            });
        counted[inside.trailing_zeros() as usize & 63] |= required;
    }
    for q in 0..rabin.states {
        counted[q] = counted[component[q].trailing_zeros() as usize & 63];
    }
    counted
}

/// The factorials of 0 to 6: in how many orders so many pairs can stand.
const FACTORIALS: [u32; 7] = [1, 1, 2, 6, 24, 120, 720];

/// The upper byte of an open state's number, which lets the required half of a mark through.
const OPEN: u16 = 0xFF00;

/// The number of a state whose component is closed, and of a missing target: it lets no required
/// mark through and is lower than no number of an open state.
const CLOSED: u16 = 0x00FF;

/// A state on the path of the forecast's walk: the cells that are left to read, its own number
/// and the lowest that it is known to reach, and the marks that it has found inside its
/// component, the required ones in the upper byte; the lower byte is not used.
#[derive(Clone, Copy, Default)]
struct Visit {
    next: u16,
    end: u16,
    number: u8,
    low: u8,
    marks: u16,
}

/// What the forecast's walk knows: the number of each target byte, 0 until it is met; the states
/// whose components are open, in the order in which they were met; and the closed components'
/// rows and pairs.
struct Forecasting {
    numbers: [u16; 256],
    open: [u8; 64],
    opened: usize,
    rows: u32,
    pairs: u32,
}

impl Forecasting {
    /// Nothing is met; bytes that are no state are closed.
    #[inline(always)]
    fn new() -> Forecasting {
        let mut numbers = [CLOSED; 256];
        numbers[..64].fill(0);
        Forecasting {
            numbers,
            open: [0; 64],
            opened: 0,
            rows: 0,
            pairs: 0,
        }
    }

    /// Meets a state for the first time, with all its cells left to read.
    #[inline(always)]
    fn meet(&mut self, q: usize, m: usize) -> Visit {
        self.open[self.opened & 63] = q as u8;
        self.opened += 1;
        self.numbers[q & 63] = OPEN | self.opened as u16;
        Visit {
            next: (q * m) as u16,
            end: (q * m + m) as u16,
            number: self.opened as u8,
            low: self.opened as u8,
            marks: 0,
        }
    }

    /// Closes the component of the states from a number on, in which these marks were found.
    #[inline(always)]
    fn close(&mut self, number: u8, marks: u16) {
        let first = number as usize - 1;
        for &q in &self.open[first & 63..self.opened & 127] {
            self.numbers[q as usize & 63] = CLOSED;
        }
        let count = (marks >> 8).count_ones();
        self.rows += (self.opened - first) as u32 * FACTORIALS[count as usize];
        self.pairs = self.pairs.max(count);
        self.opened = first;
    }
}

/// Forecasts the rows of a table.
pub fn forecast_table(table: &[u8]) -> Forecast {
    match check_table(table) {
        Ok(rabin) => walk_components(&rabin),
        Err(number) => Forecast {
            number,
            rows: 0,
            pairs: 0,
        },
    }
}

/// Walks the components that are reached from the start, in Tarjan's way: each cell is read once,
/// and the only branch for a cell is whether its target was met before. A target that is open
/// when its cell is read lies in the same component, so the cell's marks are found inside it.
fn walk_components(rabin: &Rabin) -> Forecast {
    let m = rabin.letters;
    let targets = rabin.targets;
    let marks = &rabin.marks.as_chunks().0[..targets.len()];
    let mut known = Forecasting::new();
    let mut here = known.meet(rabin.start, m);
    let mut path = [Visit::default(); 64];
    let mut depth = 0;
    'visit: loop {
        let mut cell = here.next as usize;
        let end = (here.end as usize).min(targets.len());
        let (mut low, mut found) = (here.low, here.marks);
        while cell < end {
            let t = targets[cell] as usize;
            let number = known.numbers[t];
            let mark = u16::from_le_bytes(marks[cell]);
            cell += 1;
            if number == 0 {
                path[depth & 63] = Visit {
                    next: cell as u16,
                    low,
                    marks: found,
                    ..here
                };
                depth += 1;
                here = known.meet(t, m);
                continue 'visit;
            }
            low = low.min(number as u8);
            found |= mark & number;
        }
        let inside = low != here.number;
        if !inside {
            known.close(low, found);
            if depth == 0 {
                break;
            }
        }
        depth -= 1;
        here = path[depth & 63];
        if inside {
            // the cell that led to this state is inside too
            here.low = here.low.min(low);
            here.marks |= found | u16::from_le_bytes(marks[here.next as usize - 1]);
        }
    }
    Forecast {
        number: 0,
        rows: known.rows,
        pairs: known.pairs as u8,
    }
}

/// The four lent arrays, cut to the capacity.
pub(crate) struct Lent<'a> {
    pub(crate) targets: &'a mut [u16],
    pub(crate) priorities: &'a mut [u8],
    pub(crate) sources: &'a mut [u8],
    pub(crate) records: &'a mut [u32],
}

/// Checks table and arrays, lets `explore` fill rows, and clears the others.
#[inline(always)]
pub(crate) fn translate_by(
    explore: impl Fn(&Rabin, &mut Lent) -> Option<usize>,
    table: &[u8],
    capacity: usize,
    mut lent: Lent,
) -> Translation {
    let refused = |number| Translation { number, rows: 0 };
    let rabin = match check_table(table) {
        Ok(rabin) => rabin,
        Err(number) => return refused(number),
    };
    let m = rabin.letters;
    if !(1..=MOST_ROWS).contains(&capacity)
        || lent.targets.len() < capacity * m
        || lent.priorities.len() < capacity * m
        || lent.sources.len() < capacity
        || lent.records.len() < capacity
    {
        return refused(7);
    }
    lent = Lent {
        targets: &mut lent.targets[..capacity * m],
        priorities: &mut lent.priorities[..capacity * m],
        sources: &mut lent.sources[..capacity],
        records: &mut lent.records[..capacity],
    };
    let rows = explore(&rabin, &mut lent);
    let filled = rows.unwrap_or(0);
    lent.targets[filled * m..].fill(0);
    lent.priorities[filled * m..].fill(0);
    lent.sources[filled..].fill(0);
    lent.records[filled..].fill(0);
    match rows {
        Some(rows) => Translation { number: 0, rows },
        None => refused(8),
    }
}

/// Translates a Rabin table into lent arrays.
pub fn translate_table(
    table: &[u8],
    capacity: usize,
    targets: &mut [u16],
    priorities: &mut [u8],
    sources: &mut [u8],
    records: &mut [u32],
) -> Translation {
    let lent = Lent {
        targets,
        priorities,
        sources,
        records,
    };
    translate_by(explore, table, capacity, lent)
}

/// The bits of a row's key below its state: a packed record, three bits for each pair.
const RECORD_BITS: u32 = 18;

/// The most pairs that a record has.
const MOST_PAIRS: u32 = RECORD_BITS / 3;

/// How a transition leads on.
#[derive(Clone, Copy)]
pub(crate) enum Kind {
    Missing,
    Crossing,
    Inside,
}

/// A transition prepared for packed records: its target's key so far, its counted marks, and the
/// bits that the prohibited pairs take in a record.
#[derive(Clone, Copy)]
pub(crate) struct Cell {
    key: u32,
    prohibited: u8,
    either: u8,
    width: u8,
    kind: Kind,
}

/// The cell of a missing transition.
pub(crate) const NO_CELL: Cell = Cell {
    key: 0,
    prohibited: 0,
    either: 0,
    width: 0,
    kind: Kind::Missing,
};

/// What the states of a table have: component, counted pairs, and the key of the first record.
pub(crate) struct Survey {
    component: [u64; 64],
    counted: [u8; 64],
    first: [u32; 64],
}

impl Survey {
    /// Surveys a table.
    pub(crate) fn new(rabin: &Rabin) -> Survey {
        let component = components(rabin);
        let counted = counted_pairs(rabin, &component);
        let mut first = [0u32; 64];
        for q in 0..rabin.states {
            first[q] = (q as u32) << RECORD_BITS | rising(counted[q]);
        }
        Survey {
            component,
            counted,
            first,
        }
    }

    /// The key of the first row that a run has at a state.
    pub(crate) fn first(&self, q: usize) -> u32 {
        self.first[q & 63]
    }

    /// Prepares the transition of a state with a target byte and two marks.
    #[inline(always)]
    pub(crate) fn cell(&self, q: usize, t: u8, prohibited: u8, required: u8) -> Cell {
        if t == NO_TARGET {
            NO_CELL
        } else if self.component[q & 63] >> (t & 63) & 1 == 1 {
            let prohibited = prohibited & self.counted[q & 63];
            Cell {
                key: (t as u32) << RECORD_BITS,
                prohibited,
                either: prohibited | required & self.counted[q & 63],
                width: 3 * prohibited.count_ones() as u8,
                kind: Kind::Inside,
            }
        } else {
            Cell {
                key: self.first[t as usize & 63],
                kind: Kind::Crossing,
                ..NO_CELL
            }
        }
    }

    /// Prepares all transitions of a table.
    fn cells(&self, rabin: &Rabin) -> Vec<Cell> {
        let m = rabin.letters;
        let mut cells = Vec::with_capacity(rabin.targets.len());
        let rows = rabin
            .targets
            .chunks_exact(m)
            .zip(rabin.marks.chunks_exact(2 * m));
        for (q, (row, marks)) in rows.enumerate() {
            let letters = row.iter().zip(marks.chunks_exact(2));
            cells.extend(letters.map(|(&t, mark)| self.cell(q, t, mark[0], mark[1])));
        }
        cells
    }
}

/// An open-addressing index of row numbers plus one, which grows when a quarter full.
struct Index {
    slots: Vec<u16>,
    shift: u32,
    room: usize,
}

impl Index {
    /// An empty index of two to the power `bits` places.
    fn new(bits: u32) -> Index {
        Index {
            slots: vec![0; 1 << bits],
            shift: 32 - bits,
            room: 1 << (bits - 2),
        }
    }

    /// Finds the place of a key among those of the rows, or the free place where it belongs.
    #[inline(always)]
    fn place(&self, key: u32, keys: &[u32]) -> usize {
        let last = self.slots.len() - 1;
        let mut place = (key.wrapping_mul(0x85EB_CA6B) >> self.shift) as usize & last;
        loop {
            let slot = self.slots[place] as usize;
            if slot == 0 || keys[slot - 1] == key {
                return place;
            }
            place = (place + 1) & last;
        }
    }

    /// Makes the index four times as large and puts every row in its new place.
    #[cold]
    #[inline(never)]
    fn grow(&mut self, keys: &[u32]) {
        *self = Index::new(34 - self.shift);
        for (row, &key) in keys.iter().enumerate() {
            let place = self.place(key, keys);
            self.slots[place] = row as u16 + 1;
        }
    }
}

/// Packs the pairs of a set in rising order; positions beyond them hold 7, which is no pair.
fn rising(mut set: u8) -> u32 {
    let (mut record, mut at) = ((1 << RECORD_BITS) - 1, 0);
    while set != 0 {
        record ^= (7 ^ set.trailing_zeros()) << at;
        at += 3;
        set &= set - 1;
    }
    record
}

/// Moves the prohibited pairs of a record to the front and works out the priority, looking at so
/// many positions as there are `rounds`; beyond them the record has no pairs.
#[inline(always)]
fn step(record: u32, rounds: u32, cell: &Cell) -> (u32, u8) {
    let (prohibited, either) = (cell.prohibited as u32, cell.either as u32);
    if either == 0 {
        return (record, 1);
    }
    let mut priority = 1;
    if prohibited == 0 {
        for position in 0..rounds {
            let bit = 1 << (record >> (3 * position) & 7);
            let last = 2 * position + 2;
            priority = if either & bit != 0 { last } else { priority };
        }
        return (record, priority as u8);
    }
    let (mut front, mut back) = (0, record >> (3 * rounds));
    for position in (0..rounds).rev() {
        let pair = record >> (3 * position) & 7;
        let bit = 1 << pair;
        let hit = prohibited & bit != 0;
        let last = 2 * position + 2 + hit as u32;
        let found = (either & bit != 0) & (priority == 1);
        priority = if found { last } else { priority };
        let (fronted, backed) = (front << 3 | pair, back << 3 | pair);
        front = if hit { fronted } else { front };
        back = if hit { back } else { backed };
    }
    (front | back << (cell.width & 31), priority as u8)
}

/// Reads a packed record as one decimal number of pair numbers.
fn packed_decimal(record: u32, length: u32) -> u32 {
    (0..length).fold(0, |number, i| 10 * number + (record >> (3 * i) & 7) + 1)
}

/// The rows found so far: their keys, which lie in the lent record numbers until the end, how many
/// they are, and the index that finds them.
pub(crate) struct Rows<'a> {
    keys: &'a mut [u32],
    count: usize,
    index: Index,
}

impl<'a> Rows<'a> {
    /// The first row alone.
    pub(crate) fn new(keys: &'a mut [u32], key: u32) -> Rows<'a> {
        let mut index = Index::new(6);
        keys[0] = key;
        let place = index.place(key, keys);
        index.slots[place] = 1;
        Rows {
            keys,
            count: 1,
            index,
        }
    }

    /// Finds the row of a key or adds it, if there is room.
    #[inline(always)]
    fn row_of(&mut self, key: u32) -> Option<u16> {
        let place = self.index.place(key, self.keys);
        let slot = self.index.slots[place];
        if slot != 0 {
            return Some(slot - 1);
        }
        let row = self.count;
        if row == self.keys.len() {
            return None;
        }
        self.keys[row] = key;
        self.index.slots[place] = row as u16 + 1;
        self.count += 1;
        if self.count == self.index.room && self.count < self.keys.len() {
            self.index.grow(&self.keys[..self.count]);
        }
        Some(row as u16)
    }

    /// Fills one row, with so many rounds for the pairs of its record, and adds the rows it
    /// discovers; answers whether they fit.
    #[inline(always)]
    pub(crate) fn take_row(
        &mut self,
        record: u32,
        rounds: u32,
        cells: &[Cell],
        targets: &mut [u16],
        priorities: &mut [u8],
    ) -> bool {
        for ((cell, target), priority) in cells.iter().zip(targets).zip(priorities) {
            let key;
            (key, *priority) = match cell.kind {
                Kind::Missing => {
                    (*target, *priority) = (NO_ROW, 0);
                    continue;
                }
                Kind::Crossing => (cell.key, 1),
                Kind::Inside => {
                    let (next, priority) = step(record, rounds, cell);
                    (cell.key | next, priority)
                }
            };
            match self.row_of(key) {
                Some(row) => *target = row,
                None => return false,
            }
        }
        true
    }

    /// Fills the rows in order of discovery by `take`, which is given a row's state, record and
    /// number of pairs and answers whether what it discovers fits; then writes the sources and
    /// the record numbers.
    #[inline(always)]
    pub(crate) fn explore(
        mut self,
        survey: &Survey,
        m: usize,
        targets: &mut [u16],
        priorities: &mut [u8],
        sources: &mut [u8],
        mut take: impl FnMut(&mut Rows, usize, u32, u32, &mut [u16], &mut [u8]) -> bool,
    ) -> Option<usize> {
        let places = targets
            .chunks_exact_mut(m)
            .zip(priorities.chunks_exact_mut(m));
        for (row, (targets, priorities)) in places.enumerate() {
            if row == self.count {
                break;
            }
            let key = self.keys[row];
            let q = (key >> RECORD_BITS) as usize & 63;
            let record = key & ((1 << RECORD_BITS) - 1);
            let length = survey.counted[q].count_ones();
            if !take(&mut self, q, record, length, targets, priorities) {
                return None;
            }
        }
        for (source, key) in sources.iter_mut().zip(self.keys).take(self.count) {
            *source = (*key >> RECORD_BITS) as u8;
            *key = packed_decimal(*key, survey.counted[*source as usize & 63].count_ones());
        }
        Some(self.count)
    }
}

/// Fills the rows of a table in order of discovery, or gives up when they don't fit.
fn explore(rabin: &Rabin, lent: &mut Lent) -> Option<usize> {
    let m = rabin.letters;
    let survey = Survey::new(rabin);
    let cells = survey.cells(rabin);
    let rows = Rows::new(lent.records, survey.first(rabin.start));
    rows.explore(
        &survey,
        m,
        lent.targets,
        lent.priorities,
        lent.sources,
        |rows, q, record, _, targets, priorities| {
            rows.take_row(
                record,
                MOST_PAIRS,
                &cells[q * m..][..m],
                targets,
                priorities,
            )
        },
    )
}

/// Checks a word against the number of letters, in the order of the refusals.
fn check_word(letters: usize, lead: &[u8], looped: &[u8]) -> Result<(), u8> {
    if looped.is_empty() || looped.len() > LONGEST || lead.len() > LONGEST {
        return Err(10);
    }
    let largest = |part: &[u8]| part.iter().fold(0, |most, &a| most.max(a)) as usize;
    if largest(lead).max(largest(looped)) >= letters {
        return Err(9);
    }
    Ok(())
}

/// Checks a table and a word for the judge of Rabin tables.
#[inline(always)]
pub(crate) fn check_rabin<'a>(
    table: &'a [u8],
    lead: &[u8],
    looped: &[u8],
) -> Result<Rabin<'a>, u8> {
    let rabin = check_table(table)?;
    check_word(rabin.letters, lead, looped)?;
    Ok(rabin)
}

/// Judges a looped word on a Rabin table.
pub fn judge_rabin(table: &[u8], lead: &[u8], looped: &[u8]) -> Judged {
    match check_rabin(table, lead, looped) {
        Ok(rabin) => walk_rabin(&rabin, rabin.letters, lead, looped),
        Err(number) => Judged::Refused(number),
    }
}

/// Walks a checked word on a Rabin table of `m` letters until a pass begins where one began; the
/// slice that begins at the letter is cut while the state is still being loaded.
#[inline(always)]
pub(crate) fn walk_rabin(rabin: &Rabin, m: usize, lead: &[u8], looped: &[u8]) -> Judged {
    let targets = rabin.targets;
    let mut state = rabin.start;
    for (at, &a) in lead.iter().enumerate() {
        let t = targets[a as usize..][state * m];
        if t == NO_TARGET {
            return Judged::Stops(at as u32);
        }
        state = t as usize;
    }
    let mut read = lead.len();
    let mut seen = [0u8; 64];
    let mut marks = [(0u8, 0u8); 64];
    let mut passes = 0;
    while seen[state] == 0 {
        seen[state] = passes as u8 + 1;
        let (mut prohibited, mut required) = (0, 0);
        for (at, &a) in looped.iter().enumerate() {
            let (first, a) = (state * m, a as usize);
            let t = targets[a..][first];
            if t == NO_TARGET {
                return Judged::Stops((read + at) as u32);
            }
            prohibited |= rabin.marks[2 * (first + a)];
            required |= rabin.marks[2 * (first + a) + 1];
            state = t as usize;
        }
        read += looped.len();
        marks[passes] = (prohibited, required);
        passes += 1;
    }
    let recurring = &marks[seen[state] as usize - 1..passes];
    let (prohibited, required) = recurring
        .iter()
        .fold((0, 0), |(p, r), mark| (p | mark.0, r | mark.1));
    if required & !prohibited != 0 {
        Judged::Accepts
    } else {
        Judged::Rejects
    }
}

/// A checked parity table, its parts as slices of the caller's arrays.
pub(crate) struct Parity<'a> {
    rows: usize,
    targets: &'a [u16],
    priorities: &'a [u8],
}

/// Checks a table and a word for the judge of parity tables.
#[inline(always)]
pub(crate) fn check_parity<'a>(
    rows: usize,
    letters: usize,
    targets: &'a [u16],
    priorities: &'a [u8],
    lead: &[u8],
    looped: &[u8],
) -> Result<Parity<'a>, u8> {
    if !(1..=MOST_ROWS).contains(&rows)
        || !(1..=16).contains(&letters)
        || targets.len() < rows * letters
        || priorities.len() < rows * letters
    {
        return Err(11);
    }
    let targets = &targets[..rows * letters];
    let priorities = &priorities[..rows * letters];
    let wrong = targets
        .iter()
        .fold(false, |bad, &t| bad | ((t >= rows as u16) & (t != NO_ROW)));
    if wrong {
        return Err(11);
    }
    check_word(letters, lead, looped)?;
    Ok(Parity {
        rows,
        targets,
        priorities,
    })
}

/// Judges a looped word on a parity table.
pub fn judge_parity(
    rows: usize,
    letters: usize,
    targets: &[u16],
    priorities: &[u8],
    lead: &[u8],
    looped: &[u8],
) -> Judged {
    match check_parity(rows, letters, targets, priorities, lead, looped) {
        Ok(parity) => walk_parity(&parity, letters, lead, looped),
        Err(number) => Judged::Refused(number),
    }
}

/// Walks a checked word on a parity table of `m` letters until a pass begins where one began, in
/// the way of `walk_rabin`.
#[inline(always)]
pub(crate) fn walk_parity(parity: &Parity, m: usize, lead: &[u8], looped: &[u8]) -> Judged {
    let mut row = 0;
    for (at, &a) in lead.iter().enumerate() {
        let t = parity.targets[a as usize..][row * m];
        if t == NO_ROW {
            return Judged::Stops(at as u32);
        }
        row = t as usize;
    }
    let read = lead.len();
    if parity.rows <= 64 {
        repeat_parity(parity, m, row, read, looped, &mut [0; 64], &mut [0; 64])
    } else {
        let (mut begun, mut largest) = (vec![0; parity.rows], vec![0; parity.rows]);
        repeat_parity(parity, m, row, read, looped, &mut begun, &mut largest)
    }
}

/// Walks passes of the loop from a row on; `begun` holds the number of the pass that began at a
/// row, 0 for none, and `largest` the largest priority of each pass.
#[inline(always)]
fn repeat_parity(
    parity: &Parity,
    m: usize,
    mut row: usize,
    mut read: usize,
    looped: &[u8],
    begun: &mut [u16],
    largest: &mut [u8],
) -> Judged {
    let mut passes = 0;
    while begun[row] == 0 {
        begun[row] = passes as u16 + 1;
        let mut most = 0;
        for (at, &a) in looped.iter().enumerate() {
            let (first, a) = (row * m, a as usize);
            let t = parity.targets[a..][first];
            if t == NO_ROW {
                return Judged::Stops((read + at) as u32);
            }
            most = most.max(parity.priorities[first + a]);
            row = t as usize;
        }
        read += looped.len();
        largest[passes] = most;
        passes += 1;
    }
    let recurring = &largest[begun[row] as usize - 1..passes];
    let most = recurring
        .iter()
        .fold(0, |most, &priority| most.max(priority));
    if most % 2 == 0 {
        Judged::Accepts
    } else {
        Judged::Rejects
    }
}

/// The arrays of Tarjan's walk, made once.
pub struct Tarjan {
    low: Vec<u16>,
    stack: Vec<u16>,
    path: Vec<u16>,
    next: Vec<u16>,
}

impl Tarjan {
    /// Arrays for so many states.
    pub fn new(states: usize) -> Tarjan {
        Tarjan {
            low: vec![0; states],
            stack: vec![0; states],
            path: vec![0; states],
            next: vec![0; states],
        }
    }

    /// Gives each state of a system in an array the smallest state of its component: Tarjan's walk in the form of Pearce, where one
    /// number for each state is its order while it is open and the largest one afterwards. No allocation.
    pub fn components(&mut self, states: usize, letters: usize, targets: &[u16], out: &mut [u16]) {
        const DONE: u16 = u16::MAX;
        let low = &mut self.low[..states];
        let stack = &mut self.stack[..states];
        let path = &mut self.path[..states];
        let next = &mut self.next[..states];
        let out = &mut out[..states];
        let targets = &targets[..states * letters];
        low.fill(0);
        for root in 0..states {
            if low[root] != 0 {
                continue;
            }
            let (mut open, mut depth, mut time) = (0, 1, 1u16);
            path[0] = root as u16;
            low[root] = 1;
            next[root] = 0;
            let mut is_root = true;
            'walk: loop {
                let q = usize::from(path[depth - 1]);
                let row = &targets[q * letters..][..letters];
                let mut a = usize::from(next[q]);
                let mut best = low[q];
                if a > 0 {
                    // the bit above the letter says that an earlier target was lower
                    is_root = a & 0x8000 == 0;
                    a &= 0x7FFF;
                    let back = low[usize::from(row[a - 1])];
                    if back < best {
                        best = back;
                        is_root = false;
                    }
                }
                while a < letters {
                    let target = usize::from(row[a]);
                    a += 1;
                    if target >= states {
                        continue;
                    }
                    let known = low[target];
                    if known == 0 {
                        low[q] = best;
                        next[q] = a as u16 | if is_root { 0 } else { 0x8000 };
                        time += 1;
                        low[target] = time;
                        next[target] = 0;
                        path[depth] = target as u16;
                        depth += 1;
                        is_root = true;
                        continue 'walk;
                    }
                    if known < best {
                        best = known;
                        is_root = false;
                    }
                }
                low[q] = best;
                depth -= 1;
                if is_root {
                    let mut smallest = q as u16;
                    let mut first = open;
                    while first > 0 && low[usize::from(stack[first - 1])] >= best {
                        first -= 1;
                        smallest = smallest.min(stack[first]);
                    }
                    for &p in &stack[first..open] {
                        low[usize::from(p)] = DONE;
                        out[usize::from(p)] = smallest;
                    }
                    open = first;
                    low[q] = DONE;
                    out[q] = smallest;
                } else {
                    stack[open] = q as u16;
                    open += 1;
                }
                if depth == 0 {
                    break;
                }
            }
        }
    }
}

//! Versions that go beyond the tuned conventional implementation, kept for comparison.
//!
//! `translate_table` works letters of a state with the same target and marks out once and has a
//! copy of the row loop for each length of a record; `translate_by_orders` numbers the orders of
//! six pairs and has all moves tabulated when compiled; the judges have a copy of their walk for
//! each number of letters. The rest is that of `tuned`.

use crate::calls::{Judged, Translation};
use crate::tuned::{
    check_parity, check_rabin, components, counted_pairs, translate_by, walk_parity, walk_rabin,
    Cell, Lent, Parity, Rabin, Rows, Survey, NO_CELL, NO_ROW, NO_TARGET,
};

/// The different transitions of each state: letters with the same target and marks share one.
struct Edges<E> {
    letters: usize,
    list: Vec<E>,
    of_cell: [u8; 1024],
    counts: [u8; 64],
}

impl<E: Copy> Edges<E> {
    /// Groups each state's letters and makes one edge for every group, in order of first letters.
    fn new(rabin: &Rabin, empty: E, make: impl Fn(usize, u8, u8, u8) -> E) -> Edges<E> {
        let m = rabin.letters;
        let mut list = vec![empty; rabin.states * m];
        let mut of_cell = [0u8; 1024];
        let mut counts = [0u8; 64];
        let rows = rabin
            .targets
            .chunks_exact(m)
            .zip(rabin.marks.chunks_exact(2 * m));
        let groups = list
            .chunks_exact_mut(m)
            .zip(of_cell.chunks_exact_mut(m))
            .zip(&mut counts);
        for (q, ((row, marks), ((edges, of_letter), total))) in rows.zip(groups).enumerate() {
            let mut keys = [0u32; 16];
            let mut guess = [0u8; 32];
            let mut count = 0;
            let letters = row.iter().zip(marks.chunks_exact(2)).zip(of_letter);
            for ((&t, mark), group) in letters {
                let key = u32::from_le_bytes([t, mark[0], mark[1], 1]);
                let place = &mut guess[(key.wrapping_mul(0x9E37_79B1) >> 27) as usize];
                let old = *place & 15;
                if keys[old as usize] == key {
                    *group = old;
                } else {
                    *place = count as u8;
                    *group = count as u8;
                    keys[count & 15] = key;
                    edges[count] = make(q, t, mark[0], mark[1]);
                    count += 1;
                }
            }
            *total = count as u8;
        }
        Edges {
            letters: m,
            list,
            of_cell,
            counts,
        }
    }

    /// The edges of a state.
    #[inline(always)]
    fn of_state(&self, q: usize) -> &[E] {
        &self.list[q * self.letters..][..self.counts[q & 63] as usize]
    }

    /// Writes what the edges of a state gave under each of their letters.
    #[inline(always)]
    fn deal(&self, q: usize, found: &Found, targets: &mut [u16], priorities: &mut [u8]) {
        let m = self.letters;
        if self.counts[q & 63] as usize == m {
            targets.copy_from_slice(&found.rows[..m]);
            priorities.copy_from_slice(&found.priorities[..m]);
        } else {
            let groups = &self.of_cell[q * m..][..m];
            for ((t, p), &group) in targets.iter_mut().zip(priorities).zip(groups) {
                *t = found.rows[group as usize & 15];
                *p = found.priorities[group as usize & 15];
            }
        }
    }
}

/// The rows and priorities to which the edges of one row lead.
struct Found {
    rows: [u16; 16],
    priorities: [u8; 16],
}

/// Translates a Rabin table into lent arrays, with grouped letters and copies of the row loop.
pub fn translate_table(
    table: &[u8],
    capacity: usize,
    targets: &mut [u16],
    priorities: &mut [u8],
    sources: &mut [u8],
    records: &mut [u32],
) -> Translation {
    let lent = Lent {
        targets,
        priorities,
        sources,
        records,
    };
    translate_by(explore_grouped, table, capacity, lent)
}

/// Translates a Rabin table into lent arrays, with all orders of six pairs tabulated beforehand.
pub fn translate_by_orders(
    table: &[u8],
    capacity: usize,
    targets: &mut [u16],
    priorities: &mut [u8],
    sources: &mut [u8],
    records: &mut [u32],
) -> Translation {
    let lent = Lent {
        targets,
        priorities,
        sources,
        records,
    };
    translate_by(explore_orders, table, capacity, lent)
}

/// Takes the edges of one row, whose record has `L` pairs; answers whether what they discover fits.
#[inline(never)]
fn take_row<const L: u32>(rows: &mut Rows, record: u32, edges: &[Cell], found: &mut Found) -> bool {
    rows.take_row(record, L, edges, &mut found.rows, &mut found.priorities)
}

/// Fills the rows in order of discovery from grouped letters, or gives up when they don't fit.
fn explore_grouped(rabin: &Rabin, lent: &mut Lent) -> Option<usize> {
    let survey = Survey::new(rabin);
    let edges = Edges::new(rabin, NO_CELL, |q, t, prohibited, required| {
        survey.cell(q, t, prohibited, required)
    });
    let mut found = Found {
        rows: [0; 16],
        priorities: [0; 16],
    };
    let rows = Rows::new(lent.records, survey.first(rabin.start));
    rows.explore(
        &survey,
        rabin.letters,
        lent.targets,
        lent.priorities,
        lent.sources,
        |rows, q, record, length, targets, priorities| {
            let take = match length {
                0 => take_row::<0>,
                1 => take_row::<1>,
                2 => take_row::<2>,
                3 => take_row::<3>,
                4 => take_row::<4>,
                5 => take_row::<5>,
                _ => take_row::<6>,
            };
            let fits = take(rows, record, edges.of_state(q), &mut found);
            edges.deal(q, &found, targets, priorities);
            fits
        },
    )
}

/// How many orders six pairs have.
const ORDERS: usize = 720;

/// The number of orders of fewer pairs, by their count.
const FACTORIALS: [usize; 7] = [1, 1, 2, 6, 24, 120, 720];

/// Numbers an order: orders that leave the places from L on alone have the numbers below L!.
const fn number_of(order: &[u8; 6]) -> usize {
    let mut number = 0;
    let mut i = 0;
    while i < 6 {
        let mut larger = 0;
        let mut j = 0;
        while j < i {
            if order[j] > order[i] {
                larger += 1;
            }
            j += 1;
        }
        number += larger * FACTORIALS[i];
        i += 1;
    }
    number
}

/// The order of a number.
const fn order_of(number: usize) -> [u8; 6] {
    let mut order = [0, 1, 2, 3, 4, 5];
    let mut i = 5;
    while i > 0 {
        let larger = number / FACTORIALS[i] % (i + 1);
        let place = i - larger;
        let kept = order[place];
        let mut j = place;
        while j < i {
            order[j] = order[j + 1];
            j += 1;
        }
        order[i] = kept;
        i -= 1;
    }
    order
}

/// All orders by number.
const ALL_ORDERS: [[u8; 6]; ORDERS] = {
    let mut all = [[0; 6]; ORDERS];
    let mut number = 0;
    while number < ORDERS {
        all[number] = order_of(number);
        number += 1;
    }
    all
};

/// For an order and a set of pairs: the order with the set moved to the front (ten bits),
/// and above it the largest position of a pair of the set.
#[allow(long_running_const_eval)]
static STEPS: [[u16; 64]; ORDERS] = {
    let mut steps = [[0u16; 64]; ORDERS];
    let mut number = 0;
    while number < ORDERS {
        steps[number][0] = number as u16;
        let mut place = 0;
        while place < 6 {
            let order = ALL_ORDERS[number];
            let mut after = order;
            let mut j = place;
            while j > 0 {
                after[j] = after[j - 1];
                j -= 1;
            }
            after[0] = order[place];
            steps[number][1 << order[place]] = number_of(&after) as u16 | (place as u16 + 1) << 10;
            place += 1;
        }
        number += 1;
    }
    let mut set = 0;
    while set < 64usize {
        if set & set.wrapping_sub(1) != 0 {
            number = 0;
            while number < ORDERS {
                let low = set & set.wrapping_neg();
                let rest = set & (set - 1);
                let mut last = low;
                let mut others = rest;
                while others != 0 {
                    let one = others & others.wrapping_neg();
                    if steps[number][one] >> 10 > steps[number][last] >> 10 {
                        last = one;
                    }
                    others &= others - 1;
                }
                let between = steps[number][last];
                let moved = steps[(between & 1023) as usize][set & !last];
                steps[number][set] = moved & 1023 | between & !1023;
                number += 1;
            }
        }
        set += 1;
    }
    steps
};

/// A transition for numbered orders: where its target's rows begin in the index, the bits of
/// the moved order that it keeps, its squeezed marks, and 0 to silence the priority.
#[derive(Clone, Copy)]
struct OrderEdge {
    base: u16,
    keeps: u16,
    state: u8,
    prohibited: u8,
    either: u8,
    loud: u8,
}

/// What the index of orders adds to a row's number, so that 0 means none.
const PRESENT: u16 = 0x4000;

/// Squeezes the bits of a set that lie in another set together.
fn squeezed(set: u8, within: u8) -> u8 {
    let (mut left, mut at, mut result) = (within, 0, 0);
    while left != 0 {
        result |= (set >> left.trailing_zeros() & 1) << at;
        at += 1;
        left &= left - 1;
    }
    result
}

/// Reads an order of the counted pairs as one decimal number of pair numbers.
fn order_decimal(number: usize, counted: u8) -> u32 {
    let mut names = [0u8; 8];
    let (mut left, mut length) = (counted, 0);
    while left != 0 {
        names[length & 7] = left.trailing_zeros() as u8 + 1;
        length += 1;
        left &= left - 1;
    }
    let pairs = ALL_ORDERS[number].iter().take(length);
    pairs.fold(0, |result, &pair| {
        10 * result + names[pair as usize & 7] as u32
    })
}

/// Fills the rows in order of discovery with numbered orders, or gives up when they don't fit;
/// the index has one place for each state and order of its pairs.
fn explore_orders(rabin: &Rabin, lent: &mut Lent) -> Option<usize> {
    let m = rabin.letters;
    let component = components(rabin);
    let counted = counted_pairs(rabin, &component);
    let mut base = [0u16; 64];
    let mut need = 1;
    for q in 0..rabin.states {
        base[q] = need as u16;
        need += FACTORIALS[counted[q].count_ones() as usize];
    }
    let none = OrderEdge {
        base: 0,
        keeps: 0,
        state: 0,
        prohibited: 0,
        either: 0,
        loud: 0,
    };
    let edges = Edges::new(rabin, none, |q, t, prohibited, required| {
        if t == NO_TARGET {
            return none;
        }
        let crossing = OrderEdge {
            base: base[t as usize & 63],
            state: t,
            loud: 255,
            ..none
        };
        if component[q & 63] >> (t & 63) & 1 == 0 {
            return crossing;
        }
        let prohibited = squeezed(prohibited, counted[q & 63]);
        let either = prohibited | squeezed(required, counted[q & 63]);
        OrderEdge {
            keeps: 1023,
            prohibited,
            either,
            ..crossing
        }
    });
    let mut small = [0u16; 256];
    let mut large = Vec::new();
    let index = if need <= small.len() {
        &mut small[..need]
    } else {
        large.resize(need, 0u16);
        &mut large[..]
    };
    index[0] = NO_ROW ^ PRESENT;
    index[base[rabin.start] as usize] = PRESENT;
    lent.sources[0] = rabin.start as u8;
    lent.records[0] = 0;
    let mut rows = 1;
    let mut found = Found {
        rows: [0; 16],
        priorities: [0; 16],
    };
    let places = lent
        .targets
        .chunks_exact_mut(m)
        .zip(lent.priorities.chunks_exact_mut(m));
    for (row, (targets, priorities)) in places.enumerate() {
        if row == rows {
            break;
        }
        let q = lent.sources[row] as usize & 63;
        let number = lent.records[row] as usize;
        lent.records[row] = order_decimal(number, counted[q]);
        let steps = &STEPS[number];
        for (i, edge) in edges.of_state(q).iter().enumerate() {
            let moved = steps[edge.prohibited as usize & 63];
            let last = steps[edge.either as usize & 63] >> 10;
            let priority = 2 * last + (last == moved >> 10) as u16;
            let next = moved & edge.keeps;
            let slot = &mut index[(edge.base + next) as usize];
            if *slot == 0 {
                if rows == lent.sources.len() {
                    return None;
                }
                *slot = rows as u16 ^ PRESENT;
                lent.sources[rows] = edge.state;
                lent.records[rows] = next as u32;
                rows += 1;
            }
            found.rows[i & 15] = *slot ^ PRESENT;
            found.priorities[i & 15] = priority as u8 & edge.loud;
        }
        edges.deal(q, &found, targets, priorities);
    }
    Some(rows)
}

/// Calls a walk that is compiled for a number of letters.
macro_rules! by_letters {
    ($letters:expr, $walk:ident, $($argument:expr),*) => {
        match $letters {
            1 => $walk::<1>($($argument),*),
            2 => $walk::<2>($($argument),*),
            3 => $walk::<3>($($argument),*),
            4 => $walk::<4>($($argument),*),
            5 => $walk::<5>($($argument),*),
            6 => $walk::<6>($($argument),*),
            7 => $walk::<7>($($argument),*),
            8 => $walk::<8>($($argument),*),
            9 => $walk::<9>($($argument),*),
            10 => $walk::<10>($($argument),*),
            11 => $walk::<11>($($argument),*),
            12 => $walk::<12>($($argument),*),
            13 => $walk::<13>($($argument),*),
            14 => $walk::<14>($($argument),*),
            15 => $walk::<15>($($argument),*),
            _ => $walk::<16>($($argument),*),
        }
    };
}

/// Judges a looped word on a Rabin table, with a walk for its number of letters.
pub fn judge_rabin(table: &[u8], lead: &[u8], looped: &[u8]) -> Judged {
    match check_rabin(table, lead, looped) {
        Ok(rabin) => by_letters!(rabin.letters, rabin_of, &rabin, lead, looped),
        Err(number) => Judged::Refused(number),
    }
}

/// Walks a checked word on a Rabin table of `M` letters.
fn rabin_of<const M: usize>(rabin: &Rabin, lead: &[u8], looped: &[u8]) -> Judged {
    walk_rabin(rabin, M, lead, looped)
}

/// Judges a looped word on a parity table, with a walk for its number of letters.
pub fn judge_parity(
    rows: usize,
    letters: usize,
    targets: &[u16],
    priorities: &[u8],
    lead: &[u8],
    looped: &[u8],
) -> Judged {
    match check_parity(rows, letters, targets, priorities, lead, looped) {
        Ok(parity) => by_letters!(letters, parity_of, &parity, lead, looped),
        Err(number) => Judged::Refused(number),
    }
}

/// Walks a checked word on a parity table of `M` letters.
fn parity_of<const M: usize>(parity: &Parity, lead: &[u8], looped: &[u8]) -> Judged {
    walk_parity(parity, M, lead, looped)
}

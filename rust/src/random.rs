//! A seeded generator, and with it random tables, words, lent arrays and damage.
//!
//! The same seed gives the same cases on every machine.

use crate::plain::{Lent, NO_ROW, NO_STATE};

/// A splitmix64 generator.
#[derive(Clone, Debug)]
pub struct Random {
    state: u64,
}

impl Random {
    /// A generator that begins at a seed.
    pub fn new(seed: u64) -> Random {
        Random { state: seed }
    }

    /// The generator of one case of a seed, the same whichever cases ran before it.
    pub fn of_case(seed: u64, case: u64) -> Random {
        let mut random = Random::new(seed);
        let mixed = random.draw() ^ case.wrapping_mul(0xd134_2543_de82_ef95);
        Random::new(mixed)
    }

    /// The next 64 random bits.
    pub fn draw(&mut self) -> u64 {
        self.state = self.state.wrapping_add(0x9e37_79b9_7f4a_7c15);
        let mut mixed = self.state;
        mixed = (mixed ^ (mixed >> 30)).wrapping_mul(0xbf58_476d_1ce4_e5b9);
        mixed = (mixed ^ (mixed >> 27)).wrapping_mul(0x94d0_49bb_1331_11eb);
        mixed ^ (mixed >> 31)
    }

    /// A number below a bound, which is not 0.
    pub fn below(&mut self, bound: usize) -> usize {
        (self.draw() % bound as u64) as usize
    }

    /// A number from the first to the last, both included.
    pub fn range(&mut self, first: usize, last: usize) -> usize {
        first + self.below(last - first + 1)
    }

    /// Whether something happens that has so many chances in a hundred.
    pub fn chance(&mut self, percent: usize) -> bool {
        self.below(100) < percent
    }

    /// One of the choices.
    pub fn pick<T: Copy>(&mut self, choices: &[T]) -> T {
        choices[self.below(choices.len())]
    }
}

/// How the targets of a random table lie.
#[derive(Clone, Copy)]
enum Shape {
    /// Anywhere.
    Any,
    /// Letter 0 goes round all states, so that there is one component.
    Ring,
    /// Never down, so that each component is one state.
    Up,
    /// Mostly within blocks of the given size, else to any later state.
    Blocks(usize),
    /// To the state itself or to a neighbour.
    Near,
}

/// States, letters and pairs, with weight on small ones.
fn sizes(random: &mut Random) -> [usize; 3] {
    match random.below(100) {
        0..=34 => [random.range(1, 4), random.range(1, 3), random.range(0, 3)],
        35..=69 => [random.range(1, 9), random.range(1, 4), random.range(0, 6)],
        70..=84 => [random.range(1, 64), random.range(1, 3), random.range(0, 4)],
        85..=92 => [random.range(1, 64), random.range(1, 16), random.range(0, 6)],
        93..=95 => [
            random.pick(&[1, 64]),
            random.pick(&[1, 16]),
            random.pick(&[0, 6]),
        ],
        _ => [random.range(1, 3), random.range(10, 16), random.range(4, 6)],
    }
}

/// The target of one transition present.
fn target(random: &mut Random, shape: Shape, states: usize, state: usize, letter: usize) -> usize {
    match shape {
        Shape::Ring if letter == 0 => (state + 1) % states,
        Shape::Any | Shape::Ring => random.below(states),
        Shape::Up => random.range(state, states - 1),
        Shape::Blocks(size) if random.chance(85) => {
            let first = state / size * size;
            random.range(first, states.min(first + size) - 1)
        }
        Shape::Blocks(_) => random.range(state, states - 1),
        Shape::Near => (state + random.pick(&[0, 1, states - 1])) % states,
    }
}

/// A mark in which each pair's bit has so many chances in a hundred.
fn mark(random: &mut Random, pairs: usize, percent: usize) -> u8 {
    let mut bits = 0;
    for pair in 1..=pairs {
        if random.chance(percent) {
            bits |= 1 << (pair - 1);
        }
    }
    bits
}

/// A Rabin table that passes the check.
pub fn table(random: &mut Random) -> Vec<u8> {
    let [states, letters, pairs] = sizes(random);
    let block = random.range(1, states);
    let any = [
        Shape::Any,
        Shape::Ring,
        Shape::Up,
        Shape::Blocks(block),
        Shape::Near,
    ];
    let shape = random.pick(&any);
    let missing = random.pick(&[0, 0, 0, 0, 5, 20, 60]);
    let prohibited = random.pick(&[0, 3, 10, 20, 20, 40, 100]);
    let required = random.pick(&[0, 10, 20, 30, 50, 100]);
    let mut bytes = vec![
        states as u8,
        letters as u8,
        pairs as u8,
        random.below(states) as u8,
    ];
    let mut marks = Vec::new();
    for cell in 0..states * letters {
        if random.chance(missing) {
            bytes.push(NO_STATE);
            marks.extend([0, 0]);
        } else {
            bytes.push(target(random, shape, states, cell / letters, cell % letters) as u8);
            marks.push(mark(random, pairs, prohibited));
            marks.push(mark(random, pairs, required));
        }
    }
    bytes.extend(marks);
    bytes
}

/// A table whose reachable rows are 3,600 + 480 + so many: 4,096 with 16, 4,097 with 17.
///
/// Its first five states take all orderings of six pairs, the next four all of five, and the
/// others have none.
pub fn brimful(singles: usize) -> Vec<u8> {
    let states = 9 + singles;
    let mut bytes = vec![states as u8, 8, 6, 0];
    let mut marks: Vec<u8> = Vec::new();
    for state in 0..states {
        let (first, size, pairs) = match state {
            0..=4 => (0, 5, 6),
            5..=8 => (5, 4, 5),
            _ => (state, 1, 0),
        };
        bytes.push((first + (state + 1 - first) % size) as u8);
        marks.extend([0, 0]);
        for pair in 1..=6 {
            bytes.push(state as u8);
            let bit = if pair <= pairs { 1 << (pair - 1) } else { 0 };
            marks.extend([bit, bit]);
        }
        bytes.push((first + size).min(states - 1) as u8);
        marks.extend([0, 0]);
    }
    bytes.extend(marks);
    bytes
}

/// A table of any bytes, with a small header now and then.
pub fn junk(random: &mut Random) -> Vec<u8> {
    let length = random.below(40);
    let mut bytes: Vec<u8> = (0..length).map(|_| random.draw() as u8).collect();
    for (place, last) in [(0, 3), (1, 2), (2, 7), (3, 3)] {
        if length > place && random.chance(70) {
            bytes[place] = random.range(0, last) as u8;
        }
    }
    bytes
}

/// Sets a byte of a table if it is there.
fn set(bytes: &mut [u8], place: usize, value: usize) {
    if let Some(byte) = bytes.get_mut(place) {
        *byte = value as u8;
    }
}

/// Damages a checked table in one way that a refusal names.
fn damage_once(random: &mut Random, bytes: &mut Vec<u8>, sizes: [usize; 3]) {
    let [states, letters, pairs] = sizes;
    let cells = states * letters;
    let cell = random.below(cells);
    let target_at = 4 + cell;
    let mark_at = 4 + cells + 2 * cell + random.below(2);
    match random.below(14) {
        0 => bytes.truncate(random.below(4)),
        1 => bytes.truncate(random.range(4, bytes.len().max(4))),
        2 => bytes.truncate(bytes.len().saturating_sub(1)),
        3 => set(bytes, 0, random.pick(&[0, 65, 66, 128, 255])),
        4 => set(bytes, 1, random.pick(&[0, 17, 18, 128, 255])),
        5 => set(bytes, 2, random.pick(&[7, 8, 128, 255])),
        6 => bytes.push(random.draw() as u8),
        7 => bytes.extend(vec![random.draw() as u8; random.range(2, 4000)]),
        8 => set(bytes, 3, random.pick(&[states, states + 1, 254, 255])),
        9 => set(bytes, target_at, random.pick(&[states, states + 1, 254])),
        10 => set(bytes, target_at, random.range(states, 254)),
        11 => set(bytes, mark_at, 1 << random.range(pairs, 7)),
        12 => {
            set(bytes, target_at, usize::from(NO_STATE));
            set(bytes, mark_at, random.range(1, 255));
        }
        _ => set(bytes, random.below(2), random.range(1, 16)),
    }
}

/// Damages a checked table in one to three ways, so that the order of refusals shows.
pub fn damage(random: &mut Random, bytes: &mut Vec<u8>) {
    let sizes = [0, 1, 2].map(|place| usize::from(bytes[place]));
    for _ in 0..random.pick(&[1, 1, 1, 2, 2, 3]) {
        damage_once(random, bytes, sizes);
    }
}

/// A table of any kind: mostly checked, else damaged or any bytes.
pub fn any_table(random: &mut Random) -> Vec<u8> {
    match random.below(100) {
        0..=2 => junk(random),
        3..=29 => {
            let mut bytes = table(random);
            damage(random, &mut bytes);
            bytes
        }
        _ => table(random),
    }
}

/// A capacity around the rows of a table, or at an end of the range.
pub fn capacity(random: &mut Random, rows: Option<usize>) -> usize {
    let near = rows.unwrap_or(1);
    match random.below(100) {
        0 => 0,
        1 => usize::MAX,
        2 => 4097,
        3 => 1,
        4 => 4096,
        5..=7 => random.range(1, 4096),
        8..=27 => near - 1,
        28..=64 => near,
        65..=79 => near + 1,
        _ => random.range(1, 40),
    }
}

/// A length of a lent array: mostly what is needed, else longer or too short.
fn length(random: &mut Random, needed: usize) -> usize {
    match random.below(200) {
        0..=2 => 0,
        3..=6 => needed.saturating_sub(1),
        7 => random.below(needed + 1),
        8..=60 => needed + random.range(1, 9),
        _ => needed,
    }
}

/// An array of junk.
fn filled<T>(random: &mut Random, length: usize, entry: impl Fn(u64) -> T) -> Vec<T> {
    let (mut value, step) = (random.draw(), random.draw() | 1);
    let next = |_| {
        value = value.wrapping_add(step);
        entry(value >> 24)
    };
    (0..length).map(next).collect()
}

/// The four arrays for a capacity and a number of letters, full of junk.
pub fn lent(random: &mut Random, capacity: usize, letters: usize) -> Lent {
    let rows = if capacity > 4097 {
        random.below(9)
    } else {
        capacity
    };
    let lengths = [rows * letters, rows * letters, rows, rows];
    let lengths = lengths.map(|needed| length(random, needed));
    Lent {
        targets: filled(random, lengths[0], |bits| bits as u16),
        priorities: filled(random, lengths[1], |bits| bits as u8),
        sources: filled(random, lengths[2], |bits| bits as u8),
        records: filled(random, lengths[3], |bits| bits as u32),
    }
}

/// An array of junk bytes for so many states, now and then too short.
pub fn lent_bytes(random: &mut Random, states: usize) -> Vec<u8> {
    let length = length(random, states);
    filled(random, length, |bits| bits as u8)
}

/// A looped word.
#[derive(Clone, Debug, PartialEq, Eq)]
pub struct Word {
    /// The lead-in.
    pub lead: Vec<u8>,
    /// The loop.
    pub looped: Vec<u8>,
}

/// The length of a piece, mostly small, now and then at the largest or above it.
fn piece_length(random: &mut Random) -> usize {
    match random.below(2000) {
        0 => 65_535,
        1 => 65_536,
        2 => random.range(60_000, 70_000),
        3..=99 => random.range(20, 300),
        100..=599 => random.range(6, 20),
        _ => random.below(6),
    }
}

/// Puts a byte that is no letter into a word.
fn spoil(random: &mut Random, word: &mut Word, letters: usize) {
    let piece = if random.chance(50) {
        &mut word.lead
    } else {
        &mut word.looped
    };
    if !piece.is_empty() && letters < 256 {
        let place = random.below(piece.len());
        let any = random.range(letters, 255);
        piece[place] = random.pick(&[letters, letters, 255, any]) as u8;
    }
}

/// A word whose letters are guided by what a row has, so that few runs stop early.
///
/// `step` says where a letter leads; a piece follows it as long as it finds a way.
pub fn word(
    random: &mut Random,
    letters: usize,
    start: usize,
    step: impl Fn(usize, usize) -> Option<usize>,
) -> Word {
    let known = letters.clamp(1, 256);
    let guided = random.chance(75);
    let mut here = Some(start);
    let mut letter = |random: &mut Random| {
        let mut chosen = random.below(known);
        let mut next = here.and_then(|row| step(row, chosen));
        for _ in 0..20 {
            if guided && here.is_some() && next.is_none() {
                chosen = random.below(known);
                next = here.and_then(|row| step(row, chosen));
            }
        }
        here = next;
        chosen as u8
    };
    let lead_length = if random.chance(40) {
        0
    } else {
        piece_length(random)
    };
    let loop_length = if random.chance(98) {
        piece_length(random).max(1)
    } else {
        0
    };
    let lead = (0..lead_length).map(|_| letter(random)).collect();
    let looped = (0..loop_length).map(|_| letter(random)).collect();
    let mut word = Word { lead, looped };
    if random.chance(5) {
        spoil(random, &mut word, letters);
    }
    word
}

/// Anyone's parity table, as the parity judge takes it.
#[derive(Clone, Debug)]
pub struct AnyParity {
    /// The number of rows stated.
    pub rows: usize,
    /// The number of letters stated.
    pub letters: usize,
    /// The target rows.
    pub targets: Vec<u16>,
    /// The priorities.
    pub priorities: Vec<u8>,
}

impl AnyParity {
    /// Where a letter leads from a row, as far as the arrays say.
    pub fn step(&self, row: usize, letter: usize) -> Option<usize> {
        match self.targets.get(row * self.letters + letter) {
            Some(&target) if target != NO_ROW => Some(usize::from(target)),
            _ => None,
        }
    }
}

/// Anyone's parity table, some of them damaged.
pub fn any_parity(random: &mut Random) -> AnyParity {
    let rows = match random.below(100) {
        0 => random.pick(&[0, 4097, 4098, 65_536, usize::MAX]),
        1 => 4096,
        2..=4 => random.range(1, 4096),
        5..=29 => random.range(9, 64),
        _ => random.range(1, 8),
    };
    let letters = match random.below(100) {
        0 => random.pick(&[0, 17, 255, 256, usize::MAX]),
        1 => 16,
        2..=9 => random.range(1, 16),
        _ => random.range(1, 4),
    };
    let cells = rows.min(4097) * letters.min(17);
    let missing = random.pick(&[0, 0, 2, 10, 50]);
    let ring = random.chance(30);
    let top = random.pick(&[1, 2, 3, 13, 256]);
    let target = |random: &mut Random, cell: usize| match random.chance(missing) {
        true => NO_ROW,
        false if ring => ((cell / letters.max(1) + 1) % rows.max(1)) as u16,
        false => random.below(rows.clamp(1, 65_535)) as u16,
    };
    let mut targets: Vec<u16> = (0..cells).map(|cell| target(random, cell)).collect();
    let mut priorities: Vec<u8> = (0..cells).map(|_| random.below(top) as u8).collect();
    if cells > 0 && random.chance(5) {
        let bad = [rows, rows.saturating_add(1), 65_534].map(|value| value.min(65_534) as u16);
        targets[random.below(cells)] = random.pick(&bad);
    }
    let lengths = [length(random, cells), length(random, cells)];
    targets.resize(lengths[0], 65_000);
    priorities.resize(lengths[1], 77);
    AnyParity {
        rows,
        letters,
        targets,
        priorities,
    }
}

//! Times the proved translator, judges and forecast against the tuned, the plain and the
//! specialised ones, in one process.
//!
//! `bench` runs everything; `bench a` to `bench e` run one part, `bench quick` all parts
//! shortened. `bench profile-translate`, `bench profile-tiny`, `bench profile-parity` and
//! `bench profile-rabin` only run the proved side, for a profiler, or the tuned one if the argument
//! `tuned` follows. The environment variable SEED sets the seed.

use std::hint::black_box;
use std::process::exit;
use std::time::{Duration, Instant};

use duckbullion::calls::{self, Forecast, Judged, Translation};
use duckbullion::random::Random;
use duckbullion::{plain, specialised, systems, tuned};

/// A translator of any side.
type Translator = fn(&[u8], usize, &mut [u16], &mut [u8], &mut [u8], &mut [u32]) -> Translation;

/// A judge of Rabin tables of any side.
type RabinJudge = fn(&[u8], &[u8], &[u8]) -> Judged;

/// A judge of parity tables of any side.
type ParityJudge = fn(usize, usize, &[u16], &[u8], &[u8], &[u8]) -> Judged;

/// A forecaster of any side.
type Forecaster = fn(&[u8]) -> Forecast;

/// The translators, in the order of the sides.
const TRANSLATORS: [Translator; 5] = [
    calls::translate_table,
    tuned::translate_table,
    plain::translate_table,
    specialised::translate_table,
    specialised::translate_by_orders,
];

/// The judges of Rabin tables, in the order of the sides.
const RABIN_JUDGES: [RabinJudge; 4] = [
    calls::judge_rabin,
    tuned::judge_rabin,
    plain::judge_rabin,
    specialised::judge_rabin,
];

/// The judges of parity tables, in the order of the sides.
const PARITY_JUDGES: [ParityJudge; 4] = [
    calls::judge_parity,
    tuned::judge_parity,
    plain::judge_parity,
    specialised::judge_parity,
];

/// The forecasters, in the order of the sides.
const FORECASTERS: [Forecaster; 3] = [
    calls::forecast_table,
    tuned::forecast_table,
    plain::forecast_table,
];

/// The sides' names.
const NAMES: [&str; 5] = ["proved", "tuned", "plain", "special", "orders"];

/// The place of the proved side.
const PROVED: usize = 0;

/// The place of the tuned side.
const TUNED: usize = 1;

/// The place of the plain side, which runs in fewer rounds because it is slow.
const PLAIN: usize = 2;

/// The place of the specialised side.
const SPECIAL: usize = 3;

/// The place of the translator with tabulated orders.
const ORDERS: usize = 4;

/// The sides that translate.
const ALL: [usize; 5] = [PROVED, TUNED, PLAIN, SPECIAL, ORDERS];

/// The sides that judge.
const JUDGES: [usize; 4] = [PROVED, TUNED, PLAIN, SPECIAL];

/// The sides that judge where the plain one would take too long.
const FAST_JUDGES: [usize; 3] = [PROVED, TUNED, SPECIAL];

/// The sides that forecast.
const FORECASTS: [usize; 3] = [PROVED, TUNED, PLAIN];

/// The smallest times of the sides in nanoseconds; those not measured are no numbers.
type Times = [f64; 5];

/// From so many rows on a table counts as large in the summaries.
const LARGE: usize = 500;

/// From so many letters read on a loop counts as long in the summaries.
const LONG: usize = 1_000;

/// The largest capacity.
const MOST_ROWS: usize = 4_096;

/// The longest loop or lead-in.
const LONGEST: usize = 65_535;

/// The two-state table T of docs/RULES.md.
const CARD: [u8; 16] = [2, 2, 2, 0, 0, 1, 0, 1, 1, 2, 0, 0, 0, 1, 2, 0];

/// How long to measure.
#[derive(Clone, Copy)]
struct Effort {
    tables: usize,
    case: Duration,
    rounds: usize,
}

/// The four arrays that every side is lent in turn.
#[derive(Clone, PartialEq, Eq)]
struct Buffers {
    targets: Vec<u16>,
    priorities: Vec<u8>,
    sources: Vec<u8>,
    records: Vec<u32>,
}

impl Buffers {
    /// Arrays for the largest capacity and eight more entries, which no side may touch.
    fn new() -> Buffers {
        Buffers {
            targets: vec![0; MOST_ROWS * 16 + 8],
            priorities: vec![0; MOST_ROWS * 16 + 8],
            sources: vec![0; MOST_ROWS + 8],
            records: vec![0; MOST_ROWS + 8],
        }
    }

    /// Fills all arrays with values that no translation leaves.
    fn scribble(&mut self) {
        self.targets.fill(0xABCD);
        self.priorities.fill(0xEE);
        self.sources.fill(0xEE);
        self.records.fill(0xDEAD_BEEF);
    }

    /// Lets one side translate into the arrays.
    fn translate(&mut self, side: usize, table: &[u8], capacity: usize) -> Translation {
        TRANSLATORS[side](
            table,
            capacity,
            &mut self.targets,
            &mut self.priorities,
            &mut self.sources,
            &mut self.records,
        )
    }
}

/// Times the sides in turn, round after round, and gives each one's smallest time for a call;
/// `run` makes so many calls of a side and gives the time they took.
fn interleave(
    sides: &[usize],
    least_rounds: usize,
    budget: Duration,
    mut run: impl FnMut(usize, usize) -> Duration,
) -> Times {
    let slice = 1.0e6;
    let mut best = [f64::NAN; 5];
    let mut repeats = [1; 5];
    let begin = Instant::now();
    let mut round = 0;
    while round < least_rounds || begin.elapsed() < budget {
        for &side in sides {
            if side == PLAIN && round > 1 && round % 8 != 0 {
                continue;
            }
            let taken = run(side, repeats[side]);
            let time = taken.as_nanos() as f64 / repeats[side] as f64;
            best[side] = best[side].min(time);
            repeats[side] = ((slice / time.max(1.0)) as usize).clamp(1, 100_000);
        }
        round += 1;
    }
    best
}

/// How many tables of one kind take turns.
const IN_TURN: usize = 16;

/// What some tables of one kind gave: their rows in all, the sides' times for a table on the
/// average, and what the proved side takes of the tuned one's time where the first of them is
/// translated again and again.
struct Measured {
    rows: usize,
    times: Times,
    again: f64,
}

impl Measured {
    /// The rows of a table on the average.
    fn average(&self, tables: usize) -> usize {
        (self.rows + tables / 2) / tables
    }
}

/// Compares all sides on one table from scribbled arrays; gives the answer.
fn compare_translations(table: &[u8], capacity: usize, buffers: &mut Buffers) -> Translation {
    buffers.scribble();
    let answer = buffers.translate(PROVED, table, capacity);
    let expected = buffers.clone();
    for &side in &ALL[1..] {
        buffers.scribble();
        let other = buffers.translate(side, table, capacity);
        compare(
            side,
            other == answer && *buffers == expected,
            &format!("{answer:?} {other:?}"),
        );
    }
    answer
}

/// Times sides on tables that take turns; gives their times for a table on the average.
fn time_translations(
    sides: &[usize],
    tables: &[Vec<u8>],
    capacity: usize,
    effort: Effort,
    buffers: &mut Buffers,
) -> Times {
    let answers: Vec<Translation> = tables
        .iter()
        .map(|table| buffers.translate(PROVED, table, capacity))
        .collect();
    let mut last = answers.clone();
    let times = interleave(sides, effort.rounds, effort.case, |side, repeats| {
        let before = Instant::now();
        for _ in 0..repeats {
            for (table, answer) in tables.iter().zip(&mut last) {
                *answer = buffers.translate(side, black_box(table), black_box(capacity));
            }
        }
        let taken = before.elapsed();
        compare(side, last == answers, "the answers of a round");
        taken
    });
    times.map(|time| time / tables.len() as f64)
}

/// Compares all sides on tables of one kind, then times them.
fn measure_translations(
    tables: &[Vec<u8>],
    capacity: usize,
    effort: Effort,
    buffers: &mut Buffers,
) -> Measured {
    let rows = tables
        .iter()
        .map(|table| compare_translations(table, capacity, buffers).rows)
        .sum();
    let times = time_translations(&ALL, tables, capacity, effort, buffers);
    let once = time_translations(&[PROVED, TUNED], &tables[..1], capacity, effort, buffers);
    Measured {
        rows,
        times,
        again: against(&once, TUNED),
    }
}

/// Times judges on one word, comparing every answer.
fn measure_judges(sides: &[usize], effort: Effort, judge: impl Fn(usize) -> Judged) -> Times {
    let answer = judge(PROVED);
    interleave(sides, effort.rounds, effort.case, |side, repeats| {
        let mut last = answer;
        let before = Instant::now();
        for _ in 0..repeats {
            last = black_box(&judge)(side);
        }
        let taken = before.elapsed();
        compare(side, last == answer, &format!("{answer:?} {last:?}"));
        taken
    })
}

/// Ends the program if two sides differ.
fn compare(side: usize, equal: bool, what: &str) {
    if !equal {
        println!("the {} side differs: {what}", NAMES[side]);
        exit(1);
    }
}

/// Writes a time in the unit that suits it.
fn shown(nanoseconds: f64) -> String {
    if nanoseconds.is_nan() {
        "-".to_string()
    } else if nanoseconds < 1.0e4 {
        format!("{nanoseconds:.0} ns")
    } else if nanoseconds < 1.0e7 {
        format!("{:.1} us", nanoseconds / 1.0e3)
    } else {
        format!("{:.1} ms", nanoseconds / 1.0e6)
    }
}

/// How many times as long the proved side takes as another one.
fn against(times: &Times, side: usize) -> f64 {
    times[PROVED] / times[side]
}

/// Writes how many times as long the proved side takes as another one.
fn ratio(times: &Times, side: usize) -> String {
    if times[side].is_nan() {
        "-".to_string()
    } else {
        format!("{:.2}", against(times, side))
    }
}

/// The smallest and the largest of the values noted so far, each with its case.
#[derive(Default)]
struct Range {
    smallest: Option<(f64, String)>,
    largest: Option<(f64, String)>,
}

impl Range {
    /// Notes the value of a case.
    fn note(&mut self, value: f64, case: &str) {
        if self.smallest.as_ref().is_none_or(|known| value < known.0) {
            self.smallest = Some((value, case.to_string()));
        }
        if self.largest.as_ref().is_none_or(|known| value > known.0) {
            self.largest = Some((value, case.to_string()));
        }
    }

    /// Writes a value with its case.
    fn written(found: &Option<(f64, String)>) -> String {
        match found {
            Some((value, case)) => format!("{value:.2} ({case})"),
            None => "none".to_string(),
        }
    }

    /// Writes the smallest value.
    fn smallest(&self) -> String {
        Range::written(&self.smallest)
    }

    /// Writes the largest value.
    fn largest(&self) -> String {
        Range::written(&self.largest)
    }
}

/// Prints the head of a table of translations.
fn head_of_translations() {
    println!(
        "{:<34} {:>6} {:>3} {:>10} {:>10} {:>10} {:>7} {:>5} {:>7} {:>10} {:>9} {:>10} {:>8} {:>8}",
        "case",
        "rows",
        "let",
        "proved",
        "tuned",
        "plain",
        "p/tuned",
        "again",
        "p/plain",
        "special",
        "p/special",
        "orders",
        "p/orders",
        "Mcells/s"
    );
}

/// Prints one line of a table of translations.
fn line_of_translation(case: &str, letters: usize, rows: usize, times: &Times, again: Option<f64>) {
    println!(
        "{case:<34} {rows:>6} {letters:>3} {:>10} {:>10} {:>10} {:>7} {:>5} {:>7} {:>10} {:>9} {:>10} {:>8} {:>8.1}",
        shown(times[PROVED]),
        shown(times[TUNED]),
        shown(times[PLAIN]),
        ratio(times, TUNED),
        again.map_or("-".to_string(), |ratio| format!("{ratio:.2}")),
        ratio(times, PLAIN),
        shown(times[SPECIAL]),
        ratio(times, SPECIAL),
        shown(times[ORDERS]),
        ratio(times, ORDERS),
        (rows * letters) as f64 * 1.0e3 / times[PROVED]
    );
}

/// Prints the head of a table of judgements.
fn head_of_judgements() {
    println!(
        "{:<34} {:>5} {:>3} {:>10} {:>10} {:>10} {:>10} {:>7} {:>7} {:>10} {:>9} {:>8}",
        "case",
        "rows",
        "let",
        "read",
        "proved",
        "tuned",
        "plain",
        "p/tuned",
        "p/plain",
        "special",
        "p/special",
        "Mlett/s"
    );
}

/// Prints one line of a table of judgements; `read` letters are read until a pass repeats.
fn line_of_judgement(case: &str, rows: usize, letters: usize, read: usize, times: &Times) {
    println!(
        "{case:<34} {rows:>5} {letters:>3} {read:>10} {:>10} {:>10} {:>10} {:>7} {:>7} {:>10} {:>9} {:>8.1}",
        shown(times[PROVED]),
        shown(times[TUNED]),
        shown(times[PLAIN]),
        ratio(times, TUNED),
        ratio(times, PLAIN),
        shown(times[SPECIAL]),
        ratio(times, SPECIAL),
        read as f64 * 1.0e3 / times[PROVED]
    );
}

/// Draws a set of pairs, each in it with so many chances in a hundred.
fn draw_marks(random: &mut Random, pairs: usize, percent: usize) -> u8 {
    (0..pairs).fold(0, |set, pair| set | (random.chance(percent) as u8) << pair)
}

/// Draws a table of the kind of document 001's second table.
fn draw_paper_table(random: &mut Random) -> Vec<u8> {
    let (states, letters, pairs) = (random.range(20, 30), 16, 6);
    let mut table = vec![states as u8, letters as u8, pairs as u8, 0];
    let mut marks = Vec::new();
    for _ in 0..states {
        let sure = random.below(states);
        let mut successors = vec![sure as u8];
        for state in 0..states {
            if state != sure && random.chance(5) {
                successors.push(state as u8);
            }
        }
        let mut dealt: Vec<u8> = (0..letters)
            .map(|a| {
                if a < successors.len() {
                    successors[a]
                } else {
                    random.pick(&successors)
                }
            })
            .collect();
        for a in (1..letters).rev() {
            dealt.swap(a, random.below(a + 1));
        }
        table.extend(dealt);
        let pair_of_sets = [draw_marks(random, pairs, 20), draw_marks(random, pairs, 20)];
        marks.extend(pair_of_sets.repeat(letters));
    }
    table.extend(marks);
    table
}

/// What a composed table looks like: components of so many states with so many pairs, one after
/// the other, then single states; marks are drawn for every transition or once for a state.
#[derive(Clone)]
struct Shape {
    parts: Vec<(usize, usize)>,
    singles: usize,
    letters: usize,
    percent: usize,
    shared: bool,
}

impl Shape {
    /// The number of states.
    fn states(&self) -> usize {
        self.parts.iter().map(|part| part.0).sum::<usize>() + self.singles
    }

    /// The number of pairs.
    fn pairs(&self) -> usize {
        self.parts.iter().map(|part| part.1).max().unwrap_or(0)
    }

    /// Draws a table of this shape: letter 0 goes round each part, the other letters anywhere in
    /// it, and one letter of a part's last state leads on.
    fn draw(&self, random: &mut Random) -> Vec<u8> {
        let (states, letters) = (self.states(), self.letters);
        let mut table = vec![states as u8, letters as u8, self.pairs() as u8, 0];
        let mut marks = Vec::new();
        let mut begin = 0;
        for &(size, pairs) in &self.parts {
            for inner in 0..size {
                let shared = [(); 2].map(|_| draw_marks(random, pairs, self.percent));
                for a in 0..letters {
                    let leaves = inner + 1 == size && a + 1 == letters && begin + size < states;
                    table.push(if leaves {
                        (begin + size) as u8
                    } else if a == 0 {
                        (begin + (inner + 1) % size) as u8
                    } else {
                        (begin + random.below(size)) as u8
                    });
                    if self.shared {
                        marks.extend(shared);
                    } else {
                        marks.extend([(); 2].map(|_| draw_marks(random, pairs, self.percent)));
                    }
                }
            }
            begin += size;
        }
        for state in begin..states {
            table.extend(vec![(state + 1).min(states - 1) as u8; letters]);
            marks.extend(vec![0; 2 * letters]);
        }
        table.extend(marks);
        table
    }

    /// Draws tables of this shape, then single components of other sizes with as many pairs and
    /// no more single states, until one has `aim` rows; gives the one with the most rows.
    fn search(&self, random: &mut Random, aim: usize, buffers: &mut Buffers) -> Vec<u8> {
        let mut best = (0, self.draw(random));
        for attempt in 0..200 {
            let mut shape = self.clone();
            if attempt >= 40 {
                shape.parts = vec![(random.range(1, 48), self.pairs())];
                shape.singles = random.below(self.singles + 1);
            }
            let table = shape.draw(random);
            let rows = buffers.translate(ORDERS, &table, aim).rows;
            if rows > best.0 {
                best = (rows, table);
            }
            if rows == aim {
                break;
            }
        }
        best.1
    }
}

/// Draws tables of one kind that take turns, each with as many rows as `aim` if it can be.
fn search_some(
    shape: &Shape,
    random: &mut Random,
    aim: usize,
    buffers: &mut Buffers,
) -> Vec<Vec<u8>> {
    (0..IN_TURN)
        .map(|_| shape.search(random, aim, buffers))
        .collect()
}

/// Draws a word of so many letters.
fn draw_word(random: &mut Random, length: usize, letters: usize) -> Vec<u8> {
    (0..length).map(|_| random.below(letters) as u8).collect()
}

/// Counts the letters that a run reads until a pass of the loop begins where one began.
fn letters_read(
    start: usize,
    lead: &[u8],
    looped: &[u8],
    step: impl Fn(usize, u8) -> usize,
) -> usize {
    let mut place = lead.iter().fold(start, |place, &a| step(place, a));
    let mut seen = vec![false; MOST_ROWS];
    let mut read = lead.len();
    while !seen[place] {
        seen[place] = true;
        place = looped.iter().fold(place, |place, &a| step(place, a));
        read += looped.len();
    }
    read
}

/// The largest ratios to the tuned side that the judges' summary shows.
#[derive(Default)]
struct JudgeBars {
    rabin: Range,
    parity: Range,
    short: Range,
}

impl JudgeBars {
    /// Notes one word; only large parity tables count among long loops.
    fn note(&mut self, case: &str, parity_rows: Option<usize>, read: usize, times: &Times) {
        let found = against(times, TUNED);
        match parity_rows {
            _ if read < LONG => self.short.note(found, case),
            None => self.rabin.note(found, case),
            Some(rows) if rows >= LARGE => self.parity.note(found, case),
            Some(_) => (),
        }
    }
}

/// Measures one word on a complete Rabin table; gives the letters read and the times.
fn time_rabin(
    table: &[u8],
    sides: &[usize],
    lead: &[u8],
    looped: &[u8],
    effort: Effort,
) -> (usize, Times) {
    let letters = table[1] as usize;
    let step = |state: usize, a: u8| table[4 + state * letters + a as usize] as usize;
    let read = letters_read(table[3] as usize, lead, looped, step);
    let times = measure_judges(sides, effort, |side| {
        RABIN_JUDGES[side](black_box(table), black_box(lead), black_box(looped))
    });
    (read, times)
}

/// Measures, notes and prints one word on a complete Rabin table.
fn bench_rabin(
    case: &str,
    table: &[u8],
    lead: &[u8],
    looped: &[u8],
    effort: Effort,
    bars: &mut JudgeBars,
) {
    let (read, times) = time_rabin(table, &JUDGES, lead, looped, effort);
    bars.note(case, None, read, &times);
    line_of_judgement(case, table[0] as usize, table[1] as usize, read, &times);
}

/// A complete parity table in vectors cut to its size.
struct Parity {
    rows: usize,
    letters: usize,
    targets: Vec<u16>,
    priorities: Vec<u8>,
}

impl Parity {
    /// Translates a table that is known to fit.
    fn of_table(table: &[u8], buffers: &mut Buffers) -> Parity {
        let rows = buffers.translate(TUNED, table, MOST_ROWS).rows;
        let letters = table[1] as usize;
        let (targets, priorities) = (&buffers.targets, &buffers.priorities);
        Parity {
            rows,
            letters,
            targets: targets[..rows * letters].to_vec(),
            priorities: priorities[..rows * letters].to_vec(),
        }
    }

    /// A ring of rows: each letter leads from a row to the next one.
    fn ring(random: &mut Random, rows: usize, letters: usize) -> Parity {
        let cells = rows * letters;
        Parity {
            rows,
            letters,
            targets: (0..cells)
                .map(|cell| ((cell / letters + 1) % rows) as u16)
                .collect(),
            priorities: (0..cells).map(|_| random.range(1, 13) as u8).collect(),
        }
    }

    /// Measures, notes and prints one word with the sides.
    fn bench(
        &self,
        case: &str,
        sides: &[usize],
        lead: &[u8],
        looped: &[u8],
        effort: Effort,
        bars: &mut JudgeBars,
    ) {
        let (read, times) = self.time(sides, lead, looped, effort);
        let named = format!("{case}, {} rows", self.rows);
        bars.note(&named, Some(self.rows), read, &times);
        line_of_judgement(case, self.rows, self.letters, read, &times);
    }

    /// Measures one word with the sides; gives the letters read and the times.
    fn time(&self, sides: &[usize], lead: &[u8], looped: &[u8], effort: Effort) -> (usize, Times) {
        let letters = self.letters;
        let step = |row: usize, a: u8| self.targets[row * letters + a as usize] as usize;
        let read = letters_read(0, lead, looped, step);
        let times = measure_judges(sides, effort, |side| {
            PARITY_JUDGES[side](
                self.rows,
                letters,
                black_box(&self.targets),
                black_box(&self.priorities),
                black_box(lead),
                black_box(looped),
            )
        });
        (read, times)
    }
}

/// A Rabin table whose states form a ring: each letter leads from a state to the next one.
fn ring_table(random: &mut Random, states: usize, letters: usize) -> Vec<u8> {
    let mut table = vec![states as u8, letters as u8, 6, 0];
    table.extend((0..states * letters).map(|cell| ((cell / letters + 1) % states) as u8));
    table.extend((0..2 * states * letters).map(|_| draw_marks(random, 6, 10)));
    table
}

/// Part (a): random tables of the kind of document 001's second table.
fn part_a(random: &mut Random, effort: Effort, buffers: &mut Buffers) {
    println!(
        "\n(a) {} random tables like those of document 001's Table 2; quoted from that Table 2:",
        effort.tables
    );
    println!(
        "    the average #states in the columns StreettIAR 4959, sbIAR 1568, StreettIAR_P* 4175,"
    );
    println!("    sbIAR_P* 1081, IAR_P* 833 (P: post-processed, *: optimised)");
    println!("    20 to 30 states, 16 letters, 6 pairs, density 0.05, marks shared by state with");
    println!(
        "    probability 0.2 each; capacity 4,096; in each round a side takes all tables, one"
    );
    println!("    after the other; sums of each table's smallest time\n");
    let tables: Vec<Vec<u8>> = (0..effort.tables)
        .map(|_| draw_paper_table(random))
        .collect();
    let answers: Vec<Translation> = tables
        .iter()
        .map(|table| compare_translations(table, MOST_ROWS, buffers))
        .collect();
    let mut best = vec![[f64::INFINITY; 5]; tables.len()];
    for round in 0..4 * effort.rounds {
        for side in ALL {
            if side == PLAIN && round > 1 {
                continue;
            }
            for ((table, answer), best) in tables.iter().zip(&answers).zip(&mut best) {
                let before = Instant::now();
                let given = buffers.translate(side, black_box(table), black_box(MOST_ROWS));
                best[side] = best[side].min(before.elapsed().as_nanos() as f64);
                compare(side, given == *answer, &format!("{answer:?} {given:?}"));
            }
        }
    }
    let mut large = Range::default();
    let mut sums = [[0.0; 5]; 3];
    let mut rows = [0; 3];
    let mut counts = [0; 3];
    for (place, (answer, times)) in answers.iter().zip(&best).enumerate() {
        let found = answer.rows;
        let groups = [
            true,
            answer.number == 0 && found >= LARGE,
            answer.number == 8,
        ];
        if groups[1] {
            let case = format!("table {}, {found} rows", place + 1);
            large.note(against(times, TUNED), &case);
        }
        for group in (0..3).filter(|&group| groups[group]) {
            counts[group] += 1;
            rows[group] += found;
            for (sum, time) in sums[group].iter_mut().zip(times) {
                *sum += time;
            }
        }
    }
    head_of_translations();
    let names = [
        "all tables together",
        "those of 500 rows or more",
        "those refused as full",
    ];
    for group in (0..3).filter(|&group| counts[group] > 0) {
        let name = format!("{} ({})", names[group], counts[group]);
        line_of_translation(&name, 16, rows[group], &sums[group], None);
    }
    let fitting = counts[0] - counts[2];
    println!(
        "\n    average rows {:.0} over {fitting} tables, {} of {} were full",
        rows[0] as f64 / fitting.max(1) as f64,
        counts[2],
        counts[0]
    );
    println!(
        "    summary (a): largest p/tuned from 500 rows on {}",
        large.largest()
    );
}

/// The shapes that come nearest to so many rows, for so many pairs.
fn shape_for(pairs: usize, aim: usize, letters: usize, percent: usize, shared: bool) -> Shape {
    let (parts, singles) = match (pairs, aim) {
        (2, _) => (vec![(64, 2)], 0),
        (3, _) => (vec![(64, 3)], 0),
        (4, 1_024) => (vec![(42, 4)], 16),
        (4, _) => (vec![(64, 4)], 0),
        (5, 1_024) => (vec![(8, 5), (2, 4)], 16),
        (5, _) => (vec![(34, 5)], 16),
        (_, 1_024) => (vec![(1, 6), (2, 5), (2, 4)], 16),
        (_, _) => (vec![(5, 6), (4, 5)], 16),
    };
    Shape {
        parts,
        singles,
        letters,
        percent,
        shared,
    }
}

/// Part (b): tables with as many rows as can be, long loops, many passes, and tiny tables.
fn part_b(random: &mut Random, effort: Effort, buffers: &mut Buffers) {
    println!("\n(b) worst cases; {IN_TURN} tables of each kind take turns, rows and times are averages\n");
    head_of_translations();
    let (mut large, mut few, mut small) = (Range::default(), Range::default(), Range::default());
    let aims = [
        (2, 128),
        (3, 384),
        (4, 1_024),
        (4, 1_536),
        (5, 1_024),
        (5, 4_096),
        (6, 1_024),
    ];
    for (pairs, aim) in aims.into_iter().chain([(6, 4_096)]) {
        let kinds = [
            (16, 10, false),
            (16, 20, false),
            (16, 50, false),
            (16, 20, true),
        ];
        let fewer = [
            (2, 20, false),
            (3, 20, false),
            (4, 20, false),
            (8, 20, false),
        ];
        for (letters, percent, shared) in kinds.into_iter().chain(fewer) {
            let shape = shape_for(pairs, aim, letters, percent, shared);
            let tables = search_some(&shape, random, aim, buffers);
            let measured = measure_translations(&tables, aim, effort, buffers);
            let by = if shared { "state" } else { "cell" };
            let case = format!("{pairs} pairs, marks 0.{} by {by}", percent / 10);
            let rows = measured.average(tables.len());
            if rows >= LARGE {
                let range = if letters < 4 { &mut few } else { &mut large };
                let case = format!("{case}, {rows} rows, {letters} letters");
                range.note(against(&measured.times, TUNED), &case);
            }
            line_of_translation(&case, letters, rows, &measured.times, Some(measured.again));
        }
    }
    let one = |letters: u8, pairs: u8| {
        let cells = letters as usize;
        let mut table = vec![1, letters, pairs, 0];
        table.resize(4 + cells, 0);
        table.resize(4 + 3 * cells, (1u8 << pairs) - 1);
        table
    };
    let tiny = [
        ("T, capacity 4", CARD.to_vec(), 4),
        ("T, capacity 4,096", CARD.to_vec(), MOST_ROWS),
        ("one state, no pair", one(1, 0), 1),
        ("one state, 6 pairs", one(16, 6), 1),
    ];
    for (name, table, capacity) in tiny {
        let letters = table[1] as usize;
        let measured = measure_translations(&[table], capacity, effort, buffers);
        small.note(against(&measured.times, TUNED), name);
        line_of_translation(name, letters, measured.rows, &measured.times, None);
    }
    println!(
        "\n    summary (b), translator: largest p/tuned from 500 rows on {}; with fewer than 4 letters {}; of tiny tables {}",
        large.largest(),
        few.largest(),
        small.largest()
    );

    println!();
    head_of_judgements();
    let mut bars = JudgeBars::default();
    let mut wide = shape_for(6, 4_096, 16, 20, false);
    wide.parts = vec![(64, 6)];
    wide.singles = 0;
    let wide = wide.draw(random);
    let ring = ring_table(random, 64, 16);
    let long = draw_word(random, LONGEST, 16);
    let short = draw_word(random, 4, 16);
    bench_rabin("Rabin, loop 65,535", &wide, &[], &long, effort, &mut bars);
    bench_rabin(
        "Rabin, lead 65,535, loop 1",
        &wide,
        &long,
        &[3],
        effort,
        &mut bars,
    );
    bench_rabin("Rabin, loop 4", &wide, &[], &short, effort, &mut bars);
    bench_rabin(
        "Rabin ring, loop 65,535",
        &ring,
        &[],
        &long,
        effort,
        &mut bars,
    );
    bench_rabin("Rabin ring, loop 1", &ring, &[], &[0], effort, &mut bars);
    bench_rabin("Rabin T, loop 0 1", &CARD, &[], &[0, 1], effort, &mut bars);
    bench_rabin(
        "Rabin T, loop 1 1 0 0",
        &CARD,
        &[],
        &[1, 1, 0, 0],
        effort,
        &mut bars,
    );
    bench_rabin(
        "Rabin one state, loop 0",
        &one(1, 0),
        &[],
        &[0],
        effort,
        &mut bars,
    );
    for (pairs, aim, letters) in [(6, 4_096, 16), (5, 4_096, 4), (4, 1_024, 16), (6, 1_024, 2)] {
        let mut shape = shape_for(pairs, aim, letters, 20, false);
        shape.singles = 0;
        shape.parts.truncate(1);
        let parity = Parity::of_table(&shape.search(random, aim, buffers), buffers);
        let long = draw_word(random, LONGEST, letters);
        let short = draw_word(random, 4, letters);
        parity.bench(
            "parity, loop 65,535",
            &JUDGES,
            &[],
            &long,
            effort,
            &mut bars,
        );
        parity.bench(
            "parity, lead 65,535, loop 1",
            &JUDGES,
            &long,
            &[1],
            effort,
            &mut bars,
        );
        parity.bench("parity, loop 4", &JUDGES, &[], &short, effort, &mut bars);
    }
    let ring = Parity::ring(random, 1_024, 16);
    ring.bench(
        "parity ring, loop 1,023",
        &JUDGES,
        &[],
        &long[..1_023],
        effort,
        &mut bars,
    );
    let ring = Parity::ring(random, MOST_ROWS, 16);
    ring.bench(
        "parity ring, loop 15",
        &JUDGES,
        &[],
        &long[..15],
        effort,
        &mut bars,
    );
    ring.bench("parity ring, loop 1", &JUDGES, &[], &[0], effort, &mut bars);
    if effort.tables >= 1_000 {
        let once = Effort {
            case: Duration::ZERO,
            rounds: 2,
            ..effort
        };
        ring.bench(
            "parity ring, loop 65,535",
            &FAST_JUDGES,
            &[],
            &long,
            once,
            &mut bars,
        );
    }
    let card = Parity::of_table(&CARD, buffers);
    card.bench(
        "parity T, loop 0 1",
        &JUDGES,
        &[],
        &[0, 1],
        effort,
        &mut bars,
    );
    card.bench(
        "parity T, loop 1 1 0 0",
        &JUDGES,
        &[],
        &[1, 1, 0, 0],
        effort,
        &mut bars,
    );
    let single = Parity::of_table(&one(1, 0), buffers);
    single.bench(
        "parity one row, loop 0",
        &JUDGES,
        &[],
        &[0],
        effort,
        &mut bars,
    );
    println!(
        "\n    summary (b), judges: largest p/tuned from 1,000 letters read on: Rabin {}; parity from 500 rows on {}; of shorter reads {}",
        bars.rabin.largest(),
        bars.parity.largest(),
        bars.short.largest()
    );
}

/// Part (c): how the times grow with rows and with loops.
fn part_c(random: &mut Random, effort: Effort, buffers: &mut Buffers) {
    println!("\n(c) growth: nanoseconds for a cell (row and letter), marks 0.2 by cell; {IN_TURN} tables of");
    println!("    each size take turns\n");
    println!(
        "{:>6} {:>6} {:>8} {:>8} {:>8} {:>8} {:>8} {:>6} {:>8} {:>8} {:>9} {:>8} {:>8}",
        "aim",
        "rows",
        "letters",
        "proved",
        "tuned",
        "plain",
        "p/tuned",
        "again",
        "p/plain",
        "special",
        "p/special",
        "orders",
        "p/orders"
    );
    let (mut large, mut growth) = (Range::default(), [(); 2].map(|_| Range::default()));
    let family = [
        (vec![(1, 4)], 8),
        (vec![(2, 4)], 16),
        (vec![(1, 5)], 8),
        (vec![(2, 5)], 16),
        (vec![(4, 5)], 32),
        (vec![(8, 5), (2, 4)], 16),
        (vec![(17, 5)], 8),
        (vec![(34, 5)], 16),
    ];
    for (letters, growth) in [16, 4].into_iter().zip(&mut growth) {
        for (step, (parts, singles)) in family.iter().enumerate() {
            let (parts, singles, aim) = (parts.clone(), *singles, 32 << step);
            let shape = Shape {
                parts,
                singles,
                letters,
                percent: 20,
                shared: false,
            };
            let tables = search_some(&shape, random, aim, buffers);
            let measured = measure_translations(&tables, aim, effort, buffers);
            let rows = measured.average(tables.len());
            let times = &measured.times;
            let cells = (measured.rows * letters) as f64 / tables.len() as f64;
            let each = times.map(|time| time / cells);
            let case = format!("{rows} rows, {letters} letters");
            growth.note(each[PROVED], &case);
            if rows >= LARGE {
                large.note(against(times, TUNED), &case);
            }
            println!(
                "{aim:>6} {rows:>6} {letters:>8} {:>8.2} {:>8.2} {:>8.2} {:>8} {:>6.2} {:>8} {:>8.2} {:>9} {:>8.2} {:>8}",
                each[PROVED],
                each[TUNED],
                each[PLAIN],
                ratio(times, TUNED),
                measured.again,
                ratio(times, PLAIN),
                each[SPECIAL],
                ratio(times, SPECIAL),
                each[ORDERS],
                ratio(times, ORDERS)
            );
        }
    }
    println!(
        "\n    summary (c), translator: largest p/tuned from 500 rows on {}; proved, ns for a cell: {} to {}, and {} to {}",
        large.largest(),
        growth[0].smallest(),
        growth[0].largest(),
        growth[1].smallest(),
        growth[1].largest()
    );

    println!("\n    loops doubled: nanoseconds for a letter read, 16 letters; the tables are checked whole\n");
    println!(
        "{:>8} {:>10} {:>8} {:>8} {:>8} {:>8} {:>9} {:>10} {:>8} {:>8} {:>8} {:>8} {:>9}",
        "loop",
        "Rabin read",
        "proved",
        "tuned",
        "p/tuned",
        "special",
        "p/special",
        "par. read",
        "proved",
        "tuned",
        "p/tuned",
        "special",
        "p/special"
    );
    let mut bars = JudgeBars::default();
    let shape = Shape {
        parts: vec![(64, 6)],
        singles: 0,
        letters: 16,
        percent: 20,
        shared: false,
    };
    let wide = shape.draw(random);
    let mut shape = shape_for(6, 4_096, 16, 20, false);
    (shape.parts, shape.singles) = (vec![(5, 6)], 0);
    let parity = Parity::of_table(&shape.search(random, MOST_ROWS, buffers), buffers);
    for doubled in (4..=16).map(|power| (1usize << power).min(LONGEST)) {
        let word = draw_word(random, doubled, 16);
        let (rabin_read, rabin) = time_rabin(&wide, &FAST_JUDGES, &[], &word, effort);
        let (parity_read, times) = parity.time(&FAST_JUDGES, &[], &word, effort);
        let case = format!("loop {doubled}");
        bars.note(&case, None, rabin_read, &rabin);
        bars.note(&case, Some(parity.rows), parity_read, &times);
        let rabin_each = rabin.map(|time| time / rabin_read as f64);
        let each = times.map(|time| time / parity_read as f64);
        println!(
            "{doubled:>8} {rabin_read:>10} {:>8.2} {:>8.2} {:>8} {:>8.2} {:>9} {parity_read:>10} {:>8.2} {:>8.2} {:>8} {:>8.2} {:>9}",
            rabin_each[PROVED],
            rabin_each[TUNED],
            ratio(&rabin, TUNED),
            rabin_each[SPECIAL],
            ratio(&rabin, SPECIAL),
            each[PROVED],
            each[TUNED],
            ratio(&times, TUNED),
            each[SPECIAL],
            ratio(&times, SPECIAL)
        );
    }

    println!("\n    passes doubled: rings of rows, loop of 255, nanoseconds for a letter read\n");
    println!(
        "{:>8} {:>10} {:>8} {:>8} {:>8} {:>8} {:>9}",
        "rows", "read", "proved", "tuned", "p/tuned", "special", "p/special"
    );
    let mut growth = Range::default();
    for rows in (5..=12).map(|power| 1usize << power) {
        let ring = Parity::ring(random, rows, 16);
        let word = draw_word(random, 255, 16);
        let (read, times) = ring.time(&FAST_JUDGES, &[], &word, effort);
        let case = format!("ring of {rows} rows");
        bars.note(&case, Some(rows), read, &times);
        let each = times.map(|time| time / read as f64);
        growth.note(each[PROVED], &case);
        println!(
            "{rows:>8} {read:>10} {:>8.2} {:>8.2} {:>8} {:>8.2} {:>9}",
            each[PROVED],
            each[TUNED],
            ratio(&times, TUNED),
            each[SPECIAL],
            ratio(&times, SPECIAL)
        );
    }
    println!(
        "\n    summary (c), judges: largest p/tuned from 1,000 letters read on: Rabin {}; parity from 500 rows on {}; proved, ns for a letter of a ring: {} to {}",
        bars.rabin.largest(),
        bars.parity.largest(),
        growth.smallest(),
        growth.largest()
    );
}

/// Runs only one side on a fixed input, for a profiler.
fn profile(what: &str, side: usize, buffers: &mut Buffers) {
    let mut random = Random::new(1);
    let shape = Shape {
        parts: vec![(5, 6)],
        singles: 0,
        letters: 16,
        percent: 20,
        shared: false,
    };
    let table = shape.search(&mut random, 3_600, buffers);
    let parity = Parity::of_table(&table, buffers);
    let word = draw_word(&mut random, LONGEST, 16);
    let calls = if what == "profile-tiny" { 20_000 } else { 200 };
    for _ in 0..calls {
        match what {
            "profile-translate" => {
                black_box(buffers.translate(side, &table, MOST_ROWS));
            }
            "profile-tiny" => {
                black_box(buffers.translate(side, &CARD, 4));
            }
            "profile-parity" => {
                let (targets, priorities) = (&parity.targets, &parity.priorities);
                black_box(PARITY_JUDGES[side](
                    parity.rows,
                    16,
                    targets,
                    priorities,
                    &[],
                    &word,
                ));
            }
            _ => {
                black_box(RABIN_JUDGES[side](&table, &[], &word));
            }
        }
    }
}

/// Part (d): components of systems in an array, through the search's own call.
fn part_d(random: &mut Random, effort: Effort) {
    println!("\n(d) components of a system in an array: nanoseconds for a cell (state and letter), by the search's own call;");
    println!("tuned: Tarjan's walk in Pearce's form, iterative, with arrays made once\n");
    println!(
        "    {:<10} {:>7} {:>6} {:>10} {:>9} {:>9} {:>8}",
        "shape", "letters", "states", "components", "proved", "tuned", "p/tuned"
    );
    let mut largest = 0.0f64;
    for shape in systems::SHAPES {
        for letters in [2, 16] {
            for states in [64, 250, 1_000] {
                let targets = systems::targets(random, shape, states, letters);
                let mut work = vec![0; 5 * states];
                let mut tarjan = tuned::Tarjan::new(states);
                let mut out = vec![0; states];
                let found = calls::find_components_of_system(
                    states, letters, &targets, &mut work, &mut out,
                );
                compare(PROVED, found, "a system that fits");
                let expected = out.clone();
                tarjan.components(states, letters, &targets, &mut out);
                compare(TUNED, out == expected, "components");
                let times = interleave(
                    &[PROVED, TUNED],
                    effort.rounds,
                    effort.case,
                    |side, calls| {
                        let begin = Instant::now();
                        for _ in 0..calls {
                            let targets = black_box(&targets[..]);
                            if side == PROVED {
                                calls::find_components_of_system(
                                    states, letters, targets, &mut work, &mut out,
                                );
                            } else {
                                tarjan.components(states, letters, targets, &mut out);
                            }
                            black_box(&out);
                        }
                        begin.elapsed()
                    },
                );
                let cells = (states * letters) as f64;
                let components = (0..states).filter(|&q| usize::from(out[q]) == q).count();
                largest = largest.max(against(&times, TUNED));
                println!(
                    "    {:<10} {:>7} {:>6} {:>10} {:>9.2} {:>9.2} {:>8.2}",
                    format!("{shape:?}"),
                    letters,
                    states,
                    components,
                    times[PROVED] / cells,
                    times[TUNED] / cells,
                    against(&times, TUNED)
                );
            }
        }
    }
    println!("\n    summary (d): largest p/tuned {largest:.2}");
}

/// Draws a table of 64 states and 6 pairs on a system of some shape, with marks by cell.
fn draw_on_system(
    random: &mut Random,
    shape: systems::Shape,
    letters: usize,
    percent: usize,
) -> Vec<u8> {
    let targets = systems::targets(random, shape, 64, letters);
    let mut table = vec![64, letters as u8, 6, 0];
    let mut marks = Vec::new();
    for target in targets {
        if target == systems::NONE {
            table.push(plain::NO_STATE);
            marks.extend([0, 0]);
        } else {
            table.push(target as u8);
            marks.extend([(); 2].map(|_| draw_marks(random, 6, percent)));
        }
    }
    table.extend(marks);
    table
}

/// Times the forecasts of tables that take turns, comparing every round; gives the rows forecast
/// and the times, for a table on the average.
fn measure_forecasts(tables: &[Vec<u8>], effort: Effort) -> (usize, Times) {
    let answers: Vec<Forecast> = tables
        .iter()
        .map(|table| FORECASTERS[PROVED](table))
        .collect();
    let mut last = answers.clone();
    let times = interleave(&FORECASTS, effort.rounds, effort.case, |side, repeats| {
        let before = Instant::now();
        for _ in 0..repeats {
            for (table, answer) in tables.iter().zip(&mut last) {
                *answer = FORECASTERS[side](black_box(table));
            }
        }
        let taken = before.elapsed();
        compare(side, last == answers, "the forecasts of a round");
        taken
    });
    let rows: usize = answers.iter().map(|answer| answer.rows as usize).sum();
    let average = (rows + tables.len() / 2) / tables.len();
    (average, times.map(|time| time / tables.len() as f64))
}

/// Measures, prints and notes the forecasts of tables of one kind.
fn bench_forecasts(case: &str, tables: &[Vec<u8>], effort: Effort, range: &mut Range) {
    let (rows, times) = measure_forecasts(tables, effort);
    range.note(against(&times, TUNED), case);
    println!(
        "    {case:<22} {:>7} {rows:>7} {:>9.0} {:>9.0} {:>9.0} {:>8}",
        tables[0][1],
        times[PROVED],
        times[TUNED],
        times[PLAIN],
        ratio(&times, TUNED)
    );
}

/// Part (e): forecasts of tables on systems of every shape, and of T.
fn part_e(random: &mut Random, effort: Effort) {
    println!("\n(e) forecasts: nanoseconds for a call; 64 states, 6 pairs, marks by cell, start 0; {IN_TURN} tables");
    println!("    of each kind take turns, rows (as forecast) and times are averages; tuned: Tarjan's walk");
    println!("    from the start in one pass\n");
    println!(
        "    {:<22} {:>7} {:>7} {:>9} {:>9} {:>9} {:>8}",
        "case", "letters", "rows", "proved", "tuned", "plain", "p/tuned"
    );
    let mut ranges = [(); 2].map(|_| Range::default());
    for (letters, range) in [2, 16].into_iter().zip(&mut ranges) {
        for shape in systems::SHAPES {
            for percent in [20, 1] {
                let tables: Vec<Vec<u8>> = (0..IN_TURN)
                    .map(|_| draw_on_system(random, shape, letters, percent))
                    .collect();
                let case = format!("{shape:?}, marks {:.2}", percent as f64 / 100.0);
                bench_forecasts(&case, &tables, effort, range);
            }
        }
    }
    let mut tiny = Range::default();
    bench_forecasts("T", &[CARD.to_vec()], effort, &mut tiny);
    println!(
        "\n    summary (e): largest p/tuned with 2 letters {}; with 16 letters {}; of a tiny table {}",
        ranges[0].largest(),
        ranges[1].largest(),
        tiny.largest()
    );
}

/// Reads the arguments of the command line and runs the parts they name.
fn main() {
    let words: Vec<String> = std::env::args().skip(1).collect();
    let known = [
        "a",
        "b",
        "c",
        "d",
        "e",
        "quick",
        "profile-translate",
        "profile-tiny",
        "profile-parity",
        "profile-rabin",
        "tuned",
    ];
    if let Some(word) = words.iter().find(|word| !known.contains(&word.as_str())) {
        eprintln!("unknown word {word}; known are {}", known.join(", "));
        exit(2);
    }
    let mut buffers = Buffers::new();
    if let Some(word) = words.iter().find(|word| word.starts_with("profile-")) {
        let tuned = words.iter().any(|word| word == "tuned");
        profile(word, if tuned { TUNED } else { PROVED }, &mut buffers);
        return;
    }
    let seed = match std::env::var("SEED").map(|text| text.trim().parse()) {
        Ok(Ok(seed)) => seed,
        Ok(Err(_)) => {
            eprintln!("SEED is not a number");
            exit(2);
        }
        Err(_) => 1,
    };
    let quick = words.iter().any(|word| word == "quick");
    let effort = if quick {
        Effort {
            tables: 100,
            case: Duration::from_millis(50),
            rounds: 3,
        }
    } else {
        Effort {
            tables: 1_000,
            case: Duration::from_millis(600),
            rounds: 4,
        }
    };
    println!("seed {seed}; each time is the smallest of several rounds in which the sides take");
    println!(
        "turns on the same inputs; a slice of a round is about a millisecond or one call; the"
    );
    println!("lent arrays are allocated once, shared by all sides and not cleared between calls.");
    println!("Tables of one kind take turns within a slice, since a table is translated once and");
    println!("not again and again; again: p/tuned where one table is.");
    println!("proved: the proved library; tuned: the tuned conventional implementation (packed");
    println!("records, early out, good hash; judges with repetition detection); plain: the plain");
    println!(
        "implementation, in fewer rounds; special: tuned with equal letters of a state grouped"
    );
    println!(
        "and copies of the row loop for each record length, judges with copies of the walk for"
    );
    println!("each number of letters; orders: all orders of six pairs tabulated when compiled;");
    println!("p/x: the proved side's time divided by that of x; every result is compared.");
    let chosen = |part: &str| {
        words.iter().all(|word| word == "quick") || words.iter().any(|word| word == part)
    };
    if chosen("a") {
        part_a(&mut Random::of_case(seed, 1), effort, &mut buffers);
    }
    if chosen("b") {
        part_b(&mut Random::of_case(seed, 2), effort, &mut buffers);
    }
    if chosen("c") {
        part_c(&mut Random::of_case(seed, 3), effort, &mut buffers);
    }
    if chosen("d") {
        part_d(&mut Random::of_case(seed, 4), effort);
    }
    if chosen("e") {
        part_e(&mut Random::of_case(seed, 5), effort);
    }
}

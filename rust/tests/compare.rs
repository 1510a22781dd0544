//! Random tables and words: the translator's C interface against the plain implementation,
//! every answer and every lent array to its end; forecasts against the tuned one too.
//!
//! SEED (decimal) sets the seed, CASES the number of table cases (the other tests take their
//! share of it), ONLY the one case to run. Each case depends on the seed and its number alone.

use duckbullion::calls::{self, Forecast, Judged, ParityTable, Translation};
use duckbullion::plain::{self, Lent};
use duckbullion::random::{self, Random, Word};
use duckbullion::{systems, tuned};
use std::collections::BTreeMap;
use std::fmt::Debug;
use std::io::Write;

/// The seed of a run that sets none.
const SEED: u64 = 20_250_101;
/// The number of table cases of a run that sets none.
const CASES: u64 = 150_000;
/// A run of fewer table cases need not see every refusal.
const FULL_RUN: u64 = 20_000;

/// A number from the environment.
fn setting(name: &str) -> Option<u64> {
    let text = std::env::var(name).ok()?;
    Some(
        text.parse()
            .unwrap_or_else(|_| panic!("{name} is not a decimal number: {text}")),
    )
}

/// The seed of this run.
fn seed() -> u64 {
    setting("SEED").unwrap_or(SEED)
}

/// The number of table cases of this run.
fn cases() -> u64 {
    setting("CASES").unwrap_or(CASES)
}

/// Runs the cases below a number, or the one that is asked for.
fn each_case(count: u64, run: impl FnMut(u64)) {
    match setting("ONLY") {
        Some(only) => (only..only + 1).for_each(run),
        None => (0..count).for_each(run),
    }
}

/// Bytes in hexadecimal, cut if there are very many.
fn hex(bytes: &[u8]) -> String {
    let shown = &bytes[..bytes.len().min(3200)];
    let digits: String = shown.iter().map(|byte| format!("{byte:02x}")).collect();
    let more = if shown.len() < bytes.len() { "…" } else { "" };
    format!("{digits}{more} ({} bytes)", bytes.len())
}

/// Prints a text past the test harness, which hides what a passing test prints.
fn print(text: &str) {
    std::io::stderr()
        .write_all(text.as_bytes())
        .expect("the counts are printed");
}

/// What a case is about, for the message of a failure.
struct Case<'a> {
    number: u64,
    table: &'a [u8],
    word: Option<&'a Word>,
}

impl Case<'_> {
    /// Fails with the whole case unless both sides gave the same.
    fn same<T: PartialEq + Debug>(&self, what: &str, called: T, plain: T) {
        if called == plain {
            return;
        }
        let word = match self.word {
            Some(word) => format!("lead-in {}\nloop {}", hex(&word.lead), hex(&word.looped)),
            None => "no word".to_string(),
        };
        let case = format!("SEED={} ONLY={}", seed(), self.number);
        let table = hex(self.table);
        panic!(
            "{what} differs\n{case}\ntable {table}\n{word}\ncalled: {called:?}\nplain: {plain:?}"
        );
    }
}

/// The outcomes seen, by call: numbers 0 to 11, then accepts, rejects and stops.
#[derive(Default)]
struct Tally {
    met: BTreeMap<&'static str, [u64; 15]>,
    /// The translations by the digits of their number of rows.
    sizes: BTreeMap<u32, u64>,
}

impl Tally {
    /// Counts a number, 0 for success.
    fn number(&mut self, call: &'static str, number: u8) {
        self.met.entry(call).or_default()[usize::from(number)] += 1;
    }

    /// Counts the rows of a translation.
    fn rows(&mut self, rows: usize) {
        *self.sizes.entry(rows.ilog10() + 1).or_default() += 1;
    }

    /// Counts a judge's answer.
    fn answer(&mut self, call: &'static str, answer: Judged) {
        let column = match answer {
            Judged::Refused(number) => usize::from(number),
            Judged::Accepts => 12,
            Judged::Rejects => 13,
            Judged::Stops(_) => 14,
        };
        self.met.entry(call).or_default()[column] += 1;
    }

    /// Prints the counts of every call.
    fn print(&self, title: &str) {
        let mut text = format!("\n{title}, seed {}:\n", seed());
        for (call, counts) in &self.met {
            text += &format!("  {call}: {} compared:", counts.iter().sum::<u64>());
            for (column, count) in counts.iter().enumerate().filter(|(_, &count)| count > 0) {
                let name = match column {
                    0 => "success".to_string(),
                    12 => "accepts".to_string(),
                    13 => "rejects".to_string(),
                    14 => "stops".to_string(),
                    number => format!("refused {number}"),
                };
                text += &format!(" {name} {count},");
            }
            text = text.trim_end_matches(',').to_string() + "\n";
        }
        for (digits, count) in &self.sizes {
            text += &format!("  translations with rows of {digits} digits: {count}\n");
        }
        print(&text);
    }

    /// Demands that a call gave each of these outcomes in a run of full size.
    fn demand(&self, call: &str, columns: impl IntoIterator<Item = usize>) {
        if cases() < FULL_RUN || setting("ONLY").is_some() {
            return;
        }
        for column in columns {
            assert!(
                self.met[call][column] > 0,
                "{call} never met outcome {column}"
            );
        }
    }
}

/// Translates through the C interface into one bundle of lent arrays.
fn called_translate(table: &[u8], capacity: usize, lent: &mut Lent) -> Translation {
    let Lent {
        targets,
        priorities,
        sources,
        records,
    } = lent;
    calls::translate_table(table, capacity, targets, priorities, sources, records)
}

/// Compares the check, the letters and the components of one table.
fn compare_checks(case: &Case, random: &mut Random, tally: &mut Tally) {
    let table = case.table;
    let number = plain::check(table);
    case.same("check", calls::check_table(table), number);
    tally.number("check_table", number);
    case.same(
        "letters",
        calls::letters_of(table),
        plain::letters_of(table),
    );
    let states = table.first().map_or(0, |&states| usize::from(states));

    let mut plain_out = random::lent_bytes(random, states);
    let mut called_out = plain_out.clone();
    let number = plain::components(table, &mut plain_out);
    case.same(
        "components",
        calls::find_components(table, &mut called_out),
        number,
    );
    case.same("components array", called_out, plain_out);
    tally.number("find_components", number);
}

/// Compares the forecast of one table and demands that it holds of what the translator does.
fn compare_forecast(case: &Case, tally: &mut Tally) {
    let table = case.table;
    let forecast = plain::forecast_table(table);
    case.same("forecast", calls::forecast_table(table), forecast);
    case.same("tuned forecast", tuned::forecast_table(table), forecast);
    tally.number("forecast_table", forecast.number);

    let translated = calls::translate(table, plain::MOST_ROWS);
    let number = translated.as_ref().map_or_else(|&number| number, |_| 0);
    tally.number("translate_table, capacity 4,096", number);
    match translated {
        Ok(parity) => demand_bounds(case, tally, forecast, &parity),
        Err(8) => {
            let fits = forecast.rows as usize <= plain::MOST_ROWS;
            case.same("full within the forecast", fits, false);
        }
        Err(number) => {
            let refused = Forecast {
                number,
                rows: 0,
                pairs: 0,
            };
            case.same("refused forecast", forecast, refused);
        }
    }
}

/// Demands that a forecast bounds the rows and the priorities of a translation, and that the rows
/// found are capacity enough, and the rows forecast too if they are a capacity.
fn demand_bounds(case: &Case, tally: &mut Tally, forecast: Forecast, parity: &ParityTable) {
    case.same("number of a forecast", forecast.number, 0);
    let (found, bound) = (parity.sources.len(), forecast.rows as usize);
    case.same("rows beyond the forecast", found.saturating_sub(bound), 0);
    let present = parity.targets.iter().zip(&parity.priorities);
    let present = present.filter(|(&target, _)| target != plain::NO_ROW);
    let largest = present.map(|(_, &priority)| priority).max().unwrap_or(0);
    case.same(
        "priorities beyond the forecast",
        largest.saturating_sub(2 * forecast.pairs + 1),
        0,
    );
    let mut demand_enough = |call, capacity| {
        let translated = calls::translate(case.table, capacity);
        case.same(call, translated.as_ref(), Ok(parity));
        tally.number(call, 0);
    };
    demand_enough("translate_table, capacity as found", found);
    if bound <= plain::MOST_ROWS {
        demand_enough("translate_table, capacity as forecast", bound);
    }
}

/// The rows that a table's exploration reaches, if it passes the check and has at most 4,096.
fn reachable(table: &[u8]) -> Option<usize> {
    let rabin = plain::read(table).ok()?;
    Some(plain::explore(&rabin, plain::MOST_ROWS)?.len())
}

/// Compares the translation of one table and gives it with the arrays as they are left.
fn compare_translation(
    case: &Case,
    random: &mut Random,
    tally: &mut Tally,
) -> (Translation, usize, Lent) {
    let table = case.table;
    let capacity = random::capacity(random, reachable(table));
    let letters = table
        .get(1)
        .map_or(1, |&letters| usize::from(letters.clamp(1, 17)));
    let mut plain_lent = random::lent(random, capacity, letters);
    let mut called_lent = plain_lent.clone();
    let answer = plain::translate(table, capacity, &mut plain_lent);
    case.same(
        "translation",
        called_translate(table, capacity, &mut called_lent),
        answer,
    );
    case.same(
        "translated targets",
        &called_lent.targets,
        &plain_lent.targets,
    );
    case.same(
        "translated priorities",
        &called_lent.priorities,
        &plain_lent.priorities,
    );
    case.same(
        "translated sources",
        &called_lent.sources,
        &plain_lent.sources,
    );
    case.same(
        "translated records",
        &called_lent.records,
        &plain_lent.records,
    );
    tally.number("translate_table", answer.number);
    if answer.number == 0 {
        tally.rows(answer.rows);
    }
    (answer, letters, called_lent)
}

/// A word for a Rabin table, guided by its transitions.
fn word_for(random: &mut Random, table: &[u8]) -> Word {
    match plain::read(table) {
        Err(_) => random::word(
            random,
            usize::from(table.get(1).map_or(1, |&m| m)),
            0,
            |_, _| None,
        ),
        Ok(rabin) => {
            let step = |state: usize, letter: usize| Some(rabin.cells[state][letter]?.target);
            random::word(random, rabin.letters, rabin.start, step)
        }
    }
}

/// Compares both judges on one word; on a translated table they must answer the same.
fn compare_judges(
    case: &Case,
    tally: &mut Tally,
    word: &Word,
    (answer, letters, lent): &(Translation, usize, Lent),
) {
    let Word { lead, looped } = word;
    let rabin = plain::judge_rabin(case.table, lead, looped);
    case.same(
        "judged Rabin",
        calls::judge_rabin(case.table, lead, looped),
        rabin,
    );
    tally.answer("judge_rabin", rabin);
    if answer.number != 0 {
        return;
    }
    let Lent {
        targets,
        priorities,
        ..
    } = lent;
    let parity = plain::judge_parity(answer.rows, *letters, targets, priorities, lead, looped);
    let called = calls::judge_parity(answer.rows, *letters, targets, priorities, lead, looped);
    case.same("judged translated", called, parity);
    case.same("demand 3", called, rabin);
    tally.answer("judge_parity, translated", called);
}

/// Compares the rest of a word at some places, by the very place in memory and the length.
fn compare_rests(case: &Case, random: &mut Random, tally: &mut Tally, word: &Word) {
    let Word { lead, looped } = word;
    let end = lead.len() + looped.len();
    let any = random.below(end + 3);
    for place in [any, lead.len(), end, random.pick(&[0, end + 1, usize::MAX])] {
        let called = calls::rest_of(lead, looped, place);
        let plain = plain::rest_slice(lead, looped, place);
        case.same("rest", called.as_ptr_range(), plain.as_ptr_range());
        tally.number("rest_of", 0);
    }
}

#[test]
fn tables_and_words() {
    let mut tally = Tally::default();
    each_case(cases(), |number| {
        let random = &mut Random::of_case(seed(), number);
        let table = random::any_table(random);
        let case = Case {
            number,
            table: &table,
            word: None,
        };
        compare_checks(&case, random, &mut tally);
        compare_forecast(&case, &mut tally);
        let translated = compare_translation(&case, random, &mut tally);
        for _ in 0..2 {
            let word = word_for(random, &table);
            let case = Case {
                number,
                table: &table,
                word: Some(&word),
            };
            compare_judges(&case, &mut tally, &word, &translated);
            compare_rests(&case, random, &mut tally, &word);
        }
    });
    tally.print("Rabin tables, and two words each");
    tally.demand("check_table", 0..=6);
    tally.demand("find_components", 0..=7);
    tally.demand("forecast_table", 0..=6);
    tally.demand("translate_table, capacity 4,096", (0..=6).chain([8]));
    tally.demand("translate_table, capacity as forecast", [0]);
    tally.demand("translate_table", 0..=8);
    tally.demand("judge_rabin", (1..=6).chain(9..=10).chain(12..=14));
    tally.demand("judge_parity, translated", (9..=10).chain(12..=14));
}

#[test]
fn anyones_parity_tables() {
    let mut tally = Tally::default();
    each_case(cases() / 2, |number| {
        let random = &mut Random::of_case(!seed(), number);
        let any = random::any_parity(random);
        let word = random::word(random, any.letters, 0, |row, letter| any.step(row, letter));
        let (rows, letters) = (any.rows, any.letters);
        // In a failure's message the target numbers stand for the table, two bytes each.
        let bytes: Vec<u8> = any
            .targets
            .iter()
            .flat_map(|target| target.to_be_bytes())
            .collect();
        let case = Case {
            number,
            table: &bytes,
            word: Some(&word),
        };
        let Word { lead, looped } = &word;
        let plain = plain::judge_parity(rows, letters, &any.targets, &any.priorities, lead, looped);
        let called =
            calls::judge_parity(rows, letters, &any.targets, &any.priorities, lead, looped);
        if called != plain {
            let priorities = hex(&any.priorities);
            let what = format!("judged {rows} rows, {letters} letters, priorities {priorities}");
            case.same(&what, called, plain);
        }
        tally.answer("judge_parity, anyone's", called);
    });
    tally.print("Parity tables from anyone, and a word each");
    tally.demand("judge_parity, anyone's", (9..=11).chain(12..=14));
}

/// Demands of each walk that its largest priority is even exactly if it satisfies some pair.
fn demand_walks(case: &Case, rabin: &plain::Rabin, parity: &ParityTable, walks: &[plain::Walk]) {
    for walk in walks {
        if !plain::walk_agrees(rabin, parity, walk) {
            case.same("closed walk", Some(walk), None);
        }
    }
}

#[test]
fn closed_walks() {
    let (mut listed, mut sampled, mut tables) = (0, 0, 0);
    each_case(cases() / 10, |number| {
        let random = &mut Random::of_case(seed().rotate_left(32), number);
        let table = random::table(random);
        let case = Case {
            number,
            table: &table,
            word: None,
        };
        let rabin = plain::read(&table).expect("the table passes the check");
        let Ok(parity) = calls::translate(&table, 1024) else {
            return;
        };
        tables += 1;
        let rows = parity.sources.len();
        if rows * parity.letters <= 60 && parity.letters <= 3 {
            for row in 0..rows {
                let walks = plain::closed_walks(&parity, row, 5);
                demand_walks(&case, &rabin, &parity, &walks);
                listed += walks.len();
            }
        }
        let letters: Vec<usize> = (0..60).map(|_| random.below(parity.letters)).collect();
        let walks = plain::closings(&parity, random.below(rows), &letters);
        demand_walks(&case, &rabin, &parity, &walks);
        sampled += walks.len();
    });
    let text = format!(
        "\nClosed walks, seed {}: {tables} tables, {listed} walks listed, {sampled} sampled\n",
        seed()
    );
    print(&text);
}

/// Compares everything on tables that reach exactly 4,096 and 4,097 rows.
#[test]
fn brimful_tables() {
    for (singles, rows) in [(16, 4096), (17, 4097)] {
        let table = random::brimful(singles);
        let case = Case {
            number: 0,
            table: &table,
            word: None,
        };
        compare_forecast(&case, &mut Tally::default());
        // 5 states with all orders of 6 pairs, 4 of 5, and single ones: all that is forecast.
        let forecast = Forecast {
            number: 0,
            rows: 5 * 720 + 4 * 120 + singles as u32,
            pairs: 6,
        };
        assert_eq!(calls::forecast_table(&table), forecast);
        assert_eq!(forecast.rows as usize, rows);
        for capacity in [1, 4095, 4096, 4097] {
            let blank = Lent {
                targets: vec![7; capacity * 8 + 3],
                priorities: vec![7; capacity * 8 + 3],
                sources: vec![7; capacity + 3],
                records: vec![7; capacity + 3],
            };
            let (mut called, mut plain) = (blank.clone(), blank);
            let answer = called_translate(&table, capacity, &mut called);
            case.same(
                "brim",
                answer,
                plain::translate(&table, capacity, &mut plain),
            );
            case.same("brim arrays", called, plain);
            let expected = match capacity {
                4097 => Translation { number: 7, rows: 0 },
                _ if rows <= capacity => Translation { number: 0, rows },
                _ => Translation { number: 8, rows: 0 },
            };
            assert_eq!(answer, expected);
        }
    }
}

mod listing {
    use super::*;

    /// Lists through the C interface into one bundle of lent arrays.
    fn called_list(table: &[u8], capacity: usize, lent: &mut Lent, out: &mut [u8]) -> usize {
        let Lent {
            targets,
            priorities,
            sources,
            records,
        } = lent;
        calls::list_table(table, capacity, targets, priorities, sources, records, out)
    }

    /// Compares the listing of one table in a buffer of some length, and all five arrays.
    fn compare_listing(case: &Case, random: &mut Random, tally: &mut Tally) {
        let table = case.table;
        let capacity = random::capacity(random, reachable(table));
        let letters = table
            .get(1)
            .map_or(1, |&letters| usize::from(letters.clamp(1, 17)));
        let mut plain_lent = random::lent(random, capacity, letters);
        let mut called_lent = plain_lent.clone();
        let text = plain::list(table, capacity, &mut plain_lent);
        let short = random.below(text.len() + 1);
        let any = [
            text.len(),
            text.len(),
            text.len() + 5,
            text.len() - 1,
            short,
            0,
        ];
        let mut out = vec![random.draw() as u8; random.pick(&any)];
        let mut expected = out.clone();
        let fits = expected.len().min(text.len());
        expected[..fits].copy_from_slice(&text[..fits]);
        let length = called_list(table, capacity, &mut called_lent, &mut out);
        case.same("listing length", length, text.len());
        let readable = |bytes: &[u8]| String::from_utf8_lossy(bytes).into_owned();
        case.same("listing", readable(&out), readable(&expected));
        case.same("listing bytes", out, expected);
        case.same("listing arrays", called_lent, plain_lent);
        let number = text
            .strip_prefix(b"refused ")
            .map_or(0, |rest| rest[0] - b'0');
        tally.number("list_table", number);
    }

    #[test]
    fn listings() {
        let mut tally = Tally::default();
        each_case(cases() / 4, |number| {
            let random = &mut Random::of_case(!seed().rotate_left(32), number);
            let table = random::any_table(random);
            let case = Case {
                number,
                table: &table,
                word: None,
            };
            compare_listing(&case, random, &mut tally);
        });
        tally.print("Listings");
        tally.demand("list_table", 0..=8);
    }
}

/// Compares the components and the reach of one system, in arrays with junk past the entries.
fn compare_system(shape: systems::Shape, random: &mut Random, states: usize, letters: usize) {
    let mut targets = systems::targets(random, shape, states, letters);
    let found = systems::components(states, letters, &targets);
    let behind = random.below(9);
    targets.extend((0..behind).map(|_| random.below(states) as u16));
    let mut work = vec![7; 5 * (states + behind)];
    let mut out = vec![9; states + behind];
    let what = format!("{shape:?}, {states} states, {letters} letters");
    assert!(
        calls::find_components_of_system(states, letters, &targets, &mut work, &mut out),
        "{what}"
    );
    assert_eq!(out[..states], found, "components: {what}");
    assert!(out[states..].iter().all(|&entry| entry == 9), "{what}");

    let from = random.below(states);
    let mut reached = calls::Reached::new(states + behind, 5);
    let count = calls::find_reached(states, letters, &targets, from, &mut reached);
    let expected = systems::reached(states, letters, &targets, from);
    assert_eq!(
        count,
        expected.iter().filter(|&&is| is).count(),
        "reach: {what}"
    );
    for (state, &is) in expected.iter().enumerate() {
        let number = usize::from(reached.numbers[state]);
        assert_eq!(number != 0, is, "reach of {state}: {what}");
        if is {
            assert_eq!(usize::from(reached.queue[number - 1]), state, "{what}");
        }
    }
    let place = random.below(count);
    let mut out = vec![255; place + behind];
    let begin = calls::path_to(place, &reached, &mut out);
    assert!(out[..begin].iter().all(|&entry| entry == 255), "{what}");
    let led = out[begin..].iter().fold(from, |state, &letter| {
        usize::from(targets[state * letters + usize::from(letter)])
    });
    assert_eq!(led, usize::from(reached.queue[place]), "path: {what}");
}

#[test]
fn systems_of_every_shape() {
    let mut random = Random::new(seed());
    for shape in systems::SHAPES {
        for states in [1, 2, 3, 64, 250, 1000] {
            for letters in [1, 2, 3, 16] {
                compare_system(shape, &mut random, states, letters);
            }
        }
    }
    each_case(cases() / 10, |_| {
        let shape = systems::SHAPES[random.below(systems::SHAPES.len())];
        let (states, letters) = (1 + random.below(40), 1 + random.below(4));
        compare_system(shape, &mut random, states, letters);
    });
    // what does not fit is answered as such, and nothing is written
    let targets = [0; 6];
    for (states, letters, room) in [(4, 2, 4), (3, 2, 2), (65535, 0, 70000), (1, 65535, 9)] {
        let mut work = vec![7; 5 * room];
        let mut out = vec![9; room];
        assert!(!calls::find_components_of_system(
            states, letters, &targets, &mut work, &mut out
        ));
        assert!(out.iter().all(|&entry| entry == 9));
        let mut reached = calls::Reached::new(room, 5);
        let before = reached.clone();
        assert_eq!(
            calls::find_reached(states, letters, &targets, 0, &mut reached),
            0
        );
        assert_eq!(reached, before);
    }
}

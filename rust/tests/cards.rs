//! The cards, the traps and the executable conditions of the rules (docs/RULES.md),
//! run through the translator's C interface and compared with what the rules say.

use duckbullion::calls::{self, Forecast, Judged, ParityTable, Translation};
use duckbullion::plain::{self, Lent};
use duckbullion::tuned;

/// The table T of docs/RULES.md.
const T: [u8; 16] = [2, 2, 2, 0, 0, 1, 0, 1, 1, 2, 0, 0, 0, 1, 2, 0];

/// The listing of T in docs/RULES.md.
const LISTING: &str = "\
4 2 2
0 0 12 0 0 4
0 0 12 1 1 1
1 1 12 0 0 2
1 1 12 1 2 5
2 1 21 0 3 4
2 1 21 1 2 3
3 0 21 0 0 5
3 0 21 1 2 1
";

/// A table of one state from its pairs and, for each letter, whether it is there and its marks.
fn one_state(pairs: u8, cells: &[Option<(u8, u8)>]) -> Vec<u8> {
    let mut bytes = vec![1, cells.len() as u8, pairs, 0];
    bytes.extend(
        cells
            .iter()
            .map(|cell| if cell.is_some() { 0 } else { 255 }),
    );
    bytes.extend(cells.iter().flat_map(|cell| match cell {
        Some((prohibited, required)) => [*prohibited, *required],
        None => [0, 0],
    }));
    bytes
}

/// Arrays for a capacity and a number of letters with three entries more, all of them 9.
fn nines(capacity: usize, letters: usize) -> Lent {
    Lent {
        targets: vec![9; capacity * letters + 3],
        priorities: vec![9; capacity * letters + 3],
        sources: vec![9; capacity + 3],
        records: vec![9; capacity + 3],
    }
}

/// Those arrays with the first rows 0.
fn cleared(capacity: usize, letters: usize) -> Lent {
    let mut lent = nines(capacity, letters);
    lent.targets[..capacity * letters].fill(0);
    lent.priorities[..capacity * letters].fill(0);
    lent.sources[..capacity].fill(0);
    lent.records[..capacity].fill(0);
    lent
}

/// The arrays that T's listing demands for a capacity of at least 4.
fn listed(capacity: usize) -> Lent {
    let mut lent = cleared(capacity, 2);
    for line in LISTING.lines().skip(1) {
        let fields: Vec<u32> = line
            .split(' ')
            .map(|field| field.parse().unwrap())
            .collect();
        let [row, source, record, letter, target, priority] = fields[..] else {
            panic!("a line has six fields")
        };
        let (row, cell) = (row as usize, (row * 2 + letter) as usize);
        lent.sources[row] = source as u8;
        lent.records[row] = record;
        lent.targets[cell] = target as u16;
        lent.priorities[cell] = priority as u8;
    }
    lent
}

/// Translates through the C interface into one bundle of lent arrays.
fn translate(table: &[u8], capacity: usize, lent: &mut Lent) -> Translation {
    let Lent {
        targets,
        priorities,
        sources,
        records,
    } = lent;
    calls::translate_table(table, capacity, targets, priorities, sources, records)
}

/// The translation of a table that has one.
fn parity_of(table: &[u8]) -> ParityTable {
    calls::translate(table, 4096).expect("the table is translated")
}

/// The answer of the Rabin judge, after both judges gave the same.
fn judge(table: &[u8], lead: &[u8], looped: &[u8]) -> Judged {
    let rabin = calls::judge_rabin(table, lead, looped);
    let ParityTable {
        letters,
        targets,
        priorities,
        sources,
        ..
    } = parity_of(table);
    let rows = sources.len();
    assert_eq!(
        calls::judge_parity(rows, letters, &targets, &priorities, lead, looped),
        rabin
    );
    rabin
}

#[test]
fn t_is_translated_as_listed() {
    for capacity in [4, 5, 7, 1024, 4096] {
        let mut lent = nines(capacity, 2);
        let answer = translate(&T, capacity, &mut lent);
        assert_eq!(answer, Translation { number: 0, rows: 4 });
        assert_eq!(lent, listed(capacity));
    }
    let mut lent = nines(1024, 2);
    assert_eq!(plain::list(&T, 1024, &mut lent), LISTING.as_bytes());
}

#[test]
fn t_is_refused_8_with_capacity_3() {
    for capacity in 1..=3 {
        let mut lent = nines(capacity, 2);
        assert_eq!(
            translate(&T, capacity, &mut lent),
            Translation { number: 8, rows: 0 }
        );
        assert_eq!(lent, cleared(capacity, 2));
        assert_eq!(calls::translate(&T, capacity), Err(8));
    }
}

#[test]
fn capacity_and_arrays_are_refused_7() {
    for capacity in [0, 4097, 65_536, usize::MAX / 2, usize::MAX] {
        let mut lent = nines(4097, 2);
        assert_eq!(
            translate(&T, capacity, &mut lent),
            Translation { number: 7, rows: 0 }
        );
        assert_eq!(lent, nines(4097, 2));
        assert_eq!(calls::translate(&T, capacity), Err(7));
    }
    for short in 0..4 {
        let mut lent = nines(4, 2);
        match short {
            0 => lent.targets.truncate(7),
            1 => lent.priorities.truncate(7),
            2 => lent.sources.truncate(3),
            _ => lent.records.truncate(3),
        }
        let before = lent.clone();
        assert_eq!(
            translate(&T, 4, &mut lent),
            Translation { number: 7, rows: 0 }
        );
        assert_eq!(lent, before);
    }
}

/// The forecast of a table, after the plain and the tuned side gave the same.
fn forecast(table: &[u8]) -> Forecast {
    let forecast = calls::forecast_table(table);
    assert_eq!(plain::forecast_table(table), forecast);
    assert_eq!(tuned::forecast_table(table), forecast);
    forecast
}

/// Demands that every call that takes a table refuses it so and writes nothing.
fn demand_refused(table: &[u8], number: u8) {
    assert_eq!(calls::check_table(table), number);
    let mut bytes = [9; 70];
    assert_eq!(calls::find_components(table, &mut bytes), number);
    assert!(bytes.iter().all(|&byte| byte == 9));
    let mut lent = nines(4, 2);
    assert_eq!(
        translate(table, 4, &mut lent),
        Translation { number, rows: 0 }
    );
    assert_eq!(lent, nines(4, 2));
    let refused = Forecast {
        number,
        rows: 0,
        pairs: 0,
    };
    assert_eq!(forecast(table), refused);
    assert_eq!(
        calls::judge_rabin(table, &[], &[0]),
        Judged::Refused(number)
    );
    assert_eq!(
        calls::judge_rabin(table, &[99], &[]),
        Judged::Refused(number)
    );
}

#[test]
fn lengths_and_sizes_are_refused() {
    for length in 0..16 {
        demand_refused(&T[..length], 1);
    }
    let mut longer = T.to_vec();
    longer.push(0);
    demand_refused(&longer, 3);
    for (place, sizes) in [(0, &[0, 65, 255]), (1, &[0, 17, 255]), (2, &[7, 8, 255])] {
        for &size in sizes {
            let mut table = T;
            table[place] = size;
            demand_refused(&table, 2);
            demand_refused(&table[..4], 2);
        }
    }
    for (place, value, number) in [(3, 2, 4), (5, 2, 5), (5, 254, 5), (9, 4, 6), (5, 255, 0)] {
        let mut table = T;
        table[place] = value;
        if number == 0 {
            assert_eq!(calls::check_table(&table), 0);
            table[10] = 1;
            demand_refused(&table, 6);
        } else {
            demand_refused(&table, number);
        }
    }
}

#[test]
fn words_on_t() {
    let cards: [(&[u8], Judged); 5] = [
        (&[0], Judged::Accepts),
        (&[1], Judged::Rejects),
        (&[0, 1], Judged::Accepts),
        (&[1, 1, 0], Judged::Accepts),
        (&[1, 1, 0, 0], Judged::Rejects),
    ];
    for (looped, answer) in cards {
        assert_eq!(judge(&T, &[], looped), answer, "loop {looped:?}");
    }
}

#[test]
fn refused_words() {
    let most = vec![1; 65_535];
    let more = vec![1; 65_536];
    assert_eq!(judge(&T, &[], &[]), Judged::Refused(10));
    assert_eq!(judge(&T, &[9], &[]), Judged::Refused(10));
    assert_eq!(judge(&T, &more, &[9]), Judged::Refused(10));
    assert_eq!(judge(&T, &[9], &more), Judged::Refused(10));
    assert_eq!(judge(&T, &[2], &[0]), Judged::Refused(9));
    assert_eq!(judge(&T, &[], &[0, 2]), Judged::Refused(9));
    assert_eq!(judge(&T, &most, &most), Judged::Rejects);
}

#[test]
fn records_move() {
    // The last letter makes all pairs count; the others prohibit 3, 2 and 3, 2, 1 and 2.
    let marks = [4, 6, 2, 3].map(|prohibited| Some((prohibited, 0)));
    let table = one_state(3, &[&marks[..], &[Some((0, 7))]].concat());
    let parity = parity_of(&table);
    let next = |record: u32, letter: usize| {
        let row = parity
            .records
            .iter()
            .position(|&number| number == record)
            .unwrap();
        parity.records[usize::from(parity.targets[row * 5 + letter])]
    };
    assert_eq!(parity.records[0], 123);
    assert_eq!(next(123, 0), 312);
    assert_eq!(next(123, 1), 231);
    assert_eq!(next(next(123, 2), 0), 321);
    assert_eq!(next(321, 3), 213);
}

#[test]
fn one_state_cards() {
    let required = parity_of(&one_state(1, &[Some((0, 1))]));
    assert_eq!((required.targets, required.priorities), (vec![0], vec![2]));
    let both = parity_of(&one_state(1, &[Some((1, 1))]));
    assert_eq!((both.targets, both.priorities), (vec![0], vec![3]));
    let bare = one_state(0, &[Some((0, 0))]);
    assert_eq!(parity_of(&bare).priorities, [1]);
    assert_eq!(parity_of(&bare).records, [0]);
    assert_eq!(judge(&bare, &[], &[0]), Judged::Rejects);
}

#[test]
fn marks_of_a_crossing_are_ignored() {
    let table = [2, 1, 1, 0, 1, 1, 1, 1, 0, 0];
    let parity = parity_of(&table);
    assert_eq!(parity.priorities, [1, 1]);
    assert_eq!(parity.records, [0, 0]);
    assert_eq!(parity.targets, [1, 1]);
    let mut components = [9; 3];
    assert_eq!(calls::find_components(&table, &mut components), 0);
    assert_eq!(components, [0, 1, 9]);
}

#[test]
fn runs_stop() {
    let table = one_state(0, &[Some((0, 0)), None]);
    assert_eq!(judge(&table, &[], &[0, 1]), Judged::Stops(1));
    assert_eq!(judge(&table, &[0, 0], &[1]), Judged::Stops(2));
    assert_eq!(judge(&table, &[], &[1]), Judged::Stops(0));
    let parity = parity_of(&table);
    assert_eq!(
        (parity.targets, parity.priorities),
        (vec![0, 65_535], vec![1, 0])
    );
}

/// Letter 0 stays in its row, letter 1 goes to the next one, and the last row has no letter 1.
fn stairs(rows: usize) -> (Vec<u16>, Vec<u8>) {
    let mut targets: Vec<u16> = (0..rows as u16).flat_map(|row| [row, row + 1]).collect();
    targets[2 * rows - 1] = 65_535;
    (targets, vec![0; 2 * rows])
}

#[test]
fn the_longest_runs_stop() {
    let lead = vec![0; 65_535];
    let mut looped = lead.clone();
    looped[65_534] = 1;
    let read = |rows: u32| Judged::Stops(65_535 + (rows - 1) * 65_535 + 65_534);
    let (targets, priorities) = stairs(4096);
    let answer = calls::judge_parity(4096, 2, &targets, &priorities, &lead, &looped);
    assert_eq!(answer, read(4096));
    let mut table = vec![64, 2, 0, 0];
    table.extend((0..64).flat_map(|state| [state, state + 1]));
    table[4 + 127] = 255;
    table.extend([0; 256]);
    assert_eq!(judge(&table, &lead, &looped), read(64));
}

#[test]
fn a_state_may_return_after_several_passes() {
    // Three states in a ring; only the transition from 2 to 0 satisfies the pair.
    let table = [3, 1, 1, 0, 1, 2, 0, 0, 0, 0, 0, 0, 1];
    assert_eq!(judge(&table, &[], &[0]), Judged::Accepts);
    // One more state leads into the ring and prohibits the pair, once and for all before it.
    let table = [4, 1, 1, 3, 1, 2, 0, 0, 0, 0, 0, 0, 0, 1, 1, 0];
    assert_eq!(judge(&table, &[], &[0]), Judged::Accepts);
}

/// A ring of 64 states and 6 pairs that count, but nothing prohibited: one record for each state.
fn wide_ring() -> Vec<u8> {
    let mut table = vec![64, 1, 6, 0];
    table.extend((0..64).map(|state| (state + 1) % 64));
    table.extend([0, 63].repeat(64));
    table
}

#[test]
fn full_is_told_by_rows_reached() {
    let table = wide_ring();
    assert_eq!(parity_of(&table).sources.len(), 64);
    assert!(calls::translate(&table, 64).is_ok());
    assert_eq!(calls::translate(&table, 63), Err(8));
}

/// Demands a table's forecast, rows and pairs, and how many of these rows are found; the forecast
/// is capacity enough if it is one, and no priority is above twice the pairs plus 1.
fn demand_forecast(table: &[u8], rows: u32, pairs: u8, found: usize) {
    let expected = Forecast {
        number: 0,
        rows,
        pairs,
    };
    assert_eq!(forecast(table), expected);
    let parity = parity_of(table);
    assert_eq!(parity.sources.len(), found);
    assert!(parity.priorities.iter().all(|&p| p <= 2 * pairs + 1));
    if rows <= 4096 {
        assert_eq!(calls::translate(table, rows as usize), Ok(parity));
    }
}

#[test]
fn forecasts_that_are_reached() {
    // T: letter 1 leads from 0 to 1 and letter 0 back, so both states are one component. Inside
    // it are all transitions; 0 by 0 requires pair 2 and 1 by 0 requires pair 1, so both count:
    // 2 states with 2! = 2 orders each are 4. The listing has 4 rows and a priority 2 * 2 + 1.
    demand_forecast(&T, 4, 2, 4);
    assert_eq!(parity_of(&T).priorities.iter().max(), Some(&5));
    // One state, and letters that each require and prohibit one of 3 pairs: 1 * 3! = 6. A letter
    // brings its pair to the front, so every order is reached; from position 3 its priority is
    // 2 * 3 + 1.
    let table = one_state(3, &[1, 2, 4].map(|bit| Some((bit, bit))));
    demand_forecast(&table, 6, 3, 6);
    assert_eq!(parity_of(&table).priorities.iter().max(), Some(&7));
    // The same with 6 pairs: 1 * 6! = 720.
    let table = one_state(6, &[1, 2, 4, 8, 16, 32].map(|bit| Some((bit, bit))));
    demand_forecast(&table, 720, 6, 720);
    // Without pairs there is one order, the empty one: 1 * 0! = 1. So it is if pairs are declared
    // and the only transition is missing.
    demand_forecast(&one_state(0, &[Some((0, 0))]), 1, 0, 1);
    demand_forecast(&one_state(6, &[None]), 1, 0, 1);
}

#[test]
fn forecasts_that_are_far_off() {
    // Two states in a ring. All 5 pairs count by the transition from 0: 2 * 5! = 240. Only pair 5
    // is ever moved, so the records are 12345 and 51234, each at both states: 4 rows.
    let table = [2, 1, 5, 0, 1, 0, 0, 31, 16, 0];
    demand_forecast(&table, 240, 5, 4);
    // 64 states with 6 pairs that count: 64 * 720 = 46,080, more than any capacity. There is one
    // record, so there are 64 rows.
    demand_forecast(&wide_ring(), 46_080, 6, 64);
}

#[test]
fn components_out_of_reach_are_not_forecast() {
    // State 0 only leads to itself, with pair 1 required. States 1 and 2 lead to each other, with
    // pair 1 and pair 2 required, and 1 leads to 0 by letter 1.
    let mut table = [
        3, 2, 2, 0, 0, 255, 2, 0, 1, 255, 0, 1, 0, 0, 0, 1, 0, 0, 0, 2, 0, 0,
    ];
    // From 0 on: 1 * 1! = 1.
    demand_forecast(&table, 1, 1, 1);
    // From 1 or 2 on: 2 * 2! + 1 * 1! = 5, and nothing is moved, so there is one row for a state.
    table[3] = 1;
    demand_forecast(&table, 5, 2, 3);
    table[3] = 2;
    demand_forecast(&table, 5, 2, 3);
}

#[test]
fn only_pairs_that_count_are_forecast() {
    // States 0 and 1 lead to each other by letter 0 and on to 2 by letter 1, and 2 leads to itself.
    // Of 3 pairs, pair 1 is only prohibited inside, pair 3 is only required from 0 to 2, and pair 2
    // is required from 1 to 0: 2 * 1! + 1 * 0! = 3, where 3 pairs would give 3 * 3! = 18.
    let table = [
        3, 2, 3, 0, 1, 2, 0, 2, 2, 255, 1, 0, 0, 4, 0, 2, 0, 0, 0, 0, 0, 0,
    ];
    demand_forecast(&table, 3, 1, 3);
    // State 0 leads to itself with pairs 1 and 2 required and on to 1 with pair 3, and 1 to itself
    // with pair 3: 1 * 2! + 1 * 1! = 3. One component has at most 2 pairs, though 3 count somewhere.
    let table = [2, 2, 3, 0, 0, 1, 1, 255, 0, 3, 0, 4, 0, 4, 0, 0];
    demand_forecast(&table, 3, 2, 2);
}

#[test]
fn rests_are_the_very_parts() {
    let (lead, looped) = ([5, 6, 7], [8, 9]);
    for place in [0, 1, 2, 3, 4, 5, 6, usize::MAX] {
        let expected = match place {
            0..=2 => &lead[place..],
            3 | 4 => &looped[place - 3..],
            _ => &looped[2..],
        };
        let rest = calls::rest_of(&lead, &looped, place);
        assert_eq!(rest.as_ptr_range(), expected.as_ptr_range());
    }
    assert_eq!(calls::rest_of(&[], &[], 0), []);
    assert_eq!(calls::rest_of(&lead, &[], 3), []);
}

/// A translator over one bundle of lent arrays.
type Translator = fn(&[u8], usize, &mut Lent) -> Translation;

/// A delivery: a translator and a Rabin judge.
struct Delivery {
    translate: Translator,
    judge: fn(&[u8], &[u8], &[u8]) -> Judged,
}

/// The delivery under test.
const DELIVERED: Delivery = Delivery {
    translate,
    judge: calls::judge_rabin,
};

/// The demands of the rules that a delivery breaks on a few tables.
fn broken(delivery: &Delivery) -> Vec<&'static str> {
    let mut found = Vec::new();
    let mut demand = |holds: bool, name| {
        if !holds {
            found.push(name);
        }
    };
    let mut lent = nines(6, 2);
    let answer = (delivery.translate)(&T, 6, &mut lent);
    demand(
        answer == Translation { number: 0, rows: 4 },
        "demand 2: T has four rows",
    );
    demand(lent == listed(6), "demand 2: T's arrays");
    let Lent {
        targets,
        priorities,
        ..
    } = &lent;
    let parity = calls::judge_parity(answer.rows, 2, targets, priorities, &[], &[0, 1]);
    demand(
        parity == (delivery.judge)(&T, &[], &[0, 1]),
        "demand 3: T's loop 0 1",
    );
    demand(
        (delivery.judge)(&T, &[], &[0, 1]) == Judged::Accepts,
        "the card of T's loop 0 1",
    );

    let stopping = one_state(0, &[Some((0, 0)), None]);
    let mut lent = nines(1, 2);
    let answer = (delivery.translate)(&stopping, 1, &mut lent);
    demand(
        answer == Translation { number: 0, rows: 1 },
        "demand 2: one row",
    );
    demand(
        lent.targets[..2] == [0, 65_535],
        "demand 2: a missing transition",
    );
    let Lent {
        targets,
        priorities,
        ..
    } = &lent;
    let parity = calls::judge_parity(answer.rows, 2, targets, priorities, &[0, 0], &[1]);
    demand(
        parity == (delivery.judge)(&stopping, &[0, 0], &[1]),
        "demand 3: a stop",
    );
    demand(
        (delivery.judge)(&stopping, &[0, 0], &[1]) == Judged::Stops(2),
        "letters read",
    );

    let refused = (delivery.translate)(&T[..15], 4, &mut nines(4, 2));
    demand(
        refused == Translation { number: 1, rows: 0 },
        "demand 1: refused 1",
    );
    let mut longer = T.to_vec();
    longer.push(0);
    let refused = (delivery.translate)(&longer, 4, &mut nines(4, 2));
    demand(
        refused == Translation { number: 3, rows: 0 },
        "demand 1: refused 3",
    );
    let refused = (delivery.translate)(&T, 3, &mut nines(3, 2));
    demand(
        refused == Translation { number: 8, rows: 0 },
        "demand 2: refused 8",
    );
    found
}

/// A translator that writes a correct first row and zeros.
fn first_row_only(table: &[u8], capacity: usize, lent: &mut Lent) -> Translation {
    let answer = plain::translate(table, capacity, lent);
    if answer.number == 0 {
        let letters = usize::from(table[1]);
        lent.targets[letters..capacity * letters].fill(0);
        lent.priorities[letters..capacity * letters].fill(0);
        lent.sources[1..capacity].fill(0);
        lent.records[1..capacity].fill(0);
    }
    answer
}

/// A translator that says full on opening.
fn full_at_once(table: &[u8], capacity: usize, lent: &mut Lent) -> Translation {
    let answer = plain::translate(table, capacity, lent);
    let number = if answer.number == 0 { 8 } else { answer.number };
    Translation { number, rows: 0 }
}

/// A translator that gives T's parity table for every rule.
fn one_for_all(table: &[u8], capacity: usize, lent: &mut Lent) -> Translation {
    match plain::check(table) {
        0 => plain::translate(&T, capacity, lent),
        number => Translation { number, rows: 0 },
    }
}

/// A translator that refuses all.
fn refusing(_: &[u8], _: usize, _: &mut Lent) -> Translation {
    Translation { number: 1, rows: 0 }
}

/// A translator that leaves the arrays as lent.
fn leaving(table: &[u8], capacity: usize, lent: &mut Lent) -> Translation {
    plain::translate(table, capacity, &mut lent.clone())
}

/// A judge that counts the letter that it never read.
fn counting(table: &[u8], lead: &[u8], looped: &[u8]) -> Judged {
    match plain::judge_rabin(table, lead, looped) {
        Judged::Stops(read) => Judged::Stops(read + 1),
        other => other,
    }
}

/// A parity table is refused by each of its conditions, in its turn, and by nothing else.
#[test]
fn parity_tables_are_refused_11() {
    let judge = |rows: usize, letters: usize, targets: &[u16], priorities: &[u8]| {
        calls::judge_parity(rows, letters, targets, priorities, &[], &[0])
    };
    let targets = vec![0; 4_097 * 17];
    let priorities = vec![0; 4_097 * 17];
    assert_eq!(judge(1, 1, &targets, &priorities), Judged::Accepts);
    assert_eq!(judge(4_096, 16, &targets, &priorities), Judged::Accepts);
    for (rows, letters) in [(0, 1), (4_097, 1), (1, 0), (1, 17), (usize::MAX, 16)] {
        assert_eq!(
            judge(rows, letters, &targets, &priorities),
            Judged::Refused(11)
        );
    }
    assert_eq!(
        judge(3, 2, &targets[..6], &priorities[..6]),
        Judged::Accepts
    );
    assert_eq!(
        judge(3, 2, &targets[..5], &priorities[..6]),
        Judged::Refused(11)
    );
    assert_eq!(
        judge(3, 2, &targets[..6], &priorities[..5]),
        Judged::Refused(11)
    );
    for (target, place, answer) in [
        (2, 5, Judged::Accepts),
        (3, 5, Judged::Refused(11)),
        (65_534, 5, Judged::Refused(11)),
        (65_535, 5, Judged::Accepts),
        (65_535, 0, Judged::Stops(0)),
        (3, 6, Judged::Accepts),
    ] {
        let mut cells = vec![0; 7];
        cells[place] = target;
        assert_eq!(judge(3, 2, &cells, &priorities[..7]), answer);
    }
    // 11 comes before 10, and 10 before 9.
    let word =
        |rows, looped: &[u8]| calls::judge_parity(rows, 1, &targets, &priorities, &[1], looped);
    assert_eq!(word(0, &[]), Judged::Refused(11));
    assert_eq!(word(1, &[]), Judged::Refused(10));
    assert_eq!(word(1, &[0]), Judged::Refused(9));
}

#[test]
fn named_deliveries_break_a_statement() {
    assert_eq!(broken(&DELIVERED), [""; 0]);
    let translators: [(&str, Translator, &[&str]); 5] = [
        (
            "first row",
            first_row_only,
            &["demand 2: T's arrays", "demand 3: T's loop 0 1"],
        ),
        ("full", full_at_once, &["demand 2: T has four rows"]),
        (
            "one table",
            one_for_all,
            &["demand 2: one row", "demand 3: a stop"],
        ),
        (
            "refusing",
            refusing,
            &[
                "demand 1: refused 3",
                "demand 2: T has four rows",
                "demand 2: refused 8",
            ],
        ),
        ("leaving", leaving, &["demand 2: T's arrays"]),
    ];
    for (name, translate, demands) in translators {
        let found = broken(&Delivery {
            translate,
            ..DELIVERED
        });
        for demand in demands {
            assert!(found.contains(demand), "{name} breaks {found:?}");
        }
    }
    let found = broken(&Delivery {
        judge: counting,
        ..DELIVERED
    });
    assert_eq!(found, ["demand 3: a stop", "letters read"]);
}

mod listing {
    use super::*;

    /// Lists through the C interface and gives the whole text's length.
    fn list(table: &[u8], capacity: usize, lent: &mut Lent, out: &mut [u8]) -> usize {
        let Lent {
            targets,
            priorities,
            sources,
            records,
        } = lent;
        calls::list_table(table, capacity, targets, priorities, sources, records, out)
    }

    #[test]
    fn t_is_listed() {
        for room in [0, 1, LISTING.len() - 1, LISTING.len(), LISTING.len() + 4] {
            let (mut lent, mut out) = (nines(1024, 2), vec![9; room]);
            assert_eq!(list(&T, 1024, &mut lent, &mut out), LISTING.len());
            assert_eq!(lent, listed(1024));
            let fits = room.min(LISTING.len());
            assert_eq!(out[..fits], LISTING.as_bytes()[..fits]);
            assert!(out[fits..].iter().all(|&byte| byte == 9));
        }
    }

    #[test]
    fn refusals_are_listed() {
        for (length, capacity, text) in [(15, 4, "refused 1\n"), (16, 3, "refused 8\n")] {
            let mut out = [9; 12];
            assert_eq!(
                list(&T[..length], capacity, &mut nines(capacity, 2), &mut out),
                10
            );
            assert_eq!(out[..10], *text.as_bytes());
            assert_eq!(out[10..], [9, 9]);
        }
    }

    #[test]
    fn empty_records_and_missing_transitions_are_dashes() {
        let text = b"1 2 0\n0 0 - 0 0 1\n0 0 - 1 - -\n";
        let table = one_state(0, &[Some((0, 0)), None]);
        let mut out = [0; 40];
        assert_eq!(list(&table, 1, &mut nines(1, 2), &mut out), text.len());
        assert_eq!(out[..text.len()], text[..]);
    }
}

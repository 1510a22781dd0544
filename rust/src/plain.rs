//! An implementation of docs/RULES.md, written from that paper alone and as plainly as it
//! reads: vectors, hash maps, Tarjan's components, runs followed until they repeat.
//!
//! It is what the proved translator is compared with, so it shares no code with it; only
//! the types of the answers come from `calls`.

use crate::calls::{Forecast, Judged, ParityTable, Translation};
use std::collections::{BTreeSet, HashMap, HashSet};

/// The target byte of a missing transition in a Rabin table.
pub const NO_STATE: u8 = 255;
/// The target number of a missing transition in a parity table.
pub const NO_ROW: u16 = 65_535;
/// The largest capacity and the largest number of rows.
pub const MOST_ROWS: usize = 4096;
/// The largest length of a lead-in or of a loop that a judge takes.
pub const LONGEST_PIECE: usize = 65_535;

/// A transition of a Rabin table.
#[derive(Clone, Copy, Debug, PartialEq, Eq)]
pub struct Transition {
    /// The state it leads to.
    pub target: usize,
    /// The pairs that prohibit it, bit i − 1 for pair i.
    pub prohibited: u8,
    /// The pairs that require it, bit i − 1 for pair i.
    pub required: u8,
}

/// A Rabin table that passed the check, taken apart.
#[derive(Clone, Debug)]
pub struct Rabin {
    /// The number of states, 1 to 64.
    pub states: usize,
    /// The number of letters, 1 to 16.
    pub letters: usize,
    /// The number of pairs, 0 to 6.
    pub pairs: usize,
    /// The start state.
    pub start: usize,
    /// The transition of each state by each letter.
    pub cells: Vec<Vec<Option<Transition>>>,
}

/// A row of the parity table: a source state with a record.
#[derive(Clone, Debug, PartialEq, Eq, Hash)]
pub struct Row {
    /// The source state.
    pub state: usize,
    /// The pair numbers, first position first.
    pub record: Vec<u8>,
}

/// A row of the parity table with what each letter does: the target row and the priority.
#[derive(Clone, Debug)]
pub struct Filled {
    /// The row itself.
    pub row: Row,
    /// Target row and priority by each letter, nothing for a missing transition.
    pub steps: Vec<Option<(usize, u8)>>,
}

/// The four arrays that a caller lends to the translator.
#[derive(Clone, Debug, PartialEq, Eq)]
pub struct Lent {
    /// The target rows, capacity times letters.
    pub targets: Vec<u16>,
    /// The priorities, capacity times letters.
    pub priorities: Vec<u8>,
    /// The source states, one for each row.
    pub sources: Vec<u8>,
    /// The record numbers, one for each row.
    pub records: Vec<u32>,
}

/// A stretch of a word: piece 0 is the lead-in and 1 the loop.
#[derive(Clone, Copy, Debug, PartialEq, Eq)]
pub struct Stretch {
    /// The piece it lies in.
    pub piece: usize,
    /// Where it starts in that piece.
    pub start: usize,
    /// How many letters it has.
    pub length: usize,
}

/// Whether the bit of a pair is set in a mark.
fn has(mark: u8, pair: u8) -> bool {
    mark >> (pair - 1) & 1 == 1
}

/// Whether a mark has a bit above pair k.
fn reaches_above(mark: u8, pairs: usize) -> bool {
    u32::from(mark) >= 1 << pairs
}

/// Takes a table apart, or gives the first refusal of 1 to 6 in the order of the rules.
pub fn read(table: &[u8]) -> Result<Rabin, u8> {
    if table.len() < 4 {
        return Err(1);
    }
    let [states, letters, pairs, start] = [0, 1, 2, 3].map(|place| usize::from(table[place]));
    if !(1..=64).contains(&states) || !(1..=16).contains(&letters) || pairs > 6 {
        return Err(2);
    }
    let count = states * letters;
    if table.len() < 4 + 3 * count {
        return Err(1);
    }
    if table.len() > 4 + 3 * count {
        return Err(3);
    }
    if start >= states {
        return Err(4);
    }
    let targets = &table[4..4 + count];
    let marks = &table[4 + count..];
    for &target in targets {
        if target != NO_STATE && usize::from(target) >= states {
            return Err(5);
        }
    }
    for cell in 0..count {
        let (prohibited, required) = (marks[2 * cell], marks[2 * cell + 1]);
        if reaches_above(prohibited, pairs) || reaches_above(required, pairs) {
            return Err(6);
        }
        if targets[cell] == NO_STATE && (prohibited != 0 || required != 0) {
            return Err(6);
        }
    }
    let cell_at = |state: usize, letter: usize| {
        let cell = state * letters + letter;
        (targets[cell] != NO_STATE).then(|| Transition {
            target: usize::from(targets[cell]),
            prohibited: marks[2 * cell],
            required: marks[2 * cell + 1],
        })
    };
    let row_of = |state| (0..letters).map(|letter| cell_at(state, letter)).collect();
    let cells = (0..states).map(row_of).collect();
    Ok(Rabin {
        states,
        letters,
        pairs,
        start,
        cells,
    })
}

/// Checks a Rabin table: 0, or the first refusal of 1 to 6.
pub fn check(table: &[u8]) -> u8 {
    match read(table) {
        Ok(_) => 0,
        Err(number) => number,
    }
}

/// The byte of the letters, checked or not, 0 if a table is too short to have one.
///
/// The rules have no such call; this reading is that of the C interface.
pub fn letters_of(table: &[u8]) -> u8 {
    match table {
        [_, letters, ..] => *letters,
        _ => 0,
    }
}

/// What Tarjan's walk knows so far.
struct Tarjan<'a> {
    rabin: &'a Rabin,
    /// The order in which each state was found.
    found: Vec<Option<usize>>,
    /// The earliest state on the stack that each state is known to reach.
    low: Vec<usize>,
    /// The states found whose component is not complete.
    stack: Vec<usize>,
    /// The smallest state of each complete component, by state.
    component: Vec<Option<usize>>,
    /// The number of states found.
    time: usize,
}

impl Tarjan<'_> {
    /// Visits a state and completes its component if it is the first found of it.
    fn visit(&mut self, state: usize) {
        let born = self.time;
        self.time += 1;
        self.found[state] = Some(born);
        self.low[state] = born;
        self.stack.push(state);
        let rabin = self.rabin;
        for transition in rabin.cells[state].iter().flatten() {
            let next = transition.target;
            match self.found[next] {
                None => {
                    self.visit(next);
                    self.low[state] = self.low[state].min(self.low[next]);
                }
                Some(order) if self.component[next].is_none() => {
                    self.low[state] = self.low[state].min(order);
                }
                Some(_) => {}
            }
        }
        if self.low[state] == born {
            let bottom = self.stack.iter().position(|&other| other == state);
            let members = self
                .stack
                .split_off(bottom.expect("a state visited is on the stack"));
            let smallest = members.iter().min().copied();
            for member in members {
                self.component[member] = smallest;
            }
        }
    }
}

/// The smallest state of each state's component.
pub fn components_of(rabin: &Rabin) -> Vec<usize> {
    let mut tarjan = Tarjan {
        rabin,
        found: vec![None; rabin.states],
        low: vec![0; rabin.states],
        stack: Vec::new(),
        component: vec![None; rabin.states],
        time: 0,
    };
    for state in 0..rabin.states {
        if tarjan.found[state].is_none() {
            tarjan.visit(state);
        }
    }
    tarjan
        .component
        .into_iter()
        .map(|known| known.expect("every state is visited"))
        .collect()
}

/// The pairs that count in each state's component, rising.
pub fn counted_of(rabin: &Rabin, components: &[usize]) -> Vec<Vec<u8>> {
    let mut of_component: HashMap<usize, BTreeSet<u8>> = HashMap::new();
    for (state, row) in rabin.cells.iter().enumerate() {
        for transition in row.iter().flatten() {
            if components[state] == components[transition.target] {
                let pairs = of_component.entry(components[state]).or_default();
                pairs.extend((1..=rabin.pairs as u8).filter(|&i| has(transition.required, i)));
            }
        }
    }
    let rising = |component| match of_component.get(component) {
        Some(pairs) => pairs.iter().copied().collect(),
        None => Vec::new(),
    };
    components.iter().map(rising).collect()
}

/// Gives each state the smallest state of its component.
pub fn components(table: &[u8], out: &mut [u8]) -> u8 {
    let rabin = match read(table) {
        Ok(rabin) => rabin,
        Err(number) => return number,
    };
    if out.len() < rabin.states {
        return 7;
    }
    for (state, component) in components_of(&rabin).into_iter().enumerate() {
        out[state] = component as u8;
    }
    0
}

/// The states that can be reached from the start, the start among them, by a plain search.
fn reachable_of(rabin: &Rabin) -> HashSet<usize> {
    let mut reachable = HashSet::from([rabin.start]);
    let mut left = vec![rabin.start];
    while let Some(state) = left.pop() {
        for transition in rabin.cells[state].iter().flatten() {
            if reachable.insert(transition.target) {
                left.push(transition.target);
            }
        }
    }
    reachable
}

/// The factorial of a number: in how many orders so many pairs can stand.
fn factorial(number: usize) -> usize {
    (1..=number).product()
}

/// Forecasts the rows of a table: over the components reachable from the start, the sum of
/// states times the factorial of the pairs that count, and the most pairs that count in one.
pub fn forecast_table(table: &[u8]) -> Forecast {
    let rabin = match read(table) {
        Ok(rabin) => rabin,
        Err(number) => {
            return Forecast {
                number,
                rows: 0,
                pairs: 0,
            }
        }
    };
    let components = components_of(&rabin);
    let counted = counted_of(&rabin, &components);
    let reachable = reachable_of(&rabin);
    let (mut rows, mut pairs) = (0, 0);
    for component in BTreeSet::from_iter(&components) {
        // A component that is reachable is so with all its states, its smallest among them.
        if reachable.contains(component) {
            let states = components.iter().filter(|&of| of == component).count();
            let count = counted[*component].len();
            rows += states * factorial(count);
            pairs = pairs.max(count);
        }
    }
    Forecast {
        number: 0,
        rows: rows as u32,
        pairs: pairs as u8,
    }
}

/// The record after a transition inside a component: prohibited pairs move to the front.
pub fn moved(record: &[u8], prohibited: u8) -> Vec<u8> {
    let (mut front, back): (Vec<u8>, Vec<u8>) =
        record.iter().partition(|&&pair| has(prohibited, pair));
    front.extend(back);
    front
}

/// The priority of a transition inside a component, worked out from the old record.
pub fn priority(record: &[u8], prohibited: u8, required: u8) -> u8 {
    let mut result = 1;
    for (index, &pair) in record.iter().enumerate() {
        let position = index as u8 + 1;
        if has(prohibited, pair) {
            result = 2 * position + 1;
        } else if has(required, pair) {
            result = 2 * position;
        }
    }
    result
}

/// The record number: the pair numbers read as one decimal number.
pub fn record_number(record: &[u8]) -> u32 {
    record
        .iter()
        .fold(0, |number, &pair| 10 * number + u32::from(pair))
}

/// All reachable rows in order of discovery, or nothing if there are more than the capacity.
pub fn explore(rabin: &Rabin, capacity: usize) -> Option<Vec<Filled>> {
    let components = components_of(rabin);
    let rising = counted_of(rabin, &components);
    let first = Row {
        state: rabin.start,
        record: rising[rabin.start].clone(),
    };
    let mut numbers = HashMap::from([(first.clone(), 0)]);
    let mut rows = vec![first];
    let mut filled: Vec<Filled> = Vec::new();
    while filled.len() < rows.len() {
        if rows.len() > capacity {
            return None;
        }
        let row = rows[filled.len()].clone();
        let mut steps = Vec::new();
        for cell in &rabin.cells[row.state] {
            let Some(Transition {
                target,
                prohibited,
                required,
            }) = *cell
            else {
                steps.push(None);
                continue;
            };
            let (record, priority) = if components[target] == components[row.state] {
                (
                    moved(&row.record, prohibited),
                    priority(&row.record, prohibited, required),
                )
            } else {
                (rising[target].clone(), 1)
            };
            let next = Row {
                state: target,
                record,
            };
            let number = *numbers.entry(next.clone()).or_insert(rows.len());
            if number == rows.len() {
                rows.push(next);
            }
            steps.push(Some((number, priority)));
        }
        filled.push(Filled { row, steps });
    }
    Some(filled)
}

/// Translates a Rabin table into the four lent arrays.
pub fn translate_table(
    table: &[u8],
    capacity: usize,
    targets: &mut [u16],
    priorities: &mut [u8],
    sources: &mut [u8],
    records: &mut [u32],
) -> Translation {
    let refused = |number| Translation { number, rows: 0 };
    let rabin = match read(table) {
        Ok(rabin) => rabin,
        Err(number) => return refused(number),
    };
    if !(1..=MOST_ROWS).contains(&capacity) {
        return refused(7);
    }
    let cells = capacity * rabin.letters;
    if targets.len() < cells || priorities.len() < cells {
        return refused(7);
    }
    if sources.len() < capacity || records.len() < capacity {
        return refused(7);
    }
    targets[..cells].fill(0);
    priorities[..cells].fill(0);
    sources[..capacity].fill(0);
    records[..capacity].fill(0);
    let Some(rows) = explore(&rabin, capacity) else {
        return refused(8);
    };
    for (number, filled) in rows.iter().enumerate() {
        sources[number] = filled.row.state as u8;
        records[number] = record_number(&filled.row.record);
        for (letter, step) in filled.steps.iter().enumerate() {
            let cell = number * rabin.letters + letter;
            (targets[cell], priorities[cell]) = match *step {
                Some((target, priority)) => (target as u16, priority),
                None => (NO_ROW, 0),
            };
        }
    }
    Translation {
        number: 0,
        rows: rows.len(),
    }
}

/// Translates a Rabin table into one bundle of lent arrays.
pub fn translate(table: &[u8], capacity: usize, lent: &mut Lent) -> Translation {
    let Lent {
        targets,
        priorities,
        sources,
        records,
    } = lent;
    translate_table(table, capacity, targets, priorities, sources, records)
}

/// Checks a looped word: 0, 10 for its lengths, or 9 for a byte that is no letter.
fn check_word(letters: usize, lead: &[u8], looped: &[u8]) -> u8 {
    if looped.is_empty() || looped.len() > LONGEST_PIECE || lead.len() > LONGEST_PIECE {
        return 10;
    }
    match lead
        .iter()
        .chain(looped)
        .any(|&letter| usize::from(letter) >= letters)
    {
        true => 9,
        false => 0,
    }
}

/// Follows a word's run: the recurring transitions, or the letters read before it stops.
fn run(
    start: usize,
    step: impl Fn(usize, usize) -> Option<usize>,
    lead: &[u8],
    looped: &[u8],
) -> Result<HashSet<(usize, usize)>, u32> {
    let mut here = start;
    let mut read: u32 = 0;
    for &letter in lead {
        here = step(here, usize::from(letter)).ok_or(read)?;
        read += 1;
    }
    let mut met = HashSet::new();
    while met.insert(here) {
        for &letter in looped {
            here = step(here, usize::from(letter)).ok_or(read)?;
            read += 1;
        }
    }
    // The repetitions from here on go round the same states for ever.
    let round = here;
    let mut taken = HashSet::new();
    loop {
        for &letter in looped {
            let letter = usize::from(letter);
            taken.insert((here, letter));
            here = step(here, letter).expect("a run that repeats does not stop");
        }
        if here == round {
            return Ok(taken);
        }
    }
}

/// Whether a set of transitions satisfies some pair.
fn satisfies(pairs: usize, transitions: &[Transition]) -> bool {
    (1..=pairs as u8).any(|pair| {
        !transitions
            .iter()
            .any(|transition| has(transition.prohibited, pair))
            && transitions
                .iter()
                .any(|transition| has(transition.required, pair))
    })
}

/// The answer for a run that does not stop.
fn verdict(accepted: bool) -> Judged {
    match accepted {
        true => Judged::Accepts,
        false => Judged::Rejects,
    }
}

/// Judges a looped word on a Rabin table.
pub fn judge_rabin(table: &[u8], lead: &[u8], looped: &[u8]) -> Judged {
    let rabin = match read(table) {
        Ok(rabin) => rabin,
        Err(number) => return Judged::Refused(number),
    };
    let number = check_word(rabin.letters, lead, looped);
    if number != 0 {
        return Judged::Refused(number);
    }
    let step = |state: usize, letter: usize| rabin.cells[state][letter].map(|cell| cell.target);
    match run(rabin.start, step, lead, looped) {
        Err(read) => Judged::Stops(read),
        Ok(taken) => {
            let taken: Vec<Transition> = taken
                .into_iter()
                .filter_map(|(state, letter)| rabin.cells[state][letter])
                .collect();
            verdict(satisfies(rabin.pairs, &taken))
        }
    }
}

/// Checks anyone's parity table: 0 or 11.
fn check_parity(rows: usize, letters: usize, targets: &[u16], priorities: &[u8]) -> u8 {
    if !(1..=MOST_ROWS).contains(&rows) || !(1..=16).contains(&letters) {
        return 11;
    }
    let cells = rows * letters;
    if targets.len() < cells || priorities.len() < cells {
        return 11;
    }
    match targets[..cells]
        .iter()
        .all(|&target| target == NO_ROW || usize::from(target) < rows)
    {
        true => 0,
        false => 11,
    }
}

/// Judges a looped word on anyone's parity table.
pub fn judge_parity(
    rows: usize,
    letters: usize,
    targets: &[u16],
    priorities: &[u8],
    lead: &[u8],
    looped: &[u8],
) -> Judged {
    let number = check_parity(rows, letters, targets, priorities);
    if number != 0 {
        return Judged::Refused(number);
    }
    let number = check_word(letters, lead, looped);
    if number != 0 {
        return Judged::Refused(number);
    }
    let step = |row: usize, letter: usize| {
        let target = targets[row * letters + letter];
        (target != NO_ROW).then_some(usize::from(target))
    };
    match run(0, step, lead, looped) {
        Err(read) => Judged::Stops(read),
        Ok(taken) => {
            let largest = taken
                .into_iter()
                .map(|(row, letter)| priorities[row * letters + letter]);
            verdict(largest.max().expect("a loop has letters") % 2 == 0)
        }
    }
}

/// The stretch from a place of the word to the end of its piece.
pub fn rest_of(lead: &[u8], looped: &[u8], place: usize) -> Stretch {
    if place < lead.len() {
        return Stretch {
            piece: 0,
            start: place,
            length: lead.len() - place,
        };
    }
    let start = (place - lead.len()).min(looped.len());
    Stretch {
        piece: 1,
        start,
        length: looped.len() - start,
    }
}

/// The same stretch as that very part of the lead-in or of the loop.
pub fn rest_slice<'a>(lead: &'a [u8], looped: &'a [u8], place: usize) -> &'a [u8] {
    let Stretch {
        piece,
        start,
        length,
    } = rest_of(lead, looped, place);
    let piece = if piece == 0 { lead } else { looped };
    &piece[start..start + length]
}

/// Translates a table into the lent arrays and gives its listing.
pub fn list(table: &[u8], capacity: usize, lent: &mut Lent) -> Vec<u8> {
    let answer = translate(table, capacity, lent);
    if answer.number != 0 {
        return format!("refused {}\n", answer.number).into_bytes();
    }
    let (letters, pairs) = (usize::from(table[1]), table[2]);
    let mut text = format!("{} {letters} {pairs}\n", answer.rows);
    for row in 0..answer.rows {
        let source = lent.sources[row];
        let record = match lent.records[row] {
            0 => "-".to_string(),
            number => number.to_string(),
        };
        for letter in 0..letters {
            let cell = row * letters + letter;
            let step = match lent.targets[cell] {
                NO_ROW => "- -".to_string(),
                target => format!("{target} {}", lent.priorities[cell]),
            };
            text += &format!("{row} {source} {record} {letter} {step}\n");
        }
    }
    text.into_bytes()
}

/// A walk of the result: each transition is a row with a letter.
pub type Walk = Vec<(usize, usize)>;

/// Where a row leads by a letter, nothing for a missing transition.
fn led(parity: &ParityTable, row: usize, letter: usize) -> Option<usize> {
    let target = parity.targets[row * parity.letters + letter];
    (target != NO_ROW).then_some(usize::from(target))
}

/// Whether a walk's largest priority is even exactly if its projection satisfies some pair.
pub fn walk_agrees(rabin: &Rabin, parity: &ParityTable, walk: &[(usize, usize)]) -> bool {
    let priority_of =
        |&(row, letter): &(usize, usize)| parity.priorities[row * parity.letters + letter];
    let projected = |&(row, letter): &(usize, usize)| {
        rabin.cells[usize::from(parity.sources[row])][letter].expect("the source has it too")
    };
    let largest = walk
        .iter()
        .map(priority_of)
        .max()
        .expect("a closed walk has transitions");
    let projection: Vec<Transition> = walk.iter().map(projected).collect();
    (largest % 2 == 0) == satisfies(rabin.pairs, &projection)
}

/// All closed walks from a row of at most so many transitions.
pub fn closed_walks(parity: &ParityTable, from: usize, longest: usize) -> Vec<Walk> {
    let mut found = Vec::new();
    let mut open: Vec<(Walk, usize)> = vec![(Vec::new(), from)];
    while let Some((walk, here)) = open.pop() {
        if !walk.is_empty() && here == from {
            found.push(walk.clone());
        }
        if walk.len() == longest {
            continue;
        }
        for letter in 0..parity.letters {
            if let Some(next) = led(parity, here, letter) {
                let mut longer = walk.clone();
                longer.push((here, letter));
                open.push((longer, next));
            }
        }
    }
    found
}

/// The closed walks that one long walk contains: each visit of a row back to an earlier one.
pub fn closings(parity: &ParityTable, from: usize, letters: &[usize]) -> Vec<Walk> {
    let mut walk = Vec::new();
    let mut here = from;
    let mut found = Vec::new();
    for &letter in letters {
        let Some(next) = led(parity, here, letter) else {
            break;
        };
        walk.push((here, letter));
        here = next;
        let starts = (0..walk.len()).filter(|&start| walk[start].0 == here);
        found.extend(starts.map(|start| walk[start..].to_vec()));
    }
    found
}

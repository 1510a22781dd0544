//! Transition systems in an array, of several shapes, with their components and reach by the plain side.

use crate::plain::{self, Rabin, Transition};
use crate::random::Random;

/// The target that means no transition.
pub const NONE: u16 = 65535;

/// The kinds of system that are drawn.
#[derive(Clone, Copy, Debug, PartialEq, Eq)]
pub enum Shape {
    /// A ring through all states, the other letters anywhere: strongly connected.
    Connected,
    /// Layers of eight states, targets in the same layer or a later one.
    Layered,
    /// Each state leads to the next and to itself.
    Chain,
    /// Each state leads to the next, the last to the first, the other letters nowhere.
    Ring,
    /// Any target or none.
    Anything,
}

/// Every shape.
pub const SHAPES: [Shape; 5] = [
    Shape::Connected,
    Shape::Layered,
    Shape::Chain,
    Shape::Ring,
    Shape::Anything,
];

/// The targets of a system, cell by cell.
pub fn targets(random: &mut Random, shape: Shape, states: usize, letters: usize) -> Vec<u16> {
    let mut cells = Vec::with_capacity(states * letters);
    for q in 0..states {
        for a in 0..letters {
            let next = (q + 1) % states;
            cells.push(match shape {
                Shape::Connected if a == 0 => next as u16,
                Shape::Connected => random.below(states) as u16,
                Shape::Layered => {
                    let first = q / 8 * 8;
                    let reach = (states - first).min(16);
                    (first + random.below(reach)) as u16
                }
                Shape::Chain if a == 0 && q + 1 < states => next as u16,
                Shape::Chain => q as u16,
                Shape::Ring if a == 0 => next as u16,
                Shape::Ring => NONE,
                Shape::Anything if random.below(4) == 0 => NONE,
                Shape::Anything => random.below(states) as u16,
            });
        }
    }
    cells
}

/// The smallest state of each state's component, by Tarjan's walk of the plain side.
pub fn components(states: usize, letters: usize, targets: &[u16]) -> Vec<u16> {
    let transition = |&target: &u16| {
        (usize::from(target) < states).then(|| Transition {
            target: target.into(),
            prohibited: 0,
            required: 0,
        })
    };
    let cells = targets[..states * letters]
        .chunks(letters)
        .map(|row| row.iter().map(transition).collect())
        .collect();
    let system = Rabin {
        states,
        letters,
        pairs: 0,
        start: 0,
        cells,
    };
    let components = plain::components_of(&system).into_iter();
    components.map(|smallest| smallest as u16).collect()
}

/// Which states a state reaches, by a plain search.
pub fn reached(states: usize, letters: usize, targets: &[u16], from: usize) -> Vec<bool> {
    let mut is = vec![false; states];
    is[from] = true;
    let mut left = vec![from];
    while let Some(q) = left.pop() {
        for a in 0..letters {
            let target = usize::from(targets[q * letters + a]);
            if target < states && !is[target] {
                is[target] = true;
                left.push(target);
            }
        }
    }
    is
}

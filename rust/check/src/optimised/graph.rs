//! The steps of a task, from the states that they lead to.

use std::collections::HashMap;
use std::ops::Range;

use super::{Key, COST, STEPS};
use crate::reference::files::{Fact, Task, Variable, MOST_ACTIONS};

/// How states are numbered, and which of them the plan starts in.
pub struct Layout {
    strides: Vec<usize>,
    /// The variables of more than one value, a bit each.
    wide: u64,
    pub start: usize,
}

impl Layout {
    pub fn of(task: &Task) -> Layout {
        let mut layout = Layout {
            strides: Vec::with_capacity(task.variables.len()),
            wide: 0,
            start: 0,
        };
        let mut stride = 1;
        for (number, variable) in task.variables.iter().enumerate() {
            layout.strides.push(stride);
            layout.wide |= u64::from(variable.size > 1) << number;
            layout.start += stride * variable.start as usize;
            stride *= variable.size as usize;
        }
        layout
    }

    fn offset(&self, fact: &Fact) -> usize {
        self.strides[fact.variable as usize] * fact.value as usize
    }
}

/// A bit for each action.
type Row = [u64; MOST_ACTIONS / 64];

/// The steps, seen from the states that they lead to.
pub struct Graph {
    /// The rows of the first variables' values, then those of the others': a
    /// state's actions are in both of its rows.
    pub low: Vec<Row>,
    pub high: Vec<Row>,
    /// By cost.
    pub actions: Vec<Backward>,
    /// The states of the goal.
    pub goal: Vec<usize>,
    pub offsets: Offsets,
}

/// The steps of one action.
pub struct Backward {
    /// Cost, one step and the action's number.
    pub key: Key,
    /// From a state to the first of those before it, modulo 2^16.
    pub to_first: u16,
    /// How many they are, and where their offsets from the first are listed.
    pub count: u16,
    pub from: u32,
}

impl Graph {
    pub fn of(task: &Task, layout: &Layout) -> Graph {
        let mut rows = Rows::new(task);
        let mut offsets = Offsets::default();
        let mut order: Vec<usize> = (0..task.actions.len()).collect();
        order.sort_by_key(|&number| task.actions[number].cost);
        let actions = (order.iter().enumerate())
            .map(|(place, &number)| backward(task, layout, place, number, &mut rows, &mut offsets))
            .collect();
        let first: usize = task.goal.iter().map(|fact| layout.offset(fact)).sum();
        let (from, count) = offsets.of(task, layout, layout.wide & !variables_of(&task.goal));
        let goal = offsets.at(from, count).iter();
        let split = low_variables(task);
        Graph {
            low: rows.joined(&task.variables, 0..split),
            high: rows.joined(&task.variables, split..task.variables.len()),
            actions,
            goal: goal.map(|&offset| first + offset as usize).collect(),
            offsets,
        }
    }
}

fn variables_of(facts: &[Fact]) -> u64 {
    facts.iter().fold(0, |set, fact| set | 1 << fact.variable)
}

/// How many of the variables have at most 64 states together.
fn low_variables(task: &Task) -> usize {
    let mut states = 1;
    let fits = |variable: &&Variable| {
        states *= variable.size as usize;
        states <= 64
    };
    task.variables.iter().take_while(fits).count()
}

/// Enters an action in the rows. Before it may be all values of the variables
/// that it sets without a condition.
fn backward(
    task: &Task,
    layout: &Layout,
    place: usize,
    number: usize,
    rows: &mut Rows,
    offsets: &mut Offsets,
) -> Backward {
    let action = &task.actions[number];
    let set = variables_of(&action.effects);
    let mut to_first: u16 = 0;
    for effect in &action.effects {
        rows.demand(effect, place);
        to_first = to_first.wrapping_sub(layout.offset(effect) as u16);
    }
    for condition in &action.conditions {
        if set >> condition.variable & 1 == 0 {
            rows.demand(condition, place);
        } else {
            to_first = to_first.wrapping_add(layout.offset(condition) as u16);
        }
    }
    let free = set & layout.wide & !variables_of(&action.conditions);
    let (from, count) = offsets.of(task, layout, free);
    Backward {
        key: Key::from(action.cost) << COST | 1 << STEPS | number as Key,
        to_first,
        count,
        from,
    }
}

/// For each fact the actions after which its variable must have its value,
/// and for each variable those after which it must have some.
struct Rows {
    all: Row,
    first_fact: Vec<usize>,
    of_fact: Vec<Row>,
    of_variable: Vec<Row>,
}

impl Rows {
    fn new(task: &Task) -> Rows {
        let mut facts = 0;
        let mut first_fact = Vec::with_capacity(task.variables.len());
        for variable in &task.variables {
            first_fact.push(facts);
            facts += variable.size as usize;
        }
        let mut all = Row::default();
        for action in 0..task.actions.len() {
            all[action / 64] |= 1 << (action % 64);
        }
        Rows {
            all,
            first_fact,
            of_fact: vec![Row::default(); facts],
            of_variable: vec![Row::default(); task.variables.len()],
        }
    }

    fn demand(&mut self, fact: &Fact, action: usize) {
        let variable = fact.variable as usize;
        let (word, bit) = (action / 64, 1 << (action % 64));
        self.of_fact[self.first_fact[variable] + fact.value as usize][word] |= bit;
        self.of_variable[variable][word] |= bit;
    }

    /// For each state of these variables the actions that may lead to it.
    fn joined(&self, variables: &[Variable], range: Range<usize>) -> Vec<Row> {
        let mut joined = vec![self.all];
        for variable in range {
            let before = joined.len();
            let size = variables[variable].size as usize;
            joined.resize(before * size, Row::default());
            let demanding = &self.of_variable[variable];
            for value in (0..size).rev() {
                let of_fact = &self.of_fact[self.first_fact[variable] + value];
                for state in 0..before {
                    let row: Row = std::array::from_fn(|word| {
                        joined[state][word] & (of_fact[word] | !demanding[word])
                    });
                    joined[value * before + state] = row;
                }
            }
        }
        joined
    }
}

/// For sets of variables, the numbers of the states in which all others are 0.
#[derive(Default)]
pub struct Offsets {
    list: Vec<u16>,
    /// Where those of a set are listed, and how many they are.
    places: HashMap<u64, (u32, u16)>,
}

impl Offsets {
    fn of(&mut self, task: &Task, layout: &Layout, set: u64) -> (u32, u16) {
        if let Some(&place) = self.places.get(&set) {
            return place;
        }
        let from = self.list.len();
        self.list.push(0);
        let mut left = set;
        while left != 0 {
            let variable = left.trailing_zeros() as usize;
            left &= left - 1;
            let before = from..self.list.len();
            for value in 1..task.variables[variable].size as usize {
                let offset = (layout.strides[variable] * value) as u16;
                for place in before.clone() {
                    self.list.push(self.list[place] + offset);
                }
            }
        }
        let place = (from as u32, (self.list.len() - from) as u16);
        self.places.insert(set, place);
        place
    }

    pub fn at(&self, from: u32, count: u16) -> &[u16] {
        &self.list[from as usize..][..count as usize]
    }
}

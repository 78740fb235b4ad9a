//! Tasks that take long to search or to mark.

use std::ops::RangeInclusive;

use super::super::files::{Action, Fact, Task, Variable, MOST_ACTIONS, MOST_VARIABLES};
use super::random::{add, numbers, Random};
use super::shaped::counter_of;

/// The longest counter that is searched.
const BITS: [u16; 12] = [2; 12];

/// Variables of these sizes, each to go from 0 to its highest value.
fn to_highest(sizes: &[u16]) -> Task {
    let highest = |variable: u16| Fact {
        variable,
        value: sizes[variable as usize] - 1,
    };
    let variable = |&size: &u16| Variable { size, start: 0 };
    Task {
        variables: sizes.iter().map(variable).collect(),
        goal: numbers(sizes.len()).into_iter().map(highest).collect(),
        actions: Vec::new(),
        signer: 1,
    }
}

/// So many of the variables, in order.
fn chosen(random: &mut Random, variables: &[Variable], count: usize) -> Vec<u16> {
    let mut chosen = numbers(variables.len());
    random.shuffle(&mut chosen);
    chosen.truncate(count);
    chosen.sort_unstable();
    chosen
}

/// A fact of each of these variables.
fn facts_on(random: &mut Random, variables: &[Variable], on: &[u16]) -> Vec<Fact> {
    let fact = |&variable: &u16| random.fact(variables, variable);
    on.iter().map(fact).collect()
}

/// Facts of so many of the variables.
fn facts_of(random: &mut Random, variables: &[Variable], count: usize) -> Vec<Fact> {
    let on = chosen(random, variables, count);
    facts_on(random, variables, &on)
}

/// Twelve bits and as many actions as a task may have, each with conditions
/// and effects on the same three bits.
pub fn crowded(random: &mut Random) -> Task {
    let mut task = to_highest(&BITS);
    for _ in 0..MOST_ACTIONS {
        let on = chosen(random, &task.variables, 3);
        task.actions.push(Action {
            conditions: facts_on(random, &task.variables, &on),
            effects: facts_on(random, &task.variables, &on),
            cost: 0,
        });
    }
    for action in &mut task.actions {
        action.cost = random.below(100) as u32;
    }
    task
}

/// Variables of these sizes and as many actions as a task may have, each with
/// so many conditions and effects, on any of them, and a cost of the range.
pub fn crowded_with(
    random: &mut Random,
    sizes: &[u16],
    [conditions, effects]: [usize; 2],
    costs: RangeInclusive<u32>,
) -> Task {
    let mut task = to_highest(sizes);
    for _ in 0..MOST_ACTIONS {
        task.actions.push(Action {
            conditions: facts_of(random, &task.variables, conditions),
            effects: facts_of(random, &task.variables, effects),
            cost: random.between(*costs.start() as usize, *costs.end() as usize) as u32,
        });
    }
    task
}

/// Crowded, and no plan: the first variable, once it is not at its highest
/// value, stays so.
pub fn crowded_without_plan(random: &mut Random) -> Task {
    let mut task = crowded_with(random, &BITS, [3, 3], 0..=99);
    let highest = task.goal[0];
    for action in &mut task.actions {
        if action.effects.contains(&highest) {
            action.conditions.retain(|fact| fact.variable != 0);
            add(&mut action.conditions, highest);
        }
    }
    task
}

/// The longest counter, with each step also at 41 or 42 higher costs.
pub fn crowded_counter(random: &mut Random) -> Task {
    let mut task = counter_of(&BITS, 1);
    let steps = task.actions.clone();
    for number in steps.len()..MOST_ACTIONS {
        task.actions.push(Action {
            cost: 1 + (number / steps.len()) as u32,
            ..steps[number % steps.len()].clone()
        });
    }
    random.shuffle(&mut task.actions);
    task
}

/// The longest counter behind actions that are always applicable, set any
/// three bits and cost more than all of its steps.
pub fn counter_behind_dear_actions(random: &mut Random) -> Task {
    let mut task = counter_of(&BITS, 1);
    let mut actions: Vec<Action> = (task.actions.len()..MOST_ACTIONS)
        .map(|number| Action {
            conditions: Vec::new(),
            effects: facts_of(random, &task.variables, 3),
            cost: 900_000 + number as u32,
        })
        .collect();
    actions.append(&mut task.actions);
    task.actions = actions;
    task
}

/// How many rounds of marking take a coverer away.
const LOST: u16 = MOST_VARIABLES as u16 - 2;

/// A chain of two-valued variables, of which each round of marking tracks one
/// more, and 200 actions that set its end. For each other variable of the
/// chain one action covers them all, until that variable, which it sets too,
/// is tracked; the first is there 188 times more.
pub fn coverers_lost() -> Task {
    let fact = |variable: u16, value: u16| Fact { variable, value };
    let always = fact(LOST + 1, 0);
    let action = |conditions: Vec<Fact>, effects: Vec<Fact>| Action {
        conditions,
        effects,
        cost: 1,
    };
    let covered = (0..200).map(|number| {
        let other = fact(1 + number % LOST, number / LOST % 2);
        action(vec![other, always], vec![fact(0, 1)])
    });
    let covering = |also: u16| action(vec![always], vec![fact(0, 1), fact(also, 1)]);
    let link = |place: u16| action(vec![fact(place, 1)], vec![fact(place - 1, 1)]);
    let actions = covered
        .chain(std::iter::repeat_n(covering(1), 188))
        .chain((1..=LOST).map(covering))
        .chain((1..=LOST).map(link));
    Task {
        actions: actions.collect(),
        variables: vec![Variable { size: 2, start: 0 }; MOST_VARIABLES],
        goal: vec![fact(0, 1)],
        signer: 1,
    }
}

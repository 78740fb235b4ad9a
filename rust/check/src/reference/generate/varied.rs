//! Small tasks whose facts are taken from one another, so that the levels of
//! marking come to different ends.

use std::cmp::Ordering;

use super::super::files::{Action, Fact, Task, Variable};
use super::random::{numbers, Random};

/// 257 has its lowest byte, and 65,537 its lowest two, in common with 1.
const COSTS: [u32; 5] = [0, 1, 257, 65_537, 1_000_000];

/// Up to 6 variables of up to 4 values and up to 15 actions, every fourth time
/// with a chain in front. The goal is much like the effects of an action: the
/// first where there is a chain, else any.
pub fn varied(random: &mut Random) -> Task {
    let (chained, more) = match random.below(4) {
        0 => (random.between(2, 11), random.below(5)),
        1 => (0, random.between(6, 12)),
        _ => (0, random.below(13)),
    };
    let mut variables = variables(random, chained > 0);
    let mut actions = chain(&variables, chained);
    for _ in 0..more {
        actions.push(action(random, &variables, &actions));
    }
    let model = match chained {
        0 => any_of(random, &actions),
        _ => actions[0].clone(),
    };
    let goal = variation(random, &variables, &model.effects, 14);
    set_starts(random, &mut variables, &goal);
    Task {
        variables,
        goal,
        actions,
        signer: random.signer(),
    }
}

/// All of 4 values where there is a chain; elsewhere one task in a hundred has
/// no variables. Their start values are drawn last.
fn variables(random: &mut Random, chained: bool) -> Vec<Variable> {
    let none = !chained && random.chance(1);
    let count = if none { 0 } else { random.between(1, 6) };
    let least = if chained { 4 } else { 1 };
    let mut variable = || Variable {
        size: random.between(least, 4) as u16,
        start: 0,
    };
    (0..count).map(|_| variable()).collect()
}

/// Actions that each set the condition of the one before. Facts are taken by
/// value, then variable.
fn chain(variables: &[Variable], count: usize) -> Vec<Action> {
    let fact = |place: usize| Fact {
        variable: (place % variables.len()) as u16,
        value: (place / variables.len() % 4) as u16,
    };
    (0..count)
        .map(|place| Action {
            cost: COSTS[place % 4],
            conditions: vec![fact(place + 1)],
            effects: vec![fact(place)],
        })
        .collect()
}

/// A variation of an earlier action, three times in eight a cheaper one; or,
/// every fourth time, one with new effects, whose conditions are much like the
/// effects of an earlier one.
fn action(random: &mut Random, variables: &[Variable], before: &[Action]) -> Action {
    let earlier = any_of(random, before);
    let any_cost = random.one_of(&COSTS);
    if before.is_empty() || !random.chance(75) {
        return Action {
            cost: any_cost,
            conditions: variation(random, variables, &earlier.effects, 12),
            effects: variation(random, variables, &[], 2 * variables.len()),
        };
    }
    let mut varied = Action {
        cost: earlier.cost,
        conditions: variation(random, variables, &earlier.conditions, 12),
        effects: variation(random, variables, &earlier.effects, 13),
    };
    match random.below(8) {
        0 => varied.cost = any_cost,
        1..4 => make_cheaper(random, &mut varied, &earlier),
        _ => {}
    }
    varied
}

/// Gives the action some of the conditions of an earlier one, and a lower cost
/// than that has, if there is one.
fn make_cheaper(random: &mut Random, action: &mut Action, earlier: &Action) {
    action.conditions = earlier.conditions.clone();
    action.conditions.retain(|_| random.chance(60));
    let lower = COSTS.partition_point(|&cost| cost < earlier.cost);
    if lower > 0 {
        action.cost = random.one_of(&COSTS[..lower]);
    }
}

/// One of the actions; one without conditions and effects where there is none.
fn any_of(random: &mut Random, actions: &[Action]) -> Action {
    match actions {
        [] => Action::default(),
        _ => actions[random.below(actions.len())].clone(),
    }
}

/// The facts with changes: for each variable, with `keep` chances in 16, what
/// they have of it; with one chance nothing, else any of its facts.
fn variation(
    random: &mut Random,
    variables: &[Variable],
    facts: &[Fact],
    keep: usize,
) -> Vec<Fact> {
    let mut varied = Vec::new();
    for variable in numbers(variables.len()) {
        let kept = facts.iter().find(|fact| fact.variable == variable);
        varied.extend(match random.below(16).cmp(&keep) {
            Ordering::Less => kept.copied(),
            Ordering::Equal => None,
            Ordering::Greater => Some(random.fact(variables, variable)),
        });
    }
    varied
}

/// Draws each start value, and a second time where the first is the goal's.
fn set_starts(random: &mut Random, variables: &mut [Variable], goal: &[Fact]) {
    for variable in numbers(variables.len()) {
        let mut start = random.fact(variables, variable);
        if goal.contains(&start) {
            start = random.fact(variables, variable);
        }
        variables[variable as usize].start = start.value;
    }
}

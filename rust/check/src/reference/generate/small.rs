//! Tasks whose actions have no order, many of them alike.

use super::super::files::{Action, Fact, Task, Variable, MOST_ACTIONS};
use super::super::plans::{start, step};
use super::random::{add, numbers, Random};

/// Up to 5 variables of up to 4 values and up to 12 actions, many of them
/// alike.
pub fn small(random: &mut Random) -> Task {
    let variables: Vec<Variable> = (0..random.below(6))
        .map(|_| random.variable(1, 4))
        .collect();
    let among = numbers(variables.len());
    let mut actions: Vec<Action> = Vec::new();
    for _ in 0..random.below(13) {
        let mut action = Action {
            cost: random.cost(),
            conditions: random.facts(&variables, &among, 3),
            effects: random.facts(&variables, &among, 3),
        };
        if random.chance(40) && !actions.is_empty() {
            action = alike(random, &variables, &actions);
        }
        actions.push(action);
    }
    Task {
        goal: random.facts(&variables, &among, 3),
        variables,
        actions,
        signer: random.signer(),
    }
}

/// 3 to 6 variables of 2 or 3 values and up to 16 actions, with a goal that
/// some of them reach.
pub fn small_with_plan(random: &mut Random) -> Task {
    let variables: Vec<Variable> = (0..random.between(3, 6))
        .map(|_| random.variable(2, 3))
        .collect();
    let among = numbers(variables.len());
    let mut actions: Vec<Action> = Vec::new();
    for _ in 0..random.between(3, 16) {
        if random.chance(40) && !actions.is_empty() {
            actions.push(alike(random, &variables, &actions));
            continue;
        }
        let variable = random.one_of(&among);
        let mut action = Action {
            cost: random.cost(),
            conditions: random.facts(&variables, &among, 2),
            effects: vec![random.fact(&variables, variable)],
        };
        if random.chance(20) {
            let variable = random.one_of(&among);
            let fact = random.fact(&variables, variable);
            add(&mut action.effects, fact);
        }
        actions.push(action);
    }
    with_goal(random, variables, actions, &among, 3)
}

/// The task of these actions with a goal that some of them reach: facts of at
/// most `most` of the variables in `among`.
pub(super) fn with_goal(
    random: &mut Random,
    variables: Vec<Variable>,
    actions: Vec<Action>,
    among: &[u16],
    most: usize,
) -> Task {
    let mut task = Task {
        goal: Vec::new(),
        variables,
        actions,
        signer: random.signer(),
    };
    task.goal = goal_reached(random, &task, among, most);
    task
}

/// Facts that are all true after some steps from the start; those that have
/// changed come first.
fn goal_reached(random: &mut Random, task: &Task, among: &[u16], most: usize) -> Vec<Fact> {
    let mut state = start(task);
    for _ in 0..random.between(5, 40) {
        let number = random.below(task.actions.len());
        if let Some(after) = step(&task.actions[number], &state) {
            state = after;
        }
    }
    let mut chosen = among.to_vec();
    random.shuffle(&mut chosen);
    chosen.sort_by_key(|&variable| {
        let variable = variable as usize;
        state[variable] == task.variables[variable].start
    });
    let mut goal = Vec::new();
    for &variable in chosen.iter().take(random.between(1, most)) {
        let value = state[variable as usize];
        add(&mut goal, Fact { variable, value });
    }
    goal
}

/// Up to 512 actions, almost all of them alike: many are covered.
pub fn many_alike(random: &mut Random) -> Task {
    let variables: Vec<Variable> = (0..random.between(4, 12))
        .map(|_| random.variable(2, 3))
        .collect();
    let among = numbers(variables.len());
    let mut actions: Vec<Action> = (0..5)
        .map(|_| Action {
            cost: random.cost(),
            conditions: random.facts(&variables, &among, 4),
            effects: random.facts(&variables, &among, 2),
        })
        .collect();
    for _ in 0..random.below(MOST_ACTIONS - 4) {
        actions.push(alike(random, &variables, &actions));
    }
    with_goal(random, variables, actions, &among, 3)
}

/// One of the actions with a condition more, or with one less and then half
/// the time at a lower cost or the same; sometimes with another effect.
pub(super) fn alike(random: &mut Random, variables: &[Variable], actions: &[Action]) -> Action {
    let mut action = actions[random.below(actions.len())].clone();
    if random.chance(50) && !action.conditions.is_empty() {
        let dropped = random.below(action.conditions.len());
        action.conditions.remove(dropped);
        if random.chance(50) {
            action.cost = random.below(action.cost as usize + 1) as u32;
        }
    } else if !variables.is_empty() {
        let variable = random.below(variables.len()) as u16;
        let fact = random.fact(variables, variable);
        add(&mut action.conditions, fact);
    }
    if random.chance(30) && !variables.is_empty() {
        let variable = random.below(variables.len()) as u16;
        let fact = random.fact(variables, variable);
        add(&mut action.effects, fact);
    }
    action
}

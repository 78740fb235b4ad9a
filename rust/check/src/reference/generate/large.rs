//! Tasks with many variables and actions, up to the largest.

use super::super::files::{
    write_task, Action, Fact, Task, Variable, MOST_ACTIONS, MOST_BYTES, MOST_PAIRS, MOST_VALUES,
    MOST_VARIABLES,
};
use super::super::search::MOST_STATES;
use super::random::{add, numbers, Random};
use super::small::with_goal;

/// The parts variables play where few are kept: `core` ones are set and
/// named, `still` ones are named and set at their start value only, `free`
/// ones are set and never named by an action that is kept.
struct Parts {
    core: Vec<u16>,
    still: Vec<u16>,
    free: Vec<u16>,
}

impl Parts {
    /// A core of at most `most_states` states; the rest is divided at random.
    fn of(random: &mut Random, variables: &[Variable], most_states: usize) -> Parts {
        let mut order = numbers(variables.len());
        random.shuffle(&mut order);
        let mut parts = Parts {
            core: Vec::new(),
            still: Vec::new(),
            free: Vec::new(),
        };
        let mut states = 1;
        for variable in order {
            let size = variables[variable as usize].size as usize;
            if size > 1 && states * size <= most_states {
                states *= size;
                parts.core.push(variable);
            } else if random.chance(50) {
                parts.still.push(variable);
            } else {
                parts.free.push(variable);
            }
        }
        parts
    }
}

fn start_fact(variables: &[Variable], variable: u16) -> Fact {
    Fact {
        variable,
        value: variables[variable as usize].start,
    }
}

/// Many variables and actions of which few are kept.
pub fn few_kept(random: &mut Random) -> Task {
    let variables: Vec<Variable> = (0..random.between(20, MOST_VARIABLES))
        .map(|_| random.variable(1, 6))
        .collect();
    let most_states = random.between(8, 1_000);
    let parts = Parts::of(random, &variables, most_states);
    let mut actions = Vec::new();
    for _ in 0..random.between(20, 120) {
        let outside = random.chance(50);
        let set = if outside { &parts.free } else { &parts.core };
        let mut action = Action {
            cost: random.cost(),
            conditions: random.facts(&variables, set, 2),
            effects: random.facts(&variables, set, 2),
        };
        if outside {
            let among = numbers(variables.len());
            for fact in random.facts(&variables, &among, 2) {
                add(&mut action.conditions, fact);
            }
        } else {
            for _ in 0..random.below(4) {
                pad(random, &variables, &parts, &mut action);
            }
        }
        actions.push(action);
    }
    let mut task = with_goal(random, variables, actions, &parts.core, 4);
    if random.chance(50) && !parts.still.is_empty() {
        let variable = random.one_of(&parts.still);
        let fact = start_fact(&task.variables, variable);
        add(&mut task.goal, fact);
    }
    task
}

/// Adds a condition or an effect that reduction drops.
fn pad(random: &mut Random, variables: &[Variable], parts: &Parts, action: &mut Action) {
    let part = random.below(3);
    let among = if part == 2 { &parts.free } else { &parts.still };
    if among.is_empty() {
        return;
    }
    let variable = random.one_of(among);
    match part {
        0 => add(&mut action.conditions, start_fact(variables, variable)),
        1 => add(&mut action.effects, start_fact(variables, variable)),
        _ => add(&mut action.effects, random.fact(variables, variable)),
    }
}

/// 64 variables, 512 actions and 65,536 bytes, with a core of up to 4,096
/// states that the search has to go through.
pub fn largest_searched(random: &mut Random) -> Task {
    let most_size = random.one_of(&[2, 3, 8, MOST_VALUES]);
    let variables: Vec<Variable> = (0..MOST_VARIABLES)
        .map(|_| random.variable(2, most_size))
        .collect();
    let parts = Parts::of(random, &variables, MOST_STATES);
    let actions = (0..MOST_ACTIONS)
        .map(|_| Action {
            cost: random.cost(),
            conditions: random.facts(&variables, &parts.core, 5),
            effects: random.facts(&variables, &parts.core, 2),
        })
        .collect();
    let mut task = with_goal(random, variables, actions, &parts.core, parts.core.len());
    fill(random, &mut task, |random, variables, action| {
        pad(random, variables, &parts, action)
    });
    task
}

/// 64 variables, 512 actions and 65,536 bytes, without any order.
pub fn largest(random: &mut Random) -> Task {
    let variables: Vec<Variable> = (0..MOST_VARIABLES)
        .map(|_| random.variable(1, MOST_VALUES))
        .collect();
    let among = numbers(MOST_VARIABLES);
    let mut task = Task {
        goal: random.facts(&variables, &among, MOST_PAIRS),
        actions: vec![Action::default(); MOST_ACTIONS],
        variables,
        signer: random.signer(),
    };
    for action in &mut task.actions {
        action.cost = random.cost();
    }
    fill(random, &mut task, |random, variables, action| {
        let variable = random.below(variables.len()) as u16;
        let fact = random.fact(variables, variable);
        let facts = if random.chance(30) {
            &mut action.conditions
        } else {
            &mut action.effects
        };
        add(facts, fact);
    });
    task
}

/// Adds a pair at a time to a random action until the file is full.
fn fill(
    random: &mut Random,
    task: &mut Task,
    mut add_pair: impl FnMut(&mut Random, &[Variable], &mut Action),
) {
    let mut length = write_task(task).len();
    while length < MOST_BYTES {
        let number = random.below(task.actions.len());
        let action = &mut task.actions[number];
        let pairs = |action: &Action| action.conditions.len() + action.effects.len();
        let before = pairs(action);
        add_pair(random, &task.variables, action);
        length += 4 * (pairs(action) - before);
    }
}

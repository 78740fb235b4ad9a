//! Tasks whose plans are known by their shape.

use super::super::files::{
    Action, Fact, Task, Variable, MOST_ACTIONS, MOST_VALUES, MOST_VARIABLES,
};
use super::super::search::MOST_STATES;
use super::random::{numbers, Random};
use super::small::alike;

/// Facts in random order, each to be had by an action whose condition is the
/// fact before. Marking takes about as many rounds as there are facts.
pub fn chain(random: &mut Random) -> Task {
    let few = random.chance(70);
    let most_variables = if few { 3 } else { MOST_VARIABLES };
    let variables: Vec<Variable> = (0..random.between(1, most_variables))
        .map(|_| random.variable(2, if few { 8 } else { MOST_VALUES }))
        .collect();
    let mut facts = Vec::new();
    for (number, variable) in variables.iter().enumerate() {
        for value in (0..variable.size).filter(|&value| value != variable.start) {
            facts.push(Fact {
                variable: number as u16,
                value,
            });
        }
    }
    random.shuffle(&mut facts);
    facts.truncate(MOST_ACTIONS);

    let mut actions = Vec::new();
    for (place, &fact) in facts.iter().enumerate() {
        let before = place.checked_sub(1).map(|before| facts[before]);
        actions.push(Action {
            cost: random.cost(),
            conditions: before.into_iter().collect(),
            effects: vec![fact],
        });
    }
    while random.chance(60) && actions.len() < MOST_ACTIONS {
        actions.push(alike(random, &variables, &actions));
    }
    random.shuffle(&mut actions);
    Task {
        goal: facts.last().copied().into_iter().collect(),
        variables,
        actions,
        signer: random.signer(),
    }
}

/// Two-valued variables, each of which can be set once the one before is;
/// around 12 of them, the most that is searched.
pub fn switches(random: &mut Random) -> Task {
    let count = random.between(10, 14);
    let variables: Vec<Variable> = (0..count).map(|_| random.variable(2, 2)).collect();
    let mut order = numbers(count);
    random.shuffle(&mut order);
    let other = |variable: u16| Fact {
        variable,
        value: 1 - variables[variable as usize].start,
    };
    let mut actions = Vec::new();
    for (place, &variable) in order.iter().enumerate() {
        let before = place.checked_sub(1).map(|before| other(order[before]));
        actions.push(Action {
            cost: random.cost(),
            conditions: before.into_iter().collect(),
            effects: vec![other(variable)],
        });
    }
    for _ in 0..random.below(30) {
        actions.push(Action {
            cost: random.cost(),
            conditions: random.facts(&variables, &order, 3),
            effects: random.facts(&variables, &order, 2),
        });
    }
    random.shuffle(&mut actions);
    let goal = if random.chance(50) {
        vec![other(order[count - 1])]
    } else {
        numbers(count).into_iter().map(other).collect()
    };
    Task {
        goal,
        variables,
        actions,
        signer: random.signer(),
    }
}

/// Digits that count up by one at every step, from all 0 to all highest: the
/// only plan passes through every state.
pub fn counter(random: &mut Random) -> Task {
    let mut sizes = Vec::new();
    let mut states = 1;
    while random.chance(90) {
        let size = random.between(2, 5);
        if states * size > MOST_STATES {
            break;
        }
        states *= size;
        sizes.push(size as u16);
    }
    let mut task = counter_of(&sizes, random.signer());
    for action in &mut task.actions {
        action.cost = random.cost();
    }
    random.shuffle(&mut task.actions);
    task
}

/// The counter with digits of these sizes, each step at cost 1.
pub fn counter_of(sizes: &[u16], signer: u32) -> Task {
    let variables = sizes.iter().map(|&size| Variable { size, start: 0 });
    let highest = |digit: usize| Fact {
        variable: digit as u16,
        value: sizes[digit] - 1,
    };
    let mut actions = Vec::new();
    for (digit, &size) in sizes.iter().enumerate() {
        for value in 0..size - 1 {
            let with_own = |mut lower: Vec<Fact>, value: u16| {
                lower.push(Fact {
                    variable: digit as u16,
                    value,
                });
                lower
            };
            let zero = |lower: usize| Fact {
                variable: lower as u16,
                value: 0,
            };
            actions.push(Action {
                cost: 1,
                conditions: with_own((0..digit).map(highest).collect(), value),
                effects: with_own((0..digit).map(zero).collect(), value + 1),
            });
        }
    }
    Task {
        variables: variables.collect(),
        goal: (0..sizes.len()).map(highest).collect(),
        actions,
        signer,
    }
}

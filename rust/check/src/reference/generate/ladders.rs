//! Tasks that take many turns at level 5.

use super::super::files::{Action, Fact, Task, Variable};
use super::random::{add, numbers, Random};
use super::small::alike;

fn fact(variable: u16, value: u16) -> Fact {
    Fact { variable, value }
}

fn action(conditions: Vec<Fact>, effects: Vec<Fact>) -> Action {
    Action {
        cost: 1,
        conditions,
        effects,
    }
}

/// Task N: the first turn strikes the second action, whose condition is then
/// named by nothing, the second only gives the values new numbers, and the
/// third changes nothing.
pub fn renumbered() -> Task {
    Task {
        variables: vec![Variable { size: 3, start: 1 }],
        goal: vec![fact(0, 2)],
        actions: vec![
            action(vec![fact(0, 1)], vec![fact(0, 2)]),
            action(vec![fact(0, 0)], vec![fact(0, 1)]),
        ],
        signer: 7,
    }
}

/// Steps in blocks of two variables each. A step sets variable 0, which is all
/// that the goal still asks for, and what the step before waits for on the
/// first variable of its block; every block has to end at 0 there. Action 0
/// covers the first step, whose second condition is then set by no action that
/// is kept: it is struck, and the second becomes like it in the turn after.
pub fn ladder(steps: u16, in_block: u16) -> Task {
    let blocks = steps.div_ceil(in_block);
    let variable = |size: u16, start: u16| Variable { size, start };
    let pair = [
        variable(in_block + 2, in_block + 1),
        variable(in_block + 1, 0),
    ];
    let firsts = |value: u16| (0..blocks).map(move |block| fact(1 + 2 * block, value));
    let with_firsts = |value: u16| [fact(0, 1)].into_iter().chain(firsts(value)).collect();
    let mut actions = vec![action(vec![], with_firsts(in_block + 1))];
    actions.extend(firsts(0).map(|ended| action(vec![], vec![ended])));
    actions.push(action(vec![], vec![conditions_of(steps, in_block)[0]]));
    for step in 1..=steps {
        let mut effects = actions[0].effects.clone();
        if step > 1 {
            let waited_for = conditions_of(step - 1, in_block)[0];
            effects[1 + waited_for.variable as usize / 2] = waited_for;
        }
        let conditions = conditions_of(step, in_block);
        actions.push(action(conditions.to_vec(), effects));
        actions.push(action(vec![], vec![conditions[1]]));
    }
    Task {
        variables: [&[variable(2, 0)], &pair.repeat(blocks as usize)[..]].concat(),
        goal: with_firsts(0),
        actions,
        signer: 7,
    }
}

/// The same value on both variables of the step's block.
fn conditions_of(step: u16, in_block: u16) -> [Fact; 2] {
    let (block, value) = ((step - 1) / in_block, (step - 1) % in_block + 1);
    [fact(1 + 2 * block, value), fact(2 + 2 * block, value)]
}

/// A ladder of one or two short blocks with its variables, values and actions
/// in any order, and now and then with other actions.
pub fn shaken_ladder(random: &mut Random) -> Task {
    let (blocks, in_block) = (random.between(1, 2), random.between(1, 4));
    let steps = (blocks - 1) * in_block + random.between(1, in_block);
    let mut task = reordered(random, &ladder(steps as u16, in_block as u16));
    if random.chance(40) {
        let left_out = random.below(task.actions.len());
        task.actions.remove(left_out);
    }
    while random.chance(40) {
        task.actions
            .push(alike(random, &task.variables, &task.actions));
    }
    if random.chance(20) {
        let number = random.below(task.actions.len());
        task.actions[number].cost = random.cost();
    }
    random.shuffle(&mut task.actions);
    task
}

/// The task with other numbers for its variables and values.
fn reordered(random: &mut Random, task: &Task) -> Task {
    let mut new = |count: usize| {
        let mut order = numbers(count);
        random.shuffle(&mut order);
        order
    };
    let variables = new(task.variables.len());
    let values: Vec<Vec<u16>> = (task.variables.iter())
        .map(|variable| new(variable.size as usize))
        .collect();
    let moved = |facts: &[Fact]| {
        let mut moved = Vec::new();
        for of in facts {
            let (variable, value) = (of.variable as usize, of.value as usize);
            add(
                &mut moved,
                fact(variables[variable], values[variable][value]),
            );
        }
        moved
    };
    let mut reordered = task.clone();
    for (number, variable) in task.variables.iter().enumerate() {
        reordered.variables[variables[number] as usize] = Variable {
            size: variable.size,
            start: values[number][variable.start as usize],
        };
    }
    reordered.goal = moved(&task.goal);
    for action in &mut reordered.actions {
        action.conditions = moved(&action.conditions);
        action.effects = moved(&action.effects);
    }
    reordered
}

/// Variables whose values are passed one after the other, and actions that wait
/// for a value that is never come to, so that it is named by them alone.
pub fn waiting(random: &mut Random) -> Task {
    let variables: Vec<Variable> = (0..random.between(1, 4))
        .map(|_| random.variable(2, 5))
        .collect();
    let ways: Vec<Way> = numbers(variables.len())
        .into_iter()
        .map(|variable| Way::of(random, &variables, variable))
        .collect();
    let mut actions: Vec<Action> = Vec::new();
    for way in &ways {
        actions.extend(way.actions(random, &ways));
    }
    while random.chance(40) && !actions.is_empty() {
        actions.push(alike(random, &variables, &actions));
    }
    random.shuffle(&mut actions);
    let mut goal: Vec<Fact> = ways.iter().map(|way| *way.passed.last().unwrap()).collect();
    goal.retain(|_| random.chance(80));
    Task {
        variables,
        goal,
        actions,
        signer: random.signer(),
    }
}

/// The values of a variable: those passed from the start on, in order, and
/// those that are never come to, mostly one.
struct Way {
    passed: Vec<Fact>,
    never: Vec<Fact>,
}

impl Way {
    fn of(random: &mut Random, variables: &[Variable], variable: u16) -> Way {
        let Variable { size, start } = variables[variable as usize];
        let mut others: Vec<u16> = (0..size).filter(|&value| value != start).collect();
        random.shuffle(&mut others);
        let never = random.one_of(&[0, 1, 1, 1, 2]).min(others.len());
        let facts = |values: &[u16]| values.iter().map(|&value| fact(variable, value)).collect();
        Way {
            never: facts(&others.split_off(others.len() - never)),
            passed: facts(&[&[start], &others[..]].concat()),
        }
    }

    /// A step from each value passed to the next, and from each of the others
    /// one that may set another variable too; some with one more condition.
    fn actions(&self, random: &mut Random, ways: &[Way]) -> Vec<Action> {
        let any = |random: &mut Random| {
            let way = &ways[random.below(ways.len())];
            random.one_of(&way.passed)
        };
        let mut actions: Vec<Action> = Vec::new();
        for two in self.passed.windows(2) {
            actions.push(action(vec![two[0]], vec![two[1]]));
        }
        for &never in &self.never {
            let mut effects = vec![random.one_of(&self.passed)];
            add(&mut effects, any(random));
            actions.push(action(vec![never], effects));
        }
        for action in &mut actions {
            if random.chance(20) {
                add(&mut action.conditions, any(random));
            }
        }
        actions
    }
}

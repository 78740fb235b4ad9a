//! Level 5: marking, reduction and the striking of actions that are not
//! reached, in turns until one leaves the task as it found it.

use super::files::{Fact, Origin, Task, VariableOrigin};
use super::marking::{marking, Facts};
use super::reduction::reduction;

/// What a turn, or several, make of a task. The origin leads back to that task.
pub struct Turned {
    pub task: Task,
    pub origin: Origin,
    pub turns: usize,
}

/// All turns, of a task whose actions kept at level 4 are given.
pub fn turned(task: &Task, kept: &[bool], signer: u32) -> Turned {
    let mut found = Task {
        signer,
        ..task.clone()
    };
    let mut origin = whole(&found);
    let mut kept = kept.to_vec();
    for turns in 1.. {
        let (task, from) = turn(&found, &kept);
        origin = composed(&origin, &from);
        if task == found {
            return Turned {
                task,
                origin,
                turns,
            };
        }
        kept = marking(&task, 4).kept;
        found = task;
    }
    unreachable!()
}

/// The reduced task without the actions that are not reached in it.
pub fn turn(task: &Task, kept: &[bool]) -> (Task, Origin) {
    let (mut reduced, mut origin) = reduction(task, kept, task.signer);
    let reached = reached(&reduced);
    reduced.actions = of_reached(&reached, reduced.actions);
    origin.actions = of_reached(&reached, origin.actions);
    (reduced, origin)
}

fn of_reached<T>(reached: &[bool], list: Vec<T>) -> Vec<T> {
    let with_marks = list.into_iter().zip(reached);
    with_marks.filter(|&(_, &r)| r).map(|(of, _)| of).collect()
}

/// For each action whether it is reached, by going over all of them until no
/// further one is.
pub fn reached(task: &Task) -> Vec<bool> {
    let mut facts = Facts::none(task);
    for (number, variable) in task.variables.iter().enumerate() {
        facts.insert(Fact {
            variable: number as u16,
            value: variable.start,
        });
    }
    let mut actions = vec![false; task.actions.len()];
    loop {
        let before = actions.clone();
        for (number, action) in task.actions.iter().enumerate() {
            if action.conditions.iter().all(|&fact| facts.contains(fact)) {
                actions[number] = true;
                for &effect in &action.effects {
                    facts.insert(effect);
                }
            }
        }
        if actions == before {
            return actions;
        }
    }
}

/// The origin of a task from itself.
fn whole(task: &Task) -> Origin {
    let variables = task.variables.iter().enumerate();
    Origin {
        variables: variables
            .map(|(number, variable)| VariableOrigin {
                variable: number as u16,
                new_values: (0..variable.size).collect(),
            })
            .collect(),
        actions: (0..task.actions.len() as u16).collect(),
        signer: task.signer,
    }
}

/// Where a task comes from by two origins, one after the other.
fn composed(first: &Origin, second: &Origin) -> Origin {
    let variable = |from: &VariableOrigin| {
        let before = &first.variables[from.variable as usize];
        let new_value = |&value: &u16| from.new_values[value as usize];
        VariableOrigin {
            variable: before.variable,
            new_values: before.new_values.iter().map(new_value).collect(),
        }
    };
    let action = |&number: &u16| first.actions[number as usize];
    Origin {
        variables: second.variables.iter().map(variable).collect(),
        actions: second.actions.iter().map(action).collect(),
        signer: second.signer,
    }
}

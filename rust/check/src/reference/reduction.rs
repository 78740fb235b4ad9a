//! Reduction: the task of the kept actions, and where it comes from.

use std::ops::RangeInclusive;

use super::files::{
    read_task, write_origin, write_task, Action, Fact, Origin, Task, Variable, VariableOrigin,
};
use super::marking::{level_given, mark_stage, Facts};
use super::outcome::{long_enough, signer_given};
use super::turns::{turned, Turned};
use shortest::lent::Answer;
use shortest::Outcome;

/// What the stages up to reduction leave for the next.
pub struct Stage {
    pub task: Task,
    pub origin: Origin,
    pub report: Answer,
}

pub fn reduce(
    task: &[u8],
    level: u32,
    signer: u32,
    action_marks: &mut [u8],
    fact_marks: &mut [u8],
    reduced: &mut [u8],
    origin: &mut [u8],
) -> Answer {
    reduce_stage(
        task,
        1..=5,
        level,
        signer,
        action_marks,
        fact_marks,
        reduced,
        origin,
    )
    .map_or_else(Answer::from, |stage| stage.report)
}

/// Check, marking and reduction, each written once its buffers are long
/// enough, at one of the levels taken.
#[allow(clippy::too_many_arguments)]
pub fn reduce_stage(
    task: &[u8],
    taken: RangeInclusive<u32>,
    level: u32,
    signer: u32,
    action_marks: &mut [u8],
    fact_marks: &mut [u8],
    reduced: &mut [u8],
    origin: &mut [u8],
) -> Result<Stage, Outcome> {
    let full = read_task(task)?;
    level_given(level, taken)?;
    signer_given(signer)?;

    let marking = mark_stage(&full, level.min(4), action_marks, fact_marks)?;

    let turned = reduced_at(&full, level, &marking.kept, signer);
    let task_file = write_task(&turned.task);
    let origin_file = write_origin(&turned.origin);
    long_enough(reduced.len(), task_file.len())?;
    long_enough(origin.len(), origin_file.len())?;
    reduced[..task_file.len()].copy_from_slice(&task_file);
    origin[..origin_file.len()].copy_from_slice(&origin_file);

    let report = Answer {
        turns: turned.turns,
        reduced: task_file.len(),
        origin: origin_file.len(),
        ..marking.answer()
    };
    Ok(Stage {
        task: turned.task,
        origin: turned.origin,
        report,
    })
}

/// The reduced task of a level, of the actions that marking keeps for it.
pub fn reduced_at(task: &Task, level: u32, kept: &[bool], signer: u32) -> Turned {
    if level == 5 {
        return turned(task, kept, signer);
    }
    let (task, origin) = reduction(task, kept, signer);
    Turned {
        task,
        origin,
        turns: 0,
    }
}

/// The reduced task and its origin.
pub fn reduction(task: &Task, kept: &[bool], signer: u32) -> (Task, Origin) {
    let kept_actions: Vec<usize> = (0..task.actions.len()).filter(|&n| kept[n]).collect();

    let mut named = Facts::none(task);
    for &fact in &task.goal {
        named.insert(fact);
    }
    for &number in &kept_actions {
        for &condition in &task.actions[number].conditions {
            named.insert(condition);
        }
    }

    // For each variable kept, its number in the reduced task and the new
    // value of each old value.
    let mut renumbered: Vec<Option<(u16, Vec<u16>)>> = Vec::new();
    let mut variables = Vec::new();
    let mut variable_origins = Vec::new();
    for (number, variable) in task.variables.iter().enumerate() {
        let named_values = named.of(number);
        let any_named = named_values.contains(&true);
        if !any_named || settled(task, number, named_values, &kept_actions) {
            renumbered.push(None);
            continue;
        }
        let (size, new_values) = new_values(named_values);
        renumbered.push(Some((variables.len() as u16, new_values.clone())));
        variables.push(Variable {
            size,
            start: new_values[variable.start as usize],
        });
        variable_origins.push(VariableOrigin {
            variable: number as u16,
            new_values,
        });
    }

    let translate = |facts: &[Fact]| -> Vec<Fact> {
        facts
            .iter()
            .filter_map(|fact| {
                let (variable, new_values) = renumbered[fact.variable as usize].as_ref()?;
                Some(Fact {
                    variable: *variable,
                    value: new_values[fact.value as usize],
                })
            })
            .collect()
    };
    let actions = kept_actions
        .iter()
        .map(|&number| {
            let action = &task.actions[number];
            Action {
                cost: action.cost,
                conditions: translate(&action.conditions),
                effects: translate(&action.effects),
            }
        })
        .collect();

    let reduced = Task {
        goal: translate(&task.goal),
        variables,
        actions,
        signer,
    };
    let origin = Origin {
        variables: variable_origins,
        actions: kept_actions.iter().map(|&number| number as u16).collect(),
        signer,
    };
    (reduced, origin)
}

/// Only the start value is named, and no kept action sets another.
fn settled(task: &Task, variable: usize, named: &[bool], kept_actions: &[usize]) -> bool {
    let start = task.variables[variable].start;
    let only_start_named = (0..named.len()).all(|value| !named[value] || value == start as usize);
    let never_left = kept_actions.iter().all(|&number| {
        let mut effects = task.actions[number].effects.iter();
        effects.all(|effect| effect.variable as usize != variable || effect.value == start)
    });
    only_start_named && never_left
}

/// Named values in rising order, then one value for all left over. Also the
/// new domain size.
fn new_values(named: &[bool]) -> (u16, Vec<u16>) {
    let named_count = named.iter().filter(|&&named| named).count() as u16;
    let mut next = 0;
    let mut new_values = Vec::new();
    for &named in named {
        if named {
            new_values.push(next);
            next += 1;
        } else {
            new_values.push(named_count);
        }
    }
    let left_over = u16::from(named.contains(&false));
    (named_count + left_over, new_values)
}

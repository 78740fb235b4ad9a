//! Search: the table of least costs, and the planner.

use std::cmp::Reverse;
use std::collections::BinaryHeap;

use super::files::{write_plan, Plan, Task};
use super::outcome::{long_enough, NO_PLAN, TOO_MANY_STATES};
use super::plans::{holds, start, step, State};
use super::reduction::{reduce_stage, Stage};
use shortest::lent::Answer;
use shortest::{Entry, Outcome};

pub const MOST_STATES: usize = 4_096;

const GOAL: Entry = Entry::new(0, 0);

/// One step more, in front; none in front of none.
fn behind(entry: Entry, cost: u32) -> Option<Entry> {
    Some(Entry::new(
        entry.minutes.checked_add(u64::from(cost))?,
        entry.steps.checked_add(1)?,
    ))
}

#[allow(clippy::too_many_arguments)]
pub fn plan(
    task: &[u8],
    level: u32,
    signer: u32,
    action_marks: &mut [u8],
    fact_marks: &mut [u8],
    reduced: &mut [u8],
    origin: &mut [u8],
    table: &mut [Entry],
    plan: &mut [u8],
) -> Answer {
    let stage = reduce_stage(
        task,
        4..=5,
        level,
        signer,
        action_marks,
        fact_marks,
        reduced,
        origin,
    );
    let planned = stage.and_then(|stage| plan_stage(&stage, signer, table, plan));
    planned.unwrap_or_else(Answer::from)
}

/// Search of the reduced task, and the plan by the numbers of the first.
fn plan_stage(
    stage: &Stage,
    signer: u32,
    table: &mut [Entry],
    plan: &mut [u8],
) -> Result<Answer, Outcome> {
    let searched = search_stage(&stage.task, table)?;
    let number = |&action: &u16| stage.origin.actions[action as usize];
    let file = write_plan(&Plan {
        steps: searched.plan.iter().map(number).collect(),
        signer,
    });
    long_enough(plan.len(), file.len())?;
    plan[..file.len()].copy_from_slice(&file);
    Ok(Answer {
        table: searched.states,
        plan: file.len(),
        cost: searched.cost,
        steps: searched.plan.len(),
        ..stage.report
    })
}

struct Searched {
    states: usize,
    cost: u64,
    /// By the numbers of the task searched.
    plan: Vec<u16>,
}

fn search_stage(task: &Task, table: &mut [Entry]) -> Result<Searched, Outcome> {
    let states = state_count(task).ok_or(Outcome::refused(TOO_MANY_STATES, 0))?;
    long_enough(table.len(), states)?;
    let entries = least_costs(task, states);
    table[..states].copy_from_slice(&entries);

    let first = entries[state_number(task, &start(task))];
    if first == Entry::NONE {
        return Err(Outcome::refused(NO_PLAN, 0));
    }
    Ok(Searched {
        states,
        cost: first.minutes,
        plan: first_plan(task, &entries),
    })
}

/// The count of states, where it is at most 4,096.
pub fn state_count(task: &Task) -> Option<usize> {
    task.variables.iter().try_fold(1, |count, variable| {
        let count = count * variable.size as usize;
        (count <= MOST_STATES).then_some(count)
    })
}

/// Mixed radix, variable 0 least.
pub fn state_number(task: &Task, state: &State) -> usize {
    let digits = task.variables.iter().zip(state).rev();
    digits.fold(0, |number, (variable, &value)| {
        number * variable.size as usize + value as usize
    })
}

pub fn state_numbered(task: &Task, mut number: usize) -> State {
    let mut state = State::new();
    for variable in &task.variables {
        state.push((number % variable.size as usize) as u16);
        number /= variable.size as usize;
    }
    state
}

/// The entry of every state: Dijkstra's algorithm from the goal backwards,
/// on cost and then steps.
pub fn least_costs(task: &Task, states: usize) -> Vec<Entry> {
    let mut entries = vec![Entry::NONE; states];
    let mut queue = BinaryHeap::new();
    // For each state the states one step before it, with the step's cost.
    let mut before: Vec<Vec<(u32, usize)>> = vec![Vec::new(); states];
    for (number, entry) in entries.iter_mut().enumerate() {
        let state = state_numbered(task, number);
        if holds(&task.goal, &state) {
            *entry = GOAL;
            queue.push(Reverse((GOAL, number)));
        }
        for action in &task.actions {
            if let Some(after) = step(action, &state) {
                before[state_number(task, &after)].push((action.cost, number));
            }
        }
    }

    while let Some(Reverse((entry, number))) = queue.pop() {
        if entry > entries[number] {
            continue;
        }
        for &(cost, earlier) in &before[number] {
            if let Some(longer) = behind(entry, cost).filter(|&e| e < entries[earlier]) {
                entries[earlier] = longer;
                queue.push(Reverse((longer, earlier)));
            }
        }
    }
    entries
}

/// The first, by action numbers, of the cheapest plans of fewest steps.
pub fn first_plan(task: &Task, entries: &[Entry]) -> Vec<u16> {
    let mut plan = Vec::new();
    let mut state = start(task);
    loop {
        let entry = entries[state_number(task, &state)];
        if entry == GOAL {
            return plan;
        }
        for (number, action) in task.actions.iter().enumerate() {
            let Some(after) = step(action, &state) else {
                continue;
            };
            let left = entries[state_number(task, &after)];
            if behind(left, action.cost) == Some(entry) {
                plan.push(number as u16);
                state = after;
                break;
            }
        }
    }
}

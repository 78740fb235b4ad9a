//! Plans and their cost.

use super::files::{read_plan, read_task, Action, Fact, Task};
use super::outcome::{GOAL_NOT_MET, NOT_APPLICABLE};
use shortest::lent::Answer;
use shortest::Outcome;

/// The value of each variable.
pub type State = Vec<u16>;

pub fn start(task: &Task) -> State {
    task.variables
        .iter()
        .map(|variable| variable.start)
        .collect()
}

pub fn holds(facts: &[Fact], state: &State) -> bool {
    facts
        .iter()
        .all(|fact| state[fact.variable as usize] == fact.value)
}

/// The state after the action, where it is applicable.
pub fn step(action: &Action, state: &State) -> Option<State> {
    if !holds(&action.conditions, state) {
        return None;
    }
    let mut after = state.clone();
    for effect in &action.effects {
        after[effect.variable as usize] = effect.value;
    }
    Some(after)
}

pub fn check_plan(task: &[u8], plan: &[u8]) -> Answer {
    try_check_plan(task, plan).unwrap_or_else(Answer::from)
}

fn try_check_plan(task: &[u8], plan: &[u8]) -> Result<Answer, Outcome> {
    let task = read_task(task)?;
    let plan = read_plan(plan, task.actions.len()).map_err(Outcome::in_second_file)?;

    let mut state = start(&task);
    let mut cost = 0;
    for (place, &number) in plan.steps.iter().enumerate() {
        let action = &task.actions[number as usize];
        state = step(action, &state).ok_or(Outcome::refused(NOT_APPLICABLE, place))?;
        cost += u64::from(action.cost);
    }
    let steps = plan.steps.len();
    if !holds(&task.goal, &state) {
        return Err(Outcome::refused(GOAL_NOT_MET, steps));
    }
    Ok(Answer {
        cost,
        steps,
        ..Answer::default()
    })
}

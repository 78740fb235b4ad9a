//! What the sheets of plans are compared on.

use super::cases::{around, planned};
use super::Comparison;
use crate::reference::files::{Plan, Task, MOST_STEPS};
use crate::reference::generate::{self, plan_file, task_file, Random};

/// Longer than any page.
const LONG: usize = 135_220;

/// Every length of the page up to one past the needed one, for the plan that
/// the search finds and for lists of up to 20 steps.
pub fn every_length(comparison: &mut Comparison, random: &mut Random, task: &Task) {
    lengths(comparison, random, task, 20, |needed| {
        (0..=needed + 1).collect()
    });
}

/// The same around the needed length, with lists of any length.
pub fn lengths_around(comparison: &mut Comparison, random: &mut Random, task: &Task) {
    lengths(comparison, random, task, MOST_STEPS, around);
}

fn lengths(
    comparison: &mut Comparison,
    random: &mut Random,
    task: &Task,
    most_steps: usize,
    tried: impl Fn(usize) -> Vec<usize>,
) {
    let file = task_file(task);
    let mut applied = generate::plan(random, task);
    applied.steps.truncate(most_steps);
    let plans = [
        planned(task, 4, random.signer()),
        plan_file(&applied),
        plan_file(&any_list(random, task, most_steps)),
    ];
    for plan in plans {
        for length in tried(needed(&plan)) {
            comparison.sheet(&file, &plan, length);
        }
    }
}

/// Any actions of the task in any order.
fn any_list(random: &mut Random, task: &Task, most_steps: usize) -> Plan {
    let actions = task.actions.len();
    let count = match actions {
        0 => 0,
        _ => random.below(most_steps + 1),
    };
    Plan {
        steps: (0..count).map(|_| random.below(actions) as u16).collect(),
        signer: random.signer(),
    }
}

/// The length that the page of a plan file needs, by that of the file: its
/// head and its sign-off have 16 bytes, and a step has 2.
fn needed(plan: &[u8]) -> usize {
    33 * (plan.len().saturating_sub(16) / 2 + 1)
}

/// Both calls that take a task and a plan, with a page that is long enough or
/// one that is not.
pub fn as_it_is(comparison: &mut Comparison, random: &mut Random, task: &[u8], plan: &[u8]) {
    comparison.check_plan(task, plan);
    let needed = needed(plan).min(LONG);
    let length = if random.chance(20) {
        random.below(needed)
    } else {
        needed + random.below(20)
    };
    comparison.sheet(task, plan, length);
}

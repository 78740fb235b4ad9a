//! A plan laid out as text.

use super::files::{read_plan, read_task, Plan, Task};
use super::outcome::long_enough;
use super::plans::check_plan;
use shortest::lent::Answer;
use shortest::Outcome;

/// A line for each step, and one for the signer.
pub fn lines(task: &Task, plan: &Plan) -> String {
    let mut page = String::new();
    let mut total = 0;
    for (step, &number) in plan.steps.iter().enumerate() {
        let step = step + 1;
        let minutes = u64::from(task.actions[number as usize].cost);
        total += minutes;
        page += &format!("{step:4}  {number:5}{minutes:9}{total:12}\n");
    }
    page + &format!("SIGNED{:26}\n", plan.signer)
}

pub fn sheet(task: &[u8], plan: &[u8], page: &mut [u8]) -> Answer {
    try_sheet(task, plan, page).unwrap_or_else(Answer::from)
}

fn try_sheet(task: &[u8], plan: &[u8], page: &mut [u8]) -> Result<Answer, Outcome> {
    let checked = check_plan(task, plan).done()?;
    let task = read_task(task)?;
    let plan = read_plan(plan, task.actions.len())?;
    let lines = lines(&task, &plan);
    long_enough(page.len(), lines.len())?;
    page[..lines.len()].copy_from_slice(lines.as_bytes());
    Ok(Answer {
        page: lines.len(),
        ..checked
    })
}

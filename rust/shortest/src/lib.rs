//! The proved planner's calls. Each takes the bytes of files, or of a text, and
//! hands back what it made of them, or the [`Outcome`] by which it refused.
//!
//! ```
//! // No variables, no actions and an empty goal, under signer 7.
//! let task = [4, 0, 1, 0, 0, 0, 0, 0, 0, 0, 3, 0, 8, 0, 5, 0, 7, 0, 0, 0, 12, 0, 0, 0];
//! let planned = shortest::plan(&task, 4, 1)?;
//! assert_eq!((planned.steps.len(), planned.cost), (0, 0));
//! assert_eq!(shortest::check_plan(&task, &planned.file)?.cost, 0);
//! let sheet = shortest::sheet(&task, &planned.file)?;
//! assert_eq!(sheet.page, format!("SIGNED{:26}\n", 1));
//!
//! let refused = shortest::plan(&task[..20], 4, 1).unwrap_err();
//! assert_eq!((refused.number, refused.place), (1, 12));
//!
//! // The same task as a text of the translator.
//! let text = b"begin_version\n3\nend_version\nbegin_metric\n0\nend_metric\n0\n0\n\
//!     begin_state\nend_state\nbegin_goal\n0\nend_goal\n0\n0\n";
//! assert_eq!(shortest::translate(text, 7)?, task);
//! let refused = shortest::translate(&text[..20], 7).unwrap_err();
//! assert_eq!((refused.number, refused.place), (31, 20));
//! # Ok::<(), shortest::Outcome>(())
//! ```
//!
//! The calls use up to about 500 KiB of the stack. [`lent`] has the same calls
//! on the caller's own buffers; they allocate nothing, and after a refusal the
//! buffers hold what the stages before it gave.

mod c;
pub mod lent;
mod outcome;
mod results;

pub use lent::Entry;
pub use outcome::Outcome;
pub use results::{Checked, Marked, Planned, Reduced, Sheet};

/// Whether a file is a task file.
pub fn check_task(file: &[u8]) -> Result<(), Outcome> {
    lent::check_task(file).done().map(drop)
}

/// Whether a file is an origin file.
pub fn check_origin(file: &[u8]) -> Result<(), Outcome> {
    lent::check_origin(file).done().map(drop)
}

/// Whether a plan file holds a plan of the task of a task file.
pub fn check_plan(task: &[u8], plan: &[u8]) -> Result<Checked, Outcome> {
    let answer = lent::check_plan(task, plan).done()?;
    Ok(Checked {
        cost: answer.cost,
        steps: answer.steps,
    })
}

/// Marks the task of a task file at a level, 1 to 4.
pub fn mark(task: &[u8], level: u32) -> Result<Marked, Outcome> {
    let mut marked = Marked::longest();
    let Marked { actions, facts, .. } = &mut marked;
    let answer = lent::mark(task, level, actions, facts).done()?;
    Ok(marked.cut(&answer))
}

/// Marks the task of a task file at a level, 1 to 5, and reduces it. Both files
/// are under the signer, which is not 0.
pub fn reduce(task: &[u8], level: u32, signer: u32) -> Result<Reduced, Outcome> {
    let mut reduced = Reduced::longest();
    let Reduced {
        marked,
        file,
        origin,
        ..
    } = &mut reduced;
    let Marked { actions, facts, .. } = marked;
    let answer = lent::reduce(task, level, signer, actions, facts, file, origin).done()?;
    Ok(reduced.cut(&answer))
}

/// Plans the task of a task file, reduced at level 4 or 5. All files are under
/// the signer, which is not 0.
pub fn plan(task: &[u8], level: u32, signer: u32) -> Result<Planned, Outcome> {
    let mut planned = Planned::longest();
    let Planned {
        reduced,
        table,
        file: plan,
        ..
    } = &mut planned;
    let Reduced {
        marked,
        file,
        origin,
        ..
    } = reduced;
    let Marked { actions, facts, .. } = marked;
    let answer = lent::plan(
        task, level, signer, actions, facts, file, origin, table, plan,
    )
    .done()?;
    Ok(planned.cut(&answer))
}

/// Lays out the plan of a plan file, with the task of a task file, as text.
pub fn sheet(task: &[u8], plan: &[u8]) -> Result<Sheet, Outcome> {
    let mut page = vec![0; lent::MOST_PAGE];
    let answer = lent::sheet(task, plan, &mut page).done()?;
    Ok(Sheet::cut(page, &answer))
}

/// The task file of the task that a text of the Fast Downward translator
/// states (format version 3), under the signer, which is not 0.
pub fn translate(text: &[u8], signer: u32) -> Result<Vec<u8>, Outcome> {
    let mut file = vec![0; lent::MOST_TASK];
    let answer = lent::translate(text, signer, &mut file).done()?;
    Ok(results::first(file, answer.task))
}

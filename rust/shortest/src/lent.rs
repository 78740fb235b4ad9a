//! The calls on buffers that the caller lends: what `include/shortest.h` says
//! of each holds, with slices for pointers and lengths.

use crate::c;
use crate::Outcome;

/// As many elements as any result has.
pub const MOST_ACTIONS: usize = 512;
pub const MOST_FACTS: usize = 2_048;
pub const MOST_REDUCED: usize = 65_536;
pub const MOST_ORIGIN: usize = 5_520;
pub const MOST_ENTRIES: usize = 4_096;
pub const MOST_PLAN: usize = 8_206;
pub const MOST_PAGE: usize = 135_201;
pub const MOST_TASK: usize = 65_536;

/// How many numbers a call writes.
pub const NUMBERS: usize = 18;

/// The numbers of an answer. One that the call does not have, and every one
/// beside a refusal, is 0.
#[derive(Clone, Copy, Debug, Default, PartialEq, Eq)]
pub struct Answer {
    pub outcome: Outcome,
    pub rounds: usize,
    /// Of reduction and of the planner at level 5.
    pub turns: usize,
    pub cost: u64,
    pub steps: usize,
    /// Elements written to each buffer.
    pub action_marks: usize,
    pub fact_marks: usize,
    pub reduced: usize,
    pub origin: usize,
    pub table: usize,
    pub plan: usize,
    pub page: usize,
    pub task: usize,
    /// Reserved, 0 at every call.
    pub list: usize,
    pub goal: usize,
    pub entries: usize,
}

impl Answer {
    /// The answer, unless it is a refusal.
    pub fn done(self) -> Result<Answer, Outcome> {
        if self.outcome.is_done() {
            Ok(self)
        } else {
            Err(self.outcome)
        }
    }
}

/// The outcome, and nothing else.
impl From<Outcome> for Answer {
    fn from(outcome: Outcome) -> Answer {
        Answer {
            outcome,
            ..Answer::default()
        }
    }
}

/// By their places.
impl From<[u64; NUMBERS]> for Answer {
    fn from(numbers: [u64; NUMBERS]) -> Answer {
        let [number, file, place, rounds, cost, steps, others @ ..] = numbers;
        let [action_marks, fact_marks, reduced, origin, table, plan, others @ ..] =
            others.map(|number| number as usize);
        let [page, task, turns, list, goal, entries] = others;
        Answer {
            outcome: Outcome {
                number: u32::try_from(number).unwrap(),
                file: u32::try_from(file).unwrap(),
                place: place as usize,
            },
            rounds: rounds as usize,
            turns,
            cost,
            steps: steps as usize,
            action_marks,
            fact_marks,
            reduced,
            origin,
            table,
            plan,
            page,
            task,
            list,
            goal,
            entries,
        }
    }
}

/// An entry of the table: the least cost to the goal from a state, and the
/// fewest steps at that cost.
#[repr(C)]
#[derive(Clone, Copy, Debug, PartialEq, Eq, PartialOrd, Ord)]
pub struct Entry {
    pub minutes: u64,
    pub steps: u16,
}

impl Entry {
    /// Of a state from which the goal cannot be reached.
    pub const NONE: Entry = Entry::new(u64::MAX, u16::MAX);

    /// Of so many minutes and steps.
    pub const fn new(minutes: u64, steps: u16) -> Entry {
        Entry { minutes, steps }
    }
}

// SAFETY, for all calls below: each pointer and length are those of a slice,
// so that none is null and no two overlap where one is written, and `out` has
// room for the numbers. `Entry` has C's layout on both sides.

/// Whether a file is a task file.
pub fn check_task(file: &[u8]) -> Answer {
    answer(|out| unsafe {
        c::shortest_check_task(file.as_ptr(), file.len(), out);
    })
}

/// Whether a file is an origin file.
pub fn check_origin(file: &[u8]) -> Answer {
    answer(|out| unsafe {
        c::shortest_check_origin(file.as_ptr(), file.len(), out);
    })
}

/// Whether a plan file holds a plan of the task of a task file.
pub fn check_plan(task: &[u8], plan: &[u8]) -> Answer {
    answer(|out| unsafe {
        c::shortest_check_plan(task.as_ptr(), task.len(), plan.as_ptr(), plan.len(), out);
    })
}

/// Marks the task of a task file at a level, 1 to 4.
pub fn mark(task: &[u8], level: u32, action_marks: &mut [u8], fact_marks: &mut [u8]) -> Answer {
    answer(|out| unsafe {
        c::shortest_mark(
            task.as_ptr(),
            task.len(),
            level,
            action_marks.as_mut_ptr(),
            action_marks.len(),
            fact_marks.as_mut_ptr(),
            fact_marks.len(),
            out,
        );
    })
}

/// Marks and reduces the task of a task file at a level, 1 to 5.
pub fn reduce(
    task: &[u8],
    level: u32,
    signer: u32,
    action_marks: &mut [u8],
    fact_marks: &mut [u8],
    reduced: &mut [u8],
    origin: &mut [u8],
) -> Answer {
    answer(|out| unsafe {
        c::shortest_reduce(
            task.as_ptr(),
            task.len(),
            level,
            signer,
            action_marks.as_mut_ptr(),
            action_marks.len(),
            fact_marks.as_mut_ptr(),
            fact_marks.len(),
            reduced.as_mut_ptr(),
            reduced.len(),
            origin.as_mut_ptr(),
            origin.len(),
            out,
        );
    })
}

/// Plans the task of a task file, reduced at level 4 or 5.
#[allow(clippy::too_many_arguments)]
pub fn plan(
    task: &[u8],
    level: u32,
    signer: u32,
    action_marks: &mut [u8],
    fact_marks: &mut [u8],
    reduced: &mut [u8],
    origin: &mut [u8],
    table: &mut [Entry],
    plan: &mut [u8],
) -> Answer {
    answer(|out| unsafe {
        c::shortest_plan(
            task.as_ptr(),
            task.len(),
            level,
            signer,
            action_marks.as_mut_ptr(),
            action_marks.len(),
            fact_marks.as_mut_ptr(),
            fact_marks.len(),
            reduced.as_mut_ptr(),
            reduced.len(),
            origin.as_mut_ptr(),
            origin.len(),
            table.as_mut_ptr(),
            table.len(),
            plan.as_mut_ptr(),
            plan.len(),
            out,
        );
    })
}

/// Lays out the plan of a plan file, with the task of a task file, as text.
pub fn sheet(task: &[u8], plan: &[u8], page: &mut [u8]) -> Answer {
    answer(|out| unsafe {
        c::shortest_sheet(
            task.as_ptr(),
            task.len(),
            plan.as_ptr(),
            plan.len(),
            page.as_mut_ptr(),
            page.len(),
            out,
        );
    })
}

/// Writes the task file of the task that a text of the translator states.
pub fn translate(text: &[u8], signer: u32, file: &mut [u8]) -> Answer {
    answer(|out| unsafe {
        c::shortest_translate(
            text.as_ptr(),
            text.len(),
            signer,
            file.as_mut_ptr(),
            file.len(),
            out,
        );
    })
}

fn answer(call: impl FnOnce(*mut u64)) -> Answer {
    let mut numbers = [u64::MAX; NUMBERS];
    call(numbers.as_mut_ptr());
    Answer::from(numbers)
}

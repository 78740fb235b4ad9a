//! The calls as both implementations have them, and buffers for them.

use shortest::lent::{self, Answer, Entry};

pub type Mark = fn(&[u8], u32, &mut [u8], &mut [u8]) -> Answer;
pub type Reduce = fn(&[u8], u32, u32, &mut [u8], &mut [u8], &mut [u8], &mut [u8]) -> Answer;
pub type Plan = fn(
    &[u8],
    u32,
    u32,
    &mut [u8],
    &mut [u8],
    &mut [u8],
    &mut [u8],
    &mut [Entry],
    &mut [u8],
) -> Answer;
pub type Sheet = fn(&[u8], &[u8], &mut [u8]) -> Answer;
pub type Translate = fn(&[u8], u32, &mut [u8]) -> Answer;

/// The planner's buffers.
pub struct Buffers {
    pub action_marks: Vec<u8>,
    pub fact_marks: Vec<u8>,
    pub reduced: Vec<u8>,
    pub origin: Vec<u8>,
    pub table: Vec<Entry>,
    pub plan: Vec<u8>,
}

impl Buffers {
    /// Long enough for every task.
    pub fn long() -> Buffers {
        Buffers {
            action_marks: vec![0; lent::MOST_ACTIONS],
            fact_marks: vec![0; lent::MOST_FACTS],
            reduced: vec![0; lent::MOST_REDUCED],
            origin: vec![0; lent::MOST_ORIGIN],
            table: vec![Entry::NONE; lent::MOST_ENTRIES],
            plan: vec![0; lent::MOST_PLAN],
        }
    }

    pub fn mark(&mut self, mark: Mark, task: &[u8], level: u32) -> Answer {
        mark(task, level, &mut self.action_marks, &mut self.fact_marks)
    }

    pub fn reduce(&mut self, reduce: Reduce, task: &[u8], level: u32, signer: u32) -> Answer {
        reduce(
            task,
            level,
            signer,
            &mut self.action_marks,
            &mut self.fact_marks,
            &mut self.reduced,
            &mut self.origin,
        )
    }

    pub fn plan(&mut self, plan: Plan, task: &[u8], level: u32, signer: u32) -> Answer {
        plan(
            task,
            level,
            signer,
            &mut self.action_marks,
            &mut self.fact_marks,
            &mut self.reduced,
            &mut self.origin,
            &mut self.table,
            &mut self.plan,
        )
    }
}

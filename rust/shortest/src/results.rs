//! What the calls hand back. Each is made as long as any result, lent, and cut
//! to what the answer says.

use crate::lent::{self, Answer, Entry};

/// A plan's cost and number of steps.
#[derive(Clone, Copy, Debug, PartialEq, Eq)]
pub struct Checked {
    pub cost: u64,
    pub steps: usize,
}

/// What marking finds; at level 5 that of the first turn.
#[derive(Clone, Debug, PartialEq, Eq)]
pub struct Marked {
    /// For each action 1 where it is kept, else 0.
    pub actions: Vec<u8>,
    /// For each fact, by variable and then value, 2 where it is relevant and
    /// linked, 1 where it is relevant only, else 0.
    pub facts: Vec<u8>,
    pub rounds: usize,
}

impl Marked {
    pub(crate) fn longest() -> Marked {
        Marked {
            actions: vec![0; lent::MOST_ACTIONS],
            facts: vec![0; lent::MOST_FACTS],
            rounds: 0,
        }
    }

    pub(crate) fn cut(self, answer: &Answer) -> Marked {
        Marked {
            actions: first(self.actions, answer.action_marks),
            facts: first(self.facts, answer.fact_marks),
            rounds: answer.rounds,
        }
    }
}

/// The task of what is kept, and where it comes from.
#[derive(Clone, Debug, PartialEq, Eq)]
pub struct Reduced {
    pub marked: Marked,
    /// The file of the reduced task.
    pub file: Vec<u8>,
    /// The file of its origins.
    pub origin: Vec<u8>,
    /// 0 below level 5.
    pub turns: usize,
}

impl Reduced {
    pub(crate) fn longest() -> Reduced {
        Reduced {
            marked: Marked::longest(),
            file: vec![0; lent::MOST_REDUCED],
            origin: vec![0; lent::MOST_ORIGIN],
            turns: 0,
        }
    }

    pub(crate) fn cut(self, answer: &Answer) -> Reduced {
        Reduced {
            marked: self.marked.cut(answer),
            file: first(self.file, answer.reduced),
            origin: first(self.origin, answer.origin),
            turns: answer.turns,
        }
    }
}

/// The first of the cheapest plans of fewest steps.
#[derive(Clone, Debug, PartialEq, Eq)]
pub struct Planned {
    pub reduced: Reduced,
    /// An entry for each state of the reduced task, by its number.
    pub table: Vec<Entry>,
    /// The plan file.
    pub file: Vec<u8>,
    /// The action of each step, by its number in the task file.
    pub steps: Vec<u16>,
    pub cost: u64,
}

impl Planned {
    pub(crate) fn longest() -> Planned {
        Planned {
            reduced: Reduced::longest(),
            table: vec![Entry::NONE; lent::MOST_ENTRIES],
            file: vec![0; lent::MOST_PLAN],
            steps: Vec::new(),
            cost: 0,
        }
    }

    pub(crate) fn cut(self, answer: &Answer) -> Planned {
        // The steps stand behind the head of the file's first record.
        let steps = self.file[4..].chunks_exact(2).take(answer.steps);
        Planned {
            steps: steps.map(|b| u16::from_le_bytes([b[0], b[1]])).collect(),
            reduced: self.reduced.cut(answer),
            table: first(self.table, answer.table),
            file: first(self.file, answer.plan),
            cost: answer.cost,
        }
    }
}

/// A plan laid out as text.
#[derive(Clone, Debug, PartialEq, Eq)]
pub struct Sheet {
    /// A line for each step, and one for the signer of the plan.
    pub page: String,
    pub cost: u64,
    pub steps: usize,
}

impl Sheet {
    pub(crate) fn cut(page: Vec<u8>, answer: &Answer) -> Sheet {
        Sheet {
            page: String::from_utf8(first(page, answer.page)).unwrap(),
            cost: answer.cost,
            steps: answer.steps,
        }
    }
}

pub(crate) fn first<T>(mut list: Vec<T>, count: usize) -> Vec<T> {
    list.truncate(count);
    list.shrink_to_fit();
    list
}

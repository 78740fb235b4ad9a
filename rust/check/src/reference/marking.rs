//! Marking: which actions are kept and which facts are relevant.

use std::ops::RangeInclusive;

use super::files::{read_task, Action, Fact, Task};
use super::outcome::{long_enough, WRONG_LEVEL};
use shortest::lent::Answer;
use shortest::Outcome;

/// A set of facts: by variable, then by value.
#[derive(Clone, Debug, PartialEq, Eq)]
pub struct Facts(Vec<Vec<bool>>);

impl Facts {
    pub fn none(task: &Task) -> Facts {
        let row = |size: u16| vec![false; size as usize];
        Facts(task.variables.iter().map(|v| row(v.size)).collect())
    }

    pub fn contains(&self, fact: Fact) -> bool {
        self.0[fact.variable as usize][fact.value as usize]
    }

    pub fn insert(&mut self, fact: Fact) {
        self.0[fact.variable as usize][fact.value as usize] = true;
    }

    /// For each value of the variable, whether that fact is in the set.
    pub fn of(&self, variable: usize) -> &[bool] {
        &self.0[variable]
    }

    fn insert_all_of(&mut self, variable: u16) {
        self.0[variable as usize].fill(true);
    }

    fn any_of(&self, variable: u16) -> bool {
        self.0[variable as usize].contains(&true)
    }
}

pub struct Marking {
    pub kept: Vec<bool>,
    pub relevant: Facts,
    /// By the last round; none below level 3.
    pub linked: Facts,
    pub rounds: usize,
}

impl Marking {
    pub fn action_marks(&self) -> Vec<u8> {
        self.kept.iter().map(|&kept| u8::from(kept)).collect()
    }

    pub fn fact_marks(&self) -> Vec<u8> {
        let relevant = self.relevant.0.iter().flatten();
        let linked = self.linked.0.iter().flatten();
        relevant
            .zip(linked)
            .map(|marks| match marks {
                (false, _) => 0,
                (true, false) => 1,
                (true, true) => 2,
            })
            .collect()
    }

    pub fn answer(&self) -> Answer {
        Answer {
            action_marks: self.action_marks().len(),
            fact_marks: self.fact_marks().len(),
            rounds: self.rounds,
            ..Answer::default()
        }
    }
}

pub fn mark(task: &[u8], level: u32, action_marks: &mut [u8], fact_marks: &mut [u8]) -> Answer {
    try_mark(task, level, action_marks, fact_marks).unwrap_or_else(Answer::from)
}

fn try_mark(
    task: &[u8],
    level: u32,
    action_marks: &mut [u8],
    fact_marks: &mut [u8],
) -> Result<Answer, Outcome> {
    let task = read_task(task)?;
    level_given(level, 1..=4)?;
    let marking = mark_stage(&task, level, action_marks, fact_marks)?;
    Ok(marking.answer())
}

/// Refusal 8 at place 0 for a level that the call does not take.
pub fn level_given(level: u32, taken: RangeInclusive<u32>) -> Result<(), Outcome> {
    if !taken.contains(&level) {
        return Err(Outcome::refused(WRONG_LEVEL, 0));
    }
    Ok(())
}

/// Marks the task into both buffers, once both are long enough.
pub fn mark_stage(
    task: &Task,
    level: u32,
    action_marks: &mut [u8],
    fact_marks: &mut [u8],
) -> Result<Marking, Outcome> {
    let marking = marking(task, level);
    let actions = marking.action_marks();
    let facts = marking.fact_marks();
    long_enough(action_marks.len(), actions.len())?;
    long_enough(fact_marks.len(), facts.len())?;
    action_marks[..actions.len()].copy_from_slice(&actions);
    fact_marks[..facts.len()].copy_from_slice(&facts);
    Ok(marking)
}

pub fn marking(task: &Task, level: u32) -> Marking {
    marking_by(task, level, |other, own| other <= own)
}

/// Marking by any rule of cost: whether an action may cover another is for the
/// test to say, of its cost and the other's.
pub fn marking_by(task: &Task, level: u32, may_cover: fn(u32, u32) -> bool) -> Marking {
    let mut kept = vec![false; task.actions.len()];
    let mut relevant = Facts::none(task);
    for &fact in &task.goal {
        relevant.insert(fact);
        if level == 1 {
            relevant.insert_all_of(fact.variable);
        }
    }
    let rivals = match level {
        4 => rivals(task, may_cover),
        _ => Vec::new(),
    };

    for rounds in 1.. {
        let kept_before = kept.clone();
        let relevant_before = relevant.clone();
        let linked = if level >= 3 {
            linked(task, &kept_before)
        } else {
            Facts::none(task)
        };

        for (number, action) in task.actions.iter().enumerate() {
            let gained = action.effects.iter().any(|&effect| match level {
                1 => relevant_before.any_of(effect.variable),
                _ => relevant_before.contains(effect) && !linked.contains(effect),
            });
            if gained {
                kept[number] = true;
            }
        }

        let tracked = tracked(&relevant_before, &linked);
        for (number, action) in task.actions.iter().enumerate() {
            if !kept[number] || level == 4 && covered(&rivals[number], &kept, tracked) {
                continue;
            }
            for &condition in &action.conditions {
                relevant.insert(condition);
                if level == 1 {
                    relevant.insert_all_of(condition.variable);
                }
            }
        }

        if kept == kept_before && relevant == relevant_before {
            return Marking {
                kept,
                relevant,
                linked,
                rounds,
            };
        }
    }
    unreachable!()
}

/// The start facts of the variables that no kept action sets to another value.
fn linked(task: &Task, kept: &[bool]) -> Facts {
    let mut threatened = vec![false; task.variables.len()];
    for (action, _) in task.actions.iter().zip(kept).filter(|(_, &kept)| kept) {
        for effect in &action.effects {
            let variable = effect.variable as usize;
            if effect.value != task.variables[variable].start {
                threatened[variable] = true;
            }
        }
    }
    let mut linked = Facts::none(task);
    for (number, variable) in task.variables.iter().enumerate() {
        if !threatened[number] {
            linked.insert(Fact {
                variable: number as u16,
                value: variable.start,
            });
        }
    }
    linked
}

/// A set of variables, a bit each.
type Variables = u64;

/// The variables with a relevant fact that isn't linked.
fn tracked(relevant: &Facts, linked: &Facts) -> Variables {
    let mut tracked = 0;
    for (variable, (relevant, linked)) in relevant.0.iter().zip(&linked.0).enumerate() {
        if relevant.iter().zip(linked).any(|(&r, &l)| r && !l) {
            tracked |= 1 << variable;
        }
    }
    tracked
}

/// An action that covers another where it is kept too and they differ on no
/// tracked variable.
struct Rival {
    action: usize,
    differing: Variables,
}

/// For each action those that may cover it by their costs and whose conditions
/// are a proper subset of its own.
fn rivals(task: &Task, may_cover: fn(u32, u32) -> bool) -> Vec<Vec<Rival>> {
    task.actions
        .iter()
        .map(|action| {
            task.actions
                .iter()
                .enumerate()
                .filter(|(_, other)| may_cover(other.cost, action.cost))
                .filter(|(_, other)| proper_subset(&other.conditions, &action.conditions))
                .map(|(number, other)| Rival {
                    action: number,
                    differing: differing(action, other),
                })
                .collect()
        })
        .collect()
}

fn proper_subset(facts: &[Fact], of: &[Fact]) -> bool {
    facts.len() < of.len() && facts.iter().all(|fact| of.contains(fact))
}

/// The variables of the effects that one of the actions has and the other not.
fn differing(one: &Action, other: &Action) -> Variables {
    let of_one_alone = |one: &Action, other: &Action| {
        let alone = one.effects.iter().filter(|of| !other.effects.contains(of));
        alone.fold(0, |set, effect| set | 1 << effect.variable)
    };
    of_one_alone(one, other) | of_one_alone(other, one)
}

fn covered(rivals: &[Rival], kept: &[bool], tracked: Variables) -> bool {
    rivals
        .iter()
        .any(|rival| kept[rival.action] && rival.differing & tracked == 0)
}

//! What the calls are compared on.

use super::{pages, texts, Comparison, Lengths};
use crate::reference::files::{Task, MOST_COST};
use crate::reference::generate::{self, origin_file, plan_file, task_file, Random};
use crate::reference::marking::marking;
use crate::reference::plan;
use crate::reference::reduction::reduced_at;
use crate::reference::search::{state_count, MOST_STATES};
use shortest::Entry;

const LEVELS: [u32; 8] = [0, 1, 2, 3, 4, 5, 6, u32::MAX];
/// Those that the planner takes, and now and then another.
const PLANNED: [u32; 8] = [4, 4, 4, 5, 5, 5, 3, 6];
pub(super) const SIGNERS: [u32; 6] = [0, 1, 4, 5, 1 << 16, u32::MAX];

/// Longer than any result.
const LONG: Lengths = [520, 2_060, 65_540, 5_540, MOST_STATES + 4, 8_220];

/// The length that each buffer needs when the task is reduced at a level and
/// searched.
pub fn needed(task: &Task, level: u32) -> Lengths {
    let marking = marking(task, level.min(4));
    let reduced = reduced_at(task, level, &marking.kept, 1);
    [
        task.actions.len(),
        marking.fact_marks().len(),
        task_file(&reduced.task).len(),
        origin_file(&reduced.origin).len(),
        state_count(&reduced.task).unwrap_or(0),
        planned(task, level.max(4), 1).len(),
    ]
}

/// The file of the plan that the search finds, empty where there is none.
pub(super) fn planned(task: &Task, level: u32, signer: u32) -> Vec<u8> {
    let [mut actions, mut facts, mut reduced, mut origin, _, mut plan_file] =
        LONG.map(|length| vec![0; length]);
    let planned = plan(
        &task_file(task),
        level,
        signer,
        &mut actions,
        &mut facts,
        &mut reduced,
        &mut origin,
        &mut [Entry::NONE; MOST_STATES],
        &mut plan_file,
    );
    plan_file.truncate(planned.plan);
    plan_file
}

/// One buffer after the other in every length up to one past the needed one,
/// the others as long as needed or a little longer.
pub fn every_length(comparison: &mut Comparison, random: &mut Random, task: &Task) {
    one_length_other(comparison, random, task, |needed| {
        (0..=needed + 1).collect()
    });
}

/// The same around the needed lengths.
pub fn lengths_around(comparison: &mut Comparison, random: &mut Random, task: &Task) {
    one_length_other(comparison, random, task, around);
    pages::lengths_around(comparison, random, task);
    texts::lengths_around(comparison, random, task);
}

/// 0, the half of the length, and those around it.
pub(super) fn around(needed: usize) -> Vec<usize> {
    let below = needed.saturating_sub(1);
    let mut lengths = vec![0, needed / 2, below, needed, needed + 1];
    lengths.dedup();
    lengths
}

fn one_length_other(
    comparison: &mut Comparison,
    random: &mut Random,
    task: &Task,
    tried: impl Fn(usize) -> Vec<usize>,
) {
    let file = task_file(task);
    for level in 1..=5 {
        let needed = needed(task, level);
        for buffer in 0..6 {
            for length in tried(needed[buffer]) {
                let mut lengths = needed.map(|needed| needed + random.below(3));
                lengths[buffer] = length;
                if buffer < 2 {
                    comparison.mark(&file, level, lengths);
                }
                if buffer < 4 {
                    comparison.reduce(&file, level, random.signer(), lengths);
                }
                if level >= 4 {
                    comparison.plan(&file, level, random.signer(), lengths);
                }
            }
        }
    }
}

/// Any level and signer with buffers of any lengths, several of them too
/// short.
pub fn any_arguments(comparison: &mut Comparison, random: &mut Random, task: &Task, count: usize) {
    let file = task_file(task);
    let at_level: Vec<Lengths> = (1..=5).map(|level| needed(task, level)).collect();
    for _ in 0..count {
        let call = random.below(4);
        let level = random.one_of(if call < 3 { &LEVELS } else { &PLANNED });
        let signer = random.one_of(&SIGNERS);
        let needed = at_level[(level.clamp(1, 5) - 1) as usize];
        let short = random.below(60);
        let lengths = needed.map(|needed| {
            if random.chance(short) {
                random.below(needed + 1)
            } else {
                needed + random.below(20)
            }
        });
        match call {
            0 => comparison.mark(&file, level, lengths),
            1 => comparison.reduce(&file, level, signer, lengths),
            2 => comparison.plan(&file, level, signer, lengths),
            _ => comparison.plan(&file, level, signer.max(1), lengths),
        }
    }
}

/// All calls that take a task, with buffers that are long enough or one that
/// is not.
pub fn task_file_as_it_is(comparison: &mut Comparison, random: &mut Random, file: &[u8]) {
    comparison.check_task(file);
    comparison.check_origin(file);
    let mut lengths = LONG;
    if file.len() < 4_000 {
        lengths = [40, 60, 4_000, 1_000, 800, 8_220];
    }
    if random.chance(20) {
        let short = random.below(6);
        lengths[short] = random.below(20);
    }
    let level = random.one_of(&LEVELS);
    let signer = random.one_of(&SIGNERS);
    comparison.mark(file, level, lengths);
    comparison.reduce(file, level, signer, lengths);
    comparison.plan(file, random.one_of(&PLANNED), signer, lengths);
}

/// Task, origin and plan files, whole and damaged up to three times.
pub fn damaged(comparison: &mut Comparison, random: &mut Random, task: &Task) {
    let whole = task_file(task);
    let plan = plan_file(&generate::plan(random, task));
    let origin = origin_file(&generate::origin(random));
    comparison.check_origin(&origin);
    pages::as_it_is(comparison, random, &whole, &plan);
    pages::as_it_is(comparison, random, &whole, &origin);
    pages::as_it_is(comparison, random, &plan, &whole);

    let file = damaged_file(random, &whole);
    task_file_as_it_is(comparison, random, &file);
    pages::as_it_is(comparison, random, &file, &plan);
    let plan = damaged_file(random, &plan);
    pages::as_it_is(comparison, random, &whole, &plan);
    pages::as_it_is(comparison, random, &file, &plan);
    let origin = damaged_file(random, &origin);
    comparison.check_origin(&origin);
}

fn damaged_file(random: &mut Random, file: &[u8]) -> Vec<u8> {
    let mut file = file.to_vec();
    loop {
        file = if random.chance(30) {
            field_set(random, file)
        } else {
            generate::damaged(random, &file)
        };
        if random.chance(70) {
            break;
        }
    }
    if random.chance(30) {
        sign_again(&mut file);
    }
    file
}

/// With a field of 2 bytes at or around one of the limits.
fn field_set(random: &mut Random, mut file: Vec<u8>) -> Vec<u8> {
    if file.len() >= 2 {
        let limit = random.one_of(&[0, 2, 32, 64, 512, 4_096, MOST_COST as u16, u16::MAX]);
        let number = limit.wrapping_add(random.one_of(&[0, 1, u16::MAX]));
        let at = 2 * random.below(file.len() / 2);
        file[at..at + 2].copy_from_slice(&number.to_le_bytes());
    }
    file
}

/// Writes the count of bytes that stand before a sign-off at the end.
fn sign_again(file: &mut [u8]) {
    if let Some(before) = file.len().checked_sub(12) {
        file[before + 8..].copy_from_slice(&(before as u32).to_le_bytes());
    }
}

/// Bytes without any form, or records with bodies of about the right length.
pub fn arbitrary(comparison: &mut Comparison, random: &mut Random) {
    let file = arbitrary_file(random);
    let other = arbitrary_file(random);
    task_file_as_it_is(comparison, random, &file);
    pages::as_it_is(comparison, random, &file, &other);
    let task = task_file(&generate::small(random));
    pages::as_it_is(comparison, random, &task, &other);
}

fn arbitrary_file(random: &mut Random) -> Vec<u8> {
    if random.chance(30) {
        let most = random.one_of(&[3, 256]);
        return (0..random.below(200))
            .map(|_| random.below(most) as u8)
            .collect();
    }
    let mut file = Vec::new();
    let mut kinds = random.one_of(&[
        &[1, 2, 2, 3, 4, 4, 5][..],
        &[1, 3, 5],
        &[6, 6, 7, 5],
        &[7, 5],
        &[8, 5],
    ]);
    while let Some((&kind, rest)) = kinds.split_first() {
        kinds = rest;
        let length = match kind {
            1 | 2 => 4,
            3 => 4 * random.below(3),
            4 => 8 + 4 * random.below(4),
            5 => 8,
            6 => 2 + 2 * random.between(1, 3),
            _ => 2 * random.below(5),
        };
        let length = if random.chance(5) {
            random.below(20)
        } else {
            length
        };
        let kind = if random.chance(3) {
            random.below(10) as u16
        } else {
            kind
        };
        let before = file.len() as u32;
        file.extend((length as u16).to_le_bytes());
        file.extend(kind.to_le_bytes());
        let body = file.len();
        file.extend((0..length).map(|place| match place % 2 {
            0 => random.one_of(&[0, 1, 1, 2, 2, 3]),
            _ => u8::from(random.chance(1)),
        }));
        if kind == 5 && length == 8 {
            file[body + 4..].copy_from_slice(&before.to_le_bytes());
        }
        if kind == 4 && length >= 8 {
            // The upper half of the cost, and counts that give the length.
            let pairs = (length - 8) / 4;
            let conditions = random.below(pairs + 1);
            file[body + 2..body + 4].fill(0);
            file[body + 4] = conditions as u8;
            file[body + 6] = (pairs - conditions) as u8;
        }
    }
    file
}

/// Every byte of the files changed to every other value, every cut.
pub fn every_byte(comparison: &mut Comparison, random: &mut Random, task: &Task) {
    let file = task_file(task);
    let plan = plan_file(&generate::plan(random, task));
    let reduced = reduced_at(task, 4, &marking(task, 4).kept, 1);
    let origin = origin_file(&reduced.origin);
    for_every_byte(&file, |file| {
        pages::as_it_is(comparison, random, file, &plan);
        task_file_as_it_is(comparison, random, file);
    });
    for_every_byte(&plan, |plan| {
        pages::as_it_is(comparison, random, &file, plan);
    });
    for_every_byte(&origin, |origin| comparison.check_origin(origin));
    for end in 0..=file.len() {
        task_file_as_it_is(comparison, random, &file[..end]);
    }
}

pub(super) fn for_every_byte(file: &[u8], mut check: impl FnMut(&[u8])) {
    let mut changed = file.to_vec();
    for place in 0..file.len() {
        for by in 1..=255 {
            changed[place] = file[place].wrapping_add(by);
            check(&changed);
        }
        changed[place] = file[place];
    }
}

/// A mix of all of the above: small tasks in every length, larger ones around
/// the needed lengths.
pub fn any(comparison: &mut Comparison, random: &mut Random) {
    let task = generate::any(random);
    let count = if task_file(&task).len() < 2_000 {
        40
    } else {
        10
    };
    any_arguments(comparison, random, &task, count);
    lengths_around(comparison, random, &task);
    for _ in 0..count {
        damaged(comparison, random, &task);
        texts::damaged(comparison, random, &task);
        arbitrary(comparison, random);
    }
    let small = generate::small(random);
    every_length(comparison, random, &small);
    pages::every_length(comparison, random, &small);
    texts::every_length(comparison, random, &small);
}

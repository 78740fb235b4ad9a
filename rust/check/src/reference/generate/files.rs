//! Origins and plans, and damage to files.

use super::super::files::{
    Origin, Plan, Task, VariableOrigin, MOST_ACTIONS, MOST_STEPS, MOST_VALUES, MOST_VARIABLES,
};
use super::super::plans::{holds, start, step};
use super::random::{numbers, Random};

/// An accepted origin.
pub fn origin(random: &mut Random) -> Origin {
    let kept = random.between(0, 100);
    let variables = numbers(MOST_VARIABLES)
        .into_iter()
        .filter(|_| random.chance(kept))
        .collect::<Vec<_>>();
    let variables = variables
        .into_iter()
        .map(|variable| VariableOrigin {
            variable,
            new_values: (0..random.between(1, MOST_VALUES))
                .map(|_| random.below(MOST_VALUES) as u16)
                .collect(),
        })
        .collect();
    let actions = numbers(MOST_ACTIONS)
        .into_iter()
        .filter(|_| random.chance(kept))
        .collect();
    Origin {
        variables,
        actions,
        signer: random.signer(),
    }
}

/// A list of actions of the task, accepted as a file: applicable in turn up
/// to the goal or some length, now and then with a wrong step at the end.
pub fn plan(random: &mut Random, task: &Task) -> Plan {
    let most = if random.chance(10) {
        MOST_STEPS - 1
    } else {
        random.below(20)
    };
    let mut state = start(task);
    let mut steps = Vec::new();
    while steps.len() < most && !holds(&task.goal, &state) {
        let first = random.below(task.actions.len().max(1));
        let found = (first..task.actions.len())
            .chain(0..first)
            .find_map(|number| Some((number, step(&task.actions[number], &state)?)));
        let Some((number, after)) = found else {
            break;
        };
        steps.push(number as u16);
        state = after;
    }
    if random.chance(20) && !task.actions.is_empty() {
        steps.push(random.below(task.actions.len()) as u16);
    }
    Plan {
        steps,
        signer: random.signer(),
    }
}

/// The file damaged in one of the ways below.
pub fn damaged(random: &mut Random, file: &[u8]) -> Vec<u8> {
    match random.below(4) {
        0 => cut(random, file),
        1 => lengthened(random, file),
        2 => byte_changed(random, file),
        _ => fields_exchanged(random, file),
    }
}

/// Without some of its last bytes.
pub fn cut(random: &mut Random, file: &[u8]) -> Vec<u8> {
    file[..random.below(file.len().max(1))].to_vec()
}

/// With up to 20 bytes more at the end, or in front of some offset.
pub fn lengthened(random: &mut Random, file: &[u8]) -> Vec<u8> {
    let more: Vec<u8> = (0..random.between(1, 20))
        .map(|_| {
            let any = random.below(256) as u8;
            random.one_of(&[0, 0, 1, 5, 8, any])
        })
        .collect();
    let at = if random.chance(50) {
        file.len()
    } else {
        random.below(file.len() + 1)
    };
    [&file[..at], &more, &file[at..]].concat()
}

/// With one byte changed, half of the time by one only.
pub fn byte_changed(random: &mut Random, file: &[u8]) -> Vec<u8> {
    let mut changed = file.to_vec();
    if !file.is_empty() {
        let by = if random.chance(50) {
            random.one_of(&[1, 255])
        } else {
            random.between(1, 255) as u8
        };
        let at = random.below(file.len());
        changed[at] = changed[at].wrapping_add(by);
    }
    changed
}

/// With two fields of 2 bytes exchanged, near each other half of the time.
pub fn fields_exchanged(random: &mut Random, file: &[u8]) -> Vec<u8> {
    let mut exchanged = file.to_vec();
    let fields = file.len() / 2;
    if fields > 0 {
        let one = random.below(fields);
        let other = if random.chance(50) {
            (one + random.between(1, 4)).min(fields - 1)
        } else {
            random.below(fields)
        };
        for byte in 0..2 {
            exchanged.swap(2 * one + byte, 2 * other + byte);
        }
    }
    exchanged
}

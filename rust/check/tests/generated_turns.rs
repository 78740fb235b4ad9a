//! Level 5 on generated tasks: what turns promise, and the plans of the full
//! tasks.

use std::collections::BTreeSet;

use shortest::lent::Answer;
use shortest::{Entry, Outcome};
use shortest_check::buffers::Buffers;
use shortest_check::reference::files::{
    read_origin, read_plan, read_task, Action, Fact, Origin, Task,
};
use shortest_check::reference::generate::{self, for_all, task_file, Family, Random};
use shortest_check::reference::marking::marking;
use shortest_check::reference::outcome::NO_PLAN;
use shortest_check::reference::plans::start;
use shortest_check::reference::reduction::{reduced_at, reduction};
use shortest_check::reference::search::{first_plan, least_costs, state_count, state_number};
use shortest_check::reference::turns::{reached, turn};
use shortest_check::reference::{plan, reduce};

const FAMILIES: [(Family, u64); 12] = [
    (generate::small, 600),
    (generate::small_with_plan, 600),
    (generate::varied, 600),
    (generate::shaken_ladder, 600),
    (generate::waiting, 600),
    (generate::chain, 40),
    (generate::many_alike, 20),
    (generate::switches, 20),
    (generate::counter, 20),
    (generate::few_kept, 40),
    (generate::largest_searched, 3),
    (generate::largest, 3),
];

fn next(task: &Task) -> Task {
    turn(task, &marking(task, 4).kept).0
}

fn fact_count(task: &Task) -> usize {
    task.variables.iter().map(|v| v.size as usize).sum()
}

#[test]
fn turns_end_within_their_bound() {
    for_all(&FAMILIES, |task| {
        let turned = reduced_at(task, 5, &marking(task, 4).kept, 9);
        assert!((1..=task.actions.len() + fact_count(task) + 1).contains(&turned.turns));
        assert_eq!(next(&turned.task), turned.task);
        // One turn less is not the end.
        let first = Task {
            signer: 9,
            ..task.clone()
        };
        let before = (1..turned.turns).fold(first, |task, _| {
            let after = next(&task);
            assert_ne!(after, task);
            after
        });
        assert_eq!(before, turned.task);
    });
}

/// The action as the origins say that it is in the reduced task.
fn translated(action: &Action, origin: &Origin) -> Action {
    let facts = |facts: &[Fact]| {
        let mut new = Vec::new();
        for (variable, from) in origin.variables.iter().enumerate() {
            let old = facts.iter().find(|fact| fact.variable == from.variable);
            new.extend(old.map(|old| Fact {
                variable: variable as u16,
                value: from.new_values[old.value as usize],
            }));
        }
        new
    };
    Action {
        cost: action.cost,
        conditions: facts(&action.conditions),
        effects: facts(&action.effects),
    }
}

#[test]
fn origins_lead_back_to_the_first_task() {
    let lent = &mut Buffers::long();
    for_all(&FAMILIES, |task| {
        let file = task_file(task);
        let lengths = lent.reduce(reduce, &file, 5, 9);
        assert!(lengths.outcome.is_done() && lengths.reduced <= file.len());
        let reduced = read_task(&lent.reduced[..lengths.reduced]).unwrap();
        let origin = read_origin(&lent.origin[..lengths.origin]).unwrap();
        assert_eq!((reduced.signer, origin.signer), (9, 9));
        assert_eq!(reduced.variables.len(), origin.variables.len());
        for (variable, from) in reduced.variables.iter().zip(&origin.variables) {
            let full = task.variables[from.variable as usize];
            assert_eq!(from.new_values.len(), full.size as usize);
            assert_eq!(from.new_values[full.start as usize], variable.start);
            let values: BTreeSet<u16> = from.new_values.iter().copied().collect();
            assert_eq!(values, (0..variable.size).collect());
            assert!(variable.size >= 2);
        }
        let old = |&number: &u16| translated(&task.actions[number as usize], &origin);
        let actions: Vec<Action> = origin.actions.iter().map(old).collect();
        assert_eq!(reduced.actions, actions);
    });
}

#[test]
fn marks_are_those_of_level_4() {
    let [lent, before] = &mut [Buffers::long(), Buffers::long()];
    for_all(&FAMILIES, |task| {
        let file = task_file(task);
        let [at_4, at_5] = [
            before.reduce(reduce, &file, 4, 9),
            lent.reduce(reduce, &file, 5, 9),
        ];
        assert_eq!((at_4.turns, at_4.rounds), (0, at_5.rounds));
        assert_eq!(lent.action_marks, before.action_marks);
        assert_eq!(lent.fact_marks, before.fact_marks);
    });
}

/// Cost, steps and the very plan of the full task, where it can be searched.
#[test]
fn planned_as_the_full_task() {
    let lent = &mut Buffers::long();
    let (mut plans, mut none) = (0, 0);
    for_all(&FAMILIES, |task| {
        let Some(states) = state_count(task) else {
            return;
        };
        let planned = lent.plan(plan, &task_file(task), 5, 3);
        let table = least_costs(task, states);
        let best = table[state_number(task, &start(task))];
        if best == Entry::NONE {
            none += 1;
            let refused = Outcome::refused(NO_PLAN, 0);
            assert_eq!(planned, Answer::from(refused));
            return;
        }
        plans += 1;
        assert_eq!(planned.outcome, Outcome::DONE);
        let found = (planned.cost, planned.steps);
        assert_eq!(found, (best.minutes, best.steps as usize));
        let plan = read_plan(&lent.plan[..planned.plan], task.actions.len()).unwrap();
        assert_eq!(plan.steps, first_plan(task, &table));
    });
    assert!(plans > 2_000 && none > 200, "{plans}, {none}");
}

/// Whether every action that all of these, done in any order, may let start is
/// one of them.
fn closed(task: &Task, chosen: &[bool]) -> bool {
    let had = |fact: &Fact| {
        let mut all = task.actions.iter().zip(chosen);
        task.variables[fact.variable as usize].start == fact.value
            || all.any(|(action, &chosen)| chosen && action.effects.contains(fact))
    };
    let mut all = task.actions.iter().zip(chosen);
    all.all(|(action, &chosen)| chosen || !action.conditions.iter().all(had))
}

/// Reached are the actions that every closed choice of them has.
#[test]
fn reached_by_all_choices() {
    let (mut some, mut all) = (0, 0);
    for_all(&FAMILIES, |task| {
        let count = task.actions.len();
        if count > 8 {
            return;
        }
        let choices = (0..1_u32 << count).map(|bits| -> Vec<bool> {
            let chosen = |number: usize| bits >> number & 1 == 1;
            (0..count).map(chosen).collect()
        });
        let mut least = vec![true; count];
        for choice in choices.filter(|choice| closed(task, choice)) {
            for (number, chosen) in choice.into_iter().enumerate() {
                least[number] &= chosen;
            }
        }
        assert_eq!(reached(task), least);
        match least.contains(&false) {
            true => some += 1,
            false => all += 1,
        }
    });
    assert!(some > 300 && all > 300, "{some}, {all}");
}

/// How many tasks of a family take 4 turns or more, have a turn that does
/// nothing but give values new numbers, and have an action struck.
fn totals(family: Family) -> [usize; 3] {
    let mut totals = [0; 3];
    for seed in 0..600 {
        let mut task = family(&mut Random::new(seed));
        let mut of_task = [false; 3];
        for turns in 1.. {
            let kept = marking(&task, 4).kept;
            let after = next(&task);
            let marked = reduction(&task, &kept, 1).0.actions.len();
            let sizes =
                |task: &Task| -> Vec<u16> { task.variables.iter().map(|v| v.size).collect() };
            let as_large =
                (task.actions.len(), sizes(&task)) == (after.actions.len(), sizes(&after));
            let ended = after == task;
            of_task[0] |= turns >= 4;
            of_task[1] |= as_large && !ended;
            of_task[2] |= after.actions.len() < marked;
            task = after;
            if ended {
                break;
            }
        }
        for (total, of_task) in totals.iter_mut().zip(of_task) {
            *total += usize::from(of_task);
        }
    }
    totals
}

/// Had the tasks nothing to do in turns, the comparisons would pass and say
/// little.
#[test]
fn turns_have_something_to_do() {
    let at_least = |family: Family, least: [usize; 3]| {
        let found = totals(family);
        let enough = (0..3).all(|place| found[place] >= least[place]);
        assert!(enough, "{found:?}, not {least:?}");
    };
    at_least(generate::small, [1, 1, 50]);
    at_least(generate::small_with_plan, [1, 10, 200]);
    at_least(generate::varied, [0, 5, 150]);
    at_least(generate::shaken_ladder, [300, 10, 500]);
    at_least(generate::waiting, [0, 100, 400]);
}

//! The optimised search against the library and the reference: tables and
//! plans of generated tasks.

use std::collections::BTreeMap;

use shortest::lent::{self as library, Entry};
use shortest_check::buffers::Buffers;
use shortest_check::optimised::search;
use shortest_check::reference;
use shortest_check::reference::files::{read_origin, read_plan, read_task, Task};
use shortest_check::reference::generate::{self, for_all, task_file, Family, Random};
use shortest_check::reference::outcome::{NO_PLAN, TOO_MANY_STATES};
use shortest_check::reference::plans::start;
use shortest_check::reference::search::{first_plan, least_costs, state_count, state_number};

/// How many tasks of each family. Not every one of the last two is searched.
const FAMILIES: [(Family, u64); 10] = [
    (generate::small, 1_000),
    (generate::small_with_plan, 1_000),
    (generate::varied, 1_000),
    (generate::chain, 200),
    (generate::many_alike, 100),
    (generate::switches, 100),
    (generate::counter, 200),
    (generate::few_kept, 200),
    (generate::largest_searched, 10),
    (generate::largest, 10),
];

/// Compares what both planners make of a task with the search on its reduced
/// task. The number of the outcome.
fn compare_planned(lent: &mut Buffers, task: &Task, level: u32) -> u32 {
    let file = task_file(task);
    let reduced = lent.reduce(library::reduce, &file, level, 1);
    let origin = read_origin(&lent.origin[..reduced.origin]).unwrap();
    let reduced = read_task(&lent.reduced[..reduced.reduced]).unwrap();
    let searched = search(&reduced);
    let outcomes = [library::plan, reference::plan].map(|plan| {
        lent.table.fill(Entry::new(7, 7));
        let planned = lent.plan(plan, &file, level, 1);
        let number = planned.outcome.number;
        let Some(searched) = &searched else {
            assert_eq!(number, TOO_MANY_STATES);
            return number;
        };
        assert_eq!(lent.table[..searched.table.len()], searched.table);
        let Some(found) = &searched.plan else {
            assert_eq!(number, NO_PLAN);
            return number;
        };
        assert_eq!(number, 0);
        let planned = read_plan(&lent.plan[..planned.plan], task.actions.len()).unwrap();
        let original = |&action: &u16| origin.actions[action as usize];
        assert_eq!(
            planned.steps,
            found.iter().map(original).collect::<Vec<_>>()
        );
        number
    });
    outcomes[0]
}

#[test]
fn as_both_planners() {
    let lent = &mut Buffers::long();
    for (level, expected) in [(4, [3_228, 479, 113]), (5, [3_235, 480, 105])] {
        let mut outcomes = BTreeMap::<u32, u64>::new();
        for_all(&FAMILIES, |task| {
            let number = compare_planned(lent, task, level);
            *outcomes.entry(number).or_default() += 1;
        });
        let numbers = [0, NO_PLAN, TOO_MANY_STATES];
        let expected = numbers.into_iter().zip(expected).collect();
        assert_eq!(outcomes, expected, "level {level}");
    }
}

/// Tasks as they are, with variables of one value and ones never named.
#[test]
fn without_reduction() {
    let mut searched = 0;
    for_all(&FAMILIES, |task| {
        let Some(states) = state_count(task) else {
            assert!(search(task).is_none());
            return;
        };
        let found = search(task).unwrap();
        let table = least_costs(task, states);
        assert_eq!(found.table, table);
        let first = table[state_number(task, &start(task))];
        let plan = (first != Entry::NONE).then(|| first_plan(task, &table));
        assert_eq!(found.plan, plan);
        searched += 1;
    });
    assert_eq!(searched, 3_483);
}

/// The tasks of the benchmark: 4,096 states and every action kept.
#[test]
fn hard_tasks() {
    let lent = &mut Buffers::long();
    let random = &mut Random::new(1);
    let bits = &[2; 12][..];
    let mut tasks = vec![
        (generate::crowded(random), 0),
        (generate::crowded_counter(random), 0),
        (generate::counter_behind_dear_actions(random), 0),
        (generate::crowded_without_plan(random), NO_PLAN),
    ];
    for (sizes, facts, costs) in [
        (bits, [1, 1], 0..=99),
        (bits, [3, 3], 0..=0),
        (bits, [3, 3], 0..=1_000_000),
        (&[8; 4], [2, 2], 7..=7),
        (&[16; 3], [1, 1], 0..=99),
    ] {
        let task = generate::crowded_with(random, sizes, facts, costs);
        tasks.push((task, 0));
    }
    for (task, outcome) in tasks {
        assert_eq!(compare_planned(lent, &task, 4), outcome);
        let kept = lent.reduce(library::reduce, &task_file(&task), 4, 1);
        let reduced = read_task(&lent.reduced[..kept.reduced]).unwrap();
        assert_eq!(reduced.actions, task.actions);
        assert_eq!(state_count(&reduced), Some(4_096));
    }
}

/// The counters' only cheapest plan passes through every state.
#[test]
fn counters_have_the_longest_plan() {
    let random = &mut Random::new(1);
    for task in [
        generate::crowded_counter(random),
        generate::counter_behind_dear_actions(random),
    ] {
        let plan = search(&task).unwrap().plan.unwrap();
        assert_eq!(plan.len(), 4_095);
    }
}

#[test]
fn coverers_are_lost_round_by_round() {
    let task = generate::coverers_lost();
    assert_eq!((task.variables.len(), task.actions.len()), (64, 512));
    let marked = Buffers::long().mark(library::mark, &task_file(&task), 4);
    assert_eq!(marked.rounds, 64);
}

//! Generated tasks: accepted, read back, and planned as a plain enumeration
//! plans them.

use std::collections::BTreeSet;

use shortest::lent::Answer as Numbers;
use shortest::{Entry, Outcome};
use shortest_check::reference::files::{read_origin, read_plan, read_task, Fact, Task};
use shortest_check::reference::generate::{
    self, for_all, origin_file, plan_file, task_file, Family, Random,
};
use shortest_check::reference::marking::{marking, marking_by, Marking};
use shortest_check::reference::plans::{holds, start, step, State};
use shortest_check::reference::search::{state_count, state_number, state_numbered};
use shortest_check::reference::translator::read_text;
use shortest_check::reference::{check_origin, check_plan, check_task, mark, plan, reduce};

const FAMILIES: [(Family, u64); 12] = [
    (generate::small, 400),
    (generate::small_with_plan, 400),
    (generate::varied, 400),
    (generate::shaken_ladder, 100),
    (generate::waiting, 100),
    (generate::chain, 40),
    (generate::many_alike, 20),
    (generate::switches, 40),
    (generate::counter, 40),
    (generate::few_kept, 40),
    (generate::largest_searched, 5),
    (generate::largest, 5),
];

struct Answer {
    planned: Numbers,
    action_marks: Vec<u8>,
    reduced: Vec<u8>,
    origin: Vec<u8>,
    table: Vec<Entry>,
    plan: Vec<u8>,
}

fn planned(task: &Task, signer: u32) -> Answer {
    let mut answer = Answer {
        planned: Numbers::default(),
        action_marks: vec![9; task.actions.len()],
        reduced: vec![9; 65_536],
        origin: vec![9; 6_000],
        table: vec![Entry::NONE; 4_096],
        plan: vec![9; 8_300],
    };
    answer.planned = plan(
        &task_file(task),
        4,
        signer,
        &mut answer.action_marks,
        &mut vec![9; 2_048],
        &mut answer.reduced,
        &mut answer.origin,
        &mut answer.table,
        &mut answer.plan,
    );
    answer
}

#[test]
fn tasks_are_accepted_and_read_back() {
    for_all(&FAMILIES, |task| {
        let file = task_file(task);
        assert_eq!(check_task(&file), Outcome::DONE);
        assert_eq!(read_task(&file).as_ref(), Ok(task));
    });
    for seed in 0..500 {
        let task = generate::any(&mut Random::new(seed));
        assert_eq!(check_task(&task_file(&task)), Outcome::DONE);
    }
}

#[test]
fn texts_state_their_tasks() {
    let random = &mut Random::new(1);
    for_all(&FAMILIES, |task| {
        let (mut stated, text) = generate::text(random, task);
        assert!(task_file(&stated).len() < text.len());
        stated.signer = 0;
        assert_eq!(read_text(&text), Ok(stated));
    });
}

#[test]
fn origins_and_plans_are_read_back() {
    for seed in 0..200 {
        let random = &mut Random::new(seed);
        let origin = generate::origin(random);
        let file = origin_file(&origin);
        assert_eq!(check_origin(&file), Outcome::DONE);
        assert_eq!(read_origin(&file), Ok(origin));

        let task = generate::small(random);
        let plan = generate::plan(random, &task);
        assert_eq!(read_plan(&plan_file(&plan), task.actions.len()), Ok(plan));
    }
}

#[test]
fn the_largest_fill_a_file() {
    for seed in 0..5 {
        let random = &mut Random::new(seed);
        for task in [
            generate::largest(random),
            generate::largest_searched(random),
        ] {
            assert_eq!((task.variables.len(), task.actions.len()), (64, 512));
            assert_eq!(task_file(&task).len(), 65_536);
        }
    }
}

#[test]
fn damaged_files() {
    let random = &mut Random::new(1);
    let mut numbers = BTreeSet::new();
    for _ in 0..20_000 {
        let file = task_file(&generate::small(random));
        let damaged = generate::damaged(random, &file);
        numbers.insert(check_task(&damaged).number);
        if let Ok(task) = read_task(&damaged) {
            assert_eq!(task_file(&task), damaged);
        }
        assert!(!check_task(&generate::cut(random, &file)).is_done());
        let longer = [&file[..], &[0]].concat();
        assert_eq!(check_task(&longer), Outcome::refused(2, file.len()));
    }
    assert_eq!(numbers, (0..=7).collect());

    let mut numbers = BTreeSet::new();
    for _ in 0..2_000 {
        let file = origin_file(&generate::origin(random));
        let damaged = generate::damaged(random, &file);
        numbers.insert(check_origin(&damaged).number);
        if let Ok(origin) = read_origin(&damaged) {
            assert_eq!(origin_file(&origin), damaged);
        }
    }
    assert_eq!(numbers, (0..=7).collect());
}

type FactSet = BTreeSet<(u16, u16)>;

fn set(facts: &[Fact]) -> FactSet {
    facts.iter().map(|f| (f.variable, f.value)).collect()
}

/// Marking once more, with sets: kept actions, fact marks, rounds.
fn marks_by_sets(task: &Task, level: u32) -> (BTreeSet<usize>, Vec<u8>, usize) {
    let all = |variable: u16| {
        let size = task.variables[variable as usize].size;
        (0..size).map(move |value| (variable, value))
    };
    let mut relevant = set(&task.goal);
    if level == 1 {
        relevant = relevant.iter().flat_map(|&(v, _)| all(v)).collect();
    }
    let mut kept = BTreeSet::new();
    let mut rounds = 0;
    loop {
        rounds += 1;
        let (old_relevant, old_kept): (FactSet, BTreeSet<usize>) = (relevant.clone(), kept.clone());
        let linked: FactSet = (0..task.variables.len() as u16)
            .map(|v| (v, task.variables[v as usize].start))
            .filter(|&(v, start)| {
                let threat = |e: &Fact| e.variable == v && e.value != start;
                let threatens = |&a: &usize| task.actions[a].effects.iter().any(threat);
                level >= 3 && !old_kept.iter().any(threatens)
            })
            .collect();
        let aims: FactSet = old_relevant.difference(&linked).copied().collect();
        for (number, action) in task.actions.iter().enumerate() {
            if !set(&action.effects).is_disjoint(&aims) {
                kept.insert(number);
            }
        }
        let on_tracked = |number: usize| -> FactSet {
            let effects = set(&task.actions[number].effects).into_iter();
            effects
                .filter(|&(v, _)| aims.iter().any(|&(aim, _)| aim == v))
                .collect()
        };
        let conditions = |number: usize| set(&task.actions[number].conditions);
        for &number in &kept {
            let covered = kept.iter().any(|&other| {
                other != number
                    && task.actions[other].cost <= task.actions[number].cost
                    && on_tracked(other) == on_tracked(number)
                    && conditions(other).is_subset(&conditions(number))
                    && conditions(other) != conditions(number)
            });
            match level {
                1 => relevant.extend(conditions(number).iter().flat_map(|&(v, _)| all(v))),
                4 if covered => {}
                _ => relevant.extend(conditions(number)),
            }
        }
        if relevant == old_relevant && kept == old_kept {
            let facts = (0..task.variables.len() as u16).flat_map(all);
            let marks = facts
                .map(
                    |fact| match (relevant.contains(&fact), linked.contains(&fact)) {
                        (false, _) => 0,
                        (true, false) => 1,
                        (true, true) => 2,
                    },
                )
                .collect();
            return (kept, marks, rounds);
        }
    }
}

#[test]
fn marks_as_by_sets() {
    for seed in 0..2_000 {
        let random = &mut Random::new(seed);
        let task = match seed % 10 {
            0 => generate::few_kept(random),
            1 => generate::switches(random),
            2..5 => generate::small(random),
            5..7 => generate::varied(random),
            _ => generate::small_with_plan(random),
        };
        let file = task_file(&task);
        for level in 1..=4 {
            let mut action_marks = vec![9; task.actions.len()];
            let mut fact_marks = vec![9; 2_048];
            let marked = mark(&file, level, &mut action_marks, &mut fact_marks);
            let (kept, facts, rounds) = marks_by_sets(&task, level);
            let actions: Vec<u8> = (0..task.actions.len())
                .map(|number| u8::from(kept.contains(&number)))
                .collect();
            assert_eq!(marked.outcome, Outcome::DONE);
            assert_eq!(marked.rounds, rounds);
            assert_eq!(action_marks, actions);
            assert_eq!(fact_marks[..marked.fact_marks], facts);
            assert!(fact_marks[marked.fact_marks..]
                .iter()
                .all(|&mark| mark == 9));
        }
    }
}

/// How many tasks of a family would be marked in another way if an action were
/// covered at the same cost alone.
fn unlike_at_the_same_cost(family: Family, seeds: u64) -> usize {
    let marks = |marking: Marking| (marking.action_marks(), marking.fact_marks());
    let unlike = |seed: &u64| {
        let task = family(&mut Random::new(*seed));
        let at_the_same_cost = marking_by(&task, 4, |other, own| other == own);
        marks(at_the_same_cost) != marks(marking(&task, 4))
    };
    (0..seeds).filter(unlike).count()
}

#[test]
fn cheaper_actions_cover() {
    let unlike = [
        unlike_at_the_same_cost(generate::small, 2_000),
        unlike_at_the_same_cost(generate::small_with_plan, 2_000),
        unlike_at_the_same_cost(generate::many_alike, 200),
        unlike_at_the_same_cost(generate::varied, 2_400),
    ];
    assert_eq!(unlike, [19, 293, 49, 213]);
}

#[test]
fn each_level_keeps_fewer_in_bounded_rounds() {
    for_all(&FAMILIES, |task| {
        let file = task_file(task);
        let mut before = vec![1; task.actions.len()];
        for level in 1..=4 {
            let mut action_marks = vec![9; task.actions.len()];
            let mut fact_marks = vec![9; 2_048];
            let marked = mark(&file, level, &mut action_marks, &mut fact_marks);
            assert!(marked.rounds <= marked.fact_marks + marked.action_marks + 1);
            assert!(action_marks
                .iter()
                .zip(&before)
                .all(|(now, before)| now <= before));
            before = action_marks;
        }
    });
}

#[test]
fn chains_take_many_rounds() {
    let rounds = |seed| {
        let task = generate::chain(&mut Random::new(seed));
        mark(&task_file(&task), 4, &mut [0; 512], &mut [0; 2_048]).rounds
    };
    assert!((0..40).map(rounds).max() > Some(200));
}

#[test]
fn reduced_and_origin_files_are_accepted() {
    for_all(&FAMILIES, |task| {
        let file = task_file(task);
        for level in 1..=4 {
            let mut reduced = vec![9; file.len()];
            let mut origin = vec![9; 6_000];
            let lengths = reduce(
                &file,
                level,
                5,
                &mut vec![9; 512],
                &mut vec![9; 2_048],
                &mut reduced,
                &mut origin,
            );
            assert_eq!(lengths.outcome, Outcome::DONE);
            let reduced = read_task(&reduced[..lengths.reduced]).unwrap();
            let origin = read_origin(&origin[..lengths.origin]).unwrap();
            assert_eq!(reduced.variables.len(), origin.variables.len());
            assert_eq!(reduced.actions.len(), origin.actions.len());
            assert_eq!((reduced.signer, origin.signer), (5, 5));
            for (variable, from) in reduced.variables.iter().zip(&origin.variables) {
                let full = task.variables[from.variable as usize];
                assert_eq!(from.new_values.len(), full.size as usize);
                assert_eq!(from.new_values[full.start as usize], variable.start);
                let values: BTreeSet<u16> = from.new_values.iter().copied().collect();
                assert_eq!(values, (0..variable.size).collect());
                assert!(variable.size >= 2);
            }
        }
    });
}

/// The table by going over all steps until nothing changes.
fn table_by_rounds(task: &Task) -> Vec<Entry> {
    let states = state_count(task).unwrap();
    let mut table = vec![Entry::NONE; states];
    let mut steps = Vec::new();
    for (number, entry) in table.iter_mut().enumerate() {
        let state = state_numbered(task, number);
        assert_eq!(state_number(task, &state), number);
        if holds(&task.goal, &state) {
            *entry = Entry::new(0, 0);
        }
        for action in &task.actions {
            if let Some(after) = step(action, &state) {
                steps.push((number, state_number(task, &after), action.cost));
            }
        }
    }
    loop {
        let before = table.clone();
        for &(from, to, cost) in &steps {
            if table[to] != Entry::NONE {
                let longer = Entry::new(table[to].minutes + u64::from(cost), table[to].steps + 1);
                table[from] = table[from].min(longer);
            }
        }
        if table == before {
            return table;
        }
    }
}

/// The first list of kept actions, of this length and cost, that is a plan.
fn first_by_trying(
    task: &Task,
    kept: &[u8],
    state: &State,
    cost: u64,
    length: usize,
) -> Option<Vec<u16>> {
    if length == 0 {
        return (cost == 0 && holds(&task.goal, state)).then(Vec::new);
    }
    (0..task.actions.len())
        .filter(|&number| kept[number] == 1)
        .find_map(|number| {
            let left = cost.checked_sub(u64::from(task.actions[number].cost))?;
            let after = step(&task.actions[number], state)?;
            let mut plan = first_by_trying(task, kept, &after, left, length - 1)?;
            plan.insert(0, number as u16);
            Some(plan)
        })
}

#[test]
fn small_tasks_are_planned_as_by_enumeration() {
    let (mut none, mut long) = (0, 0);
    for seed in 0..3_000 {
        let random = &mut Random::new(seed);
        let task = match seed % 3 {
            0 => generate::small(random),
            _ => generate::small_with_plan(random),
        };
        let answer = planned(&task, 3);
        let best = table_by_rounds(&task)[state_number(&task, &start(&task))];
        if best == Entry::NONE {
            none += 1;
            let refused = Outcome::refused(24, 0);
            assert_eq!(answer.planned, Numbers::from(refused));
            continue;
        }
        assert_eq!(answer.planned.outcome, Outcome::DONE);
        assert_eq!(answer.planned.cost, best.minutes, "seed {seed}");
        assert_eq!(answer.planned.steps, best.steps as usize, "seed {seed}");

        let reduced = read_task(&answer.reduced[..answer.planned.reduced]).unwrap();
        let table = &answer.table[..answer.planned.table];
        assert_eq!(table, table_by_rounds(&reduced));

        let file = &answer.plan[..answer.planned.plan];
        let plan = read_plan(file, task.actions.len()).unwrap();
        assert_eq!(plan.signer, 3);
        if plan.steps.len() <= 4 {
            let kept = &answer.action_marks;
            let first = first_by_trying(&task, kept, &start(&task), best.minutes, plan.steps.len());
            assert_eq!(Some(plan.steps), first, "seed {seed}");
        } else {
            long += 1;
        }
    }
    assert!(none > 100 && none < 1_000 && long < 50);
}

#[test]
fn plans_found_are_plans_of_the_full_task() {
    let mut outcomes = BTreeSet::new();
    for_all(&FAMILIES, |task| {
        let answer = planned(task, 3);
        outcomes.insert(answer.planned.outcome.number);
        if answer.planned.outcome.is_done() {
            let checked = check_plan(&task_file(task), &answer.plan[..answer.planned.plan]);
            assert_eq!(checked.outcome, Outcome::DONE);
            assert_eq!(checked.cost, answer.planned.cost);
            assert_eq!(checked.steps, answer.planned.steps);
            assert!(check_origin(&answer.origin[..answer.planned.origin]).is_done());
        }
    });
    assert_eq!(outcomes, [0, 24, 25].into());
}

#[test]
fn the_longest_plan() {
    let task = generate::counter_of(&[2; 12], 1);
    let answer = planned(&task, 3);
    assert_eq!(answer.planned.outcome, Outcome::DONE);
    assert_eq!((answer.planned.cost, answer.planned.steps), (4_095, 4_095));
    assert_eq!(answer.planned.plan, 4 + 2 * 4_095 + 12);
}

#[test]
fn generated_plans_are_accepted_or_refused_by_their_steps() {
    let mut numbers = BTreeSet::new();
    for seed in 0..2_000 {
        let random = &mut Random::new(seed);
        let task = generate::small(random);
        let plan = generate::plan(random, &task);
        let checked = check_plan(&task_file(&task), &plan_file(&plan));
        numbers.insert(checked.outcome.number);
        assert_eq!(checked.outcome.file, 0);

        let damaged = generate::damaged(random, &plan_file(&plan));
        let outcome = check_plan(&task_file(&task), &damaged).outcome;
        let from_input = (1..=8).contains(&outcome.number);
        assert_eq!(outcome.file, u32::from(from_input));
    }
    assert_eq!(numbers, [0, 22, 23].into());
}

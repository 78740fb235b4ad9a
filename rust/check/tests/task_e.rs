//! The worked examples of the specification.

use std::ops::Deref;

use shortest::lent::Answer;
use shortest::{Entry, Outcome};
use shortest_check::buffers::Buffers;
use shortest_check::reference::files::{
    read_origin, read_task, write_plan, write_task, Action, Fact, Origin, Plan, Task, Variable,
    VariableOrigin,
};
use shortest_check::reference::search::state_numbered;
use shortest_check::reference::{check_origin, check_plan, check_task, mark, plan, reduce};

const STATION: u16 = 0;
const LAMP: u16 = 1;
const LINE: u16 = 2;

fn fact(variable: u16, value: u16) -> Fact {
    Fact { variable, value }
}

fn action(cost: u32, conditions: &[Fact], effects: &[Fact]) -> Action {
    Action {
        cost,
        conditions: conditions.to_vec(),
        effects: effects.to_vec(),
    }
}

fn task_e() -> Task {
    let variable = |size, start| Variable { size, start };
    Task {
        variables: vec![variable(3, 0), variable(2, 1), variable(3, 0)],
        goal: vec![fact(LAMP, 1), fact(LINE, 1)],
        actions: vec![
            action(2, &[fact(STATION, 1)], &[fact(LINE, 1)]),
            action(2, &[], &[fact(LINE, 1)]),
            action(1, &[], &[fact(STATION, 1)]),
            action(0, &[], &[fact(LINE, 2)]),
            action(1, &[], &[fact(LAMP, 1)]),
            action(1, &[], &[fact(LAMP, 0)]),
            action(1, &[fact(STATION, 1)], &[fact(STATION, 2)]),
        ],
        signer: 7,
    }
}

fn plan_file(steps: &[u16]) -> Vec<u8> {
    write_plan(&Plan {
        steps: steps.to_vec(),
        signer: 7,
    })
}

fn check_steps(steps: &[u16]) -> Answer {
    check_plan(&write_task(&task_e()), &plan_file(steps))
}

/// Buffers longer than any result, filled with 0xAA.
struct Prefilled(Buffers);

impl Deref for Prefilled {
    type Target = Buffers;

    fn deref(&self) -> &Buffers {
        &self.0
    }
}

const UNTOUCHED: u8 = 0xAA;
const UNTOUCHED_ENTRY: Entry = Entry::new(0xAAAA, 0xAA);

impl Prefilled {
    fn of(lengths: [usize; 6]) -> Prefilled {
        Prefilled(Buffers {
            action_marks: vec![UNTOUCHED; lengths[0]],
            fact_marks: vec![UNTOUCHED; lengths[1]],
            reduced: vec![UNTOUCHED; lengths[2]],
            origin: vec![UNTOUCHED; lengths[3]],
            table: vec![UNTOUCHED_ENTRY; lengths[4]],
            plan: vec![UNTOUCHED; lengths[5]],
        })
    }

    fn long() -> Prefilled {
        Prefilled::of([600, 2_100, 65_600, 6_000, 4_100, 8_300])
    }

    fn mark(&mut self, task: &Task, level: u32) -> Answer {
        self.0.mark(mark, &write_task(task), level)
    }

    fn reduce(&mut self, task: &Task, level: u32, signer: u32) -> Answer {
        self.0.reduce(reduce, &write_task(task), level, signer)
    }

    fn plan(&mut self, task: &Task, level: u32, signer: u32) -> Answer {
        self.0.plan(plan, &write_task(task), level, signer)
    }

    fn marks_untouched(&self) -> bool {
        let marks = self.action_marks.iter().chain(&self.fact_marks);
        marks.into_iter().all(|&byte| byte == UNTOUCHED)
    }

    fn files_untouched(&self) -> bool {
        let files = self.reduced.iter().chain(&self.origin);
        files.into_iter().all(|&byte| byte == UNTOUCHED)
    }

    fn table_untouched(&self) -> bool {
        self.table.iter().all(|&entry| entry == UNTOUCHED_ENTRY)
    }

    fn plan_untouched(&self) -> bool {
        self.plan.iter().all(|&byte| byte == UNTOUCHED)
    }
}

fn refused(number: u32, place: usize) -> Outcome {
    Outcome::refused(number, place)
}

const REDUCED_E: [u8; 80] = [
    0x04, 0x00, 0x01, 0x00, 0x02, 0x00, 0x02, 0x00, // header
    0x04, 0x00, 0x02, 0x00, 0x02, 0x00, 0x01, 0x00, // station
    0x04, 0x00, 0x02, 0x00, 0x02, 0x00, 0x01, 0x00, // line
    0x04, 0x00, 0x03, 0x00, 0x01, 0x00, 0x00, 0x00, // goal
    0x10, 0x00, 0x04, 0x00, 0x02, 0x00, 0x00, 0x00, // action 0
    0x01, 0x00, 0x01, 0x00, 0x00, 0x00, 0x00, 0x00, //
    0x01, 0x00, 0x00, 0x00, //
    0x0C, 0x00, 0x04, 0x00, 0x02, 0x00, 0x00, 0x00, // action 1
    0x00, 0x00, 0x01, 0x00, 0x01, 0x00, 0x00, 0x00, //
    0x08, 0x00, 0x05, 0x00, 0x07, 0x00, 0x00, 0x00, // sign-off
    0x44, 0x00, 0x00, 0x00,
];

#[test]
fn empty_file() {
    assert_eq!(check_task(&[]), refused(1, 0));
    assert_eq!(check_origin(&[]), refused(1, 0));
}

#[test]
fn header_with_65_variables() {
    assert_eq!(check_task(&[4, 0, 1, 0, 65, 0, 0, 0]), refused(4, 4));
    assert_eq!(check_task(&[4, 0, 1, 0, 64, 0, 0, 0]), refused(1, 8));
}

#[test]
fn task_e_is_accepted() {
    assert_eq!(check_task(&write_task(&task_e())), Outcome::DONE);
}

#[test]
fn marks_at_each_level() {
    // Facts: station 0 1 2, lamp 0 1, line 0 1 2.
    let expected = [
        (1, [1, 1, 1, 1, 1, 1, 1], [1, 1, 1, 1, 1, 1, 1, 1], 3),
        (2, [1, 1, 1, 0, 1, 0, 0], [0, 1, 0, 0, 1, 0, 1, 0], 3),
        (3, [1, 1, 1, 0, 0, 0, 0], [0, 1, 0, 0, 2, 0, 1, 0], 3),
        (4, [1, 1, 0, 0, 0, 0, 0], [0, 0, 0, 0, 2, 0, 1, 0], 2),
    ];
    for (level, actions, facts, rounds) in expected {
        let mut buffers = Prefilled::long();
        let marked = buffers.mark(&task_e(), level);
        assert_eq!(
            marked,
            Answer {
                action_marks: 7,
                fact_marks: 8,
                rounds,
                ..Answer::default()
            }
        );
        assert_eq!(buffers.action_marks[..7], actions, "level {level}");
        assert_eq!(buffers.fact_marks[..8], facts, "level {level}");
        assert_eq!(buffers.action_marks[7], UNTOUCHED);
        assert_eq!(buffers.fact_marks[8], UNTOUCHED);
    }
}

#[test]
fn levels_not_taken() {
    for level in [0, 6, u32::MAX] {
        let mut buffers = Prefilled::of([0; 6]);
        assert_eq!(buffers.mark(&task_e(), level).outcome, refused(8, 0));
        assert_eq!(buffers.reduce(&task_e(), level, 0).outcome, refused(8, 0));
        assert_eq!(buffers.plan(&task_e(), level, 0).outcome, refused(8, 0));
    }
}

#[test]
fn reduced_file_and_origin_at_level_4() {
    let mut buffers = Prefilled::long();
    let reduced = buffers.reduce(&task_e(), 4, 7);
    assert_eq!(
        reduced,
        Answer {
            action_marks: 7,
            fact_marks: 8,
            reduced: 80,
            origin: 44,
            rounds: 2,
            ..Answer::default()
        }
    );
    assert_eq!(buffers.reduced[..80], REDUCED_E);
    assert_eq!(buffers.reduced[80], UNTOUCHED);
    assert_eq!(buffers.origin[44], UNTOUCHED);
    assert_eq!(
        read_origin(&buffers.origin[..44]),
        Ok(Origin {
            variables: vec![
                VariableOrigin {
                    variable: STATION,
                    new_values: vec![1, 0, 1]
                },
                VariableOrigin {
                    variable: LINE,
                    new_values: vec![1, 0, 1]
                },
            ],
            actions: vec![0, 1],
            signer: 7
        })
    );
}

#[test]
fn plans_of_task_e() {
    let done = |cost, steps| Answer {
        cost,
        steps,
        ..Answer::default()
    };
    let turned_back = |number, place| Answer::from(refused(number, place));
    assert_eq!(check_steps(&[2, 0]), done(3, 2));
    assert_eq!(check_steps(&[1]), done(2, 1));
    assert_eq!(check_steps(&[0]), turned_back(22, 0));
    assert_eq!(check_steps(&[2]), turned_back(23, 1));
    assert_eq!(check_steps(&[]), turned_back(23, 0));
    assert_eq!(check_steps(&[2, 6, 0]), turned_back(22, 2));
}

#[test]
fn the_second_file_is_named() {
    let outcome = check_steps(&[1, 7]).outcome;
    assert_eq!(
        outcome,
        Outcome {
            number: 5,
            file: 1,
            place: 6
        }
    );
    // The first file comes first, whole.
    assert_eq!(check_plan(&[], &plan_file(&[7])).outcome, refused(1, 0));
    let long = vec![0; 65_537];
    let task = write_task(&task_e());
    assert_eq!(
        check_plan(&task, &long).outcome,
        refused(4, 0).in_second_file()
    );
    assert_eq!(check_plan(&long, &long).outcome, refused(4, 0));
}

#[test]
fn task_e_is_planned() {
    let mut buffers = Prefilled::long();
    let planned = buffers.plan(&task_e(), 4, 7);
    assert_eq!(
        planned,
        Answer {
            action_marks: 7,
            fact_marks: 8,
            reduced: 80,
            origin: 44,
            table: 4,
            plan: 18,
            rounds: 2,
            cost: 2,
            steps: 1,
            ..Answer::default()
        }
    );
    assert_eq!(buffers.reduced[..80], REDUCED_E);
    assert_eq!(buffers.plan[..18], plan_file(&[1]));
    assert_eq!(buffers.plan[18], UNTOUCHED);
    let entry = Entry::new;
    let table = [entry(0, 0), entry(0, 0), entry(2, 1), entry(2, 1)];
    assert_eq!(buffers.table[..4], table);
    assert_eq!(buffers.table[4], UNTOUCHED_ENTRY);
}

#[test]
fn no_plan_without_actions_0_and_1() {
    let mut task = task_e();
    task.actions.drain(..2);
    let mut buffers = Prefilled::of([600, 2_100, 65_600, 6_000, 4_100, 0]);
    let planned = buffers.plan(&task, 4, 7);
    assert_eq!(planned, Answer::from(refused(24, 0)));
    // The table is filled: line alone is kept, with value 1 and the rest.
    let goal = Entry::new(0, 0);
    assert_eq!(buffers.table[..2], [goal, Entry::NONE]);
    assert_eq!(buffers.table[2], UNTOUCHED_ENTRY);
}

#[test]
fn goal_lamp_alone() {
    let task = Task {
        goal: vec![fact(LAMP, 1)],
        ..task_e()
    };
    let mut buffers = Prefilled::long();
    let marked = buffers.mark(&task, 3);
    assert_eq!(marked.rounds, 1);
    assert_eq!(buffers.action_marks[..7], [0; 7]);
    assert_eq!(buffers.fact_marks[..8], [0, 0, 0, 0, 2, 0, 0, 0]);

    let planned = buffers.plan(&task, 4, 7);
    assert_eq!(planned.outcome, Outcome::DONE);
    assert_eq!((planned.cost, planned.steps, planned.table), (0, 0, 1));
    assert_eq!(buffers.plan[..planned.plan], plan_file(&[]));
    let reduced = read_task(&buffers.reduced[..planned.reduced]).unwrap();
    assert!(reduced.variables.is_empty() && reduced.actions.is_empty() && reduced.goal.is_empty());
}

/// Two-valued variables that all start at 0 and all have to become 1.
fn switches(count: u16) -> Task {
    Task {
        variables: vec![Variable { size: 2, start: 0 }; count as usize],
        goal: (0..count).map(|variable| fact(variable, 1)).collect(),
        actions: (0..count)
            .map(|variable| action(1, &[], &[fact(variable, 1)]))
            .collect(),
        signer: 7,
    }
}

#[test]
fn twelve_variables_are_searched() {
    let mut buffers = Prefilled::long();
    let planned = buffers.plan(&switches(12), 4, 7);
    assert_eq!(planned.outcome, Outcome::DONE);
    assert_eq!((planned.cost, planned.steps), (12, 12));
    assert_eq!(planned.table, 4_096);
    let steps: Vec<u16> = (0..12).collect();
    assert_eq!(buffers.plan[..planned.plan], plan_file(&steps));
}

#[test]
fn thirteen_variables_are_too_many() {
    let mut buffers = Prefilled::long();
    let planned = buffers.plan(&switches(13), 4, 7);
    assert_eq!(planned, Answer::from(refused(25, 0)));
    assert_eq!(buffers.action_marks[..13], [1; 13]);
    assert_eq!(check_task(&buffers.reduced[..8]), refused(1, 8));
    assert!(buffers.table_untouched() && buffers.plan_untouched());
    // 25 stands before the table's 21.
    buffers.0.table.clear();
    assert_eq!(buffers.plan(&switches(13), 4, 7).outcome, refused(25, 0));
}

#[test]
fn buffers_exactly_long_enough() {
    let mut buffers = Prefilled::of([7, 8, 80, 44, 4, 18]);
    assert_eq!(buffers.plan(&task_e(), 4, 7).outcome, Outcome::DONE);
    let mut buffers = Prefilled::of([7, 8, 80, 44, 0, 0]);
    assert_eq!(buffers.reduce(&task_e(), 4, 7).outcome, Outcome::DONE);
    let mut buffers = Prefilled::of([7, 8, 0, 0, 0, 0]);
    assert_eq!(buffers.mark(&task_e(), 4).outcome, Outcome::DONE);
}

#[test]
fn buffers_too_short_end_the_row() {
    let needed = [7, 8, 80, 44, 4, 18];
    for short in 0..6 {
        let mut lengths = needed;
        lengths[short] -= 1;
        let mut buffers = Prefilled::of(lengths);
        let planned = buffers.plan(&task_e(), 4, 7);
        assert_eq!(planned, Answer::from(refused(21, needed[short])));
        assert_eq!(buffers.marks_untouched(), short < 2);
        assert_eq!(buffers.files_untouched(), short < 4);
        assert_eq!(buffers.table_untouched(), short < 5);
        assert!(buffers.plan_untouched());
    }
}

#[test]
fn reduction_alone_is_a_row_too() {
    let mut buffers = Prefilled::of([7, 8, 80, 43, 0, 0]);
    let reduced = buffers.reduce(&task_e(), 4, 7);
    assert_eq!(reduced, Answer::from(refused(21, 44)));
    assert!(!buffers.marks_untouched() && buffers.files_untouched());
}

#[test]
fn signer_0_given() {
    let mut buffers = Prefilled::of([0; 6]);
    assert_eq!(buffers.reduce(&task_e(), 4, 0).outcome, refused(7, 0));
    assert_eq!(buffers.plan(&task_e(), 4, 0).outcome, refused(7, 0));
}

#[test]
fn restoring_the_start_value_is_no_threat() {
    // Action 1 makes line=1 and puts lamp back to its start value.
    let mut task = task_e();
    task.actions[1].effects = vec![fact(LAMP, 1), fact(LINE, 1)];
    let mut buffers = Prefilled::long();
    buffers.mark(&task, 3);
    assert_eq!(buffers.fact_marks[4], 2);
    assert_eq!(buffers.action_marks[4], 0);
    // Set to the other value, it is one: action 4 is kept.
    task.actions[1].effects[0] = fact(LAMP, 0);
    buffers.mark(&task, 3);
    assert_eq!(buffers.fact_marks[4], 1);
    assert_eq!(buffers.action_marks[4], 1);
}

#[test]
fn unlike_effects_on_a_tracked_variable_cover_nothing() {
    // Action 1 also turns the lamp off, which is tracked from round 2 on.
    let mut task = task_e();
    task.actions[1].effects = vec![fact(LAMP, 0), fact(LINE, 1)];
    let mut buffers = Prefilled::long();
    buffers.mark(&task, 4);
    assert_eq!(buffers.action_marks[..7], [1, 1, 1, 0, 1, 0, 0]);
    let planned = buffers.plan(&task, 4, 7);
    assert_eq!((planned.cost, planned.steps), (3, 2));
    assert_eq!(buffers.plan[..planned.plan], plan_file(&[1, 4]));
}

/// Task E with other costs of actions 0 and 1.
fn with_costs(costs: [u32; 2]) -> Task {
    let mut task = task_e();
    task.actions[0].cost = costs[0];
    task.actions[1].cost = costs[1];
    task
}

#[test]
fn covered_at_the_same_cost_or_less() {
    let covered = ([1, 1, 0, 0, 0, 0, 0], [0, 0, 0, 0, 2, 0, 1, 0], 2);
    let uncovered = ([1, 1, 1, 0, 0, 0, 0], [0, 1, 0, 0, 2, 0, 1, 0], 3);
    let rows: [([u32; 2], _, &[u16], u64); 6] = [
        ([2, 2], covered, &[1], 2),
        ([2, 1], covered, &[1], 1),
        ([1_000_000, 0], covered, &[1], 0),
        ([3, 2], covered, &[1], 2),
        ([2, 3], uncovered, &[1], 3),
        ([2, 4], uncovered, &[2, 0], 3),
    ];
    for (costs, (actions, facts, rounds), steps, cost) in rows {
        let task = with_costs(costs);
        let mut buffers = Prefilled::long();
        assert_eq!(buffers.mark(&task, 4).rounds, rounds, "{costs:?}");
        assert_eq!(buffers.action_marks[..7], actions, "{costs:?}");
        assert_eq!(buffers.fact_marks[..8], facts, "{costs:?}");
        let planned = buffers.plan(&task, 4, 7);
        assert_eq!((planned.cost, planned.steps), (cost, steps.len()));
        assert_eq!(buffers.plan[..planned.plan], plan_file(steps));
    }
}

#[test]
fn equal_conditions_cover_nothing() {
    let mut task = with_costs([2, 1]);
    task.actions[0].conditions.clear();
    let mut buffers = Prefilled::long();
    let planned = buffers.plan(&task, 4, 7);
    assert_eq!((planned.rounds, planned.table), (2, 2));
    assert_eq!(buffers.action_marks[..7], [1, 1, 0, 0, 0, 0, 0]);
    assert_eq!(buffers.plan[..planned.plan], plan_file(&[1]));
}

#[test]
fn reduced_where_a_cheaper_action_covers() {
    let task = with_costs([2, 1]);
    let mut expected = REDUCED_E;
    expected[56] = 1;
    let mut buffers = Prefilled::of([7, 8, 80, 44, 0, 0]);
    assert_eq!(buffers.reduce(&task, 4, 7).outcome, Outcome::DONE);
    assert_eq!(buffers.reduced[..], expected);
    buffers.reduce(&task_e(), 4, 7);
    let origin_of_e = buffers.origin.clone();
    buffers.reduce(&task, 4, 7);
    assert_eq!(buffers.origin, origin_of_e);
    // At level 3 action 2 is kept as well.
    let marked = buffers.mark(&task, 3);
    assert_eq!(marked.rounds, 3);
    assert_eq!(buffers.action_marks[..], [1, 1, 1, 0, 0, 0, 0]);
}

#[test]
fn least_cost_before_fewest_steps() {
    let mut task = task_e();
    task.actions[1].cost = 4;
    let mut buffers = Prefilled::long();
    let planned = buffers.plan(&task, 4, 7);
    assert_eq!((planned.cost, planned.steps), (3, 2));
    assert_eq!(buffers.plan[..planned.plan], plan_file(&[2, 0]));
    // At the same cost, fewer steps.
    task.actions[1].cost = 3;
    let planned = buffers.plan(&task, 4, 7);
    assert_eq!((planned.cost, planned.steps), (3, 1));
    assert_eq!(buffers.plan[..planned.plan], plan_file(&[1]));
}

#[test]
fn states_in_mixed_radix() {
    assert_eq!(state_numbered(&task_e(), 1), [1, 0, 0]);
    assert_eq!(state_numbered(&task_e(), 3), [0, 1, 0]);
    assert_eq!(state_numbered(&task_e(), 17), [2, 1, 2]);
}

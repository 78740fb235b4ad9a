//! Level 5 of the reference: the cases known by hand.

use shortest::lent::Answer;
use shortest::{Entry, Outcome};
use shortest_check::buffers::Buffers;
use shortest_check::reference::files::{read_task, Task};
use shortest_check::reference::generate::{ladder, renumbered, task_file};
use shortest_check::reference::marking::marking;
use shortest_check::reference::turns::{reached, turn};
use shortest_check::reference::{mark, plan, reduce};
use shortest_check::turning::{self, long_ladder, thirteen, wide_ladder, TASK_E};

const REDUCED_E: [u8; 52] = [
    0x04, 0x00, 0x01, 0x00, 0x01, 0x00, 0x01, 0x00, // header
    0x04, 0x00, 0x02, 0x00, 0x02, 0x00, 0x01, 0x00, // line
    0x04, 0x00, 0x03, 0x00, 0x00, 0x00, 0x00, 0x00, // goal
    0x0C, 0x00, 0x04, 0x00, 0x02, 0x00, 0x00, 0x00, // action 1
    0x00, 0x00, 0x01, 0x00, 0x00, 0x00, 0x00, 0x00, //
    0x08, 0x00, 0x05, 0x00, 0x07, 0x00, 0x00, 0x00, // sign-off
    0x28, 0x00, 0x00, 0x00,
];
const ORIGIN_E: [u8; 30] = [
    0x08, 0x00, 0x06, 0x00, 0x02, 0x00, 0x01, 0x00, // line
    0x00, 0x00, 0x01, 0x00, //
    0x02, 0x00, 0x07, 0x00, 0x01, 0x00, // actions
    0x08, 0x00, 0x05, 0x00, 0x07, 0x00, 0x00, 0x00, // sign-off
    0x12, 0x00, 0x00, 0x00,
];
const REDUCED_N: [u8; 56] = [
    0x04, 0x00, 0x01, 0x00, 0x01, 0x00, 0x01, 0x00, // header
    0x04, 0x00, 0x02, 0x00, 0x03, 0x00, 0x00, 0x00, // variable
    0x04, 0x00, 0x03, 0x00, 0x00, 0x00, 0x01, 0x00, // goal
    0x10, 0x00, 0x04, 0x00, 0x01, 0x00, 0x00, 0x00, // action 0
    0x01, 0x00, 0x01, 0x00, 0x00, 0x00, 0x00, 0x00, //
    0x00, 0x00, 0x01, 0x00, //
    0x08, 0x00, 0x05, 0x00, 0x07, 0x00, 0x00, 0x00, // sign-off
    0x2C, 0x00, 0x00, 0x00,
];
const ORIGIN_N: [u8; 30] = [
    0x08, 0x00, 0x06, 0x00, 0x00, 0x00, 0x02, 0x00, // variable
    0x00, 0x00, 0x01, 0x00, //
    0x02, 0x00, 0x07, 0x00, 0x00, 0x00, // actions
    0x08, 0x00, 0x05, 0x00, 0x07, 0x00, 0x00, 0x00, // sign-off
    0x12, 0x00, 0x00, 0x00,
];

fn refused(number: u32, place: usize) -> Outcome {
    Outcome::refused(number, place)
}

#[test]
fn each_case() {
    for case in turning::all() {
        case.check(reduce, plan);
    }
}

#[test]
fn task_e() {
    let lent = &mut Buffers::long();
    let planned = lent.plan(plan, TASK_E, 5, 7);
    let expected = Answer {
        rounds: 2,
        turns: 3,
        cost: 2,
        steps: 1,
        action_marks: 7,
        fact_marks: 8,
        reduced: 52,
        origin: 30,
        table: 2,
        plan: 18,
        ..Answer::default()
    };
    assert_eq!(planned, expected);
    assert_eq!(lent.action_marks[..7], [1, 1, 0, 0, 0, 0, 0]);
    assert_eq!(lent.fact_marks[..8], [0, 0, 0, 0, 2, 0, 1, 0]);
    assert_eq!(lent.reduced[..52], REDUCED_E);
    assert_eq!(lent.origin[..30], ORIGIN_E);
    assert_eq!(lent.table[..2], [Entry::new(0, 0), Entry::new(2, 1)]);
    assert_eq!(lent.plan[..6], [2, 0, 8, 0, 1, 0]);
}

#[test]
fn task_n() {
    let file = task_file(&renumbered());
    assert_eq!(file.len(), 76);
    let lent = &mut Buffers::long();
    let at_4 = lent.reduce(reduce, &file, 4, 7);
    assert_eq!((at_4.turns, at_4.reduced), (0, 76));
    assert_eq!(lent.reduced[..76], file);
    let at_5 = lent.reduce(reduce, &file, 5, 7);
    assert_eq!((at_5.turns, at_5.reduced, at_5.origin), (3, 56, 30));
    assert_eq!(lent.reduced[..56], REDUCED_N);
    assert_eq!(lent.origin[..30], ORIGIN_N);
}

fn next(task: &Task) -> (Task, Vec<u16>) {
    let (after, origin) = turn(task, &marking(task, 4).kept);
    (after, origin.actions)
}

#[test]
fn the_turns_of_task_e() {
    let task = read_task(TASK_E).unwrap();
    let (first, actions) = next(&task);
    assert_eq!((first.variables.len(), &actions[..]), (2, &[1][..]));
    let (second, actions) = next(&first);
    assert_eq!((second.variables.len(), &actions[..]), (1, &[0][..]));
    assert_eq!(next(&second).0, second);
}

#[test]
fn the_turns_of_task_n() {
    let (first, actions) = next(&renumbered());
    assert_eq!(actions, [0]);
    assert_eq!(first.variables, renumbered().variables);
    let (second, actions) = next(&first);
    assert_eq!(actions, [0]);
    assert_ne!(second, first);
    assert_eq!(next(&second).0, second);
}

/// An action listed before the one that sets its condition, and one behind an
/// action that is not reached itself.
#[test]
fn reached_in_any_order() {
    let mut task = ladder(1, 1);
    let [first, second] = [task.actions[3].clone(), task.actions[4].clone()];
    assert_eq!(reached(&task), [true; 5]);
    task.actions = vec![first.clone(), second.clone()];
    assert_eq!(reached(&task), [false, true]);
    task.actions[1].conditions = vec![first.conditions[0]];
    assert_eq!(reached(&task), [false, false]);
    task.variables[1].start = first.conditions[0].value;
    assert_eq!(reached(&task), [true, true]);
}

#[test]
fn thirteen_variables_at_either_level() {
    let file = task_file(&thirteen());
    let lent = &mut Buffers::long();
    let at_4 = lent.plan(plan, &file, 4, 7);
    assert_eq!(at_4, Answer::from(refused(25, 0)));
    let at_5 = lent.plan(plan, &file, 5, 7);
    assert_eq!((at_5.outcome, at_5.table), (Outcome::DONE, 2));
}

#[test]
fn ladders() {
    for steps in 1..=30 {
        let file = task_file(&ladder(steps, steps));
        let reduced = Buffers::long().reduce(reduce, &file, 5, 7);
        let rounds = if steps == 1 { 2 } else { 3 };
        assert_eq!(reduced.rounds, rounds, "{steps}");
    }
    let size = |task: &Task| {
        let facts: usize = task.variables.iter().map(|v| v.size as usize).sum();
        [task.variables.len(), task.actions.len(), facts]
    };
    assert_eq!(size(&long_ladder()), [19, 511, 569]);
    assert_eq!(task_file(&long_ladder()).len(), 19_428);
    assert_eq!(size(&wide_ladder()), [61, 512, 572]);
}

const NEEDED: [usize; 6] = [7, 8, 52, 30, 2, 18];

/// Buffers of these lengths, without a byte that a result has.
fn filled(lengths: [usize; 6]) -> Buffers {
    let bytes = |place: usize| vec![0xAA; lengths[place]];
    Buffers {
        action_marks: bytes(0),
        fact_marks: bytes(1),
        reduced: bytes(2),
        origin: bytes(3),
        table: vec![Entry::new(0xAAAA, 0xAA); lengths[4]],
        plan: bytes(5),
    }
}

/// Whether the marks, the files, the table and the plan have been written.
fn written(lent: &Buffers) -> [bool; 4] {
    let touched = |bytes: &[u8]| bytes.iter().any(|&byte| byte != 0xAA);
    [
        touched(&lent.action_marks) && touched(&lent.fact_marks),
        touched(&lent.reduced) && touched(&lent.origin),
        lent.table.iter().any(|entry| entry.minutes != 0xAAAA),
        touched(&lent.plan),
    ]
}

#[test]
fn buffers_of_task_e() {
    let lent = &mut filled(NEEDED);
    assert_eq!(lent.plan(plan, TASK_E, 5, 7).outcome, Outcome::DONE);
    assert_eq!(written(lent), [true; 4]);
    for short in 0..6 {
        let mut lengths = NEEDED;
        lengths[short] -= 1;
        let lent = &mut filled(lengths);
        let planned = lent.plan(plan, TASK_E, 5, 7);
        assert_eq!(planned, Answer::from(refused(21, NEEDED[short])));
        assert_eq!(written(lent), [short > 1, short > 3, short > 4, false]);
    }
}

#[test]
fn levels_taken() {
    let lent = &mut filled([0; 6]);
    for level in [0, 1, 2, 3, 6, u32::MAX] {
        for signer in [0, 7] {
            let planned = lent.plan(plan, TASK_E, level, signer);
            assert_eq!(planned, Answer::from(refused(8, 0)));
        }
        let planned = lent.plan(plan, &TASK_E[..100], level, 0);
        assert_eq!(planned.outcome, refused(1, 96));
    }
    for level in [4, 5] {
        assert_eq!(lent.plan(plan, TASK_E, level, 0).outcome, refused(7, 0));
        assert_eq!(lent.plan(plan, TASK_E, level, 7).outcome, refused(21, 7));
    }
    assert_eq!(lent.reduce(reduce, TASK_E, 5, 0).outcome, refused(7, 0));
    assert_eq!(lent.reduce(reduce, TASK_E, 6, 0).outcome, refused(8, 0));
    assert_eq!(lent.mark(mark, TASK_E, 5).outcome, refused(8, 0));
}

//! Each refusal from the input at its place, and their order.

use shortest::Outcome;
use shortest_check::reference::files::{
    write_origin, write_plan, write_task, Action, Fact, Origin, Plan, Task, Variable,
    VariableOrigin,
};
use shortest_check::reference::{check_origin, check_plan, check_task};

fn fact(variable: u16, value: u16) -> Fact {
    Fact { variable, value }
}

/// Offsets of the task file below.
const VARIABLE_0: usize = 8;
const VARIABLE_1: usize = 16;
const GOAL: usize = 24;
const ACTION: usize = 36;
const CONDITIONS: usize = ACTION + 12;
const EFFECTS: usize = CONDITIONS + 8;
const SIGN_OFF: usize = 64;
const END: usize = 76;

fn file() -> Vec<u8> {
    let file = write_task(&Task {
        variables: vec![
            Variable { size: 2, start: 0 },
            Variable {
                size: 32,
                start: 31,
            },
        ],
        goal: vec![fact(0, 1), fact(1, 0)],
        actions: vec![Action {
            cost: 1_000_000,
            conditions: vec![fact(0, 0), fact(1, 31)],
            effects: vec![fact(0, 1), fact(1, 0)],
        }],
        signer: 7,
    });
    assert_eq!(file.len(), END);
    assert_eq!(check_task(&file), Outcome::DONE);
    file
}

/// The file with other numbers at some offsets, 2 bytes each.
fn with(mut file: Vec<u8>, fields: &[(usize, u16)]) -> Vec<u8> {
    for &(at, number) in fields {
        file[at..at + 2].copy_from_slice(&number.to_le_bytes());
    }
    file
}

fn refused(number: u32, place: usize) -> Outcome {
    Outcome::refused(number, place)
}

fn task_refused(fields: &[(usize, u16)], number: u32, place: usize) {
    assert_eq!(check_task(&with(file(), fields)), refused(number, place));
}

#[test]
fn records_cut() {
    for (record, next) in [
        (0, VARIABLE_0),
        (VARIABLE_0, VARIABLE_1),
        (VARIABLE_1, GOAL),
        (GOAL, ACTION),
        (ACTION, SIGN_OFF),
        (SIGN_OFF, END),
    ] {
        for end in record..next {
            assert_eq!(check_task(&file()[..end]), refused(1, record));
        }
    }
    task_refused(&[(SIGN_OFF, 9)], 1, SIGN_OFF);
    task_refused(&[(0, 65_535)], 1, 0);
}

#[test]
fn kinds_and_lengths() {
    for record in [0, VARIABLE_0, VARIABLE_1, GOAL, ACTION, SIGN_OFF] {
        task_refused(&[(record + 2, 9)], 2, record);
        task_refused(&[(record + 2, 0)], 2, record);
    }
    for record in [0, VARIABLE_0, VARIABLE_1, SIGN_OFF] {
        task_refused(&[(record, 5)], 3, record);
        task_refused(&[(record, 3)], 3, record);
        task_refused(&[(record, 0)], 3, record);
    }
    task_refused(&[(GOAL, 7)], 3, GOAL);
    task_refused(&[(ACTION, 7)], 3, ACTION);
    task_refused(&[(ACTION, 23)], 3, ACTION);
    // 1 before 2, 2 before 3.
    task_refused(&[(0, 65_535), (2, 9)], 1, 0);
    task_refused(&[(0, 3), (2, 9)], 2, 0);
    // The length before the fields.
    task_refused(&[(VARIABLE_0, 5), (VARIABLE_0 + 4, 0)], 3, VARIABLE_0);
}

#[test]
fn limits() {
    task_refused(&[(4, 65), (6, 513)], 4, 4);
    task_refused(&[(6, 513)], 4, 6);
    task_refused(&[(VARIABLE_0 + 4, 0)], 4, VARIABLE_0 + 4);
    task_refused(&[(VARIABLE_0 + 4, 33)], 4, VARIABLE_0 + 4);
    task_refused(&[(VARIABLE_0 + 6, 2)], 5, VARIABLE_0 + 6);
    // Cost 1,000,001 is 0x000F4241.
    task_refused(&[(ACTION + 4, 0x4241)], 4, ACTION + 4);
    task_refused(&[(ACTION + 8, 65), (ACTION + 10, 65)], 4, ACTION + 8);
    task_refused(&[(ACTION + 10, 65)], 4, ACTION + 10);
    // Counts within their limit that do not give the length.
    task_refused(&[(ACTION + 8, 64)], 3, ACTION);
    task_refused(&[(ACTION + 8, 1), (CONDITIONS, 9)], 3, ACTION);
}

#[test]
fn pairs() {
    for list in [GOAL + 4, CONDITIONS, EFFECTS] {
        task_refused(&[(list, 2)], 5, list);
        task_refused(&[(list + 2, 2)], 5, list + 2);
        task_refused(&[(list, 1), (list + 2, 0)], 6, list + 4);
        task_refused(&[(list + 4, 0), (list + 6, 9)], 6, list + 4);
        task_refused(&[(list + 4, 2), (list + 6, 99)], 5, list + 4);
        task_refused(&[(list + 6, 32)], 5, list + 6);
    }
    // Effects rise anew: their first variable may be below the conditions'.
    assert_eq!(check_task(&file()), Outcome::DONE);
}

#[test]
fn sign_off() {
    task_refused(&[(SIGN_OFF + 4, 0)], 7, SIGN_OFF + 4);
    task_refused(&[(SIGN_OFF + 8, SIGN_OFF as u16 + 1)], 7, SIGN_OFF + 8);
    task_refused(&[(SIGN_OFF + 10, 1)], 7, SIGN_OFF + 8);
    let longer = [&file()[..], &[0]].concat();
    assert_eq!(check_task(&longer), refused(2, END));
    // 7 before 2.
    let longer = with(longer, &[(SIGN_OFF + 8, 0)]);
    assert_eq!(check_task(&longer), refused(7, SIGN_OFF + 8));
    let signed_high = with(file(), &[(SIGN_OFF + 4, 0), (SIGN_OFF + 6, 1)]);
    assert_eq!(check_task(&signed_high), Outcome::DONE);
}

#[test]
fn files_over_the_limit() {
    assert_eq!(check_task(&vec![0; 65_537]), refused(4, 0));
    assert_eq!(check_task(&vec![0; 65_536]), refused(2, 0));
    assert_eq!(check_origin(&vec![0; 65_537]), refused(4, 0));
}

fn task_with_goal(goal: Vec<Fact>) -> Task {
    Task {
        variables: vec![Variable { size: 1, start: 0 }; 64],
        goal,
        actions: vec![],
        signer: 1,
    }
}

#[test]
fn goal_of_64_pairs_and_more() {
    let goal = 8 + 64 * 8;
    let pairs = |count| (0..count).map(|variable| fact(variable, 0)).collect();
    let full = write_task(&task_with_goal(pairs(64)));
    assert_eq!(check_task(&full), Outcome::DONE);
    let over = write_task(&task_with_goal(pairs(65)));
    assert_eq!(check_task(&over), refused(4, goal));
    // Broken and too long is 3.
    let broken = with(over.clone(), &[(goal, 65 * 4 + 1)]);
    assert_eq!(check_task(&broken), refused(3, goal));
}

fn origin() -> Origin {
    let variable = |variable, count| VariableOrigin {
        variable,
        new_values: vec![31; count],
    };
    Origin {
        variables: vec![variable(0, 1), variable(63, 32)],
        actions: vec![0, 511],
        signer: 7,
    }
}

fn origin_refused(fields: &[(usize, u16)], number: u32, place: usize) {
    let file = write_origin(&origin());
    assert_eq!(check_origin(&with(file, fields)), refused(number, place));
}

#[test]
fn origins() {
    let (second, actions, sign_off) = (8, 78, 86);
    let file = write_origin(&origin());
    assert_eq!(file.len(), sign_off + 12);
    assert_eq!(check_origin(&file), Outcome::DONE);

    origin_refused(&[(2, 5)], 2, 0);
    origin_refused(&[(2, 1)], 2, 0);
    origin_refused(&[(0, 0)], 3, 0);
    origin_refused(&[(0, 2)], 3, 0);
    origin_refused(&[(0, 3)], 3, 0);
    origin_refused(&[(0, 5)], 3, 0);
    origin_refused(&[(0, 68)], 4, 0);
    origin_refused(&[(4, 64)], 5, 4);
    origin_refused(&[(6, 32)], 5, 6);
    origin_refused(&[(second + 4, 0)], 6, second + 4);
    origin_refused(&[(second + 4, 64)], 5, second + 4);
    origin_refused(&[(second + 4 + 2 * 32, 32)], 5, second + 4 + 2 * 32);
    origin_refused(&[(actions + 2, 8)], 2, actions);
    origin_refused(&[(actions, 3)], 3, actions);
    origin_refused(&[(actions + 4, 512)], 5, actions + 4);
    origin_refused(&[(actions + 4, 511)], 6, actions + 6);
    origin_refused(&[(actions + 6, 512)], 5, actions + 6);
    // Behind the one kind 7 only a sign-off is due.
    origin_refused(&[(sign_off + 2, 7)], 2, sign_off);
    origin_refused(&[(sign_off + 2, 6)], 2, sign_off);
    origin_refused(&[(sign_off + 4, 0)], 7, sign_off + 4);
    for end in second..actions {
        assert_eq!(check_origin(&file[..end]), refused(1, second));
    }

    let empty = write_origin(&Origin {
        variables: vec![],
        actions: vec![],
        signer: 7,
    });
    assert_eq!(check_origin(&empty), Outcome::DONE);
    let many = write_origin(&Origin {
        variables: vec![],
        actions: (0..513).collect(),
        signer: 7,
    });
    assert_eq!(check_origin(&many), refused(4, 0));
}

#[test]
fn plans() {
    let in_plan = |number, place| refused(number, place).in_second_file();
    let outcome = |plan: &[u8]| check_plan(&file(), plan).outcome;
    let plan = |steps: Vec<u16>| write_plan(&Plan { steps, signer: 7 });

    assert_eq!(outcome(&plan(vec![0])), Outcome::DONE);
    assert_eq!(outcome(&[]), in_plan(1, 0));
    assert_eq!(outcome(&file()), in_plan(2, 0));
    assert_eq!(outcome(&with(plan(vec![0]), &[(0, 1)])), in_plan(3, 0));
    assert_eq!(outcome(&plan(vec![0, 1])), in_plan(5, 6));
    assert_eq!(outcome(&plan(vec![0; 4_097])), in_plan(4, 0));
    // Step 1 is not applicable, as step 0 has changed both variables.
    assert_eq!(outcome(&plan(vec![0; 4_096])), refused(22, 1));
    let unsigned = with(plan(vec![0]), &[(10, 0)]);
    assert_eq!(outcome(&unsigned), in_plan(7, 10));
    let longer = [&plan(vec![0, 0])[..], &[0]].concat();
    assert_eq!(outcome(&longer), in_plan(2, 20));
}

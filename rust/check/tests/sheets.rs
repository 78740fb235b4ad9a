//! The worked examples of sheets, by both implementations.

use shortest::lent::{self as library, Answer};
use shortest::Outcome;
use shortest_check::buffers::Sheet;
use shortest_check::reference;
use shortest_check::reference::files::{
    read_task, write_plan, write_task, Action, Fact, Plan, Task, MOST_COST,
};

const TASK_E: &[u8] = include_bytes!("../../../crates/shortest/stdin");

const SHEETS: [Sheet; 2] = [reference::sheet, library::sheet];

const UNTOUCHED: u8 = 0xAA;

fn plan_file(steps: &[u16], signer: u32) -> Vec<u8> {
    write_plan(&Plan {
        steps: steps.to_vec(),
        signer,
    })
}

/// With a page of this length, all that either call hands back.
fn answers(task: &[u8], plan: &[u8], length: usize) -> [(Answer, Vec<u8>); 2] {
    SHEETS.map(|sheet| {
        let mut page = vec![UNTOUCHED; length];
        let answer = sheet(task, plan, &mut page);
        (answer, page)
    })
}

/// The page is written where it is long enough, and nothing behind it.
fn laid_out(task: &[u8], plan: &[u8], expected: &str, cost: u64, length: usize) {
    let needed = expected.len();
    let lines = expected.lines().count();
    assert_eq!(needed, 33 * lines);
    let mut page = vec![UNTOUCHED; length];
    let mut answer = Answer::from(Outcome::refused(21, needed));
    if needed <= length {
        page[..needed].copy_from_slice(expected.as_bytes());
        answer = Answer {
            cost,
            steps: lines - 1,
            page: needed,
            ..Answer::default()
        };
    }
    for found in answers(task, plan, length) {
        assert_eq!(found, (answer, page.clone()));
    }
}

fn refused(task: &[u8], plan: &[u8], outcome: Outcome) {
    for length in [0, 1_000] {
        for found in answers(task, plan, length) {
            assert_eq!(found, (Answer::from(outcome), vec![UNTOUCHED; length]));
        }
    }
}

#[test]
fn task_e() {
    let lines = [
        "   1      2        1           1\n",
        "   2      0        2           3\n",
        "SIGNED                         7\n",
    ];
    for length in 0..=100 {
        laid_out(TASK_E, &plan_file(&[2, 0], 7), &lines.concat(), 3, length);
    }
}

#[test]
fn the_signer_of_the_plan() {
    let lines = [
        "   1      1        2           2\n",
        "SIGNED                      1048\n",
    ];
    laid_out(TASK_E, &plan_file(&[1], 1_048), &lines.concat(), 2, 66);
}

#[test]
fn the_empty_plan() {
    let (variable, value) = (1, 1);
    let lamp_alone = write_task(&Task {
        goal: vec![Fact { variable, value }],
        ..read_task(TASK_E).unwrap()
    });
    let line = "SIGNED                         7\n";
    for length in 0..=34 {
        laid_out(&lamp_alone, &plan_file(&[], 7), line, 0, length);
    }
}

#[test]
fn the_longest_page() {
    let task = write_task(&Task {
        variables: vec![],
        goal: vec![],
        actions: vec![Action {
            cost: 1_000_000,
            ..Action::default()
        }],
        signer: 1,
    });
    let plan = plan_file(&[0; 4_096], u32::MAX);
    let mut lines = String::new();
    for step in 1..=4_096 {
        lines += &format!("{step:>4}      0  1000000{:>12}\n", 1_000_000 * step as u64);
    }
    lines += "SIGNED                4294967295\n";
    assert_eq!(lines.len(), library::MOST_PAGE);
    let last = "4096      0  1000000  4096000000\nSIGNED                4294967295\n";
    assert!(lines.ends_with(last));
    for length in [0, 135_200, 135_201, 135_202] {
        laid_out(&task, &plan, &lines, 4_096_000_000, length);
    }
}

/// Numbers with none, some and all of their groups 0.
const NUMBERS: [u32; 20] = [
    0,
    9,
    10,
    99,
    100,
    999,
    1_000,
    1_001,
    1_010,
    1_100,
    9_999,
    10_000,
    99_999,
    100_000,
    999_999,
    1_000_000,
    1_002_003,
    100_000_000,
    1_002_003_004,
    u32::MAX,
];

/// As minutes, as signers, and beside them every action number and total.
#[test]
fn numbers_of_every_length() {
    let minutes: Vec<u32> = NUMBERS.into_iter().filter(|n| *n <= MOST_COST).collect();
    let steps: Vec<u16> = (0..512).collect();
    let cost_of = |step: u16| minutes[step as usize % minutes.len()];
    let actions = steps.iter().map(|step| Action {
        cost: cost_of(*step),
        ..Action::default()
    });
    let task = write_task(&Task {
        variables: vec![],
        goal: vec![],
        actions: actions.collect(),
        signer: 1,
    });
    let mut lines = String::new();
    let mut total = 0;
    for step in &steps {
        total += cost_of(*step) as u64;
        lines += &format!("{:>4}{step:>7}{:>9}{total:>12}\n", step + 1, cost_of(*step));
    }
    for signer in NUMBERS.into_iter().filter(|n| *n > 0) {
        let page = format!("{lines}SIGNED{signer:>26}\n");
        laid_out(&task, &plan_file(&steps, signer), &page, total, page.len());
    }
}

#[test]
fn refusals_of_the_check_come_first() {
    let plan = plan_file(&[2, 0], 7);
    refused(&TASK_E[..6], &plan, Outcome::refused(1, 0));
    let second = Outcome::in_second_file;
    refused(TASK_E, &plan[..6], second(Outcome::refused(1, 0)));
    refused(
        TASK_E,
        &plan_file(&[2, 7], 7),
        second(Outcome::refused(5, 6)),
    );
    refused(
        TASK_E,
        &plan_file(&[2, 0], 0),
        second(Outcome::refused(7, 12)),
    );
    refused(
        TASK_E,
        &plan_file(&[2, 0, 6, 0], 7),
        Outcome::refused(22, 3),
    );
    refused(TASK_E, &plan_file(&[2], 7), Outcome::refused(23, 1));
}

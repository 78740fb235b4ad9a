//! The calls that own their results hand back what the reference gives.

use shortest::lent::Answer;
use shortest::{Checked, Marked, Outcome, Planned, Reduced, Sheet};
use shortest_check::buffers::Buffers;
use shortest_check::reference;
use shortest_check::reference::files::read_plan;
use shortest_check::reference::generate::{self, origin_file, plan_file, task_file, Random};

fn marked(lent: &Buffers, answer: &Answer) -> Marked {
    Marked {
        actions: lent.action_marks[..answer.action_marks].to_vec(),
        facts: lent.fact_marks[..answer.fact_marks].to_vec(),
        rounds: answer.rounds,
    }
}

fn reduced(lent: &Buffers, answer: &Answer) -> Reduced {
    Reduced {
        marked: marked(lent, answer),
        file: lent.reduced[..answer.reduced].to_vec(),
        origin: lent.origin[..answer.origin].to_vec(),
        turns: answer.turns,
    }
}

fn planned(lent: &Buffers, answer: &Answer) -> Planned {
    let file = lent.plan[..answer.plan].to_vec();
    let plan = read_plan(&file, 512).unwrap();
    assert_eq!(plan.steps.len(), answer.steps);
    Planned {
        reduced: reduced(lent, answer),
        table: lent.table[..answer.table].to_vec(),
        file,
        steps: plan.steps,
        cost: answer.cost,
    }
}

fn sheet(page: &[u8], answer: &Answer) -> Sheet {
    Sheet {
        page: String::from_utf8(page[..answer.page].to_vec()).unwrap(),
        cost: answer.cost,
        steps: answer.steps,
    }
}

/// All calls on a file, with every level and two signers.
fn compare(file: &[u8], plan: &[u8]) -> Outcome {
    let done = |outcome: Outcome| Answer::from(outcome).done().map(drop);
    assert_eq!(
        shortest::check_task(file),
        done(reference::check_task(file))
    );
    let expected = reference::check_plan(file, plan).done();
    let expected = expected.map(|Answer { cost, steps, .. }| Checked { cost, steps });
    assert_eq!(shortest::check_plan(file, plan), expected);
    let page = &mut vec![0; 135_220];
    let expected = reference::sheet(file, plan, page).done();
    let expected = expected.map(|answer| sheet(page, &answer));
    assert_eq!(shortest::sheet(file, plan), expected);

    let lent = &mut Buffers::long();
    for level in 0..=6 {
        let expected = lent.mark(reference::mark, file, level).done();
        let expected = expected.map(|answer| marked(lent, &answer));
        assert_eq!(shortest::mark(file, level), expected);
        for signer in [0, 0x0403_0201] {
            let expected = lent.reduce(reference::reduce, file, level, signer).done();
            let expected = expected.map(|answer| reduced(lent, &answer));
            assert_eq!(shortest::reduce(file, level, signer), expected);
        }
    }
    for level in 3..=6 {
        let answer = lent.plan(reference::plan, file, level, 0x0403_0201);
        let expected = answer.done().map(|answer| planned(lent, &answer));
        assert_eq!(shortest::plan(file, level, 0x0403_0201), expected);
        let refused = lent.plan(reference::plan, file, level, 0).outcome;
        assert_eq!(shortest::plan(file, level, 0), Err(refused));
    }
    lent.plan(reference::plan, file, 4, 1).outcome
}

#[test]
fn generated_tasks_whole_and_damaged() {
    let mut outcomes = std::collections::BTreeSet::new();
    for seed in 0..300 {
        let random = &mut Random::new(seed);
        let task = generate::any(random);
        let plan = plan_file(&generate::plan(random, &task));
        let file = task_file(&task);
        outcomes.insert(compare(&file, &plan).number);
        let damaged = generate::damaged(random, &file);
        outcomes.insert(compare(&damaged, &plan).number);
    }
    assert_eq!(outcomes, [0, 1, 2, 3, 4, 5, 6, 7, 24, 25].into());
}

#[test]
fn origins() {
    for seed in 0..300 {
        let random = &mut Random::new(seed);
        let whole = origin_file(&generate::origin(random));
        for file in [&whole, &generate::damaged(random, &whole)] {
            let outcome = reference::check_origin(file);
            let expected = Answer::from(outcome).done().map(drop);
            assert_eq!(shortest::check_origin(file), expected);
        }
        assert_eq!(shortest::check_origin(&whole), Ok(()));
    }
}

#[test]
fn the_longest_plan() {
    let file = task_file(&generate::counter_of(&[2; 12], 1));
    let planned = shortest::plan(&file, 4, 1).unwrap();
    assert_eq!((planned.steps.len(), planned.cost), (4_095, 4_095));
    assert!(compare(&file, &planned.file).is_done());
    let checked = shortest::check_plan(&file, &planned.file);
    let (cost, steps) = (4_095, 4_095);
    assert_eq!(checked, Ok(Checked { cost, steps }));
}

#[test]
fn texts_whole_and_damaged() {
    let mut outcomes = std::collections::BTreeSet::new();
    for seed in 0..300 {
        let random = &mut Random::new(seed);
        let any = generate::any(random);
        let (task, text) = generate::text(random, &any);
        assert_eq!(
            shortest::translate(&text, task.signer),
            Ok(task_file(&task))
        );
        for text in [&text, &generate::damaged_text(random, &text)] {
            for signer in [0, 0x0403_0201] {
                let file = &mut vec![0; 65_536];
                let answer = reference::translate(text, signer, file);
                let expected = answer.done().map(|answer| file[..answer.task].to_vec());
                assert_eq!(shortest::translate(text, signer), expected);
                outcomes.insert(answer.outcome.number);
            }
        }
    }
    assert_eq!(outcomes, [0, 4, 5, 7, 31, 32, 33].into());
}

/// A refusal says its number and place, and in which file.
#[test]
fn refusals_as_text() {
    let task = task_file(&generate::small(&mut Random::new(1)));
    let first = shortest::check_plan(&task[..6], &[]).unwrap_err();
    assert_eq!(first.to_string(), "refused 1 at 0");
    let second = shortest::check_plan(&task, &[]).unwrap_err();
    assert_eq!(second.to_string(), "refused 1 at 0 of the second file");
}

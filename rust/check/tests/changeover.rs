//! The program `changeover` on generated and on damaged files: what it prints,
//! and every file that it writes, as the reference has them.

use std::collections::BTreeSet;

use shortest::lent::{Answer, MOST_PAGE};
use shortest::Outcome;
use shortest_check::buffers::Buffers;
use shortest_check::program::Folder;
use shortest_check::reference;
use shortest_check::reference::files::{
    read_origin, read_plan, read_task, Fact, Origin, Plan, Task, MOST_ACTIONS,
};
use shortest_check::reference::generate::{self, origin_file, plan_file, task_file, Random};

/// 200 tasks: 24 of each family, but 4 of those with the largest files.
fn for_all(mut check: impl FnMut(&mut Random, &Task)) {
    for (place, family) in generate::FAMILIES.into_iter().enumerate() {
        let seeds = if place < 8 { 24 } else { 4 };
        for seed in 0..seeds {
            let random = &mut Random::new(seed);
            let task = family(random);
            check(random, &task);
        }
    }
}

fn new_folder(name: &str) -> Folder {
    Folder::new(env!("CARGO_TARGET_TMPDIR"), name)
}

/// What the reference reads in a file, by the kind of its first record.
enum Held {
    Task(Task),
    Origin(Origin),
    Plan(Plan),
}

fn read(file: &[u8]) -> Result<Held, Outcome> {
    match file.get(2..4) {
        Some([6 | 7, 0]) => read_origin(file).map(Held::Origin),
        Some([8, 0]) => read_plan(file, MOST_ACTIONS).map(Held::Plan),
        _ => read_task(file).map(Held::Task),
    }
}

/// The line of a file that `check` accepts.
fn counts(held: &Held) -> String {
    let (kind, variables, actions, signer) = match held {
        Held::Plan(plan) => {
            let steps = plan.steps.len();
            return format!("done plan steps {steps} signer {}\n", plan.signer);
        }
        Held::Task(task) => (
            "task",
            task.variables.len(),
            task.actions.len(),
            task.signer,
        ),
        Held::Origin(origin) => {
            let (variables, actions) = (origin.variables.len(), origin.actions.len());
            ("origin", variables, actions, origin.signer)
        }
    };
    format!("done {kind} variables {variables} actions {actions} signer {signer}\n")
}

/// The lines of a file that `show` accepts.
fn shown(held: &Held) -> String {
    let lines = match held {
        Held::Task(task) => task_shown(task),
        Held::Origin(origin) => origin_shown(origin),
        Held::Plan(plan) => plan_shown(plan),
    };
    lines + "done\n"
}

fn task_shown(task: &Task) -> String {
    let mut lines = format!("task signer {}\n", task.signer);
    for (number, variable) in task.variables.iter().enumerate() {
        let (size, start) = (variable.size, variable.start);
        lines += &format!("variable {number} size {size} start {start}\n");
    }
    lines += &format!("goal{}\n", pairs(&task.goal));
    for (number, action) in task.actions.iter().enumerate() {
        lines += &format!("action {number} cost {}", action.cost);
        lines += &unless_empty(" if", &pairs(&action.conditions));
        lines += &unless_empty(" set", &pairs(&action.effects));
        lines += "\n";
    }
    lines
}

fn origin_shown(origin: &Origin) -> String {
    let mut lines = format!("origin signer {}\n", origin.signer);
    for from in &origin.variables {
        let (variable, values) = (from.variable, numbers(&from.new_values));
        lines += &format!("variable {variable} values{values}\n");
    }
    if !origin.actions.is_empty() {
        lines += &format!("actions{}\n", numbers(&origin.actions));
    }
    lines
}

fn plan_shown(plan: &Plan) -> String {
    let mut lines = format!("plan signer {}\n", plan.signer);
    for step in &plan.steps {
        lines += &format!("step {step}\n");
    }
    lines
}

/// A list behind its word.
fn unless_empty(word: &str, list: &str) -> String {
    match list {
        "" => String::new(),
        _ => format!("{word}{list}"),
    }
}

fn pairs(facts: &[Fact]) -> String {
    let pair = |fact: &Fact| format!(" {}={}", fact.variable, fact.value);
    facts.iter().map(pair).collect()
}

fn numbers(numbers: &[u16]) -> String {
    numbers.iter().map(|number| format!(" {number}")).collect()
}

/// The last line of a refusal, where the second file has this name.
fn refused(outcome: Outcome, second: &str) -> String {
    let Outcome { number, place, .. } = outcome;
    match outcome.file {
        0 => format!("refused {number} at {place}\n"),
        _ => format!("refused {number} at {place} in {second}\n"),
    }
}

/// What `check` and `show` print of a file, and how they end.
fn answers(file: &[u8]) -> ([String; 2], Outcome) {
    match read(file) {
        Ok(held) => ([counts(&held), shown(&held)], Outcome::DONE),
        Err(outcome) => ([(); 2].map(|()| refused(outcome, "")), outcome),
    }
}

fn checked(folder: &Folder, name: &str) -> Outcome {
    let (answers, outcome) = answers(&folder.get(name));
    for (command, answer) in ["check", "show"].iter().zip(answers) {
        assert_eq!(folder.run(&[command, name]), answer);
    }
    outcome
}

/// All files of a folder in one run, by lines.
fn all_checked(folder: &Folder) {
    let (mut lines, mut said) = (String::new(), String::new());
    for name in folder.names() {
        let (answers, outcome) = answers(&folder.get(&name));
        assert!(outcome.is_done());
        lines += &format!("check {name}\nshow {name}\n");
        said += &answers.concat();
    }
    assert_eq!(folder.run_lines(lines.as_bytes()), said);
}

fn holds(folder: &Folder, name: &str, expected: &[u8]) {
    let found = folder.get(name);
    assert!(found == expected, "{name}: {found:?}, not {expected:?}");
}

/// The turns, which stand there at level 5 alone.
fn turns(answer: &Answer) -> String {
    match answer.turns {
        0 => String::new(),
        turns => format!(" turns {turns}"),
    }
}

#[test]
fn reduced_and_origin_files_at_every_level() {
    let folder = new_folder("reduced");
    let lent = &mut Buffers::long();
    for_all(|random, task| {
        let file = task_file(task);
        folder.put("task", &file);
        for level in 1..=5 {
            let signer = random.signer();
            let answer = lent.reduce(reference::reduce, &file, level, signer);
            let [reduced, origin] = ["reduced", "origin"].map(|name| format!("{name}{level}"));
            let [level, signer] = [level, signer].map(|number| number.to_string());
            let words = ["reduce", "task", &level, &signer, &reduced, &origin];
            let last = format!(
                "done rounds {}{} reduced {} origin {}\n",
                answer.rounds,
                turns(&answer),
                answer.reduced,
                answer.origin
            );
            assert_eq!(folder.run(&words), last);
            holds(&folder, &reduced, &lent.reduced[..answer.reduced]);
            holds(&folder, &origin, &lent.origin[..answer.origin]);
        }
        assert_eq!(folder.names().len(), 11);
        all_checked(&folder);
    });
}

/// The lines of the marks, fact by fact in the order of the variables.
fn marks(task: &Task, actions: &[u8], facts: &[u8]) -> String {
    let mut lines = String::new();
    for (number, _) in actions.iter().enumerate().filter(|(_, &mark)| mark == 1) {
        lines += &format!("kept {number}\n");
    }
    let of_variable = |(v, variable)| (0..variable).map(move |value| (v, value));
    let sizes = task.variables.iter().map(|variable| variable.size);
    let all = sizes.enumerate().flat_map(of_variable);
    for ((variable, value), mark) in all.zip(facts) {
        match mark {
            0 => {}
            1 => lines += &format!("relevant {variable}={value}\n"),
            _ => lines += &format!("relevant {variable}={value} linked\n"),
        }
    }
    lines
}

#[test]
fn marks_at_every_level() {
    let folder = new_folder("marks");
    let lent = &mut Buffers::long();
    let mut linked = 0;
    for_all(|_, task| {
        let file = task_file(task);
        folder.put("task", &file);
        for level in 1..=4 {
            let answer = lent.mark(reference::mark, &file, level);
            let actions = &lent.action_marks[..answer.action_marks];
            let facts = &lent.fact_marks[..answer.fact_marks];
            let lines = marks(task, actions, facts);
            linked += lines.matches("linked").count();
            let expected = format!("{lines}done rounds {}\n", answer.rounds);
            let level = level.to_string();
            assert_eq!(folder.run(&["mark", "task", &level]), expected);
        }
    });
    assert!(linked > 100);
    assert_eq!(folder.names(), ["task"]);
}

/// The plan, its check and its sheet.
fn planned(folder: &Folder, file: &[u8], plan: &[u8], total: &str) {
    assert_eq!(
        folder.run(&["check-plan", "task", "plan"]),
        format!("{total}\n")
    );
    assert!(checked(folder, "plan").is_done());
    let page = &mut vec![0; MOST_PAGE];
    let length = reference::sheet(file, plan, page).page;
    let last = format!("{total} page {length}\n");
    assert_eq!(folder.run(&["sheet", "task", "plan", "page"]), last);
    holds(folder, "page", &page[..length]);
}

#[test]
fn plans_and_their_sheets() {
    let folder = new_folder("plans");
    let lent = &mut Buffers::long();
    let mut outcomes = BTreeSet::new();
    for_all(|random, task| {
        let (file, signer) = (task_file(task), random.signer());
        folder.put("task", &file);
        let signed = signer.to_string();
        let words = ["plan", "task", &signed, "plan"];
        for (level, more) in [(4, &[][..]), (4, &["4"]), (5, &["5"])] {
            let answer = lent.plan(reference::plan, &file, level, signer);
            outcomes.insert((answer.outcome.number, answer.outcome.place));
            let run = || folder.run(&[&words, more].concat());
            if answer.outcome.is_done() {
                let total = format!("done cost {} steps {}", answer.cost, answer.steps);
                assert_eq!(run(), format!("{total}{}\n", turns(&answer)));
                holds(&folder, "plan", &lent.plan[..answer.plan]);
                planned(&folder, &file, &lent.plan[..answer.plan], &total);
            } else {
                let before = folder.held();
                assert_eq!(run(), refused(answer.outcome, ""));
                assert_eq!(folder.held(), before);
            }
        }
    });
    assert_eq!(outcomes, [(0, 0), (24, 0), (25, 0)].into());
    assert_eq!(folder.names(), ["page", "plan", "task"]);
}

#[test]
fn a_plan_refused_leaves_no_file() {
    let folder = new_folder("no_plan");
    let lent = &mut Buffers::long();
    let mut outcomes = BTreeSet::new();
    for_all(|_, task| {
        let file = task_file(task);
        let outcome = lent.plan(reference::plan, &file, 4, 1).outcome;
        if !outcome.is_done() && outcomes.insert(outcome.number) {
            folder.put("task", &file);
            let last = refused(outcome, "");
            assert_eq!(folder.run(&["plan", "task", "1", "plan"]), last);
            assert_eq!(folder.names(), ["task"]);
        }
    });
    assert_eq!(outcomes, [24, 25].into());
}

#[test]
fn texts_whole_and_damaged() {
    let folder = new_folder("texts");
    let mut outcomes = BTreeSet::new();
    for_all(|random, task| {
        let (stated, text) = generate::text(random, task);
        let damaged = generate::damaged_text(random, &text);
        let signer = stated.signer.to_string();
        let run = |text: &[u8]| {
            folder.put("text", text);
            folder.run(&["translate", "text", &signer, "task"])
        };
        let file = task_file(&stated);
        assert_eq!(run(&text), format!("done task {}\n", file.len()));
        holds(&folder, "task", &file);
        assert!(checked(&folder, "task").is_done());

        let other = &mut vec![0; 65_536];
        let answer = reference::translate(&damaged, stated.signer, other);
        outcomes.insert(answer.outcome.number);
        if answer.outcome.is_done() {
            assert_eq!(run(&damaged), format!("done task {}\n", answer.task));
            holds(&folder, "task", &other[..answer.task]);
        } else {
            assert_eq!(run(&damaged), refused(answer.outcome, ""));
            holds(&folder, "task", &file);
        }
    });
    assert_eq!(outcomes, [0, 4, 5, 31, 32, 33].into());
    assert_eq!(folder.names(), ["task", "text"]);
}

#[test]
fn files_whole_and_damaged() {
    let folder = new_folder("damaged");
    let mut outcomes = [(); 3].map(|()| BTreeSet::new());
    for seed in 0..120 {
        let random = &mut Random::new(seed);
        let task = generate::small(random);
        let plan = plan_file(&generate::plan(random, &task));
        let origin = origin_file(&generate::origin(random));
        for (file, outcomes) in [task_file(&task), origin, plan].iter().zip(&mut outcomes) {
            folder.put("file", file);
            assert!(checked(&folder, "file").is_done());
            folder.put("file", &generate::damaged(random, file));
            outcomes.insert(checked(&folder, "file").number);
        }
    }
    let [tasks, origins, plans] = outcomes;
    assert_eq!((&tasks, &origins), (&(0..=7).collect(), &(0..=7).collect()));
    assert_eq!(plans, [0, 1, 2, 3, 5, 7].into());
    assert_eq!(folder.names(), ["file"]);
}

/// A task and a plan, each whole or damaged: the place of a refusal is in
/// either.
#[test]
fn plans_of_tasks_whole_and_damaged() {
    let folder = new_folder("pairs");
    let mut outcomes = BTreeSet::new();
    for seed in 0..150 {
        let random = &mut Random::new(seed);
        let task = generate::small_with_plan(random);
        let plan = plan_file(&generate::plan(random, &task));
        let whole = task_file(&task);
        let tasks = [generate::damaged(random, &whole), whole];
        let plans = [generate::damaged(random, &plan), plan];
        for (task, plan) in tasks
            .iter()
            .flat_map(|task| plans.each_ref().map(|plan| (task, plan)))
        {
            folder.put("task", task);
            folder.put("plan", plan);
            let answer = reference::check_plan(task, plan);
            outcomes.insert((answer.outcome.number, answer.outcome.file));
            if answer.outcome.is_done() {
                let total = format!("done cost {} steps {}", answer.cost, answer.steps);
                planned(&folder, task, plan, &total);
                continue;
            }
            let last = refused(answer.outcome, "plan");
            assert_eq!(folder.run(&["check-plan", "task", "plan"]), last);
            assert_eq!(folder.run(&["sheet", "task", "plan", "no_page"]), last);
        }
    }
    let in_first = [0, 1, 2, 3, 4, 5, 7, 22, 23].map(|number| (number, 0));
    let in_second = [1, 2, 3, 5, 7].map(|number| (number, 1));
    assert_eq!(outcomes, in_first.into_iter().chain(in_second).collect());
    assert_eq!(folder.names(), ["page", "plan", "task"]);
}

//! Times of the library and of the reference on the same tasks, for search
//! also of the optimised one, and the library's ratio to either.

use std::hint::black_box;
use std::time::{Duration, Instant};

use shortest::lent::{self as library, Answer};
use shortest_check::buffers::{Buffers, Mark, Plan, Reduce, Sheet, Translate};
use shortest_check::optimised;
use shortest_check::reference;
use shortest_check::reference::files::{self, Action, Task};
use shortest_check::reference::generate::{self, plan_file, task_file, Random};
use shortest_check::reference::search::state_count;
use shortest_check::turning::{long_ladder, wide_ladder};

fn main() {
    println!("library, reference and optimised search in microseconds,");
    println!("library : reference, library : optimised search");
    let random = &mut Random::new(4);
    for (name, task) in tasks(random) {
        measure(name, &task_file(&task));
    }
    for (name, task) in hard_tasks(random) {
        measure(name, &task_file(&task));
    }
    measure_level_4("coverers lost", &task_file(&generate::coverers_lost()));
    measure_level_5("long ladder", &task_file(&long_ladder()));
    measure_level_5("wide ladder", &task_file(&wide_ladder()));
    measure_sheet();
    let random = &mut Random::new(4);
    let task = generate::crowded(random);
    measure_translation("512 actions", random, &task);
    let task = generate::largest(random);
    measure_translation("largest", random, &task);
}

fn tasks(random: &mut Random) -> [(&'static str, Task); 7] {
    [
        ("small", with_plan(random, generate::small_with_plan)),
        ("typical", with_plan(random, generate::few_kept)),
        ("largest", generate::largest(random)),
        (
            "largest, searched",
            with_plan(random, generate::largest_searched),
        ),
        ("4,096 states, 512 actions", generate::crowded(random)),
        ("plan of 4,095 steps", generate::counter_of(&[2; 12], 1)),
        (
            "plan of 4,095 steps, 512 actions",
            generate::crowded_counter(random),
        ),
    ]
}

/// All of 4,096 states and 512 actions.
fn hard_tasks(random: &mut Random) -> Vec<(&'static str, Task)> {
    let mut tasks = Vec::new();
    let bits = &[2; 12][..];
    for (name, sizes, facts, costs) in [
        ("1 condition, 1 effect", bits, [1, 1], 0..=99),
        ("3 conditions, 3 effects", bits, [3, 3], 0..=99),
        ("6 conditions, 6 effects", bits, [6, 6], 0..=99),
        ("8 x 8 x 8 x 8", &[8; 4], [2, 2], 0..=99),
        ("16 x 16 x 16", &[16; 3], [1, 1], 0..=99),
        ("all costs 0", bits, [3, 3], 0..=0),
        ("all costs equal", bits, [3, 3], 7..=7),
        ("costs up to 1,000,000", bits, [3, 3], 0..=files::MOST_COST),
    ] {
        let family =
            |random: &mut Random| generate::crowded_with(random, sizes, facts, costs.clone());
        tasks.push((name, with_plan(random, family)));
    }
    tasks.push(("no plan", generate::crowded_without_plan(random)));
    let counter = generate::counter_behind_dear_actions(random);
    tasks.push(("counter behind dear actions", counter));
    tasks
}

/// The first task of a family that has a plan of some steps.
fn with_plan(random: &mut Random, family: impl Fn(&mut Random) -> Task) -> Task {
    loop {
        let task = family(random);
        let planned = Buffers::long().plan(library::plan, &task_file(&task), 4, 1);
        if planned.steps > 1 {
            return task;
        }
    }
}

struct Calls {
    check: fn(&[u8]) -> Answer,
    check_plan: fn(&[u8], &[u8]) -> Answer,
    mark: Mark,
    reduce: Reduce,
    plan: Plan,
    sheet: Sheet,
    translate: Translate,
}

impl Calls {
    const LIBRARY: Calls = Calls {
        check: library::check_task,
        check_plan: library::check_plan,
        mark: library::mark,
        reduce: library::reduce,
        plan: library::plan,
        sheet: library::sheet,
        translate: library::translate,
    };
    const REFERENCE: Calls = Calls {
        check: |file| Answer::from(reference::check_task(file)),
        check_plan: reference::check_plan,
        mark: reference::mark,
        reduce: reference::reduce,
        plan: reference::plan,
        sheet: reference::sheet,
        translate: reference::translate,
    };
}

fn measure(name: &str, file: &[u8]) {
    let lent = &mut Buffers::long();
    let planned = lent.plan(library::plan, file, 4, 1);
    let turns = lent.reduce(library::reduce, file, 5, 1).turns;
    let reduction = lent.reduce(library::reduce, file, 4, 1);
    let reduced = files::read_task(&lent.reduced[..reduction.reduced]).unwrap();
    println!(
        "\n{name}: {} bytes, {} rounds, {turns} turns, {} actions kept, outcome {}, {} states, {} steps",
        file.len(),
        reduction.rounds,
        reduced.actions.len(),
        planned.outcome.number,
        state_count(&reduced).unwrap_or(0),
        planned.steps
    );
    let check = pair(|calls| {
        black_box((calls.check)(black_box(file)));
    });
    print("check", &check);
    for level in 1..=4 {
        measure_mark(file, level);
    }
    let reduce = measure_reduce(file, 4);
    measure_reduce(file, 5);
    let plan = pair(|calls| {
        black_box(lent.plan(calls.plan, black_box(file), 4, 1));
    });
    if state_count(&reduced).is_some() {
        let [library, reference] = [0, 1].map(|side| plan[side].saturating_sub(reduce[side]));
        let optimised = best(|| {
            black_box(optimised::search(black_box(&reduced)));
        });
        print("search", &[library, reference, optimised]);
    }
    print("whole row", &plan);
}

fn measure_mark(file: &[u8], level: u32) {
    let lent = &mut Buffers::long();
    let mark = pair(|calls| {
        black_box(lent.mark(calls.mark, black_box(file), level));
    });
    print(&format!("mark, level {level}"), &mark);
}

fn measure_reduce(file: &[u8], level: u32) -> [Duration; 2] {
    let lent = &mut Buffers::long();
    let reduce = pair(|calls| {
        black_box(lent.reduce(calls.reduce, black_box(file), level, 1));
    });
    print(&format!("reduce, level {level}"), &reduce);
    reduce
}

/// Reduction, and the whole row.
fn measure_level_5(name: &str, file: &[u8]) {
    let lent = &mut Buffers::long();
    let planned = lent.plan(library::plan, file, 5, 1);
    let reduced = lent.reduce(library::reduce, file, 5, 1);
    println!(
        "\n{name}: {} bytes, {} actions, {} turns, outcome {}, {} states, {} steps",
        file.len(),
        reduced.action_marks,
        reduced.turns,
        planned.outcome.number,
        planned.table,
        planned.steps
    );
    measure_reduce(file, 5);
    let plan = pair(|calls| {
        black_box(lent.plan(calls.plan, black_box(file), 5, 1));
    });
    print("whole row", &plan);
}

fn measure_level_4(name: &str, file: &[u8]) {
    let marked = Buffers::long().mark(library::mark, file, 4);
    println!(
        "\n{name}: {} bytes, {} actions, {} rounds",
        file.len(),
        marked.action_marks,
        marked.rounds
    );
    measure_mark(file, 4);
}

/// The longest page: one action of the highest cost, as often as a plan has
/// steps.
fn measure_sheet() {
    let task = task_file(&Task {
        variables: vec![],
        goal: vec![],
        actions: vec![Action {
            cost: files::MOST_COST,
            ..Action::default()
        }],
        signer: 1,
    });
    let plan = plan_file(&files::Plan {
        steps: vec![0; files::MOST_STEPS],
        signer: u32::MAX,
    });
    let page = &mut vec![0; library::MOST_PAGE];
    let laid_out = library::sheet(&task, &plan, page);
    println!(
        "\nsheet of {} steps: {} bytes",
        laid_out.steps, laid_out.page
    );
    let check = pair(|calls| {
        black_box((calls.check_plan)(black_box(&task), black_box(&plan)));
    });
    print("check plan", &check);
    let sheet = pair(|calls| {
        black_box((calls.sheet)(black_box(&task), black_box(&plan), page));
    });
    print("sheet", &sheet);
}

/// A text of the task, filled up to the most bytes by its first name.
fn measure_translation(name: &str, random: &mut Random, task: &Task) {
    let (task, text) = generate::text(random, task);
    let line = b"begin_variable\n";
    let mut lines = text.windows(line.len());
    let (before, behind) = text.split_at(line.len() + lines.position(|l| l == line).unwrap());
    let first_name = vec![b'x'; files::MOST_BYTES - text.len()];
    let text = [before, &first_name, behind].concat();
    let file = &mut vec![0; library::MOST_TASK];
    let translated = library::translate(&text, 1, file);
    println!(
        "\ntext of {name}: {} bytes, {} in the first name, {} operators, file of {} bytes",
        text.len(),
        first_name.len(),
        task.actions.len(),
        translated.task
    );
    let translate = pair(|calls| {
        black_box((calls.translate)(black_box(&text), 1, file));
    });
    print("translate", &translate);
}

/// How often a call is measured: not again once it has taken long.
const TIMES: usize = 20;
const LONG: Duration = Duration::from_millis(1_200);

/// The best time of either side.
fn pair(mut run: impl FnMut(&Calls)) -> [Duration; 2] {
    let mut best = [Duration::MAX; 2];
    repeat(|| {
        for (calls, best) in [Calls::LIBRARY, Calls::REFERENCE].iter().zip(&mut best) {
            *best = (*best).min(time(|| run(calls)));
        }
    });
    best
}

/// The best time of one side.
fn best(mut run: impl FnMut()) -> Duration {
    let mut best = Duration::MAX;
    repeat(|| best = best.min(time(&mut run)));
    best
}

fn repeat(mut measure: impl FnMut()) {
    let start = Instant::now();
    for _ in 0..TIMES {
        measure();
        if start.elapsed() > LONG {
            break;
        }
    }
}

/// The mean time of as many calls as take some milliseconds.
fn time(mut run: impl FnMut()) -> Duration {
    let start = Instant::now();
    let mut count = 0;
    while count == 0 || start.elapsed() < Duration::from_millis(3) {
        run();
        count += 1;
    }
    start.elapsed() / count
}

/// The times of the library and of others, and the ratios.
fn print(call: &str, times: &[Duration]) {
    let microseconds: Vec<f64> = times.iter().map(|time| time.as_secs_f64() * 1e6).collect();
    print!("{call:15}");
    for time in &microseconds {
        print!(" {time:10.1}");
    }
    for other in &microseconds[1..] {
        print!(" {:8.3}", microseconds[0] / other);
    }
    println!();
}

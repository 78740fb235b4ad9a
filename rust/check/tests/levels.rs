//! Every level on the same 2,400 tasks, the library against the reference:
//! marks, rounds and both files, each buffer whole.

use shortest_check::differential::{cases, Comparison, Lengths};
use shortest_check::reference::files::Task;
use shortest_check::reference::generate::{self, task_file, Random};
use shortest_check::reference::marking::{marking, Marking};
use shortest_check::reference::reduction::reduction;

const TASKS: u64 = 2_400;

/// No two of its bytes are alike.
const SIGNER: u32 = 0x0403_0201;

/// More than any of these tasks needs.
const LONG: Lengths = [48, 48, 2_048, 2_048, 0, 0];

fn tasks() -> impl Iterator<Item = Task> {
    (0..TASKS).map(|seed| generate::varied(&mut Random::new(seed)))
}

/// Asserts that nothing differed, and how often each call ended with each
/// number.
fn compared(comparison: &Comparison, outcomes: &[((&'static str, u32), u64)]) {
    assert_eq!(comparison.differences, 0);
    assert_eq!(comparison.outcomes, outcomes.iter().copied().collect());
}

#[test]
fn longer_buffers() {
    let mut comparison = Comparison::default();
    for task in tasks() {
        let file = task_file(&task);
        for level in 1..=4 {
            comparison.mark(&file, level, LONG);
        }
        for level in 1..=5 {
            comparison.reduce(&file, level, SIGNER, LONG);
        }
    }
    let all = [(("mark", 0), 4 * TASKS), (("reduce", 0), 5 * TASKS)];
    compared(&comparison, &all);
}

/// Every third task: all buffers as long as needed, then those for the reduced
/// file and for the origins one byte short, either of them and both.
#[test]
fn exact_and_short_buffers() {
    let mut comparison = Comparison::default();
    for task in tasks().step_by(3) {
        let file = task_file(&task);
        for level in 1..=5 {
            let needed = cases::needed(&task, level);
            for [reduced, origin] in [[0, 0], [1, 0], [1, 1], [0, 1]] {
                let mut lengths = needed;
                lengths[2] -= reduced;
                lengths[3] -= origin;
                comparison.reduce(&file, level, SIGNER, lengths);
            }
        }
    }
    let all = 5 * TASKS / 3;
    compared(
        &comparison,
        &[(("reduce", 0), all), (("reduce", 21), 3 * all)],
    );
}

/// Over all tasks at one level.
#[derive(Default)]
struct Totals {
    /// Tasks with other marks than at the level before.
    unlike: usize,
    /// Tasks of more than 5 rounds.
    long: usize,
    most_rounds: usize,
    kept_actions: usize,
    struck_actions: usize,
    relevant_facts: usize,
    linked_facts: usize,
    kept_variables: usize,
    dropped_variables: usize,
    /// By how many values the kept variables have become smaller.
    merged_values: usize,
}

impl Totals {
    fn add(&mut self, task: &Task, marking: &Marking) {
        self.long += usize::from(marking.rounds > 5);
        self.most_rounds = self.most_rounds.max(marking.rounds);
        let count = |marks: &[u8], least: u8| marks.iter().filter(|&&mark| mark >= least).count();
        let facts = marking.fact_marks();
        self.relevant_facts += count(&facts, 1);
        self.linked_facts += count(&facts, 2);
        let (reduced, origin) = reduction(task, &marking.kept, SIGNER);
        self.kept_actions += reduced.actions.len();
        self.struck_actions += task.actions.len() - reduced.actions.len();
        self.kept_variables += reduced.variables.len();
        self.dropped_variables += task.variables.len() - reduced.variables.len();
        for (variable, from) in reduced.variables.iter().zip(&origin.variables) {
            self.merged_values += from.new_values.len() - variable.size as usize;
        }
    }
}

fn marks(marking: &Marking) -> [Vec<u8>; 2] {
    [marking.action_marks(), marking.fact_marks()]
}

/// At levels 1 to 4.
fn totals() -> [Totals; 4] {
    let mut totals: [Totals; 4] = Default::default();
    for task in tasks() {
        let markings = [1, 2, 3, 4].map(|level| marking(&task, level));
        for (place, totals) in totals.iter_mut().enumerate() {
            totals.add(&task, &markings[place]);
            let unlike = place > 0 && marks(&markings[place - 1]) != marks(&markings[place]);
            totals.unlike += usize::from(unlike);
        }
    }
    totals
}

/// Had the tasks nothing to strike, to link or to cover, the comparisons above
/// would pass and say little.
#[test]
fn every_level_has_something_to_do() {
    let totals = totals();
    let at_least = |least: [usize; 4], total: fn(&Totals) -> usize| {
        let found = totals.each_ref().map(total);
        let enough = (0..4).all(|place| found[place] >= least[place]);
        assert!(enough, "{found:?}, not {least:?}");
    };
    // From level 2 to 3 the links are new, from 3 to 4 nothing but covering.
    at_least([0, 1_500, 1_000, 300], |of| of.unlike);
    at_least([50, 200, 100, 100], |of| of.long);
    at_least([7, 10, 10, 10], |of| of.most_rounds);
    at_least([10_000, 10_000, 8_000, 8_000], |of| of.kept_actions);
    at_least([2_500, 3_500, 7_500, 7_500], |of| of.struck_actions);
    at_least([15_000, 8_000, 7_000, 6_000], |of| of.relevant_facts);
    at_least([0, 0, 1_000, 1_000], |of| of.linked_facts);
    at_least([4_000, 4_000, 3_000, 3_000], |of| of.kept_variables);
    at_least([2_500, 2_500, 3_500, 3_500], |of| of.dropped_variables);
    at_least([2_500, 2_500, 2_500, 2_500], |of| of.merged_values);
}

/// Costs are compared whole: by their lowest one or two bytes, some tasks would
/// be marked in another way.
#[test]
fn some_costs_alike_in_their_lowest_bytes() {
    for lowest in [0xFF, 0xFFFF] {
        let unlike = tasks().filter(|task| {
            let mut cut = task.clone();
            for action in &mut cut.actions {
                action.cost &= lowest;
            }
            marks(&marking(&cut, 4)) != marks(&marking(task, 4))
        });
        assert!(unlike.count() >= 5);
    }
}

/// The buffers for their marks need no byte.
#[test]
fn some_tasks_without_variables_or_actions() {
    assert!(tasks().any(|task| task.variables.is_empty() && task.actions.len() > 5));
    assert!(tasks().any(|task| task.actions.is_empty() && !task.goal.is_empty()));
}

//! Tasks with what level 5 gives on them, and the check of it.

use shortest::lent::Answer;
use shortest::Outcome;

use crate::buffers::{Buffers, Plan, Reduce};
use crate::reference::files::{
    read_origin, read_plan, read_task, Action, Fact, Task, Variable, MOST_ACTIONS,
};
use crate::reference::generate::{ladder, renumbered, task_file};

pub const TASK_E: &[u8] = include_bytes!("../../../crates/shortest/stdin");

pub struct Case {
    pub name: String,
    pub task: Task,
    pub turns: usize,
    /// Bytes of the reduced and of the origin file.
    pub files: [usize; 2],
    /// The actions left, by their numbers in the task.
    pub actions: Vec<u16>,
    pub planned: Planned,
}

pub enum Planned {
    /// Entries of the table, steps and cost.
    Done(usize, Vec<u16>, u64),
    Refused(u32),
}

fn fact((variable, value): (u16, u16)) -> Fact {
    Fact { variable, value }
}

/// Conditions and effects.
type Facts<'a> = (&'a [(u16, u16)], &'a [(u16, u16)]);

/// Variables by size and start, every action at cost 1.
fn task(variables: &[(u16, u16)], goal: &[(u16, u16)], actions: &[Facts]) -> Task {
    let facts = |pairs: &[(u16, u16)]| -> Vec<Fact> { pairs.iter().copied().map(fact).collect() };
    let variables = variables.iter().copied();
    let action = |&(conditions, effects): &Facts| Action {
        cost: 1,
        conditions: facts(conditions),
        effects: facts(effects),
    };
    Task {
        variables: variables
            .map(|(size, start)| Variable { size, start })
            .collect(),
        goal: facts(goal),
        actions: actions.iter().map(action).collect(),
        signer: 7,
    }
}

/// Thirteen variables, of which twelve are named by actions that never start.
pub fn thirteen() -> Task {
    let mut task = task(&[(2, 0); 13], &[(0, 1)], &[(&[], &[(0, 1)])]);
    for variable in 1..13 {
        let mut action = task.actions[0].clone();
        action.conditions.push(fact((variable, 1)));
        task.actions.push(action);
    }
    task
}

/// 250 steps.
pub fn long_ladder() -> Task {
    ladder(250, 30)
}

/// 240 steps on 61 variables.
pub fn wide_ladder() -> Task {
    ladder(240, 8)
}

/// All of the cases below.
pub fn all() -> Vec<Case> {
    let mut cases = few_turns();
    cases.extend(more_turns());
    cases.extend((1..=30).map(of_ladder));
    cases.extend(long_and_wide());
    cases
}

/// All but the two longest.
pub fn short() -> Vec<Case> {
    let mut cases = all();
    cases.truncate(cases.len() - 2);
    cases
}

fn few_turns() -> Vec<Case> {
    let case = |name: &str, task: Task, turns: usize| Case {
        name: name.to_string(),
        actions: (0..task.goal.len() as u16).collect(),
        task,
        turns,
        files: [52, 28],
        planned: Planned::Done(2, vec![0], 1),
    };
    let nothing_left = |name: &str, actions: &[Facts], turns: usize| Case {
        files: [24, 16],
        planned: Planned::Done(1, vec![], 0),
        ..case(name, task(&[], &[], actions), turns)
    };
    let one = |start, goal| task(&[(2, start)], &[(0, goal)], &[(&[], &[(0, goal)])]);
    vec![
        case("renumbered first", one(0, 1), 2),
        case("as it was", one(1, 0), 1),
        case("thirteen variables", thirteen(), 3),
        Case {
            files: [56, 30],
            planned: Planned::Done(3, vec![0], 1),
            ..case("N", renumbered(), 3)
        },
        nothing_left("no variables, one action", &[(&[], &[])], 2),
        nothing_left("no variables, no action", &[], 1),
    ]
}

fn more_turns() -> Vec<Case> {
    let goal = [(0, 0), (1, 1)];
    let four_turns: [Facts; 3] = [
        (&[(1, 2)], &[(1, 1)]),
        (&[(1, 0)], &[(0, 0), (1, 2)]),
        (&[(0, 0)], &[(1, 1)]),
    ];
    vec![
        Case {
            name: "E".to_string(),
            task: read_task(TASK_E).unwrap(),
            turns: 3,
            files: [52, 30],
            actions: vec![1],
            planned: Planned::Done(2, vec![1], 2),
        },
        Case {
            name: "four turns".to_string(),
            task: task(&[(2, 0), (3, 0)], &goal, &four_turns),
            turns: 4,
            files: [52, 30],
            actions: vec![2],
            planned: Planned::Done(2, vec![2], 1),
        },
        Case {
            name: "no action left".to_string(),
            task: task(&[(2, 1), (2, 0)], &goal, &[(&[(0, 0), (1, 0)], &[(1, 1)])]),
            turns: 3,
            files: [48, 36],
            actions: vec![],
            planned: Planned::Refused(24),
        },
    ]
}

/// The ladder of so many steps in one block.
fn of_ladder(steps: u16) -> Case {
    Case {
        name: format!("ladder of {steps}"),
        task: ladder(steps, steps),
        turns: 2 * steps as usize + 1,
        files: [84, 40 + 2 * steps as usize],
        actions: vec![0, 1],
        planned: Planned::Done(4, vec![0, 1], 2),
    }
}

fn long_and_wide() -> [Case; 2] {
    [
        Case {
            name: "long ladder".to_string(),
            task: long_ladder(),
            turns: 501,
            files: [340, 676],
            actions: (0..10).collect(),
            planned: Planned::Done(1_024, (0..10).collect(), 10),
        },
        Case {
            name: "wide ladder".to_string(),
            task: wide_ladder(),
            turns: 481,
            files: [1_012, 868],
            actions: (0..31).collect(),
            planned: Planned::Refused(25),
        },
    ]
}

impl Case {
    /// Asserts that the calls give what the case says.
    pub fn check(&self, reduce: Reduce, plan: Plan) {
        let (name, file) = (&self.name, task_file(&self.task));
        let lent = &mut Buffers::long();
        let reduced = lent.reduce(reduce, &file, 5, 7);
        assert_eq!(reduced.outcome, Outcome::DONE, "{name}");
        assert_eq!(reduced.turns, self.turns, "{name}");
        assert_eq!([reduced.reduced, reduced.origin], self.files, "{name}");
        let task = read_task(&lent.reduced[..reduced.reduced]).unwrap();
        assert_eq!(task.actions.len(), self.actions.len(), "{name}");
        let origin = read_origin(&lent.origin[..reduced.origin]).unwrap();
        assert_eq!(origin.actions, self.actions, "{name}");

        let planned = lent.plan(plan, &file, 5, 7);
        match &self.planned {
            Planned::Refused(number) => {
                let refused = Outcome::refused(*number, 0);
                assert_eq!(planned, Answer::from(refused), "{name}");
            }
            Planned::Done(entries, steps, cost) => {
                let expected = Answer {
                    table: *entries,
                    plan: 16 + 2 * steps.len(),
                    cost: *cost,
                    steps: steps.len(),
                    ..reduced
                };
                assert_eq!(planned, expected, "{name}");
                let found = read_plan(&lent.plan[..planned.plan], MOST_ACTIONS);
                assert_eq!(found.unwrap().steps, *steps, "{name}");
            }
        }
    }
}

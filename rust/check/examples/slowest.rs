//! Looks for tasks that take the planner long: shapes of tasks by chance, and
//! small changes of the slowest so far. Prints each that is slower than all
//! before. Takes seconds to spend, 60 if none are given, a seed, and the level,
//! 4 if none is given.

use std::time::{Duration, Instant};

use shortest::lent;
use shortest_check::buffers::Buffers;
use shortest_check::reference::files::{Action, Fact, Task, MOST_ACTIONS, MOST_COST};
use shortest_check::reference::generate::{counter_of, task_file, Random};

/// So many of the slowest are changed further.
const KEPT: usize = 20;

/// Sizes of variables whose product is 4,096 or little less.
const SIZES: [&[u16]; 8] = [
    &[2; 12],
    &[4; 6],
    &[8; 4],
    &[16; 3],
    &[32, 32, 4],
    &[2, 2, 2, 2, 2, 2, 2, 32],
    &[3, 3, 3, 3, 3, 3, 5],
    &[32, 2, 2, 2, 2, 2, 2, 2],
];

/// A counter over variables of these sizes, and actions beside it.
#[derive(Clone, Debug)]
struct Shape {
    sizes: usize,
    step: u32,
    beside: usize,
    conditions: usize,
    effects: usize,
    /// Facts are on variables from `from` on, so many of them.
    from: usize,
    among: usize,
    least: u32,
    most: u32,
    /// The actions beside stand before the counter's, behind them, or mixed.
    order: usize,
    seed: u64,
}

impl Shape {
    fn any(random: &mut Random) -> Shape {
        let costs = [0, 1, 7, 100, 1_000, 50_000, 900_000, MOST_COST];
        let mut shape = Shape {
            sizes: random.below(SIZES.len()),
            step: random.one_of(&costs),
            beside: random.one_of(&[0, 100, 300, MOST_ACTIONS]),
            conditions: random.below(5),
            effects: random.between(1, 12),
            from: random.below(12),
            among: random.between(1, 12),
            least: random.one_of(&costs),
            most: random.one_of(&costs),
            order: random.below(3),
            seed: random.number(),
        };
        shape.most = shape.most.max(shape.least);
        shape
    }

    /// The same but for one or two of its parts.
    fn changed(&self, random: &mut Random) -> Shape {
        let mut shape = self.clone();
        for _ in 0..random.between(1, 2) {
            let other = Shape::any(random);
            match random.below(10) {
                0 => shape.sizes = other.sizes,
                1 => shape.step = other.step,
                2 => shape.beside = other.beside,
                3 => shape.conditions = other.conditions,
                4 => shape.effects = other.effects,
                5 => shape.from = other.from,
                6 => shape.among = other.among,
                7 => (shape.least, shape.most) = (other.least, other.most),
                8 => shape.order = other.order,
                _ => shape.seed = other.seed,
            }
        }
        shape
    }

    fn task(&self) -> Task {
        let random = &mut Random::new(self.seed);
        let mut task = counter_of(SIZES[self.sizes], 1);
        for action in &mut task.actions {
            action.cost = self.step;
        }
        let room = MOST_ACTIONS.saturating_sub(task.actions.len());
        let beside: Vec<Action> = (0..self.beside.min(room))
            .map(|_| Action {
                conditions: self.facts(random, &task, self.conditions),
                effects: self.facts(random, &task, self.effects),
                cost: random.between(self.least as usize, self.most as usize) as u32,
            })
            .collect();
        if self.order == 1 {
            task.actions.extend(beside);
        } else {
            task.actions.splice(0..0, beside);
        }
        if self.order == 2 {
            random.shuffle(&mut task.actions);
        }
        task
    }

    /// So many facts, or as many as there are variables for them.
    fn facts(&self, random: &mut Random, task: &Task, count: usize) -> Vec<Fact> {
        let variables = task.variables.len();
        let first = self.from % variables;
        let mut on: Vec<u16> = (first..variables.min(first + self.among))
            .map(|variable| variable as u16)
            .collect();
        random.shuffle(&mut on);
        on.truncate(count);
        on.sort_unstable();
        let fact = |variable: u16| Fact {
            variable,
            value: random.below(task.variables[variable as usize].size as usize) as u16,
        };
        on.into_iter().map(fact).collect()
    }
}

/// The least time of three calls.
fn time(lent: &mut Buffers, file: &[u8], level: u32) -> Duration {
    let call = |_| {
        let start = Instant::now();
        lent.plan(lent::plan, file, level, 1);
        start.elapsed()
    };
    (0..3).map(call).min().unwrap()
}

fn main() {
    let given = |place: usize, other: u64| match std::env::args().nth(place) {
        Some(text) => text.parse().expect("a number"),
        None => other,
    };
    let end = Instant::now() + Duration::from_secs(given(1, 60));
    let random = &mut Random::new(given(2, 1));
    let level = given(3, 4) as u32;
    let lent = &mut Buffers::long();
    let mut slowest: Vec<(Duration, Shape)> = Vec::new();
    let mut tried = 0;
    while Instant::now() < end {
        let shape = match slowest.len() {
            KEPT if random.chance(80) => slowest[random.below(KEPT)].1.changed(random),
            _ => Shape::any(random),
        };
        let time = time(lent, &task_file(&shape.task()), level);
        tried += 1;
        if slowest.first().is_none_or(|(most, _)| *most < time) {
            println!("{:8.1} us {shape:?}", time.as_secs_f64() * 1e6);
        }
        slowest.push((time, shape));
        slowest.sort_by_key(|(time, _)| std::cmp::Reverse(*time));
        slowest.truncate(KEPT);
    }
    println!("{tried} tasks");
}

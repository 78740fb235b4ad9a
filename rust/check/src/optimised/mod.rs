//! The search once more, as fast as one thread goes: an anchor for the
//! benchmark. Its table and plan are the specification's.

mod graph;
mod queue;

use shortest::Entry;

use crate::reference::files::Task;
use crate::reference::search::state_count;
use graph::{Backward, Graph, Layout};
use queue::Queue;

pub struct Searched {
    pub table: Vec<Entry>,
    /// By the numbers of the task searched; none where no plan exists.
    pub plan: Option<Vec<u16>>,
}

/// The table and the plan of a task of at most 4,096 states.
pub fn search(task: &Task) -> Option<Searched> {
    let states = state_count(task)?;
    let layout = Layout::of(task);
    let graph = Graph::of(task, &layout);
    let found = least_keys(&graph, states);
    let entry = |&key: &Key| match key {
        NO_KEY => Entry::NONE,
        _ => Entry::new(key >> COST, (key >> STEPS) as u16 & MOST_STEPS),
    };
    Some(Searched {
        table: found.keys.iter().map(entry).collect(),
        plan: first_plan(&found, layout.start),
    })
}

/// What is best from a state: the cost, the steps and the first action of the
/// plan, from the highest bit down. Of two keys the less is the better.
type Key = u64;

const NO_KEY: Key = Key::MAX;
const ACTION: Key = (1 << STEPS) - 1;
const STEPS: u32 = 9;
const COST: u32 = STEPS + 12;
const MOST_STEPS: u16 = (1 << (COST - STEPS)) - 1;

struct Found {
    keys: Vec<Key>,
    /// For each state with a plan the next one.
    next: Vec<u16>,
}

/// Dijkstra's algorithm, from the goal backwards.
fn least_keys(graph: &Graph, states: usize) -> Found {
    let mut found = Found {
        keys: vec![NO_KEY; states],
        next: vec![0; states],
    };
    let mut queue = Queue::new(states);
    for &state in &graph.goal {
        found.keys[state] = 0;
        queue.lower(state, 0);
    }
    let mut bound = Bound::none(states);
    while let Some(state) = queue.pop() {
        let key = found.keys[state] & !ACTION;
        let low = &graph.low[state % graph.low.len()];
        let high = &graph.high[state / graph.low.len()];
        for (word, actions) in graph.actions.chunks(64).enumerate() {
            if bound.excludes(key + actions[0].key, &found.keys) {
                break;
            }
            let mut left = low[word] & high[word];
            while left != 0 {
                let action = &actions[left.trailing_zeros() as usize];
                left &= left - 1;
                relax(graph, action, state, &mut found, &mut queue);
            }
        }
    }
    found
}

/// Takes the steps of one action to a state.
#[inline(always)]
fn relax(graph: &Graph, action: &Backward, state: usize, found: &mut Found, queue: &mut Queue) {
    let key = (found.keys[state] & !ACTION) + action.key;
    let first = (state as u16).wrapping_add(action.to_first);
    if action.count == 1 {
        return found.improve(first.into(), state, key, queue);
    }
    for &offset in graph.offsets.at(action.from, action.count) {
        found.improve((first + offset).into(), state, key, queue);
    }
}

impl Found {
    /// Of equal cost and steps the lowest action stays.
    #[inline(always)]
    fn improve(&mut self, state: usize, next: usize, key: Key, queue: &mut Queue) {
        if key < self.keys[state] {
            self.keys[state] = key;
            self.next[state] = next as u16;
            queue.lower(state, key);
        }
    }
}

/// A key that no state's is above, lowered from time to time.
struct Bound {
    key: Key,
    /// Questions since it was lowered, and after how many it is again.
    asked: usize,
    most_asked: usize,
}

impl Bound {
    fn none(states: usize) -> Bound {
        Bound {
            key: NO_KEY,
            asked: 0,
            most_asked: states,
        }
    }

    /// Whether a key and all above it, whatever their actions, are no better
    /// than what each state has.
    fn excludes(&mut self, key: Key, keys: &[Key]) -> bool {
        self.asked += 1;
        if self.asked > self.most_asked {
            self.asked = 0;
            self.key = greatest(keys);
        }
        self.key < key & !ACTION
    }
}

fn greatest(keys: &[Key]) -> Key {
    let mut greatest = [0; 4];
    let (fours, rest) = keys.as_chunks::<4>();
    for four in fours {
        for (greatest, &key) in greatest.iter_mut().zip(four) {
            *greatest = key.max(*greatest);
        }
    }
    greatest.iter().chain(rest).copied().max().unwrap_or(NO_KEY)
}

fn first_plan(found: &Found, start: usize) -> Option<Vec<u16>> {
    let mut state = start;
    if found.keys[state] == NO_KEY {
        return None;
    }
    let mut plan = Vec::new();
    // in a goal state the key is 0
    while found.keys[state] != 0 {
        plan.push((found.keys[state] & ACTION) as u16);
        state = found.next[state] as usize;
    }
    Some(plan)
}

//! States in the order of their keys.

use super::{Key, STEPS};

const WIDTH: usize = 16;

/// The states that are reached and not yet settled, with the least of each 16
/// and of each 256.
pub struct Queue {
    states: Vec<[u64; WIDTH]>,
    blocks: Vec<[u64; WIDTH]>,
    areas: [u64; WIDTH],
}

const NOTHING: u64 = u64::MAX;
const STATE_BITS: u32 = 12;

impl Queue {
    pub fn new(states: usize) -> Queue {
        Queue {
            states: vec![[NOTHING; WIDTH]; states.div_ceil(WIDTH)],
            blocks: vec![[NOTHING; WIDTH]; states.div_ceil(WIDTH * WIDTH)],
            areas: [NOTHING; WIDTH],
        }
    }

    /// Cost and steps of a state, less than those it had.
    pub fn lower(&mut self, state: usize, key: Key) {
        let entry = key >> STEPS << STATE_BITS | state as u64;
        let (block, area) = (state / WIDTH, state / WIDTH / WIDTH);
        self.states[block][state % WIDTH] = entry;
        let of_block = &mut self.blocks[area][block % WIDTH];
        *of_block = entry.min(*of_block);
        self.areas[area] = entry.min(self.areas[area]);
    }

    pub fn pop(&mut self) -> Option<usize> {
        let least = least(&self.areas);
        if least == NOTHING {
            return None;
        }
        let state = (least & ((1 << STATE_BITS) - 1)) as usize;
        let (block, area) = (state / WIDTH, state / WIDTH / WIDTH);
        self.states[block][state % WIDTH] = NOTHING;
        self.blocks[area][block % WIDTH] = self::least(&self.states[block]);
        self.areas[area] = self::least(&self.blocks[area]);
        Some(state)
    }
}

fn least(entries: &[u64; WIDTH]) -> u64 {
    let mut least = [NOTHING; 4];
    for four in entries.chunks_exact(4) {
        for (least, &entry) in least.iter_mut().zip(four) {
            *least = entry.min(*least);
        }
    }
    let [a, b, c, d] = least;
    a.min(b).min(c.min(d))
}

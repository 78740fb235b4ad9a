//! Random numbers, and the small parts of tasks made of them.

use super::super::files::{Fact, Variable, MOST_COST, MOST_PAIRS};

/// The generator splitmix64.
pub struct Random(u64);

impl Random {
    pub fn new(seed: u64) -> Random {
        Random(seed)
    }

    pub fn number(&mut self) -> u64 {
        self.0 = self.0.wrapping_add(0x9E37_79B9_7F4A_7C15);
        let mut z = self.0;
        z = (z ^ (z >> 30)).wrapping_mul(0xBF58_476D_1CE4_E5B9);
        z = (z ^ (z >> 27)).wrapping_mul(0x94D0_49BB_1331_11EB);
        z ^ (z >> 31)
    }

    pub fn below(&mut self, bound: usize) -> usize {
        (self.number() % bound as u64) as usize
    }

    pub fn between(&mut self, least: usize, most: usize) -> usize {
        least + self.below(most - least + 1)
    }

    pub fn chance(&mut self, in_a_hundred: usize) -> bool {
        self.below(100) < in_a_hundred
    }

    pub fn one_of<T: Copy>(&mut self, list: &[T]) -> T {
        list[self.below(list.len())]
    }

    pub fn shuffle<T>(&mut self, list: &mut [T]) {
        for last in (1..list.len()).rev() {
            list.swap(last, self.below(last + 1));
        }
    }

    pub fn signer(&mut self) -> u32 {
        (self.number() as u32).max(1)
    }

    /// Mostly small, so that plans of equal cost are common.
    pub(super) fn cost(&mut self) -> u32 {
        match self.below(20) {
            0 => MOST_COST,
            1 => self.below(MOST_COST as usize) as u32,
            _ => self.below(4) as u32,
        }
    }

    pub(super) fn variable(&mut self, least_size: usize, most_size: usize) -> Variable {
        let size = self.between(least_size, most_size);
        Variable {
            size: size as u16,
            start: self.below(size) as u16,
        }
    }

    /// Any fact of one variable.
    pub(super) fn fact(&mut self, variables: &[Variable], variable: u16) -> Fact {
        Fact {
            variable,
            value: self.below(variables[variable as usize].size as usize) as u16,
        }
    }

    /// Facts of at most `most` of the variables in `among`.
    pub(super) fn facts(
        &mut self,
        variables: &[Variable],
        among: &[u16],
        most: usize,
    ) -> Vec<Fact> {
        let count = self.below(most.min(among.len()).min(MOST_PAIRS) + 1);
        let mut chosen = among.to_vec();
        self.shuffle(&mut chosen);
        chosen.truncate(count);
        chosen.sort_unstable();
        chosen
            .into_iter()
            .map(|variable| self.fact(variables, variable))
            .collect()
    }
}

pub(super) fn numbers(count: usize) -> Vec<u16> {
    (0..count as u16).collect()
}

/// Adds the fact in its place, unless the variable has one already.
pub(super) fn add(facts: &mut Vec<Fact>, fact: Fact) {
    let place = facts.binary_search_by_key(&fact.variable, |fact| fact.variable);
    if let Err(place) = place {
        facts.insert(place, fact);
    }
}

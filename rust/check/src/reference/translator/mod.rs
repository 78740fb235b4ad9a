//! Texts of the Fast Downward translator, format version 3, read as tasks.

mod fields;

use super::files::{
    write_task, Action, Fact, Task, Variable, MOST_ACTIONS, MOST_COST, MOST_PAIRS, MOST_VALUES,
    MOST_VARIABLES,
};
use super::outcome::{long_enough, signer_given, NOT_TAKEN};
use fields::{Reader, BLANK, LINE_FEED};
use shortest::lent::Answer;
use shortest::Outcome;

pub fn translate(text: &[u8], signer: u32, file: &mut [u8]) -> Answer {
    try_translate(text, signer, file).unwrap_or_else(Answer::from)
}

fn try_translate(text: &[u8], signer: u32, file: &mut [u8]) -> Result<Answer, Outcome> {
    let mut task = read_text(text)?;
    signer_given(signer)?;
    task.signer = signer;
    let written = write_task(&task);
    long_enough(file.len(), written.len())?;
    file[..written.len()].copy_from_slice(&written);
    Ok(Answer {
        task: written.len(),
        ..Answer::default()
    })
}

/// The task that a text states, with signer 0.
pub fn read_text(text: &[u8]) -> Result<Task, Outcome> {
    let mut reader = Reader::new(text)?;
    for line in ["begin_version", "3", "end_version", "begin_metric"] {
        reader.line(line)?;
    }
    let costs_as_written = reader.metric()?;
    reader.line("end_metric")?;
    let mut variables = reader.variables()?;
    reader.groups()?;
    reader.start(&mut variables)?;
    let goal = reader.goal(&variables)?;
    let mut actions = reader.operators(&variables)?;
    if !costs_as_written {
        for action in &mut actions {
            action.cost = 1;
        }
    }
    reader.axioms()?;
    reader.end()?;
    Ok(Task {
        variables,
        goal,
        actions,
        signer: 0,
    })
}

/// The parts of a text, in its order.
impl Reader<'_> {
    /// Whether costs are as written.
    fn metric(&mut self) -> Result<bool, Outcome> {
        let digit = self.take(|byte| byte == b'0' || byte == b'1')?;
        self.take(|byte| byte == LINE_FEED)?;
        Ok(digit == b'1')
    }

    /// The variables, as yet with start value 0.
    fn variables(&mut self) -> Result<Vec<Variable>, Outcome> {
        let count = self.count(MOST_VARIABLES)?;
        (0..count).map(|_| self.variable()).collect()
    }

    fn variable(&mut self) -> Result<Variable, Outcome> {
        self.line("begin_variable")?;
        self.name()?;
        if let Some(layer) = self.number_or_none(LINE_FEED)? {
            return Err(layer.refused(NOT_TAKEN));
        }
        let size = self.number(LINE_FEED)?.within(1, MOST_VALUES)?;
        for _ in 0..size {
            self.name()?;
        }
        self.line("end_variable")?;
        Ok(Variable {
            size: size as u16,
            start: 0,
        })
    }

    /// Mutex groups, of any numbers.
    fn groups(&mut self) -> Result<(), Outcome> {
        for _ in 0..self.number(LINE_FEED)?.value() {
            self.line("begin_mutex_group")?;
            for _ in 0..self.number(LINE_FEED)?.value() {
                self.number(BLANK)?;
                self.number(LINE_FEED)?;
            }
            self.line("end_mutex_group")?;
        }
        Ok(())
    }

    fn start(&mut self, variables: &mut [Variable]) -> Result<(), Outcome> {
        self.line("begin_state")?;
        for variable in variables {
            variable.start = self.number(LINE_FEED)?.value_of(variable)?;
        }
        self.line("end_state")
    }

    fn goal(&mut self, variables: &[Variable]) -> Result<Vec<Fact>, Outcome> {
        self.line("begin_goal")?;
        let goal = self.facts(variables)?;
        self.line("end_goal")?;
        Ok(rising(goal))
    }

    /// A count and pairs on different variables, in the order of the text.
    fn facts(&mut self, variables: &[Variable]) -> Result<Vec<Fact>, Outcome> {
        let mut facts: Vec<Fact> = Vec::new();
        for _ in 0..self.count(MOST_PAIRS)? {
            let given = |variable| facts.iter().any(|fact| fact.variable == variable);
            let variable = self.number(BLANK)?.variable_of(variables, given)?;
            let of = &variables[variable as usize];
            let value = self.number(LINE_FEED)?.value_of(of)?;
            facts.push(Fact { variable, value });
        }
        Ok(facts)
    }

    fn operators(&mut self, variables: &[Variable]) -> Result<Vec<Action>, Outcome> {
        let count = self.count(MOST_ACTIONS)?;
        (0..count).map(|_| self.operator(variables)).collect()
    }

    fn operator(&mut self, variables: &[Variable]) -> Result<Action, Outcome> {
        self.line("begin_operator")?;
        self.name()?;
        let prevail = self.facts(variables)?;
        let effects = self.effects(variables, &prevail)?;
        let cost = self.number(LINE_FEED)?.within(0, MOST_COST as usize)?;
        self.line("end_operator")?;
        let old = effects.iter().filter_map(|effect| effect.old);
        Ok(Action {
            cost: cost as u32,
            conditions: rising(prevail.into_iter().chain(old).collect()),
            effects: rising(effects.iter().map(|effect| effect.new).collect()),
        })
    }

    /// A count and effects on variables that differ from one another and from
    /// those of the prevail conditions.
    fn effects(
        &mut self,
        variables: &[Variable],
        prevail: &[Fact],
    ) -> Result<Vec<Effect>, Outcome> {
        let mut effects: Vec<Effect> = Vec::new();
        for _ in 0..self.count(MOST_PAIRS)? {
            let conditions = self.number(BLANK)?;
            if conditions.value() != 0 {
                return Err(conditions.refused(NOT_TAKEN));
            }
            let given = |variable| {
                let mut facts = prevail
                    .iter()
                    .chain(effects.iter().map(|effect| &effect.new));
                facts.any(|fact| fact.variable == variable)
            };
            let variable = self.number(BLANK)?.variable_of(variables, given)?;
            let of = &variables[variable as usize];
            let fact = |value| Fact { variable, value };
            let old = match self.number_or_none(BLANK)? {
                Some(old) => Some(fact(old.value_of(of)?)),
                None => None,
            };
            let new = fact(self.number(LINE_FEED)?.value_of(of)?);
            effects.push(Effect { old, new });
        }
        Ok(effects)
    }

    /// No axioms.
    fn axioms(&mut self) -> Result<(), Outcome> {
        let count = self.number(LINE_FEED)?;
        if count.value() != 0 {
            return Err(count.refused(NOT_TAKEN));
        }
        Ok(())
    }
}

/// An effect of an operator, with the old value that it asks for.
struct Effect {
    old: Option<Fact>,
    new: Fact,
}

fn rising(mut facts: Vec<Fact>) -> Vec<Fact> {
    facts.sort_by_key(|fact| fact.variable);
    facts
}
